//! An implementation of 01 that knows nothing of the proved one: it reads the whole image into a grammar, and has a list for each table, handed
//! round by value.

mod fault;
mod image;
mod run;

pub use fault::Fault;
pub use image::read;
pub use run::Trace;

use crate::grammar::Grammar;
use crate::{Limits, Numbers, Refusal};
use run::{Passed, Run};

/// Check's two numbers: those of the first fault, or 0 and 0.
pub fn check(image: &[u8]) -> (u32, u32) {
    match read(image) {
        Ok(_) => (0, 0),
        Err(refusal) => (refusal.number, refusal.place),
    }
}

/// The answer, with the slots left as 01 says; and what the run needed and met. With a fault, what a wrong machine makes of it.
pub fn recognise(image: &[u8], input: &[u8], limits: Limits, slots: &mut [u32], fault: Option<Fault>) -> (Numbers, Trace) {
    match allowed(image, input, limits, slots.len()) {
        Ok(grammar) => run(&grammar, input, limits, slots, fault),
        Err(refusal) => {
            if fault == Some(Fault::RefusalClearsSlots) && refusal.number == 10 {
                slots.fill(0);
            }
            (Numbers { kind: refusal.number, place: refusal.place, ..Numbers::default() }, Trace::default())
        }
    }
}

/// The looks before the run, in 01's order: the image's own faults, then 9, 10 and 11.
fn allowed(image: &[u8], input: &[u8], limits: Limits, slots: usize) -> Result<Grammar, Refusal> {
    let grammar = read(image)?;
    if input.len() > 65_535 {
        return refused(9, 0);
    }
    if !(1..=1_000_000).contains(&limits.steps) || !(1..=256).contains(&limits.depth) || limits.room > 256 {
        return refused(10, 0);
    }
    if slots < 3 * limits.room as usize {
        return refused(11, 0);
    }
    Ok(grammar)
}

fn run(grammar: &Grammar, input: &[u8], limits: Limits, slots: &mut [u32], fault: Option<Fault>) -> (Numbers, Trace) {
    let mut run = Run::new(grammar, input, limits, fault);
    let outcome = run.start();
    let mut answer = Numbers { steps: run.counted_steps(), depth: run.deepest, ..Numbers::default() };
    let lent = if fault == Some(Fault::ClearsPastRoom) { slots.len() } else { 3 * limits.room as usize };
    slots[..lent].fill(0);
    match outcome {
        Ok(Some(Passed { end, state })) => {
            let symbols = state.symbols();
            for (slot, symbol) in slots.chunks_exact_mut(3).zip(&symbols) {
                slot.copy_from_slice(&[symbol.table as u32, symbol.from as u32, symbol.to as u32]);
            }
            answer.consumed = end as u32;
            answer.symbols = symbols.len() as u32;
        }
        Ok(None) => answer.kind = Numbers::FAILED,
        Err(refusal) => {
            answer.kind = refusal.number;
            answer.place = refusal.place;
        }
    }
    (answer, run.trace)
}

fn refused<T>(number: u32, place: usize) -> Result<T, Refusal> {
    Err(Refusal { number, place: place as u32 })
}
