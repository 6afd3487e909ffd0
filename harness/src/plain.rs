//! An implementation of 01 in plain safe Rust, written for speed: the bench holds the proved library's times against it. It calls nothing of the
//! reference.

mod image;
mod run;
mod watch;

pub use run::Symbol;
pub use watch::{Happening, Watch};

use crate::{Limits, Numbers, Refusal};
use image::Grammar;
use run::Run;
use watch::Nobody;

/// Check's two numbers: those of the first fault, or 0 and 0.
pub fn check(image: &[u8]) -> (u32, u32) {
    match image::read(image) {
        Ok(_) => (0, 0),
        Err(refusal) => (refusal.number, refusal.place),
    }
}

/// The answer, with the slots left as 01 says.
pub fn recognise(image: &[u8], input: &[u8], limits: Limits, slots: &mut [u32]) -> Numbers {
    recognise_watched(image, input, limits, slots, Nobody)
}

/// [`recognise`], with someone who watches the run.
pub fn recognise_watched(image: &[u8], input: &[u8], limits: Limits, slots: &mut [u32], watch: impl Watch) -> Numbers {
    match allowed(image, input, limits, slots.len()) {
        Ok(grammar) => run(&grammar, image, input, limits, &mut slots[..limits.slots()], watch),
        Err(refusal) => Numbers { kind: refusal.number, place: refusal.place, ..Numbers::default() },
    }
}

/// The looks before the run, in 01's order: the image's own faults, then 9, 10 and 11.
fn allowed(image: &[u8], input: &[u8], limits: Limits, slots: usize) -> Result<Grammar, Refusal> {
    let grammar = image::read(image)?;
    if input.len() > 65_535 {
        return refused(9, 0);
    }
    if !(1..=1_000_000).contains(&limits.steps) || !(1..=256).contains(&limits.depth) || limits.room > 256 {
        return refused(10, 0);
    }
    if slots < limits.slots() {
        return refused(11, 0);
    }
    Ok(grammar)
}

/// Runs the grammar, and writes each of the 3R slots.
fn run(grammar: &Grammar, image: &[u8], input: &[u8], limits: Limits, slots: &mut [u32], watch: impl Watch) -> Numbers {
    let mut run = Run::new(grammar, image, input, limits, watch);
    let outcome = run.begin(grammar.start);
    let mut answer = Numbers { steps: run.steps(), depth: run.deepest(), ..Numbers::default() };
    match outcome {
        Ok(Some(end)) => {
            answer.consumed = end as u32;
            answer.symbols = run.symbols().len() as u32;
            for (slot, symbol) in slots.chunks_exact_mut(3).zip(run.symbols()) {
                slot.copy_from_slice(&[symbol.table.into(), symbol.from.into(), symbol.to.into()]);
            }
        }
        Ok(None) => answer.kind = Numbers::FAILED,
        Err(refusal) => {
            answer.kind = refusal.number;
            answer.place = refusal.place;
        }
    }
    slots[3 * answer.symbols as usize..].fill(0);
    answer
}

fn refused<T>(number: u32, place: usize) -> Result<T, Refusal> {
    Err(Refusal { number, place: place as u32 })
}
