//! `compile` on the extremes and on the texts that take it long.

use std::collections::BTreeMap;

use yarnspire::compiled::compile;
use yarnspire::notation::{self, on_deep_stack, LONGEST_IMAGE, LONGEST_TEXT};
use yarnspire::outcome::Refused;
use yarnspire::texts::extremes::{self, Extreme};
use yarnspire::texts::worst::{self, Worst};

use crate::{kib, on_small_stack};

/// Of all texts with the same number for an answer: how many there are, and which takes the most stack.
#[derive(Default)]
struct Most {
    texts: usize,
    taken: usize,
    what: &'static str,
}

pub fn run() -> Result<(), String> {
    let worst = on_deep_stack(|| worst::all(LONGEST_TEXT).into_iter().map(read).collect::<Vec<Extreme>>());
    let mut by_number: BTreeMap<u32, Most> = BTreeMap::new();
    for Extreme { what, text, room, answer } in extremes::all().into_iter().chain(worst) {
        let (got, taken) = on_small_stack(|| compile(&text, &mut vec![0; room]));
        if got != answer {
            return Err(format!("compile, {what}: {got:?}, and not {answer:?}"));
        }
        let most = by_number.entry(answer.map_or_else(|refused| refused.number, |_| 0)).or_default();
        most.texts += 1;
        if most.taken < taken {
            *most = Most { texts: most.texts, taken, what };
        }
    }
    if !by_number.keys().copied().eq([0, 20, 21, 22, 23, 24, 25]) {
        return Err("compile: not every answer is among the texts".into());
    }
    for (number, Most { texts, taken, what }) in by_number {
        let answered = if number == 0 { "taken".to_string() } else { format!("refused {number}") };
        println!("compile: {texts} texts are {answered} on a stack of 256 KiB; most of it, {} KiB, for: {what}", kib(taken));
    }
    Ok(())
}

/// A text with the answer of the independent reader.
fn read(worst: Worst) -> Extreme {
    let answer = notation::compile(&worst.text, None).map(|compiled| compiled.image.len()).map_err(Refused::from);
    Extreme { what: worst.what, text: worst.text, room: LONGEST_IMAGE, answer }
}
