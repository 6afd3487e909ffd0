//! Cases for the comparison: a call of the library with all that it is given.

mod damage;
mod grammars;
mod inputs;
mod maker;

pub use grammars::LETTERS;
pub use inputs::input;
pub use maker::Maker;

use crate::reference::{self, Fault, Trace};
use crate::{check_numbers, hex, plain, recognise_numbers, Limits, Numbers};

/// One call.
pub struct Case {
    /// The image.
    pub image: Vec<u8>,
    /// The input.
    pub input: Vec<u8>,
    /// The limits.
    pub limits: Limits,
    /// How many numbers the slot buffer has.
    pub slots: usize,
}

/// All that a caller sees of a call, and of check on the same image.
#[derive(PartialEq, Eq)]
pub struct Seen {
    /// Check's number and place.
    pub verdict: (u32, u32),
    /// The answer.
    pub answer: Numbers,
    /// The slot buffer after the call, and the numbers behind it that were not lent.
    pub memory: Vec<u32>,
}

/// Numbers that stand behind the slot buffer: the call must not reach them.
const BEHIND: usize = 8;

impl Case {
    /// The slot buffer before the call, and the numbers behind it. None of them is one that an answer writes, and no two are equal, so whatever is
    /// written shows.
    fn memory(&self) -> Vec<u32> {
        (0..self.slots + BEHIND).map(|i| 0x5EED_0000 + i as u32).collect()
    }

    /// The library's answer.
    pub fn by_library(&self) -> Seen {
        let mut memory = self.memory();
        let answer = recognise_numbers(&self.image, &self.input, self.limits, &mut memory[..self.slots]);
        Seen { verdict: check_numbers(&self.image), answer, memory }
    }

    /// The plain implementation's answer.
    pub fn by_plain(&self) -> Seen {
        let mut memory = self.memory();
        let answer = plain::recognise(&self.image, &self.input, self.limits, &mut memory[..self.slots]);
        Seen { verdict: plain::check(&self.image), answer, memory }
    }

    /// The reference's answer, or a wrong machine's.
    pub fn by_reference(&self, fault: Option<Fault>) -> (Seen, Trace) {
        let mut memory = self.memory();
        let (answer, trace) = reference::recognise(&self.image, &self.input, self.limits, &mut memory[..self.slots], fault);
        (Seen { verdict: reference::check(&self.image), answer, memory }, trace)
    }

    /// The case as words of a command line, from which `read` makes it again.
    pub fn words(&self) -> String {
        let Limits { steps, depth, room } = self.limits;
        format!("'{}' '{}' {steps} {depth} {room} {}", hex::write(&self.image), hex::write(&self.input), self.slots)
    }

    /// The case of the words IMAGE INPUT B D R SLOTS.
    pub fn read(words: &[String]) -> Result<Case, String> {
        match words {
            [image, input, steps, depth, room, slots] => Ok(Case {
                image: hex::read(image)?,
                input: hex::read(input)?,
                limits: Limits { steps: number(steps)?, depth: number(depth)?, room: number(room)? },
                slots: number(slots)? as usize,
            }),
            _ => Err("a case is six words: IMAGE INPUT B D R SLOTS".into()),
        }
    }
}

fn number(word: &str) -> Result<u32, String> {
    word.parse().map_err(|_| format!("'{word}' is no number of 32 bits"))
}
