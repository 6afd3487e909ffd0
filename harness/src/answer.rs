//! What a run answers.

use std::error::Error;
use std::fmt;

/// The answer to a run.
#[derive(Clone, Copy, Debug, PartialEq, Eq)]
pub enum Answer {
    /// The grammar passed.
    Accepted {
        /// How many bytes of the input it consumed.
        consumed: usize,
        /// The steps spent.
        steps: u32,
        /// The greatest depth entered.
        depth: u32,
        /// How many symbols are held; the slots tell them.
        symbols: usize,
    },
    /// The grammar failed.
    Failed {
        /// The steps spent.
        steps: u32,
        /// The greatest depth entered.
        depth: u32,
    },
    /// There is neither an acceptance nor a failure.
    Refused {
        /// Why, and where.
        refusal: Refusal,
        /// The steps spent, 0 if the run did not begin.
        steps: u32,
        /// The greatest depth entered, 0 if the run did not begin.
        depth: u32,
    },
}

impl Answer {
    /// The symbols held, oldest first, read from the slots that the run filled. None if the answer is not accepted.
    pub fn symbols<'a>(&self, slots: &'a [u32]) -> impl Iterator<Item = Symbol> + 'a {
        let count = match self {
            Answer::Accepted { symbols, .. } => *symbols,
            _ => 0,
        };
        slots.chunks_exact(3).take(count).map(|slot| Symbol { table: slot[0] as usize, start: slot[1] as usize, end: slot[2] as usize })
    }
}

/// A symbol that a table holds: a part of the input.
#[derive(Clone, Copy, Debug, PartialEq, Eq)]
pub struct Symbol {
    /// The number of the table.
    pub table: usize,
    /// Where the symbol begins in the input.
    pub start: usize,
    /// Where it ends: the place after its last byte.
    pub end: usize,
}

impl Symbol {
    /// The symbol's bytes, given the input of the run.
    pub fn text<'a>(&self, input: &'a [u8]) -> &'a [u8] {
        &input[self.start..self.end]
    }
}

/// A refusal of 01: its number, 1 to 15, and its place, which is in the image for 1 to 8 and in the input for 12 to 15.
#[derive(Clone, Copy, Debug, PartialEq, Eq)]
pub struct Refusal {
    /// The number in 01's table.
    pub number: u32,
    /// Where the fault is, or where the run was.
    pub place: u32,
}

impl Refusal {
    /// What the number says, in plain words.
    pub fn reason(&self) -> &'static str {
        match self.number {
            1 => "the image is over 16,384 bytes",
            2 => "the image ends too early",
            3 => "a number of the image is badly written",
            4 => "the image's edition is not 1",
            5 => "too many tables, conditions or nodes, or no node",
            6 => "no kind of node has this tag",
            7 => "a start, pattern or operand is outside its range",
            8 => "bytes after the last node",
            9 => "the input is over 65,535 bytes",
            10 => "a limit is outside its range",
            11 => "the slot buffer is too short",
            12 => "the step limit is reached",
            13 => "the depth limit is reached",
            14 => "no room for another symbol",
            15 => "a round of a star consumed nothing",
            _ => "no refusal has this number",
        }
    }
}

impl fmt::Display for Refusal {
    fn fmt(&self, f: &mut fmt::Formatter) -> fmt::Result {
        write!(f, "refused {} at {}: {}", self.number, self.place, self.reason())
    }
}

impl Error for Refusal {}

/// The six numbers of an answer, in 01's order.
#[derive(Clone, Copy, Debug, PartialEq, Eq, Default)]
pub struct Numbers {
    /// 0 for accepted, 99 for failed, else the refusal's number.
    pub kind: u32,
    /// Bytes consumed.
    pub consumed: u32,
    /// Steps spent.
    pub steps: u32,
    /// Greatest depth entered.
    pub depth: u32,
    /// Symbols held.
    pub symbols: u32,
    /// A refusal's place.
    pub place: u32,
}

impl Numbers {
    /// The kind of an accepted answer.
    pub const ACCEPTED: u32 = 0;
    /// The kind of a failed one.
    pub const FAILED: u32 = 99;

    /// What no answer holds: a number that is not written shows.
    pub(crate) const UNWRITTEN: Numbers = Numbers { kind: u32::MAX, consumed: u32::MAX, steps: u32::MAX, depth: u32::MAX, symbols: u32::MAX, place: u32::MAX };
}

impl From<Numbers> for Answer {
    fn from(numbers: Numbers) -> Answer {
        let Numbers { kind, consumed, steps, depth, symbols, place } = numbers;
        match kind {
            Numbers::ACCEPTED => Answer::Accepted { consumed: consumed as usize, steps, depth, symbols: symbols as usize },
            Numbers::FAILED => Answer::Failed { steps, depth },
            number => Answer::Refused { refusal: Refusal { number, place }, steps, depth },
        }
    }
}

impl fmt::Display for Numbers {
    fn fmt(&self, f: &mut fmt::Formatter) -> fmt::Result {
        let Numbers { kind, consumed, steps, depth, symbols, place } = self;
        write!(f, "kind {kind}, consumed {consumed}, steps {steps}, depth {depth}, symbols {symbols}, place {place}")
    }
}
