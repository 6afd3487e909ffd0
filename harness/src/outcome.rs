//! What compiling a grammar text answers.

use std::error::Error;
use std::fmt;

/// The three numbers of an answer, as the library writes them.
#[derive(Clone, Copy, Debug, PartialEq, Eq)]
pub struct Outcome {
    /// 0 if the image is written, else the refusal's number.
    pub number: u32,
    /// How many bytes of image are written.
    pub length: u32,
    /// A refusal's place in the text.
    pub at: u32,
}

impl Outcome {
    /// What no answer holds: a number that is not written shows.
    pub const UNWRITTEN: Outcome = Outcome { number: u32::MAX, length: u32::MAX, at: u32::MAX };
}

impl From<Outcome> for Result<usize, Refused> {
    fn from(outcome: Outcome) -> Result<usize, Refused> {
        match outcome.number {
            0 => Ok(outcome.length as usize),
            number => Err(Refused { number, at: outcome.at }),
        }
    }
}

impl fmt::Display for Outcome {
    fn fmt(&self, f: &mut fmt::Formatter) -> fmt::Result {
        let Outcome { number, length, at } = self;
        write!(f, "number {number}, length {length}, at {at}")
    }
}

/// A refusal of docs/notation.md: its number, 20 to 25, and its place in the text.
#[derive(Clone, Copy, Debug, PartialEq, Eq)]
pub struct Refused {
    /// The number in the page's table.
    pub number: u32,
    /// Where, as a count of bytes from the text's front.
    pub at: u32,
}

impl Refused {
    /// What the number says, in plain words.
    pub fn reason(&self) -> &'static str {
        match self.number {
            20 => "the text is not of the notation, or over 65,535 bytes",
            21 => "a name is used and not defined, or a table has no def",
            22 => "a name is defined twice",
            23 => "two defs of one table are not alike",
            24 => "a limit of 01 is passed",
            25 => "the buffer is shorter than the image",
            _ => "no refusal has this number",
        }
    }
}

impl fmt::Display for Refused {
    fn fmt(&self, f: &mut fmt::Formatter) -> fmt::Result {
        write!(f, "refused {} at {}: {}", self.number, self.at, self.reason())
    }
}

impl Error for Refused {}
