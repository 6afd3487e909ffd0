//! What is measured.

use crate::{before, plain, recognise_numbers, reference, Limits, Numbers};

/// Image, input, limits and slots give an answer.
pub type Recognise = fn(&[u8], &[u8], Limits, &mut [u32]) -> Numbers;

#[derive(Clone, Copy, Debug, PartialEq, Eq)]
pub enum Implementation {
    /// The library of an earlier commit.
    Before,
    /// The library.
    Library,
    Plain,
    Reference,
    Lpeg,
}

use Implementation::{Before, Library, Lpeg, Plain, Reference};

impl Implementation {
    pub const ALL: [Implementation; 5] = [Before, Library, Plain, Reference, Lpeg];

    /// All that are measured.
    pub fn measured() -> Vec<Implementation> {
        Self::ALL.into_iter().filter(|one| one.is_measured()).collect()
    }

    /// Whether it is measured: the earlier library is not always linked.
    pub fn is_measured(self) -> bool {
        self != Before || before::RECOGNISE.is_some()
    }

    pub fn name(self) -> &'static str {
        match self {
            Before => "before",
            Library => "library",
            Plain => "plain Rust",
            Reference => "reference",
            Lpeg => "LPeg",
        }
    }

    /// Its recognise. LPeg has none: it knows no images.
    pub fn recognise(self) -> Option<Recognise> {
        match self {
            Before => before::RECOGNISE,
            Library => Some(recognise_numbers),
            Plain => Some(plain::recognise),
            Reference => Some(|image, input, limits, slots| reference::recognise(image, input, limits, slots, None).0),
            Lpeg => None,
        }
    }
}
