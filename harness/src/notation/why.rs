//! The refusals, each with all the reasons that its number stands for.

use crate::outcome::Refused;

/// Why a text is refused.
#[derive(Clone, Copy, Debug, PartialEq, Eq)]
pub enum Why {
    /// 20: over 65,535 bytes.
    TooLong,
    /// 20: no text of the notation goes on with this token.
    Token,
    /// 20: this is no token.
    NoToken,
    /// 20: a comment that is not closed.
    OpenComment,
    /// 20: the text ends too early.
    End,
    /// 21: no production has this name.
    NoProduction,
    /// 21: no def has this table.
    NoDef,
    /// 22: a production of this name stands before.
    Twice,
    /// 23: a def that is not like the first one of its table.
    Unlike,
    /// 24: nine tables.
    Tables,
    /// 24: nine conditions.
    Conditions,
    /// 24: a quoted text of over 64 bytes.
    Quoted,
    /// 24: over 512 nodes.
    Nodes,
    /// 24: an image over 16,384 bytes.
    Image,
    /// 25: a buffer shorter than the image.
    Buffer,
}

impl Why {
    /// Every reason, with its name in words.
    pub const ALL: [(Why, &'static str); 15] = [
        (Why::TooLong, "the text is too long"),
        (Why::Token, "no text goes on with a token"),
        (Why::NoToken, "something is no token"),
        (Why::OpenComment, "a comment is not closed"),
        (Why::End, "the text ends too early"),
        (Why::NoProduction, "a name is no production's"),
        (Why::NoDef, "a table has no def"),
        (Why::Twice, "a name is defined twice"),
        (Why::Unlike, "two defs are not alike"),
        (Why::Tables, "there are nine tables"),
        (Why::Conditions, "there are nine conditions"),
        (Why::Quoted, "a quoted text is over 64 bytes"),
        (Why::Nodes, "there are over 512 nodes"),
        (Why::Image, "the image is over 16,384 bytes"),
        (Why::Buffer, "the buffer is too short"),
    ];

    /// The refusal's number.
    pub fn number(self) -> u32 {
        match self {
            Why::TooLong | Why::Token | Why::NoToken | Why::OpenComment | Why::End => 20,
            Why::NoProduction | Why::NoDef => 21,
            Why::Twice => 22,
            Why::Unlike => 23,
            Why::Tables | Why::Conditions | Why::Quoted | Why::Nodes | Why::Image => 24,
            Why::Buffer => 25,
        }
    }
}

/// A refusal: why, and where in the text.
#[derive(Clone, Copy, Debug, PartialEq, Eq)]
pub struct Stop {
    pub why: Why,
    pub at: usize,
}

impl From<Stop> for Refused {
    fn from(stop: Stop) -> Refused {
        Refused { number: stop.why.number(), at: stop.at as u32 }
    }
}
