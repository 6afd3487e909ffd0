//! Yarnspire for Rust: the proved recogniser of Nez grammars, behind safe functions.
//!
//! A grammar comes as an *image*, bytes in the format of docs/01-scope.md, which is called *01* everywhere here. There are four operations:
//! [`compile`](compiled::compile) a grammar's text (docs/notation.md) into an image, [`check`] an image, [`recognise`] the front of an input, and [`accepted_text`], which hands that front back as well. Every image, input,
//! limit and buffer is allowed and gets the answer that 01 gives it: nothing panics.
//!
//! ```
//! use yarnspire::compiled::image_of;
//! use yarnspire::{check, recognise, Answer, Limits};
//!
//! // A name of letters A to Z is defined, then `=`, then the same name.
//! let image = image_of(b"Start = <def NAME [A-Z]+> '=' <is NAME>").expect("a good text");
//! assert_eq!(check(&image), Ok(()));
//!
//! let input = b"AB=AB;";
//! let limits = Limits { steps: 1000, depth: 50, room: 4 };
//! let mut slots = vec![0; limits.slots()];
//! let answer = recognise(&image, input, limits, &mut slots);
//! assert_eq!(answer, Answer::Accepted { consumed: 5, steps: 17, depth: 6, symbols: 1 });
//!
//! let names: Vec<&[u8]> = answer.symbols(&slots).map(|symbol| symbol.text(input)).collect();
//! assert_eq!(names, [b"AB"]);
//! ```
//!
//! The other modules serve the programs that hold the library against second implementations, and that measure it.

pub mod answer;
pub mod before;
pub mod cases;
pub mod compiled;
pub mod facts;
pub mod figures;
pub mod files;
pub mod grammar;
pub mod harbour;
pub mod hex;
pub mod implementations;
pub mod inputs;
pub mod notation;
pub mod outcome;
pub mod plain;
pub mod random;
pub mod reference;
pub mod samples;
pub mod tally;
pub mod targets;
pub mod texts;
pub mod timing;
pub mod visits;
pub mod wrong;

pub use answer::{Answer, Numbers, Refusal, Symbol};

extern "C" {
    fn yarnspire_check(image: *const u8, image_len: usize, number: *mut u32, place: *mut u32);
}

/// The answer of a library's `yarnspire_recognise`, by the name that the function has in its archive.
macro_rules! answer_of {
    ($function:ident, $image:expr, $input:expr, $limits:expr, $slots:expr) => {{
        extern "C" {
            fn $function(
                image: *const u8,
                image_len: usize,
                input: *const u8,
                input_len: usize,
                steps: u32,
                depth: u32,
                room: u32,
                slots: *mut u32,
                slots_len: usize,
                kind: *mut u32,
                consumed: *mut u32,
                count: *mut u32,
                deepest: *mut u32,
                symbols: *mut u32,
                place: *mut u32,
            );
        }
        let (image, input, limits, slots): (&[u8], &[u8], Limits, &mut [u32]) = ($image, $input, $limits, $slots);
        let mut answer = Numbers::UNWRITTEN;
        // Safety: each slice is valid for its length; the slots are lent mutably and the six numbers are fields of their own, so that nothing
        // that is written overlaps anything else.
        unsafe {
            $function(
                image.as_ptr(),
                image.len(),
                input.as_ptr(),
                input.len(),
                limits.steps,
                limits.depth,
                limits.room,
                slots.as_mut_ptr(),
                slots.len(),
                &mut answer.kind,
                &mut answer.consumed,
                &mut answer.steps,
                &mut answer.depth,
                &mut answer.symbols,
                &mut answer.place,
            )
        };
        answer
    }};
}
#[cfg(feature = "before")]
pub(crate) use answer_of;

/// How far a run may go.
#[derive(Clone, Copy, Debug, PartialEq, Eq)]
pub struct Limits {
    /// Steps, 1 to 1,000,000 (01's B).
    pub steps: u32,
    /// Depth, 1 to 256 (01's D).
    pub depth: u32,
    /// Symbols held at a time, 0 to 256 (01's R).
    pub room: u32,
}

impl Limits {
    /// The greatest limits that are allowed.
    pub const AMPLE: Limits = Limits { steps: 1_000_000, depth: 256, room: 256 };

    /// How many numbers the slot buffer must have at least: three for each symbol.
    pub fn slots(&self) -> usize {
        (self.room as usize).saturating_mul(3)
    }
}

/// Says whether an image is good, or its first fault (refusals 1 to 8).
pub fn check(image: &[u8]) -> Result<(), Refusal> {
    match check_numbers(image) {
        (0, _) => Ok(()),
        (number, place) => Err(Refusal { number, place }),
    }
}

/// [`check`] as the library answers it: the number and the place of the first fault, 0 and 0 for a good image.
pub fn check_numbers(image: &[u8]) -> (u32, u32) {
    let (mut number, mut place) = (u32::MAX, u32::MAX);
    // Safety: the slice is valid for its length; the two numbers are distinct, and nothing else overlaps them.
    unsafe { yarnspire_check(image.as_ptr(), image.len(), &mut number, &mut place) };
    (number, place)
}

/// Runs the input through the grammar of the image.
///
/// Accepted fills the first [`Limits::slots`] numbers of the slots with table, start and end of each held symbol, oldest first, and zeros
/// after them; [`Answer::symbols`] reads them. Failed, and refusals 12 to 15, put zeros there. Refusals 1 to 11 touch no slot, and what lies
/// past those numbers is never written.
pub fn recognise(image: &[u8], input: &[u8], limits: Limits, slots: &mut [u32]) -> Answer {
    recognise_numbers(image, input, limits, slots).into()
}

/// [`recognise`] as the library answers it: six numbers.
pub fn recognise_numbers(image: &[u8], input: &[u8], limits: Limits, slots: &mut [u32]) -> Numbers {
    answer_of!(yarnspire_recognise, image, input, limits, slots)
}

/// [`recognise`], and the accepted front of the input beside the answer: a part of the caller's own bytes, empty if nothing is accepted.
///
/// ```
/// use yarnspire::{accepted_text, Limits};
///
/// let any_byte = [1, 0, 0, 1, 0, 3];
/// let (text, _) = accepted_text(&any_byte, b"front", Limits { steps: 1, depth: 1, room: 0 }, &mut []);
/// assert_eq!(text, b"f");
/// ```
pub fn accepted_text<'a>(image: &[u8], input: &'a [u8], limits: Limits, slots: &mut [u32]) -> (&'a [u8], Answer) {
    let answer = recognise(image, input, limits, slots);
    let consumed = match answer {
        Answer::Accepted { consumed, .. } => consumed,
        _ => 0,
    };
    (&input[..consumed], answer)
}
