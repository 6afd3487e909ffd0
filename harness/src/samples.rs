//! The samples: each folder of samples/ has the text of a grammar, and inputs for it. An image is what the library's `compile` makes of the text.

use crate::compiled::image_of;
use crate::files;

/// The text of a sample's grammar.
pub fn grammar(sample: &str) -> Vec<u8> {
    files::bytes(&format!("samples/{sample}/grammar.nez"))
}

/// The image of a sample's grammar.
pub fn image(sample: &str) -> Vec<u8> {
    image_of(&grammar(sample)).unwrap_or_else(|refused| panic!("samples/{sample}/grammar.nez is {refused}"))
}

/// A line of samples/expected: what must be answered to an input.
pub struct Expected {
    /// The folder of the grammar.
    pub sample: String,
    /// The input's file, as `tags/deep.text`.
    pub name: String,
    /// The line that the program `recognise` must write.
    pub line: String,
}

impl Expected {
    fn read(entry: &str) -> Option<Expected> {
        let (name, line) = entry.split_once(": ")?;
        let (sample, _) = name.split_once('/')?;
        Some(Expected { sample: sample.into(), name: name.into(), line: line.into() })
    }

    /// The input.
    pub fn input(&self) -> Vec<u8> {
        files::bytes(&format!("samples/{}", self.name))
    }
}

/// All of samples/expected.
pub fn expected() -> Vec<Expected> {
    let text = files::text("samples/expected");
    let entries = text.lines().filter(|entry| !entry.starts_with('#'));
    entries.map(|entry| Expected::read(entry).unwrap_or_else(|| panic!("samples/expected: no input and answer: {entry}"))).collect()
}
