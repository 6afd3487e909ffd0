//! A grammar of samples/ with one input.

use std::fs;

use yarnspire::implementations::Implementation;
use yarnspire::timing::time_batch;
use yarnspire::{reference, samples, Limits, Numbers};

use crate::lua::Lua;

/// Where LPeg reads the inputs.
pub const INPUTS: &str = "target/bench/inputs";

/// A grammar of samples/ with one input, and what all but LPeg answer.
pub struct Case {
    pub grammar: &'static str,
    pub image: Vec<u8>,
    pub input: Vec<u8>,
    pub name: String,
    pub file: String,
    pub answer: Numbers,
    pub most_held: u32,
}

impl Case {
    /// Writes the input for LPeg to read, and asserts that all the others answer alike, slots included.
    pub fn new(grammar: &'static str, name: &str, input: Vec<u8>) -> Case {
        let image = samples::image(grammar);
        let file = format!("{INPUTS}/{name}");
        fs::write(&file, &input).expect("the input is written");
        let mut slots = slot_buffer();
        let (answer, trace) = reference::recognise(&image, &input, Limits::AMPLE, &mut slots, None);
        for one in Implementation::measured() {
            if let Some(recognise) = one.recognise() {
                let mut own_slots = slot_buffer();
                assert_eq!(recognise(&image, &input, Limits::AMPLE, &mut own_slots), answer, "{name}: the answers of reference and {one:?} differ");
                assert_eq!(own_slots, slots, "{name}: the slots of reference and {one:?} differ");
            }
        }
        Case { grammar, image, input, name: name.to_string(), file, answer, most_held: trace.room }
    }

    pub fn assert_all_accept(&self, lua: &mut Lua) {
        assert_eq!(self.answer.kind, Numbers::ACCEPTED, "{}: {}", self.file, self.answer);
        assert_eq!(self.answer.consumed as usize, self.input.len(), "{}", self.file);
        assert!(lua.accepts(self.grammar, &self.file), "LPeg does not accept {}", self.file);
    }

    pub fn assert_none_accepts(&self, lua: &mut Lua) {
        assert_eq!(self.answer.kind, Numbers::FAILED, "{}: {}", self.file, self.answer);
        assert!(!lua.accepts(self.grammar, &self.file), "LPeg accepts {}", self.file);
    }

    /// The nanoseconds that so many calls take. The slots are lent to each call as the one before left them.
    pub fn batch(&self, implementation: Implementation, count: usize, slots: &mut [u32], lua: &mut Lua) -> f64 {
        match implementation.recognise() {
            Some(recognise) => time_batch(count, || assert_eq!(recognise(&self.image, &self.input, Limits::AMPLE, slots), self.answer)),
            None => lua.time(self.grammar, &self.file, count, self.answer.kind == Numbers::FAILED),
        }
    }
}

/// Slots as long as the greatest limits want them, with numbers in them that no answer leaves there.
pub fn slot_buffer() -> Vec<u32> {
    vec![u32::MAX; Limits::AMPLE.slots()]
}
