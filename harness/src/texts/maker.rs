//! Random texts: good ones, ones at a limit and just past it, and damaged ones.

use super::writer::{Written, SPELLINGS};
use super::{damage, stretch, trees, writer};
use crate::notation::tree::Production;
use crate::notation::LONGEST_TEXT;
use crate::random::Random;

/// A text.
pub struct Case {
    pub text: Vec<u8>,
    /// What the text was written from, if it is not damaged.
    pub productions: Option<Vec<Production>>,
    /// Which of the spellings it was written in.
    pub spellings: [bool; SPELLINGS.len()],
}

/// Makes one text after the other.
pub struct Maker {
    random: Random,
}

impl Maker {
    /// The same seed makes the same texts.
    pub fn new(seed: u64) -> Maker {
        Maker { random: Random::new(seed) }
    }

    /// The next text.
    pub fn case(&mut self) -> Case {
        let random = &mut self.random;
        let mut productions = trees::productions(random);
        let sort = random.below(1000);
        match sort {
            600..=639 => stretch::stretch(random, &mut productions),
            640..=669 => stretch::unlike(random, &mut productions),
            _ => {}
        }
        let written = writer::write(random, &productions);
        match sort {
            670..=999 => Case { text: damage::damage(random, &written), productions: None, spellings: written.spellings },
            0 | 1 => padded(random, written, productions),
            _ => Case { text: written.text, productions: Some(productions), spellings: written.spellings },
        }
    }
}

/// A text about as long as a text may be: what was written, with blanks behind it.
fn padded(random: &mut Random, written: Written, productions: Vec<Production>) -> Case {
    let Written { mut text, spellings, .. } = written;
    // The end of a line, for a comment that would end with the text.
    text.push(b'\n');
    text.resize(LONGEST_TEXT - 2 + random.below(5), b' ');
    let productions = if text.len() > LONGEST_TEXT { None } else { Some(productions) };
    Case { text, productions, spellings }
}
