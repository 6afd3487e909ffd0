//! The rules for bytes: gaps, names, quoted texts and classes. Each takes the place where it begins and gives the place behind it.

use super::tree::{Name, Part, Place};
use super::Fault;

/// Stands over a text.
pub struct Lexer<'a> {
    pub text: &'a [u8],
    pub fault: Option<Fault>,
}

/// Letters, digits and `_`.
fn goes_on_a_name(byte: u8) -> bool {
    byte.is_ascii_alphanumeric() || byte == b'_'
}

impl<'a> Lexer<'a> {
    pub fn new(text: &'a [u8], fault: Option<Fault>) -> Lexer<'a> {
        Lexer { text, fault }
    }

    /// The text from a place on.
    pub fn rest(&self, at: usize) -> &'a [u8] {
        &self.text[at..]
    }

    /// Behind this byte, if it stands here.
    pub fn byte(&self, at: usize, byte: u8) -> Option<usize> {
        if self.text.get(at) == Some(&byte) {
            return Some(at + 1);
        }
        None
    }

    /// Behind all blanks, ends of lines and comments that stand here. A comment that is not closed is none.
    pub fn gap(&self, mut at: usize) -> usize {
        loop {
            at = match self.rest(at) {
                [b' ' | b'\t' | b'\n' | b'\r', ..] => at + 1,
                [b'/', b'/', line @ ..] => at + 2 + line.iter().position(|byte| *byte == b'\n').map_or(line.len(), |end| end + 1),
                [b'/', b'*', ..] => match self.comment(at) {
                    Some(end) => end,
                    None => return at,
                },
                _ => return at,
            }
        }
    }

    /// Behind the comment that begins with the `/*` here, if it is closed.
    fn comment(&self, at: usize) -> Option<usize> {
        let mut at = at + 2;
        let mut open = 1;
        while open > 0 {
            at += match self.text.get(at..at + 2)? {
                b"*/" => {
                    open -= 1;
                    2
                }
                b"/*" if self.fault == Some(Fault::CommentsNest) => {
                    open += 1;
                    2
                }
                _ => 1,
            };
        }
        Some(at)
    }

    /// Whether a comment begins here that is not closed.
    pub fn open_comment(&self, at: usize) -> bool {
        self.rest(at).starts_with(b"/*") && self.comment(at).is_none()
    }

    /// A name.
    pub fn name(&self, at: usize) -> Option<(Name, usize)> {
        let rest = self.rest(at);
        let length = rest.iter().take_while(|byte| goes_on_a_name(**byte)).count();
        if length == 0 || rest[0].is_ascii_digit() {
            return None;
        }
        let text = String::from_utf8_lossy(&rest[..length]).into_owned();
        Some((Name { text, at: Place(at) }, at + length))
    }

    /// Behind a word that no name goes on from.
    pub fn word(&self, at: usize, word: &str) -> Option<usize> {
        let rest = self.rest(at).strip_prefix(word.as_bytes())?;
        match rest.first() {
            Some(byte) if goes_on_a_name(*byte) => None,
            _ => Some(at + word.len()),
        }
    }

    /// The bytes of a quoted text.
    pub fn quoted(&self, at: usize) -> Option<(Vec<u8>, usize)> {
        let mark = *self.text.get(at)?;
        if mark != b'\'' && mark != b'"' {
            return None;
        }
        let mut bytes = Vec::new();
        let mut at = at + 1;
        loop {
            if let Some(end) = self.byte(at, mark) {
                return Some((bytes, end));
            }
            let (byte, end) = self.char(at)?;
            match self.fault {
                Some(Fault::RawEscapes) => bytes.extend(&self.text[at..end]),
                _ => bytes.push(byte),
            }
            at = end;
        }
    }

    /// The parts of a class. None of its ranges goes down.
    pub fn class(&self, at: usize) -> Option<(Vec<Part>, usize)> {
        let at = self.byte(at, b'[')?;
        if self.byte(at, b'^').is_some() {
            return None;
        }
        self.parts(at)
    }

    /// `[^..]`, which only a wrong reader takes.
    pub fn none_of(&self, at: usize) -> Option<(Vec<Part>, usize)> {
        let at = self.byte(at, b'[')?;
        self.parts(self.byte(at, b'^')?)
    }

    /// All that stands behind the `[`.
    fn parts(&self, mut at: usize) -> Option<(Vec<Part>, usize)> {
        let mut parts = Vec::new();
        while let Some((part, end)) = self.part(at) {
            parts.push(part);
            at = end;
        }
        let upside_down = |part: &Part| matches!(part, Part::Range(low, high) if low > high);
        if parts.is_empty() || parts.iter().any(upside_down) {
            return None;
        }
        Some((parts, self.byte(at, b']')?))
    }

    /// A range if one can be read here, and else a single byte.
    fn part(&self, at: usize) -> Option<(Part, usize)> {
        let (low, end) = self.char_of_class(at)?;
        let high = self.byte(end, b'-').and_then(|behind| self.char_of_class(behind));
        Some(match high {
            Some((high, end)) => (Part::between(low, high), end),
            None => (Part::Byte(low), end),
        })
    }

    fn char_of_class(&self, at: usize) -> Option<(u8, usize)> {
        match self.byte(at, b']') {
            Some(_) => None,
            None => self.char(at),
        }
    }

    /// A byte that is written as itself or escaped.
    fn char(&self, at: usize) -> Option<(u8, usize)> {
        match *self.rest(at) {
            [b'\\', b'x', high, low, ..] if high.is_ascii_hexdigit() && low.is_ascii_hexdigit() => Some((crate::hex::byte(&[high, low])?, at + 4)),
            [b'\\', b'n', ..] => Some((b'\n', at + 2)),
            [b'\\', b'r', ..] => Some((b'\r', at + 2)),
            [b'\\', b't', ..] => Some((b'\t', at + 2)),
            [b'\\', byte @ (b'\\' | b'\'' | b'"' | b'[' | b']' | b'^' | b'-'), ..] => Some((byte, at + 2)),
            [b'\\' | b'\n' | b'\r', ..] | [] => None,
            [byte, ..] => Some((byte, at + 1)),
        }
    }
}
