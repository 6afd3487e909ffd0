//! Productions as a text, in one of many spellings: gaps and comments, brackets that are not needed, and bytes escaped or not.

use crate::notation::tree::{Expression, Part, Production};
use crate::random::Random;

/// A text, and the parts that it was put together from.
pub struct Written {
    pub text: Vec<u8>,
    pub pieces: Vec<Piece>,
    /// Which of the [`SPELLINGS`] it has.
    pub spellings: [bool; SPELLINGS.len()],
}

/// A part of a text.
#[derive(Clone, Copy)]
pub struct Piece {
    pub kind: Kind,
    pub start: usize,
    pub end: usize,
}

/// What a part of a text is.
#[derive(Clone, Copy, Debug, PartialEq, Eq)]
pub enum Kind {
    Gap,
    /// A production's name before its `=`.
    Head,
    /// A production's name in an expression.
    Call,
    Table,
    Condition,
    /// A word behind a `<`.
    Word,
    Mark,
    Quoted,
    Class,
}

/// The ways to write something that has several.
pub const SPELLINGS: [&str; 25] = [
    "\\n",
    "\\r",
    "\\t",
    "\\\\",
    "\\'",
    "\\\"",
    "\\[",
    "\\]",
    "\\-",
    "\\^",
    "\\x",
    "a byte over 127",
    "'..'",
    "\"..\"",
    "a - that is itself",
    "a ^ that is itself",
    "a blank",
    "a tab",
    "a line feed",
    "a carriage return",
    "// ..",
    "// .. at the end",
    "/* .. */",
    "/* in a comment",
    "needless brackets",
];

const ESCAPES: &[u8; 10] = b"\n\r\t\\'\"[]-^";
const ESCAPED: &[u8; 10] = b"nrt\\'\"[]-^";
const HEX: usize = 10;
const OVER_127: usize = 11;
const SINGLE: usize = 12;
const DOUBLE: usize = 13;
const OWN_MINUS: usize = 14;
const OWN_CARET: usize = 15;
const BLANK: usize = 16;
const LINE_COMMENT: usize = 20;
const LAST_COMMENT: usize = 21;
const COMMENT: usize = 22;
const COMMENT_INSIDE: usize = 23;
const BRACKETS: usize = 24;

/// What may stand in a comment between `/*` and `*/`.
const REMARKS: [&str; 12] = ["", " ", "*", "/", "/*", " /* ", "//", "'", " A = B ", "\n", ") > (", "\\"];

/// How wide a text is written.
#[derive(Clone, Copy, PartialEq, Eq)]
enum Style {
    /// No gap that is not needed.
    Tight,
    /// As one would write it.
    Plain,
    /// Gaps of all sorts.
    Wild,
}

/// A text of these productions.
pub fn write(random: &mut Random, productions: &[Production]) -> Written {
    let style = random.pick(&[Style::Tight, Style::Plain, Style::Plain, Style::Wild, Style::Wild]);
    let written = Written { text: Vec::new(), pieces: Vec::new(), spellings: [false; SPELLINGS.len()] };
    let mut writer = Writer { random, style, written };
    for production in productions {
        if style == Style::Plain && !writer.written.text.is_empty() {
            writer.gap(b"\n");
        }
        writer.token(Kind::Head, production.name.text.as_bytes());
        writer.mark(b'=');
        writer.expression(&production.body, 0);
    }
    writer.last_gap();
    writer.written
}

struct Writer<'a> {
    random: &'a mut Random,
    style: Style,
    written: Written,
}

fn is_of_names(byte: u8) -> bool {
    byte.is_ascii_alphanumeric() || byte == b'_'
}

/// How close an operator binds: choice, row, prefix, suffix, and what needs no brackets at all.
fn binding(e: &Expression) -> u8 {
    match e {
        Expression::Choice(..) => 0,
        Expression::Sequence(..) => 1,
        Expression::Not(_) | Expression::And(_) => 2,
        Expression::Optional(_) | Expression::Star(_) | Expression::Plus(_) => 3,
        _ => 4,
    }
}

impl Writer<'_> {
    fn piece(&mut self, kind: Kind, bytes: &[u8]) {
        let start = self.written.text.len();
        self.written.text.extend(bytes);
        self.written.pieces.push(Piece { kind, start, end: self.written.text.len() });
    }

    fn note(&mut self, spelling: usize) {
        self.written.spellings[spelling] = true;
    }

    /// A token, and a gap before it, which two names need between them.
    fn token(&mut self, kind: Kind, bytes: &[u8]) {
        let last = self.written.text.last().copied();
        let needed = is_of_names(bytes[0]) && last.map_or(false, is_of_names);
        let spaced = kind != Kind::Mark || matches!(bytes[0], b'=' | b'/' | b'(' | b'<');
        match self.style {
            Style::Wild if needed || self.random.percent(40) => self.wild_gap(),
            Style::Plain if spaced && last.map_or(false, |byte| byte != b'\n') => self.gap(b" "),
            _ if needed => self.gap(b" "),
            _ => {}
        }
        self.piece(kind, bytes);
    }

    fn mark(&mut self, mark: u8) {
        self.token(Kind::Mark, &[mark]);
    }

    fn gap(&mut self, bytes: &[u8]) {
        for byte in bytes {
            let spelling = b" \t\n\r".iter().position(|blank| blank == byte);
            self.note(BLANK + spelling.expect("a blank"));
        }
        self.piece(Kind::Gap, bytes);
    }

    /// One to three blanks and comments. None of the comments begins right behind a `/`.
    fn wild_gap(&mut self) {
        for _ in 0..1 + self.random.below(3) {
            let comment = self.random.percent(25);
            if !comment || self.written.text.ends_with(b"/") {
                let blank = self.random.pick(b"  \n\n\t\r");
                self.gap(&[blank]);
            }
            if comment && self.random.percent(40) {
                self.line_comment(b"\n");
            } else if comment {
                self.comment();
            }
        }
    }

    fn line_comment(&mut self, end: &[u8]) {
        let remark = self.random.pick(&REMARKS).replace('\n', "\r");
        self.note(LINE_COMMENT);
        self.piece(Kind::Gap, &[b"//", remark.as_bytes(), end].concat());
    }

    fn comment(&mut self) {
        let mut remark = String::new();
        for _ in 0..self.random.below(3) {
            remark.push_str(self.random.pick(&REMARKS));
        }
        remark = remark.replace("*/", "* /");
        if remark.contains("/*") {
            self.note(COMMENT_INSIDE);
        }
        self.note(COMMENT);
        self.piece(Kind::Gap, &[b"/*", remark.as_bytes(), b"*/"].concat());
    }

    /// Behind the last token. Only here a comment may end with the text.
    fn last_gap(&mut self) {
        match self.style {
            Style::Tight => {}
            Style::Plain => self.gap(b"\n"),
            Style::Wild => {
                if self.random.percent(50) {
                    self.wild_gap();
                }
                if self.random.percent(20) {
                    self.note(LAST_COMMENT);
                    self.line_comment(b"");
                }
            }
        }
    }

    /// An expression where one is due that binds so close at least.
    fn expression(&mut self, e: &Expression, close: u8) {
        let needed = binding(e) < close;
        let more = match self.style {
            Style::Wild if self.random.percent(8) => 1 + self.random.below(2),
            _ => 0,
        };
        if more > 0 {
            self.note(BRACKETS);
        }
        let brackets = more + usize::from(needed);
        for _ in 0..brackets {
            self.mark(b'(');
        }
        self.bare(e);
        for _ in 0..brackets {
            self.mark(b')');
        }
    }

    fn bare(&mut self, e: &Expression) {
        match e {
            Expression::Quoted(bytes, _) => self.quoted(bytes),
            Expression::Any => self.mark(b'.'),
            Expression::Class(parts) => self.class(parts),
            Expression::Sequence(a, b) => {
                self.expression(a, 2);
                self.expression(b, 1);
            }
            Expression::Choice(a, b) => {
                self.expression(a, 1);
                self.mark(b'/');
                self.expression(b, 0);
            }
            Expression::Optional(e) => self.suffix(e, b'?'),
            Expression::Star(e) => self.suffix(e, b'*'),
            Expression::Plus(e) => self.suffix(e, b'+'),
            Expression::Not(e) => self.prefix(b'!', e),
            Expression::And(e) => self.prefix(b'&', e),
            Expression::Call(name) => self.token(Kind::Call, name.text.as_bytes()),
            Expression::Def(table, e, _) => self.opener("def", Kind::Table, true, &table.text, Some(e)),
            Expression::Match(table) => self.opener("match", Kind::Table, true, &table.text, None),
            Expression::Is(table) => self.opener("is", Kind::Table, true, &table.text, None),
            Expression::Isa(table) => self.opener("isa", Kind::Table, true, &table.text, None),
            Expression::Exists(table) => self.opener("exists", Kind::Table, true, &table.text, None),
            Expression::Block(table, e) => self.opener("block", Kind::Table, true, &table.text, Some(e)),
            Expression::Local(table, e) => self.opener("local", Kind::Table, true, &table.text, Some(e)),
            Expression::If(condition, truth) => self.opener("if", Kind::Condition, *truth, &condition.text, None),
            Expression::On(condition, truth, e) => self.opener("on", Kind::Condition, *truth, &condition.text, Some(e)),
        }
    }

    fn suffix(&mut self, e: &Expression, mark: u8) {
        self.expression(e, 3);
        self.mark(mark);
    }

    fn prefix(&mut self, mark: u8, e: &Expression) {
        self.mark(mark);
        self.expression(e, 2);
    }

    fn opener(&mut self, word: &str, kind: Kind, truth: bool, name: &str, e: Option<&Expression>) {
        self.mark(b'<');
        self.token(Kind::Word, word.as_bytes());
        if !truth {
            self.mark(b'!');
        }
        self.token(kind, name.as_bytes());
        if let Some(e) = e {
            self.expression(e, 0);
        }
        self.mark(b'>');
    }

    fn quoted(&mut self, bytes: &[u8]) {
        let (mark, spelling) = if self.random.percent(70) { (b'\'', SINGLE) } else { (b'"', DOUBLE) };
        self.note(spelling);
        let mut text = vec![mark];
        for byte in bytes {
            let bare = *byte != mark;
            self.byte(*byte, bare, &mut text);
        }
        text.push(mark);
        self.token(Kind::Quoted, &text);
    }

    fn class(&mut self, parts: &[Part]) {
        let mut text = vec![b'['];
        let mut single = false;
        for (i, part) in parts.iter().enumerate() {
            let (low, high) = match *part {
                Part::Byte(byte) if self.random.percent(3) => (byte, Some(byte)),
                Part::Byte(byte) => (byte, None),
                Part::Range(low, high) => (low, Some(high)),
            };
            // Behind a byte that is no range's end a `-` would make a range of the two, unless the class ends with it.
            let behind_byte = single;
            single = high.is_none();
            let last = i + 1 == parts.len() && high.is_none();
            let bare = match low {
                b']' => false,
                b'-' => last || !behind_byte,
                b'^' => i > 0,
                _ => true,
            };
            if self.byte(low, bare, &mut text) {
                self.note_own(low);
            }
            if let Some(high) = high {
                text.push(b'-');
                self.byte(high, high != b']', &mut text);
            }
        }
        text.push(b']');
        self.token(Kind::Class, &text);
    }

    fn note_own(&mut self, byte: u8) {
        match byte {
            b'-' => self.note(OWN_MINUS),
            b'^' => self.note(OWN_CARET),
            _ => {}
        }
    }

    /// A byte, as itself where it may be and else escaped. Whether it is itself.
    fn byte(&mut self, byte: u8, bare: bool, text: &mut Vec<u8>) -> bool {
        let bare = bare && !matches!(byte, b'\\' | b'\n' | b'\r');
        let escape = ESCAPES.iter().position(|own| *own == byte);
        let chance = if escape.is_some() { 50 } else { 95 };
        if bare && self.random.percent(chance) {
            if byte > 127 {
                self.note(OVER_127);
            }
            text.push(byte);
            return true;
        }
        match escape {
            Some(escape) if self.random.percent(75) => {
                self.note(escape);
                text.extend([b'\\', ESCAPED[escape]]);
            }
            _ => {
                self.note(HEX);
                let digits = if self.random.percent(50) { format!("\\x{byte:02x}") } else { format!("\\x{byte:02X}") };
                text.extend(digits.as_bytes());
            }
        }
        false
    }
}
