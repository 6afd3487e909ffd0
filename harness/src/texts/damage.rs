//! Texts with something wrong, of every sort that the page tells apart. Some turn out good all the same.

use super::writer::{Kind, Piece, Written};
use crate::random::Random;

/// What gets into a text, or stands in it in place of something else: marks, and what is short.
const SHORT: [&[u8]; 42] = [
    b"(", b")", b"<", b">", b"/", b"=", b"!", b"&", b"?", b"*", b"+", b".", b"''", b"'", b"\"", b"[", b"]", b"[]", b"[^a]", b"[z-a]", b"[--]", b"[a--]",
    b"[\\q]", b"'\\q'", b"'\\x4'", b"'\n'", b"'\r'", b"\\", b"/*", b"*/", b"/**/", b"/*/", b"//", b"#", b"1", b"1A", b"<-", b"A=", b"\0", b"\x0c", b"\x80",
    b"\n",
];

/// The same: whole expressions, and what is nearly one.
const LONG: [&[u8]; 17] = [
    b"<def",
    b"<def T",
    b"<def T .>",
    b"<defs T .>",
    b"<is",
    b"<is T",
    b"<is T>",
    b"<isa T .>",
    b"<match",
    b"< /* */ exists /**/ T /*",
    b"<if!A>",
    b"<if !!A>",
    b"<on !A",
    b"[a-b-c]",
    b"[a-\\x41]",
    b"'\\xg0'",
    b"A = .",
];

fn odd(random: &mut Random) -> &'static [u8] {
    match random.percent(70) {
        true => random.pick(&SHORT),
        false => random.pick(&LONG),
    }
}

/// Comments that nothing closes, unless a later one does.
const OPEN_COMMENTS: [&[u8]; 4] = [b"/*", b" /* ", b"/* * /", b" /*/"];

/// What stands behind a name that is defined once more.
const BEHIND_HEAD: [&[u8]; 3] = [b"='A'\n", b"=. ", b"=Q. "];

/// A text, damaged once or twice.
pub fn damage(random: &mut Random, written: &Written) -> Vec<u8> {
    let mut parts = Parts { text: &written.text, pieces: written.pieces.clone(), made: Vec::new() };
    let mut rough = false;
    for _ in 0..1 + random.below(2) {
        match random.below(16) {
            0 => parts.drop_one(random),
            1 => parts.double_one(random),
            2 => parts.swap_two(random),
            3 | 4 => parts.put_odd(random),
            5 => parts.replace_one(random),
            6 => parts.open_comment(random),
            7 => parts.spoil(random, Kind::Quoted),
            8 => parts.spoil(random, Kind::Class),
            9 => parts.rename(random, Kind::Call),
            10 | 11 => parts.rename(random, Kind::Table),
            12 => parts.rename(random, Kind::Head),
            13 => parts.again(random),
            14 => parts.drop_gap(random),
            _ => rough = true,
        }
    }
    let mut text = parts.joined();
    if rough && !text.is_empty() {
        spoil_bytes(random, &mut text);
    }
    text
}

/// The parts of a text while it is damaged.
struct Parts<'a> {
    text: &'a [u8],
    pieces: Vec<Piece>,
    /// Bytes that are not of the text: those of pieces that begin behind it, in this order.
    made: Vec<Vec<u8>>,
}

impl Parts<'_> {
    fn bytes(&self, piece: Piece) -> &[u8] {
        match piece.start.checked_sub(self.text.len() + 1) {
            Some(new) => &self.made[new],
            None => &self.text[piece.start..piece.end],
        }
    }

    fn joined(&self) -> Vec<u8> {
        self.pieces.iter().flat_map(|piece| self.bytes(*piece).iter().copied()).collect()
    }

    /// A piece of other bytes.
    fn made(&mut self, kind: Kind, bytes: &[u8]) -> Piece {
        self.made.push(bytes.to_vec());
        let start = self.text.len() + self.made.len();
        Piece { kind, start, end: start }
    }

    /// The number of some piece of which this is true.
    fn some(&self, random: &mut Random, wanted: impl Fn(Kind) -> bool) -> Option<usize> {
        let found: Vec<usize> = (0..self.pieces.len()).filter(|i| wanted(self.pieces[*i].kind)).collect();
        match found.is_empty() {
            true => None,
            false => Some(random.pick(&found)),
        }
    }

    fn some_token(&self, random: &mut Random) -> Option<usize> {
        self.some(random, |kind| kind != Kind::Gap)
    }

    fn drop_one(&mut self, random: &mut Random) {
        if let Some(at) = self.some_token(random) {
            self.pieces.remove(at);
        }
    }

    fn double_one(&mut self, random: &mut Random) {
        if let Some(at) = self.some_token(random) {
            self.pieces.insert(at, self.pieces[at]);
        }
    }

    /// Two tokens change places: neighbours, or any two.
    fn swap_two(&mut self, random: &mut Random) {
        if let (Some(a), Some(b)) = (self.some_token(random), self.some_token(random)) {
            let next = (a + 1..self.pieces.len()).find(|i| self.pieces[*i].kind != Kind::Gap);
            let b = next.filter(|_| random.percent(60)).unwrap_or(b);
            self.pieces.swap(a, b);
        }
    }

    fn put_odd(&mut self, random: &mut Random) {
        let at = random.below(self.pieces.len() + 1);
        let piece = self.made(Kind::Mark, odd(random));
        self.pieces.insert(at, piece);
    }

    fn replace_one(&mut self, random: &mut Random) {
        if let Some(at) = self.some_token(random) {
            self.pieces[at] = self.made(Kind::Mark, odd(random));
        }
    }

    /// A comment is cut short, or one begins that nothing closes.
    fn open_comment(&mut self, random: &mut Random) {
        let comments: Vec<usize> = (0..self.pieces.len()).filter(|i| self.bytes(self.pieces[*i]).starts_with(b"/*")).collect();
        if !comments.is_empty() && random.percent(50) {
            let at = random.pick(&comments);
            let bytes = self.bytes(self.pieces[at]);
            let cut = bytes[..bytes.len() - 1].to_vec();
            self.pieces[at] = self.made(Kind::Gap, &cut);
            return;
        }
        let at = random.below(self.pieces.len() + 1);
        let piece = self.made(Kind::Gap, random.pick(&OPEN_COMMENTS));
        self.pieces.insert(at, piece);
    }

    fn drop_gap(&mut self, random: &mut Random) {
        if let Some(at) = self.some(random, |kind| kind == Kind::Gap) {
            self.pieces.remove(at);
        }
    }

    /// Damage inside a quoted text or a class.
    fn spoil(&mut self, random: &mut Random, kind: Kind) {
        let at = match self.some(random, |own| own == kind) {
            Some(at) if self.bytes(self.pieces[at]).len() > 1 => at,
            _ => return,
        };
        let mut bytes = self.bytes(self.pieces[at]).to_vec();
        let inside = 1 + random.below(bytes.len() - 1);
        match random.below(6) {
            0 => drop(bytes.pop()),
            1 => drop(bytes.remove(0)),
            2 | 5 if kind == Kind::Class => bytes.insert(1, b'^'),
            3 if kind == Kind::Class => drop(bytes.splice(inside..inside, *b"z-a")),
            4 => drop(bytes.remove(inside)),
            _ => drop(bytes.splice(inside..inside, random.pick(&[&b"\\"[..], b"\\q", b"\\x", b"\\x4", b"\n", b"\r", b"]", b"'", b"\"", b"-"]).iter().copied())),
        }
        self.pieces[at] = self.made(kind, &bytes);
    }

    /// One name becomes another: that of something else in the text, or one that is nowhere.
    fn rename(&mut self, random: &mut Random, kind: Kind) {
        let at = match self.some(random, |own| own == kind) {
            Some(at) => at,
            None => return,
        };
        let any_kind = random.percent(50);
        let other = self.some(random, |own| own == Kind::Head || any_kind && matches!(own, Kind::Call | Kind::Table | Kind::Condition));
        self.pieces[at] = match other.filter(|_| random.percent(60)) {
            Some(other) => Piece { kind, ..self.pieces[other] },
            None => self.made(kind, random.pick(&[&b"Nowhere"[..], b"nowhere_1", b"Q"])),
        };
    }

    /// A production's name is defined once more, behind all or in front.
    fn again(&mut self, random: &mut Random) {
        if let Some(at) = self.some(random, |kind| kind == Kind::Head) {
            let head = self.pieces[at];
            let behind = self.made(Kind::Mark, random.pick(&BEHIND_HEAD));
            match random.percent(70) {
                true => {
                    let gap = self.made(Kind::Gap, b"\n");
                    self.pieces.extend([gap, head, behind]);
                }
                false => drop(self.pieces.splice(0..0, [head, behind])),
            }
        }
    }
}

/// Damage that knows nothing of pieces.
fn spoil_bytes(random: &mut Random, text: &mut Vec<u8>) {
    let at = random.below(text.len());
    match random.below(5) {
        0 => text.truncate(at),
        1 => text.insert(at, random.byte()),
        2 => text[at] = random.byte(),
        3 => text[at] = random.pick(b"()<>/=!&?*+.'\"[]\\A "),
        _ => drop(text.remove(at)),
    }
}
