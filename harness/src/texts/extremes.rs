//! Texts at the ends of what a text may be, with the answers that docs/notation.md gives them.

use crate::notation::{LONGEST_IMAGE, LONGEST_TEXT};
use crate::outcome::Refused;

/// A text, a buffer's length, and the answer.
pub struct Extreme {
    pub what: &'static str,
    pub text: Vec<u8>,
    pub room: usize,
    /// The image's length, or the refusal.
    pub answer: Result<usize, Refused>,
}

/// A text that becomes an image of so many bytes.
fn good(what: &'static str, text: impl Into<Vec<u8>>, length: usize) -> Extreme {
    Extreme { what, text: text.into(), room: LONGEST_IMAGE, answer: Ok(length) }
}

/// A text that is refused.
fn bad(what: &'static str, text: impl Into<Vec<u8>>, number: u32, at: usize) -> Extreme {
    Extreme { what, text: text.into(), room: LONGEST_IMAGE, answer: Err(Refused { number, at: at as u32 }) }
}

/// All of them.
pub fn all() -> Vec<Extreme> {
    [lengths(), brackets(), marks(), productions(), names(), tables(), texts_and_classes(), defs(), images()].into_iter().flatten().collect()
}

/// The image of `A = .`: edition, tables, conditions, nodes, start, and the node Any.
const ANY: usize = 6;

fn lengths() -> Vec<Extreme> {
    let padded = |length: usize, byte: char| format!("A=.{}", byte.to_string().repeat(length - 3));
    vec![
        bad("nothing", "", 20, 0),
        bad("nothing but blanks", " ".repeat(LONGEST_TEXT), 20, LONGEST_TEXT),
        good("the longest text, mostly blanks", padded(LONGEST_TEXT, ' '), ANY),
        bad("a longer text, mostly blanks", padded(LONGEST_TEXT + 1, ' '), 20, LONGEST_TEXT),
        bad("a far longer text", padded(200_000, ' '), 20, LONGEST_TEXT),
        bad("the longest text, all of it wrong", ")".repeat(LONGEST_TEXT), 20, 0),
        bad("a longer text, all of it wrong", ")".repeat(LONGEST_TEXT + 1), 20, LONGEST_TEXT),
        bad("the longest text, with a fault at its end", format!("{})", padded(LONGEST_TEXT - 1, ' ')), 20, LONGEST_TEXT - 1),
        good("a comment to the end", padded(LONGEST_TEXT, '/'), ANY),
        good("a comment that is closed at the end", format!("A=./*{}*/", "*".repeat(60_000)), ANY),
        bad("a comment that is not closed", format!("A=./*{}", "/".repeat(60_000)), 20, 3),
        bad("a comment that is not closed, behind another", format!("A=./*{}*//*", " /*".repeat(20_000)), 20, 3 + 60_004),
        bad("30,000 openings of nothing", format!("A={}", "<".repeat(30_000)), 20, 2),
        bad("a quoted text that is not closed", format!("A='{}", "a".repeat(60_000)), 20, 2),
        bad("a class that is not closed", format!("A=[{}", "a-z".repeat(20_000)), 20, 2),
        bad("60,000 backslashes", format!("A={}", "\\".repeat(60_000)), 20, 2),
        bad("60,000 zeros", vec![0; 60_000], 20, 0),
    ]
}

/// A one-byte operator around Any so many times: each has a tag, further operands of one byte each, and the number of the node below.
fn tower(height: usize, further: usize, head: usize) -> usize {
    let long_numbers = height.saturating_sub(128);
    head + 1 + height * (2 + further) + long_numbers
}

/// The head of an image whose count of nodes and start take two bytes each.
const HEAD: usize = 7;

fn brackets() -> Vec<Extreme> {
    let nested = |open: &str, opened: usize, inside: &str, close: &str, closed: usize| format!("A={}{inside}{}", open.repeat(opened), close.repeat(closed));
    let deepest = (LONGEST_TEXT - 3) / 2;
    vec![
        good("brackets 30,000 deep", nested("(", 30_000, ".", ")", 30_000), ANY),
        good("brackets as deep as can be", nested("(", deepest, ".", ")", deepest), ANY),
        bad("30,000 brackets, one of them not closed", nested("(", 30_000, ".", ")", 29_999), 20, 60_002),
        bad("30,000 brackets, and one more closed", nested("(", 30_000, ".", ")", 30_001), 20, 60_003),
        bad("30,000 brackets, the first closed by another", nested("(", 30_000, ".>", ")", 30_000), 20, 30_003),
        bad("30,000 brackets and nothing in them", nested("(", 30_000, "", ")", 30_000), 20, 30_002),
        bad("30,000 brackets and a production in them", nested("(", 30_000, " B=.", ")", 30_000), 20, 30_003),
        bad("30,000 brackets and an undefined name in them", nested("(", 30_000, "B", ")", 30_000), 21, 30_002),
        bad("60,000 brackets, none of them closed", nested("(", 60_000, "", "", 0), 20, 60_002),
        bad("60,000 brackets, none of them opened", nested("", 0, ".", ")", 60_000), 20, 3),
        bad("switches 8,000 deep", nested("<on C ", 8000, ".", ">", 8000), 24, 0),
        good("switches 511 deep", nested("<on C ", 511, ".", ">", 511), tower(511, 2, HEAD)),
        bad("switches 512 deep", nested("<on C ", 512, ".", ">", 512), 24, 0),
        bad("switches 8,000 deep, one of them not closed", nested("<on C ", 8000, ".", ">", 7999), 20, 2 + 48_000 + 1 + 7999),
        bad("scopes without a def, 6,000 deep", nested("<local T ", 6000, ".", ">", 6000), 21, 9),
    ]
}

fn marks() -> Vec<Extreme> {
    let prefixed = |mark: &str, count: usize| format!("A={}.", mark.repeat(count));
    let suffixed = |mark: &str, count: usize| format!("A=.{}", mark.repeat(count));
    vec![
        good("511 !", prefixed("!", 511), tower(511, 0, HEAD)),
        bad("512 !", prefixed("!", 512), 24, 0),
        bad("60,000 !", prefixed("!", 60_000), 24, 0),
        bad("60,000 ! and nothing behind them", format!("A={}", "!".repeat(60_000)), 20, 60_002),
        good("255 &", prefixed("&", 255), tower(510, 0, HEAD)),
        bad("256 &", prefixed("&", 256), 24, 0),
        bad("60,000 &", prefixed("&", 60_000), 24, 0),
        good("511 *", suffixed("*", 511), tower(511, 0, HEAD)),
        bad("60,000 *", suffixed("*", 60_000), 24, 0),
        bad("256 +", suffixed("+", 256), 24, 0),
        bad("60,000 +", suffixed("+", 60_000), 24, 0),
        bad("256 ?", suffixed("?", 256), 24, 0),
        bad("60,000 ?", suffixed("?", 60_000), 24, 0),
        bad("60,000 in a row", prefixed(".", 60_000), 24, 0),
        bad("30,000 alternatives", suffixed("/.", 30_000), 24, 0),
        bad("30,000 alternatives, the last of them missing", format!("{}/", suffixed("/.", 30_000)), 20, 60_004),
        bad("257 in a row, which are 513 nodes", prefixed(".", 256), 24, 0),
        bad("60,000 calls of itself", format!("A={}", "A ".repeat(30_000)), 24, 0),
    ]
}

/// The name of a number: no two are equal, and all are short.
pub(super) fn short_name(mut number: usize) -> String {
    const FIRST: &[u8] = b"ABCDEFGHIJKLMNOPQRSTUVWXYZabcdefghijklmnopqrstuvwxyz_";
    const NEXT: &[u8] = b"ABCDEFGHIJKLMNOPQRSTUVWXYZabcdefghijklmnopqrstuvwxyz_0123456789";
    let mut name = String::from(char::from(FIRST[number % FIRST.len()]));
    number /= FIRST.len();
    while number > 0 {
        name.push(char::from(NEXT[(number - 1) % NEXT.len()]));
        number = (number - 1) / NEXT.len();
    }
    name
}

/// Productions with these bodies, none named like another; and where each begins.
fn named(bodies: impl Iterator<Item = String>) -> (String, Vec<usize>) {
    let (mut text, mut places) = (String::new(), Vec::new());
    for (number, body) in bodies.enumerate() {
        places.push(text.len());
        text.push_str(&format!("{}={body}", short_name(number)));
    }
    (text, places)
}

fn productions() -> Vec<Extreme> {
    let any = |count: usize| named((0..count).map(|_| ".".to_string()));
    let (many, places) = any(13_000);
    let (most, _) = any(512);
    let (twice, _) = any(13_000);
    let again = twice.len();
    // The last calls the first, and each other one the next.
    let calls = (1..=512).map(|next| format!("{} ", short_name(next % 512)));
    let (chain, _) = named(calls);
    vec![
        bad("20,000 productions of one name", "A=.".repeat(20_000), 22, 3),
        bad("20,000 productions of one name, with another that is not defined", format!("{}A=B", "A=.".repeat(20_000)), 21, 60_002),
        bad("13,000 productions", many, 24, places[512]),
        good("512 productions", most, 6 + 512),
        bad("13,000 productions, and the first name again", format!("{twice}A=."), 22, again),
        good("512 productions, each a call of the next", chain, 6 + 512 * 2 + 384),
    ]
}

fn names() -> Vec<Extreme> {
    let long = "n".repeat(60_000);
    let stem = "Name_".repeat(4000);
    vec![
        good("a name of 60,000 bytes", format!("{long}=."), ANY),
        bad("a name of 60,000 bytes that is not defined", format!("A={long}"), 21, 2),
        bad("a name of 60,000 bytes and nothing else", long.clone(), 20, 0),
        bad("a table of 60,000 bytes that is not defined", format!("A=<is {long}>"), 21, 6),
        good("a condition of 60,000 bytes", format!("A=<if {long}>"), 5 + 3),
        good("names of 20,000 bytes that differ in the last", format!("{stem}a={stem}b {stem}b=."), 5 + 2 + 1),
        bad("a name of 20,000 bytes, and one that goes on from it", format!("{stem}a={stem}"), 21, 20_002),
        bad("a name of 20,000 bytes twice", format!("{stem}=.{stem}=."), 22, 20_002),
        good("tables of 20,000 bytes that differ in the last", format!("A=<def {stem}b .><def {stem}a .>"), 5 + 2 + 2 + 4 + 3),
        bad("a word that goes on for 60,000 bytes", format!("A=<def{long} T .>"), 20, 2),
    ]
}

/// So many names in brackets, one behind the other; and the place of the last name.
fn looks(before: &str, count: usize, behind: &str) -> (String, usize) {
    let text: String = (0..count).map(|i| format!("{before}{}{behind}", char::from(b'a' + i as u8))).collect();
    let last = "A=".len() + text.len() - behind.len() - 1;
    (format!("A={text}"), last)
}

fn tables() -> Vec<Extreme> {
    // Any, Def and Sequence for each table; If, or Any and On, and Sequence for each condition; and one Sequence less.
    let (eight, _) = looks("<def ", 8, " .>");
    let (nine, ninth) = looks("<def ", 9, " .>");
    let (switches, _) = looks("<if !", 8, ">");
    let (more, more_at) = looks("<if !", 9, ">");
    let (on, on_at) = looks("<on ", 9, " .>");
    vec![
        good("eight tables", eight.clone(), 5 + 8 + 8 * (1 + 2) + 7 * 3),
        bad("nine tables", nine.clone(), 24, ninth),
        good("eight conditions", switches, 5 + 8 * 3 + 7 * 3),
        bad("nine conditions", more.clone(), 24, more_at),
        bad("nine conditions that are set", on, 24, on_at),
        good("eight tables, each with two defs", format!("{eight}{}", &eight[2..]), 5 + 8 + 16 * (1 + 2) + 15 * 3),
        bad("nine tables, and a long text before them", format!("B='{}' {nine}", "b".repeat(65)), 24, ninth + 70),
        bad("nine conditions, and a long text before them", format!("B='{}' {more}", "b".repeat(65)), 24, more_at + 70),
        bad("nine tables, and nine conditions before them", format!("B={} {nine}", &more[2..]), 24, ninth + more.len() + 1),
    ]
}

fn texts_and_classes() -> Vec<Extreme> {
    let quoted = |part: &str, count: usize| format!("A='{}'", part.repeat(count));
    let text = 5 + 2 + 64;
    let (many, _) = named((0..13_000).map(|_| ".".into()));
    let parts: String = (0..=255u8).map(|byte| format!("\\x{byte:02X}")).collect();
    // 256 Bytes, half of which have a number of two bytes; 255 choices, of which the part is below 128 for half and the rest is never.
    let every_byte = HEAD + 128 * 2 + 128 * 3 + 255 + (128 + 127 * 2) + 255 * 2;
    vec![
        good("a quoted text of 64 bytes", quoted("a", 64), text),
        bad("a quoted text of 65 bytes", quoted("a", 65), 24, 2),
        good("a quoted text of 64 escapes", quoted("\\x0a", 64), text),
        bad("a quoted text of 65 escapes", quoted("\\n", 65), 24, 2),
        bad("a quoted text of 60,000 bytes", quoted("a", 60_000), 24, 2),
        bad("a long text behind 13,000 productions", format!("{many}Long{}", &quoted("a", 65)[1..]), 24, many.len() + 5),
        good("a class of every byte", format!("A=[{parts}]"), every_byte),
        bad("a class of 257 parts", format!("A=[{parts}a]"), 24, 0),
        bad("a class of 60,000 parts", format!("A=[{}]", "a".repeat(60_000)), 24, 0),
        bad("a class of 20,000 ranges, the last of them upside down", format!("A=[{}b-a]", "a-z".repeat(20_000)), 20, 2),
        bad("30,000 quoted texts", format!("A={}", "''".repeat(30_000)), 24, 0),
    ]
}

fn defs() -> Vec<Extreme> {
    let many = |def: &str, count: usize| format!("A={}", def.repeat(count));
    let body = ".".repeat(20_000);
    vec![
        bad("6,000 defs, all alike", many("<def T .>", 6000), 24, 0),
        bad("6,000 defs, the last of which differs", many("<def T .>", 5999) + "<def T 'a'>", 23, 2 + 9 * 5999),
        bad("6,000 defs, all but the first alike", "A=<def T 'a'>".to_string() + &many("<def T .>", 5999)[2..], 23, 13),
        bad("6,000 defs in one another", format!("A={}.{}", "<def T ".repeat(6000), ">".repeat(6000)), 23, 9),
        bad("two long defs that are alike", format!("A=<def T {body}>B=<def T({body})>"), 24, 0),
        bad("two long defs that differ at their ends", format!("A=<def T {body}.>B=<def T {body}''>"), 23, 20_013),
        bad("two long defs that differ in their brackets", format!("A=<def T {body}>B=<def T (..){}>", &body[2..]), 23, 20_012),
    ]
}

/// Productions of one quoted text each. Such an image has a head of six bytes, and two bytes for each text besides its own.
fn quoted_productions(lengths: &[usize]) -> (String, Vec<usize>) {
    named(lengths.iter().map(|length| format!("'{}'", "q".repeat(*length))))
}

fn images() -> Vec<Extreme> {
    // 16,384 - 6 = 248 * 66 + 10.
    let lengths = |last: &[usize]| [&[64; 248][..], last].concat();
    let (full, _) = quoted_productions(&lengths(&[8]));
    let (over, places) = quoted_productions(&lengths(&[9]));
    let (further, further_places) = quoted_productions(&lengths(&[8, 2]));
    let (far, far_places) = quoted_productions(&lengths(&[64; 200]));
    let with_room = |what: &'static str, text: &str, room: usize, answer: Result<usize, Refused>| Extreme { what, text: text.into(), room, answer };
    let too_short = Err(Refused { number: 25, at: 0 });
    // A table in a later production: its pattern has the number 249, and takes two bytes in the head, so that the eight bytes of text no longer fit.
    let table_behind = format!("{full}TABLE=<def T .>");
    vec![
        good("an image of 16,384 bytes", full.clone(), LONGEST_IMAGE),
        bad("an image of 16,385 bytes", over, 24, places[248]),
        bad("an image that is full before its last production", further, 24, further_places[249]),
        bad("an image that is over long before its last production", far, 24, far_places[248]),
        bad("an image that is over by a table of a later production", table_behind, 24, places[248]),
        with_room("a buffer one short of 16,384", &full, LONGEST_IMAGE - 1, too_short),
        with_room("a buffer just long enough", "A=.", ANY, Ok(ANY)),
        with_room("a buffer one short", "A=.", ANY - 1, too_short),
        with_room("no buffer", "A=.", 0, too_short),
        with_room("no buffer, and a name that is not defined", "A=B", 0, Err(Refused { number: 21, at: 2 })),
        with_room("a buffer far longer", "A=.", 100_000, Ok(ANY)),
    ]
}
