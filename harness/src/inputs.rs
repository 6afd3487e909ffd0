//! Inputs for the grammars of samples/, for sizes from 400 to 30,000 bytes. Each is made from its size alone: the same size gives the same bytes,
//! exactly that many of them, and the grammar accepts them within the greatest limits. The damaged form of an input is one that it does not accept.

use crate::random::Random;

/// What a user brings: a grammar of samples/ by its folder, and texts for it.
#[derive(Clone, Copy)]
pub struct Kind {
    pub name: &'static str,
    pub make: fn(usize) -> Vec<u8>,
    pub damage: fn(&[u8]) -> Vec<u8>,
}

pub const KINDS: [Kind; 5] = [
    Kind { name: "bulletin", make: bulletin, damage: damaged_bulletin },
    Kind { name: "tags", make: tags, damage: damaged_tags },
    Kind { name: "typedef", make: typedef, damage: damaged_typedef },
    Kind { name: "indentation", make: indentation, damage: damaged_indentation },
    Kind { name: "heredoc", make: heredoc, damage: damaged_heredoc },
];

fn between(random: &mut Random, low: usize, high: usize) -> usize {
    low + random.below(high - low + 1)
}

/// None begins with `z`, which the damage to a typedef text relies on.
pub(crate) const WORDS: [&str; 32] = [
    "anchor", "berth", "buoy", "cargo", "channel", "crane", "crew", "current", "deck", "draft", "dredger", "fender", "ferry", "gale", "harbour",
    "hatch", "hull", "keel", "lock", "mast", "mooring", "pier", "pilot", "quay", "radar", "rope", "shoal", "tide", "tug", "vessel", "watch", "wharf",
];

/// Words with a blank between them, exactly `count` bytes, without a blank at either end.
pub(crate) fn words(random: &mut Random, count: usize) -> String {
    let mut text = String::new();
    while text.len() < count {
        text.push_str(random.pick(&WORDS));
        text.push(' ');
    }
    text.truncate(count);
    if text.ends_with(' ') {
        text.pop();
        text.push('s');
    }
    text
}

/// The place behind the first line end at or after the middle.
fn line_after_middle(text: &[u8]) -> usize {
    let middle = text.len() / 2;
    middle + text[middle..].iter().position(|&byte| byte == b'\n').expect("a line ends in the second half") + 1
}

// ------------------------------------------------------------------------------------------------------------------- bulletin

/// One berth for every 150 bytes, each with its draft and a remark; the last line has no draft, so that the long form is given up there.
fn bulletin(bytes: usize) -> Vec<u8> {
    const LAST: &str = "Z9 shut for dredging until further notice\n";
    const END: &str = "END\n";
    let mut random = Random::new(1);
    let mut text = String::from("BULLETIN ROTTERDAM\n");
    let berths = (bytes / 150).max(2) - 1;
    for left in (1..=berths).rev() {
        let room = (bytes - text.len() - LAST.len() - END.len()) / left;
        let letter = (b'A' + random.below(25) as u8) as char;
        let line = format!("{letter}{} {}.{} ", left, between(&mut random, 4, 19), random.below(10));
        let remark = words(&mut random, room - line.len() - 1);
        text.push_str(&line);
        text.push_str(&remark);
        text.push('\n');
    }
    text.push_str(LAST);
    text.push_str(END);
    text.into_bytes()
}

/// A berth in the middle begins with a small letter, so that its line fits neither form.
fn damaged_bulletin(text: &[u8]) -> Vec<u8> {
    let mut text = text.to_vec();
    let at = line_after_middle(&text);
    text[at] = text[at].to_ascii_lowercase();
    text
}

// ----------------------------------------------------------------------------------------------------------------------- tags

const TAGS: [&str; 10] = ["berth", "call", "cargo", "crew", "item", "lading", "note", "pilot", "ship", "stay"];
const TAG_LEVELS: usize = 8;

/// One document: many elements side by side, at most eight levels of them.
fn tags(bytes: usize) -> Vec<u8> {
    let mut random = Random::new(2);
    let mut text = String::new();
    element(&mut random, &mut text, "manifest", 1, bytes - 1);
    text.push('\n');
    text.into_bytes()
}

fn element(random: &mut Random, text: &mut String, name: &str, level: usize, bytes: usize) {
    text.push_str(&format!("<{name}>"));
    inner(random, text, level, bytes - 2 * name.len() - 5);
    text.push_str(&format!("</{name}>"));
}

/// Words, or elements with a few words between them.
fn inner(random: &mut Random, text: &mut String, level: usize, bytes: usize) {
    let end = text.len() + bytes;
    while level < TAG_LEVELS && end - text.len() > 90 {
        let before = between(random, 1, 12);
        text.push_str(&words(random, before));
        text.push('\n');
        let left = end - text.len();
        let share = if random.percent(30) { left / 2 } else { left / 6 };
        let name = random.pick(&TAGS);
        element(random, text, name, level + 1, share.clamp(40, 2400).min(left));
    }
    let rest = words(random, end - text.len());
    text.push_str(&rest);
}

/// An end tag in the middle has another name.
fn damaged_tags(text: &[u8]) -> Vec<u8> {
    let mut text = text.to_vec();
    let middle = text.len() / 2;
    let at = middle + text[middle..].windows(2).position(|pair| pair == b"</").expect("an end tag stands in the second half") + 2;
    text[at] = if text[at] == b'x' { b'y' } else { b'x' };
    text
}

// -------------------------------------------------------------------------------------------------------------------- typedef

/// The text of a program with typedefs, and which names are types at its end.
struct Declarations {
    random: Random,
    text: String,
    types: Vec<String>,
    scopes: Vec<usize>,
    made: usize,
}

impl Declarations {
    fn new(seed: u64) -> Self {
        Declarations { random: Random::new(seed), text: String::new(), types: Vec::new(), scopes: Vec::new(), made: 0 }
    }

    fn fresh_name(&mut self) -> String {
        self.made += 1;
        format!("{}_{}", self.random.pick(&WORDS), self.made)
    }

    /// A name that stands for a type here: one in three is built in, and each of the others is as likely.
    fn some_type(&mut self) -> String {
        if self.types.is_empty() || self.random.percent(33) {
            return self.random.pick(&["int", "char"]).to_string();
        }
        self.types[self.random.below(self.types.len())].clone()
    }

    fn typedef(&mut self) {
        let old = self.some_type();
        let new = self.fresh_name();
        self.text.push_str(&format!("typedef {old} {new};\n"));
        self.types.push(new);
    }

    fn variable(&mut self) {
        let of = self.some_type();
        let name = self.fresh_name();
        self.text.push_str(&format!("{of} {name};\n"));
    }

    fn open(&mut self) {
        self.text.push_str("{\n");
        self.scopes.push(self.types.len());
    }

    /// Closes the innermost scope, if there is one.
    fn close(&mut self) {
        if let Some(visible) = self.scopes.pop() {
            self.text.push_str("}\n");
            self.types.truncate(visible);
        }
    }

    /// Closes what is open, and fills up to `bytes` with one more variable.
    fn end(mut self, bytes: usize) -> Vec<u8> {
        while !self.scopes.is_empty() {
            self.close();
        }
        let name = bytes - self.text.len() - "int ;\n".len();
        self.text.push_str(&format!("int {};\n", words(&mut self.random, name).replace(' ', "_")));
        self.text.into_bytes()
    }
}

/// One typedef for about every 80 bytes, scopes up to four deep with typedefs of their own, and variables of all types visible.
fn typedef(bytes: usize) -> Vec<u8> {
    let mut program = Declarations::new(3);
    let mut next_typedef = 0;
    while program.text.len() + 100 < bytes {
        let deep = program.scopes.len();
        if program.text.len() >= next_typedef {
            program.typedef();
            next_typedef += 80;
        } else if deep < 4 && program.random.percent(3) {
            program.open();
            program.variable();
        } else if deep > 0 && program.random.percent(12) {
            program.close();
        } else {
            program.variable();
        }
    }
    program.end(bytes)
}

/// How long the texts are in which so many names are held.
pub const BYTES_WITH_NAMES_HELD: usize = 16_000;

/// What few names are and what many, where the two are compared.
pub const FEW_AND_MANY: [usize; 2] = [20, 200];

/// 250 typedefs, then variables. The last `names` typedefs are held up to the end; those before stand in scopes of ten, and are dropped.
pub fn typedef_holding(names: usize) -> Vec<u8> {
    let mut program = Declarations::new(4);
    for dropped in 0..250 - names {
        if dropped % 10 == 0 {
            program.close();
            program.open();
        }
        program.typedef();
    }
    program.close();
    for _ in 0..names {
        program.typedef();
    }
    while program.text.len() + 100 < BYTES_WITH_NAMES_HELD {
        program.variable();
    }
    program.end(BYTES_WITH_NAMES_HELD)
}

/// A declaration in the middle begins with a name that is no type.
fn damaged_typedef(text: &[u8]) -> Vec<u8> {
    let mut text = text.to_vec();
    let mut at = line_after_middle(&text);
    while !text[at].is_ascii_lowercase() {
        at += 2;
    }
    text[at] = b'z';
    text
}

// ---------------------------------------------------------------------------------------------------------------- indentation

const INDENT_LEVELS: usize = 7;
const BLANKS: usize = 4;

/// Statements in bodies up to seven levels below the outermost, four blanks to a level; some run over lines between parentheses.
fn indentation(bytes: usize) -> Vec<u8> {
    let mut random = Random::new(5);
    let mut text = String::new();
    let mut level = 0;
    while text.len() + 200 < bytes {
        text.push_str(&" ".repeat(BLANKS * level));
        if level < INDENT_LEVELS && random.percent(35) {
            text.push_str(&format!("if {}:\n", random.pick(&WORDS)));
            level += 1;
        } else {
            let line = plain_statement(&mut random, level);
            text.push_str(&line);
            if random.percent(50) {
                level -= random.below(level + 1);
            }
        }
    }
    let open = format!("{}log(", " ".repeat(BLANKS * level));
    text.push_str(&open);
    let rest = words(&mut random, bytes - text.len() - 2);
    text.push_str(&rest);
    text.push_str(")\n");
    text.into_bytes()
}

fn plain_statement(random: &mut Random, level: usize) -> String {
    let name = random.pick(&WORDS);
    let count = between(random, 8, 40);
    let inside = words(random, count);
    match random.below(10) {
        0..=3 => format!("{name}\n"),
        4..=8 => format!("{name}({inside})\n"),
        _ => format!("{name}({inside}\n{}{})\n", " ".repeat(BLANKS * level + 8), words(random, count)),
    }
}

/// In the second half a statement that stands below another of its body has one blank less.
fn damaged_indentation(text: &[u8]) -> Vec<u8> {
    let blanks = |line: &[u8]| line.iter().take_while(|&&byte| byte == b' ').count();
    let whole = |line: &[u8]| line.iter().all(|&byte| byte == b' ' || byte.is_ascii_lowercase());
    let mut at = line_after_middle(text);
    let mut above: &[u8] = b":";
    for line in text[at..].split_inclusive(|&byte| byte == b'\n') {
        if blanks(line) > 0 && whole(above) && blanks(line) == blanks(above) {
            return [&text[..at], &text[at + 1..]].concat();
        }
        above = &line[..line.len() - 1];
        at += line.len();
    }
    panic!("no statement of the second half stands below another of its body")
}

// -------------------------------------------------------------------------------------------------------------------- heredoc

/// A script: lines, and here-documents of three to twenty-four lines, each closed by its name.
fn heredoc(bytes: usize) -> Vec<u8> {
    let mut random = Random::new(6);
    let mut text = String::new();
    while text.len() + 200 < bytes {
        let count = between(&mut random, 10, 60);
        let line = words(&mut random, count);
        text.push_str(&format!("echo {line}\n"));
        if random.percent(40) {
            here_document(&mut random, &mut text, bytes - 200);
        }
    }
    text.push_str("echo ");
    let rest = words(&mut random, bytes - text.len() - 1);
    text.push_str(&rest);
    text.push('\n');
    text.into_bytes()
}

/// Its lines begin with a capital letter, and some are capitals alone, or the closing name with more behind it.
fn here_document(random: &mut Random, text: &mut String, end: usize) {
    let name = random.pick(&["EOF", "END", "NOTICE", "TIDES", "LADING"]);
    text.push_str(&format!("cat <<{name}\n"));
    for _ in 0..between(random, 3, 24) {
        if text.len() > end {
            break;
        }
        let count = between(random, 20, 70);
        let line = words(random, count);
        match random.below(12) {
            0 => text.push_str(&format!("{}\n", random.pick(&["NOTE", "WARNING", "ENDS", "TIDE"]))),
            1 => text.push_str(&format!("{name} {line}\n")),
            2 => text.push('\n'),
            _ => text.push_str(&format!("{}{}\n", line[..1].to_ascii_uppercase(), &line[1..])),
        }
    }
    text.push_str(&format!("{name}\n"));
}

/// The last line does not end: every other text is a script.
fn damaged_heredoc(text: &[u8]) -> Vec<u8> {
    text[..text.len() - 1].to_vec()
}
