//! A long grammar, as one is written by hand: names of several words, comments before each production, parts on lines of their own.
//!
//! It comes in sections of equal length that use no name of a later one, so that its front is a grammar too.

use crate::inputs::{words, WORDS};
use crate::random::Random;

/// How many bytes a section has.
pub const SECTION: usize = 7_500;
/// How many sections there are in all: 60,000 bytes.
pub const SECTIONS: usize = 8;
/// How many nodes two sections become: 500 in all.
pub const NODES_OF_TWO: usize = 125;

/// The first sections of the grammar.
pub fn long(sections: usize) -> Vec<u8> {
    let mut random = Random::new(7);
    let (mut text, mut names) = (String::new(), Vec::new());
    for number in 1..=sections {
        section(&mut random, &mut text, &mut names, number);
        assert_eq!(text.len(), number * SECTION);
    }
    text.into_bytes()
}

/// The bodies of a section's productions; `@` stands for a name. Their nodes, by docs/notation.md, are 11, 5, 5, 10, 10, 6, 5, 9 and 1.
const BODIES: [&str; 9] = [
    r#"'the harbour master gives notice to all pilots: ' @ (", and to those who wait outside the bar: " @)? '\n'"#,
    "@ @ @",
    "'wind from the north, rising at the turn of the tide ' @ / @",
    "[A-Z] [A-Za-z0-9_]*",
    "<def BERTHS_THAT_ARE_OPEN [A-Z] [0-9]+> ' ' @",
    "!'END OF THE BULLETIN' <if THE_SECTION_IS_RESTRICTED> @",
    "<is BERTHS_THAT_ARE_OPEN> ' ' @",
    r#"&@ "shut for dredging until further notice" @+"#,
    "@",
];

const INDENT: &str = "                        ";

/// A section. Where its number is even, its last production repeats what it calls, which is one node more.
fn section(random: &mut Random, text: &mut String, names: &mut Vec<String>, number: usize) {
    let first = names.len();
    for i in 1..=BODIES.len() {
        let words = [0; 6].map(|_| random.pick(&WORDS)).join("_");
        names.push(format!("Line_of_{words}_{number}{i}"));
    }
    for (i, body) in BODIES.into_iter().enumerate() {
        let last = i + 1 == BODIES.len();
        let body = if last && number % 2 == 0 { "@*" } else { body };
        let production = format!("{}\n{INDENT}= {}\n\n", names[first + i], with_names(random, names, body));
        let end = (number - 1) * SECTION + (i + 1) * SECTION / BODIES.len();
        comment(random, text, end - production.len(), i % 2 == 0);
        text.push_str(&production);
    }
}

/// A body with some name for each `@`, on a line of its own.
fn with_names(random: &mut Random, names: &[String], body: &str) -> String {
    let mut parts = body.split('@');
    let front = parts.next().unwrap_or_default().to_string();
    parts.fold(front, |text, part| format!("{text}\n{INDENT}  {}{part}", names[random.below(names.len())]))
}

/// A comment up to a length: lines, or a block of them.
fn comment(random: &mut Random, text: &mut String, end: usize, lines: bool) {
    let [open, front, close] = if lines { ["", "// ", ""] } else { ["/*\n", " * ", " */\n"] };
    text.push_str(open);
    let end = end - close.len();
    while text.len() < end {
        let left = end - text.len();
        let line = if left < 200 { left } else { 100 };
        text.push_str(&format!("{front}{}\n", words(random, line - front.len() - 1)));
    }
    text.push_str(close);
}
