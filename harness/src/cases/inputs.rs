//! Random inputs: what a grammar might say, the same with a byte wrong, and letters without meaning.

use super::grammars::LETTERS;
use crate::grammar::{Grammar, Node};
use crate::random::Random;

/// An input for the grammar.
pub fn input(random: &mut Random, grammar: &Grammar) -> Vec<u8> {
    if random.percent(25) {
        return letters(random, 8);
    }
    let rounds = if random.percent(2) { 300 } else { 4 };
    let mut speaker = Speaker { grammar, rounds, left: 100 * rounds, said: Vec::new(), names: Default::default(), random };
    speaker.say(grammar.start, 30);
    let mut input = speaker.said;
    if random.percent(40) {
        let more = letters(random, 4);
        input.extend(more);
    }
    if random.percent(35) {
        alter(random, &mut input);
    }
    input
}

fn letters(random: &mut Random, end: usize) -> Vec<u8> {
    (0..random.below(end)).map(|_| random.pick(LETTERS)).collect()
}

/// One byte more, less or other, or the end cut off.
fn alter(random: &mut Random, input: &mut Vec<u8>) {
    let at = random.below(input.len() + 1);
    let letter = random.pick(LETTERS);
    match random.below(4) {
        0 => input.insert(at, letter),
        1 => input.truncate(at),
        2 if at < input.len() => input[at] = letter,
        3 if at < input.len() => drop(input.remove(at)),
        _ => input.push(letter),
    }
}

/// After so many bytes nothing more is said. (A name that is said within a longer name soon grows without end.)
const ENOUGH: usize = 600;

/// Says bytes that a grammar could accept: it takes either alternative, and does not look at what a Not or a condition asks.
struct Speaker<'a> {
    grammar: &'a Grammar,
    /// Stars go fewer rounds than this.
    rounds: usize,
    /// How many more nodes may be entered.
    left: usize,
    said: Vec<u8>,
    /// For each table what was said for its symbols.
    names: [Vec<Vec<u8>>; 8],
    random: &'a mut Random,
}

impl Speaker<'_> {
    fn say(&mut self, node: usize, depth: usize) {
        if depth == 0 || self.left == 0 || self.said.len() > ENOUGH {
            return;
        }
        self.left -= 1;
        let depth = depth - 1;
        let grammar = self.grammar;
        match grammar.nodes[node] {
            Node::Empty | Node::Not(_) | Node::Exists(_) | Node::If(..) => {}
            Node::Byte(byte) => self.said.push(byte),
            Node::Range(low, high) => {
                let byte = low + self.random.below((high - low).min(2) as usize + 1) as u8;
                self.said.push(byte);
            }
            Node::Any => self.said.push(self.random.pick(LETTERS)),
            Node::Text(ref bytes) => self.said.extend(bytes),
            Node::Sequence(a, b) => {
                self.say(a, depth);
                self.say(b, depth);
            }
            Node::Choice(a, b) => {
                let either = self.random.pick(&[a, b]);
                self.say(either, depth);
            }
            Node::Star(a) => {
                for _ in 0..self.random.below(self.rounds) {
                    self.say(a, depth);
                }
            }
            Node::Call(a) => self.say(a, depth),
            Node::Def(table) => {
                let from = self.said.len();
                self.say(grammar.patterns[table], depth);
                self.names[table].push(self.said[from..].to_vec());
            }
            Node::Match(table) | Node::Is(table) => self.say_name(table, 1),
            Node::Isa(table) => self.say_name(table, 3),
            Node::Block(table, a) => {
                let kept = self.names[table].len();
                self.say(a, depth);
                self.names[table].truncate(kept);
            }
            Node::Local(table, a) => {
                let kept = std::mem::take(&mut self.names[table]);
                self.say(a, depth);
                self.names[table] = kept;
            }
            Node::On(_, _, a) => {
                let kept = self.names.clone();
                self.say(a, depth);
                self.names = kept;
            }
        }
    }

    /// Says one of the table's latest names; now and then with a letter too many.
    fn say_name(&mut self, table: usize, latest: usize) {
        let names = &self.names[table];
        if !names.is_empty() {
            self.said.extend(&names[names.len() - 1 - self.random.below(latest.min(names.len()))]);
        }
        if self.random.percent(20) {
            self.said.push(self.random.pick(LETTERS));
        }
    }
}
