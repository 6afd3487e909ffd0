//! Random grammars: small, of all kinds, and with symbols that are stored, looked for, hidden, dropped and put back.

use crate::grammar::{Grammar, Node};
use crate::random::Random;

/// The bytes of which texts and inputs are made: few, so that they often match.
pub const LETTERS: &[u8] = b"AABB=;a";

/// A grammar within 01's ranges.
pub fn grammar(random: &mut Random) -> Grammar {
    let tables = random.below(4);
    let conditions = random.below(3);
    let mut growing = Growing { tables, conditions, nodes: Vec::new(), random };
    growing.leaves();
    growing.mixed();
    if tables > 0 && growing.random.percent(75) {
        for _ in 0..1 + growing.random.below(4) {
            growing.scene();
        }
    }
    growing.finish()
}

struct Growing<'a> {
    tables: usize,
    conditions: usize,
    nodes: Vec<Node>,
    random: &'a mut Random,
}

impl Growing<'_> {
    /// Adds a node and gives its number.
    fn add(&mut self, node: Node) -> usize {
        self.nodes.push(node);
        self.nodes.len() - 1
    }

    fn table(&mut self) -> usize {
        self.random.below(self.tables)
    }

    /// A node to stand inside the next one: often one of the latest.
    fn lower(&mut self) -> usize {
        let own = self.nodes.len();
        if self.random.percent(60) {
            own - 1 - self.random.below(own.min(3))
        } else {
            self.random.below(own)
        }
    }

    fn leaf(&mut self) -> Node {
        match self.random.below(12) {
            0 => Node::Empty,
            1 | 2 => Node::Any,
            3 | 4 => Node::Byte(self.random.pick(LETTERS)),
            5..=7 => Node::Text((0..1 + self.random.below(3)).map(|_| self.random.pick(LETTERS)).collect()),
            _ => {
                let low = self.random.pick(&[b'A', b'A', b'B', b'a', 0]);
                Node::Range(low, low.saturating_add(self.random.pick(&[0, 1, 25, 255])))
            }
        }
    }

    /// The first nodes, which the patterns are mostly taken from: leaves, or a letter and words of such letters.
    fn leaves(&mut self) {
        if self.random.percent(50) {
            let letter = self.add(Node::Range(b'A', b'B'));
            let letters = self.add(Node::Star(letter));
            self.add(Node::Sequence(letter, letters));
            return;
        }
        for _ in 0..3 {
            let leaf = self.leaf();
            self.add(leaf);
        }
    }

    /// Nodes of all kinds for which there is a table or a condition.
    fn mixed(&mut self) {
        for _ in 0..1 + self.random.below(8) {
            let node = match self.random.below(17) {
                0 | 1 => self.leaf(),
                2 | 3 => Node::Sequence(self.lower(), self.lower()),
                4 | 5 => Node::Choice(self.lower(), self.lower()),
                6 => Node::Star(self.lower()),
                7 => Node::Not(self.lower()),
                8 => Node::Call(self.called()),
                9 | 10 if self.conditions > 0 => Node::If(self.random.below(self.conditions), self.random.percent(50)),
                11 if self.conditions > 0 => Node::On(self.random.below(self.conditions), self.random.percent(50), self.lower()),
                12 if self.tables > 0 => Node::Block(self.table(), self.lower()),
                13 if self.tables > 0 => Node::Local(self.table(), self.lower()),
                14 if self.tables > 0 => Node::Def(self.table()),
                15 | 16 if self.tables > 0 => {
                    let table = self.table();
                    self.looking(table)
                }
                _ => self.leaf(),
            };
            self.add(node);
        }
    }

    /// Now and then the node itself or one of the next two; the last three nodes stand in for those that are not there.
    fn called(&mut self) -> usize {
        let own = self.nodes.len();
        if self.random.percent(70) {
            self.random.below(own)
        } else {
            own + self.random.below(3)
        }
    }

    /// A node that looks for the table's symbols.
    fn looking(&mut self, table: usize) -> Node {
        match self.random.below(4) {
            0 => Node::Match(table),
            1 => Node::Is(table),
            2 => Node::Isa(table),
            _ => Node::Exists(table),
        }
    }

    /// A symbol is stored, behind it a symbol is looked for, and all that stands in a scope or the like. A symbol may have been stored before it, or
    /// be looked for behind it.
    fn scene(&mut self) {
        let before = self.nodes.len() - 1;
        let table = self.table();
        let looking = self.body(table, before);
        let inner = if self.random.percent(65) { self.after_def(table, looking) } else { looking };
        let around = self.around(table, inner, before);
        match self.random.below(3) {
            0 => {
                let node = self.looking(table);
                let behind = self.add(node);
                self.add(Node::Sequence(around, behind));
            }
            1 => drop(self.after_def(table, around)),
            _ => {}
        }
    }

    /// The table, or now and then another.
    fn about(&mut self, table: usize) -> usize {
        if self.random.percent(75) {
            table
        } else {
            self.table()
        }
    }

    fn after_def(&mut self, table: usize, node: usize) -> usize {
        let table = self.about(table);
        let def = self.add(Node::Def(table));
        self.add(Node::Sequence(def, node))
    }

    /// Looks for a symbol, often behind a `=`, and beside the nodes that were there before.
    fn body(&mut self, table: usize, before: usize) -> usize {
        let table = self.about(table);
        let node = self.looking(table);
        let mut looking = self.add(node);
        if self.random.percent(50) {
            let equals = self.add(Node::Byte(b'='));
            looking = self.add(Node::Sequence(equals, looking));
        }
        match self.random.below(5) {
            0 => self.add(Node::Choice(looking, before)),
            1 => self.add(Node::Sequence(looking, before)),
            2 => self.add(Node::Sequence(before, looking)),
            _ => looking,
        }
    }

    /// What is inside comes into a scope, under a switch, into a star or a Not, or becomes a first alternative.
    fn around(&mut self, table: usize, inner: usize, before: usize) -> usize {
        let table = self.about(table);
        match self.random.below(11) {
            0 | 1 => self.add(Node::Block(table, inner)),
            2..=4 => self.add(Node::Local(table, inner)),
            5 | 6 => self.add(Node::Choice(inner, before)),
            7 => self.add(Node::Star(inner)),
            8 => self.add(Node::Not(inner)),
            9 if self.conditions > 0 => self.add(Node::On(self.conditions - 1, false, inner)),
            _ => inner,
        }
    }

    /// The start is mostly the last node, a pattern mostly one of the first.
    fn finish(mut self) -> Grammar {
        let count = self.nodes.len();
        for node in &mut self.nodes {
            if let Node::Call(a) = node {
                *a = (*a).min(count - 1);
            }
        }
        let patterns = (0..self.tables).map(|_| if self.random.percent(85) { self.random.below(count.min(4)) } else { self.random.below(count) });
        Grammar {
            conditions: self.conditions,
            patterns: patterns.collect(),
            start: if self.random.percent(90) { count - 1 } else { self.random.below(count) },
            nodes: self.nodes,
        }
    }
}
