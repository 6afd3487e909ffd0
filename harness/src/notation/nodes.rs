//! How nodes are numbered: as expressions end, the productions one after the other.

use std::collections::{BTreeSet, HashMap};

use super::naming::{conditions, defs};
use super::tree::{Expression, Name, Part, Place, Production};
use super::Fault;
use crate::grammar::{Grammar, Node};

/// Productions as nodes.
pub struct Numbered {
    pub grammar: Grammar,
    /// The names of the tables, in the order of their numbers.
    pub tables: Vec<String>,
    /// For each production how many nodes there are up to its end.
    pub ends: Vec<usize>,
}

/// Numbers the productions' nodes. All names are defined, and no production twice.
pub fn number(productions: &[Production], fault: Option<Fault>) -> Numbered {
    let defined = defs(productions);
    let tables = match fault {
        Some(Fault::TablesAsTheyCome) => as_they_come(defined.iter().map(|def| def.table)),
        _ => in_byte_order(defined.iter().map(|def| def.table)),
    };
    let conditions = in_byte_order(conditions(productions).into_iter());
    let names = productions.iter().map(|production| production.name.text.as_str()).collect::<Vec<_>>();
    let mut numbering =
        Numbering { names: numbers(&names), tables: numbers(&tables), conditions: numbers(&conditions), patterns: HashMap::new(), nodes: Vec::new(), fault };
    let ends: Vec<usize> = productions.iter().map(|production| numbering.expression(&production.body) + 1).collect();
    let Numbering { mut nodes, patterns, .. } = numbering;
    for node in &mut nodes {
        if let Node::Call(called) = node {
            *called = ends[*called] - 1;
        }
    }
    let patterns = (0..tables.len()).map(|table| patterns[&table].1).collect();
    let grammar = Grammar { conditions: conditions.len(), start: ends[0] - 1, patterns, nodes };
    Numbered { grammar, tables: tables.into_iter().map(String::from).collect(), ends }
}

/// A name comes before those that go on from it.
fn in_byte_order<'a>(names: impl Iterator<Item = &'a Name>) -> Vec<&'a str> {
    let names: BTreeSet<&[u8]> = names.map(|name| name.text.as_bytes()).collect();
    names.into_iter().map(|name| std::str::from_utf8(name).expect("a name has letters, digits and _")).collect()
}

fn as_they_come<'a>(names: impl Iterator<Item = &'a Name>) -> Vec<&'a str> {
    let mut come: Vec<&str> = Vec::new();
    for name in names {
        if !come.contains(&name.text.as_str()) {
            come.push(&name.text);
        }
    }
    come
}

/// The number of each name.
fn numbers<'a>(names: &[&'a str]) -> HashMap<&'a str, usize> {
    names.iter().enumerate().map(|(number, name)| (*name, number)).collect()
}

struct Numbering<'a> {
    names: HashMap<&'a str, usize>,
    tables: HashMap<&'a str, usize>,
    conditions: HashMap<&'a str, usize>,
    /// For each table the def that gives its pattern: where it begins, and the pattern's node.
    patterns: HashMap<usize, (Place, usize)>,
    /// A Call has the number of a production until all are numbered.
    nodes: Vec<Node>,
    fault: Option<Fault>,
}

impl Numbering<'_> {
    fn has(&self, fault: Fault) -> bool {
        self.fault == Some(fault)
    }

    /// Adds a node and gives its number.
    fn add(&mut self, node: Node) -> usize {
        self.nodes.push(node);
        self.nodes.len() - 1
    }

    /// The expression's own node: the last of its nodes.
    fn expression(&mut self, e: &Expression) -> usize {
        let node = match e {
            Expression::Quoted(bytes, _) => match bytes.as_slice() {
                [] => Node::Empty,
                [byte] => Node::Byte(*byte),
                bytes => Node::Text(bytes.to_vec()),
            },
            Expression::Any => Node::Any,
            Expression::Class(parts) => return self.class(parts),
            Expression::Sequence(a, b) => Node::Sequence(self.expression(a), self.expression(b)),
            Expression::Choice(a, b) => Node::Choice(self.expression(a), self.expression(b)),
            Expression::Optional(e) => {
                let e = self.expression(e);
                Node::Choice(e, self.add(Node::Empty))
            }
            Expression::Star(e) => Node::Star(self.expression(e)),
            Expression::Plus(e) => {
                let once = self.expression(e);
                let again = self.again(e, once);
                Node::Sequence(once, self.add(Node::Star(again)))
            }
            Expression::Not(e) => Node::Not(self.expression(e)),
            Expression::And(e) => {
                let e = self.expression(e);
                Node::Not(self.add(Node::Not(e)))
            }
            Expression::Call(name) => Node::Call(self.names[name.text.as_str()]),
            Expression::Def(table, e, at) => {
                let pattern = self.expression(e);
                let table = self.table(table);
                self.pattern(table, *at, pattern);
                Node::Def(table)
            }
            Expression::Match(table) => Node::Match(self.table(table)),
            Expression::Is(table) => Node::Is(self.table(table)),
            Expression::Isa(table) => Node::Isa(self.table(table)),
            Expression::Exists(table) => Node::Exists(self.table(table)),
            Expression::Block(table, e) => Node::Block(self.table(table), self.expression(e)),
            Expression::Local(table, e) => Node::Local(self.table(table), self.expression(e)),
            Expression::If(condition, truth) => Node::If(self.condition(condition), *truth),
            Expression::On(condition, truth, e) => Node::On(self.condition(condition), *truth, self.expression(e)),
        };
        self.add(node)
    }

    fn table(&self, name: &Name) -> usize {
        self.tables[name.text.as_str()]
    }

    fn condition(&self, name: &Name) -> usize {
        self.conditions[name.text.as_str()]
    }

    /// First the parts, and then the choices, that of the last two parts first.
    fn class(&mut self, parts: &[Part]) -> usize {
        let parts: Vec<usize> = parts
            .iter()
            .map(|part| match part {
                Part::Byte(byte) => self.add(Node::Byte(*byte)),
                Part::Range(low, high) => self.add(Node::Range(*low, *high)),
            })
            .collect();
        let all = parts.into_iter().rev().reduce(|rest, part| self.add(Node::Choice(part, rest)));
        all.expect("a class has a part")
    }

    /// What the Star of a `+` repeats: the operand's own node.
    fn again(&mut self, e: &Expression, once: usize) -> usize {
        // Copies of copies grow fast, and nobody asks for them past the limit of nodes.
        if self.has(Fault::PlusCopies) && self.nodes.len() <= 512 {
            return self.expression(e);
        }
        once
    }

    /// A def's pattern: it is the table's if no other def begins before.
    fn pattern(&mut self, table: usize, at: Place, node: usize) {
        let last = self.has(Fault::LastPattern);
        let pattern = self.patterns.entry(table).or_insert((at, node));
        if (at.0 < pattern.0 .0) != last {
            *pattern = (at, node);
        }
    }
}
