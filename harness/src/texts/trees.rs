//! Random productions: small, of all operators, with names of all three kinds that overlap, and with symbols that are stored and looked for.

use crate::cases::LETTERS;
use crate::notation::tree::{each, Expression, Name, Part, Place, Production};
use crate::random::Random;

/// Names, for productions, tables and conditions alike. Some go on from others, and some are words behind a `<`.
const NAMES: [&str; 28] = [
    "A", "B", "AB", "A1", "A_", "Ab", "a", "ab", "_", "_1", "__", "Z", "Berth", "Berth_2", "S", "T", "def", "defs", "is", "isa", "if", "iff", "on", "match",
    "block", "local", "exists", "x41",
];

/// Bytes that are written in some way of their own, somewhere.
const SPECIAL: &[u8] = b"\n\r\t\t\\'\"[]^-/*<>=(). !?+&\0\x1f\x7f\x80\xff";

/// Productions that keep all rules for names.
pub fn productions(random: &mut Random) -> Vec<Production> {
    let names = some_names(random, 5);
    let count = [0, 0, 1, 1, 2, 3][random.below(6)];
    let tables = if count == 0 { vec![] } else { some_names(random, count) };
    let count = random.below(3);
    let conditions = if count == 0 { vec![] } else { some_names(random, count) };
    let mut growing = Growing { random, own: 0, names, tables: Vec::new(), conditions };
    for table in tables {
        let pattern = growing.pattern();
        growing.tables.push((table, pattern));
    }
    growing.all()
}

/// So many names at most, one at least, and none twice.
fn some_names(random: &mut Random, most: usize) -> Vec<&'static str> {
    let mut names = Vec::new();
    for _ in 0..1 + random.below(most) {
        let name = random.pick(&NAMES);
        if !names.contains(&name) {
            names.push(name);
        }
    }
    names
}

pub fn name(text: &str) -> Name {
    Name { text: text.into(), at: Place::default() }
}

pub fn quoted(bytes: &[u8]) -> Expression {
    Expression::Quoted(bytes.to_vec(), Place::default())
}

pub fn def(table: &str, pattern: Expression) -> Expression {
    Expression::Def(name(table), Box::new(pattern), Place::default())
}

pub fn sequence(a: Expression, b: Expression) -> Expression {
    Expression::Sequence(Box::new(a), Box::new(b))
}

struct Growing<'a> {
    random: &'a mut Random,
    /// Which production is being made.
    own: usize,
    names: Vec<&'static str>,
    tables: Vec<(&'static str, Expression)>,
    conditions: Vec<&'static str>,
}

impl Growing<'_> {
    fn all(mut self) -> Vec<Production> {
        let mut productions = Vec::new();
        for own in 0..self.names.len() {
            self.own = own;
            let body = if !self.tables.is_empty() && self.random.percent(45) { self.scene() } else { self.row() };
            productions.push(Production { name: name(self.names[own]), body });
        }
        self.define_all(&mut productions);
        productions
    }

    /// A table that has no def yet gets one at the start of the first production.
    fn define_all(&mut self, productions: &mut [Production]) {
        for (table, pattern) in &self.tables {
            let mut defined = false;
            each(productions, &mut |e| defined |= matches!(e, Expression::Def(name, ..) if name.text == *table));
            if !defined {
                let body = &mut productions[0].body;
                *body = sequence(def(table, pattern.clone()), std::mem::replace(body, Expression::Any));
            }
        }
    }

    fn row(&mut self) -> Expression {
        let depth = self.random.below(4);
        let first = self.expression(depth);
        match self.random.below(3) {
            0 => first,
            1 => sequence(first, self.expression(1)),
            _ => sequence(first, sequence(self.expression(1), self.expression(1))),
        }
    }

    /// A symbol is stored, and behind it a symbol is looked for; all that often in a scope, under a switch or the like.
    fn scene(&mut self) -> Expression {
        let mut scene = self.looking();
        if self.random.percent(40) {
            scene = sequence(quoted(b"="), scene);
        }
        if self.random.percent(30) {
            scene = sequence(scene, self.expression(1));
        }
        scene = sequence(self.storing(), scene);
        scene = self.around(scene);
        if self.random.percent(40) {
            scene = sequence(scene, self.looking());
        }
        if self.random.percent(30) {
            scene = sequence(self.storing(), scene);
        }
        scene
    }

    fn around(&mut self, e: Expression) -> Expression {
        let e = Box::new(e);
        match self.random.below(12) {
            0 | 1 => Expression::Block(self.table(), e),
            2 | 3 => Expression::Local(self.table(), e),
            4 => Expression::Choice(e, Box::new(self.expression(1))),
            5 => Expression::Optional(e),
            6 => Expression::Plus(e),
            7 => Expression::And(e),
            8 if !self.conditions.is_empty() => Expression::On(self.condition(), self.random.percent(50), e),
            _ => *e,
        }
    }

    fn expression(&mut self, depth: usize) -> Expression {
        if depth == 0 {
            return self.leaf();
        }
        let depth = depth - 1;
        match self.random.below(24) {
            0..=3 => sequence(self.expression(depth), self.expression(depth)),
            4..=6 => Expression::Choice(self.boxed(depth), self.boxed(depth)),
            7 | 8 => Expression::Optional(self.boxed(depth)),
            9 | 10 => Expression::Star(self.repeated(depth)),
            11 | 12 => Expression::Plus(self.repeated(depth)),
            13 => Expression::Not(self.boxed(depth)),
            14 => Expression::And(self.boxed(depth)),
            15 | 16 if !self.conditions.is_empty() => Expression::On(self.condition(), self.random.percent(50), self.boxed(depth)),
            17 if !self.tables.is_empty() => Expression::Block(self.table(), self.boxed(depth)),
            18 if !self.tables.is_empty() => Expression::Local(self.table(), self.boxed(depth)),
            19 if !self.tables.is_empty() => self.storing(),
            _ => self.leaf(),
        }
    }

    fn boxed(&mut self, depth: usize) -> Box<Expression> {
        Box::new(self.expression(depth))
    }

    /// What a repetition repeats: mostly something that takes a byte.
    fn repeated(&mut self, depth: usize) -> Box<Expression> {
        Box::new(match self.random.below(8) {
            0 => self.expression(depth),
            1 => sequence(self.taking(), self.expression(depth)),
            _ => self.taking(),
        })
    }

    fn taking(&mut self) -> Expression {
        match self.random.below(5) {
            0 => Expression::Any,
            1 | 2 => self.class(),
            _ => {
                let count = 1 + self.random.below(3);
                self.quoted(count)
            }
        }
    }

    fn leaf(&mut self) -> Expression {
        match self.random.below(16) {
            0 => Expression::Any,
            1 | 2 => self.call(),
            3 | 4 if !self.tables.is_empty() => self.looking(),
            5 | 6 if !self.conditions.is_empty() => Expression::If(self.condition(), self.random.percent(50)),
            7..=10 => self.class(),
            11 => self.quoted(0),
            12 | 13 => self.quoted(1),
            _ => {
                let count = 2 + self.random.below(2);
                self.quoted(count)
            }
        }
    }

    /// Mostly a later production, so that few runs go down for ever.
    fn call(&mut self) -> Expression {
        let later = self.own + 1;
        let called = match later < self.names.len() && self.random.percent(90) {
            true => later + self.random.below(self.names.len() - later),
            false if self.random.percent(70) => return self.class(),
            false => self.random.below(self.names.len()),
        };
        Expression::Call(name(self.names[called]))
    }

    fn table(&mut self) -> Name {
        let table = self.random.below(self.tables.len());
        name(self.tables[table].0)
    }

    fn condition(&mut self) -> Name {
        name(self.random.pick(&self.conditions))
    }

    fn storing(&mut self) -> Expression {
        let (table, pattern) = &self.tables[self.random.below(self.tables.len())];
        def(table, pattern.clone())
    }

    fn looking(&mut self) -> Expression {
        let table = self.table();
        match self.random.below(4) {
            0 => Expression::Match(table),
            1 => Expression::Is(table),
            2 => Expression::Isa(table),
            _ => Expression::Exists(table),
        }
    }

    /// A table's pattern: letters mostly. It may store symbols of the tables that are there before.
    fn pattern(&mut self) -> Expression {
        match self.random.below(8) {
            0..=2 => Expression::Plus(Box::new(Expression::Class(vec![Part::Range(b'A', b'B')]))),
            3 => self.class(),
            4 => Expression::Star(Box::new(Expression::Class(vec![Part::Byte(b'A'), Part::Byte(b'B')]))),
            5 => Expression::Call(name(self.names[self.names.len() - 1])),
            6 => Expression::Optional(Box::new(self.taking())),
            _ => self.expression(2),
        }
    }

    fn byte(&mut self) -> u8 {
        match self.random.below(40) {
            0 => self.random.byte(),
            1..=4 => self.random.pick(SPECIAL),
            _ => self.random.pick(LETTERS),
        }
    }

    fn quoted(&mut self, count: usize) -> Expression {
        let bytes: Vec<u8> = (0..count).map(|_| self.byte()).collect();
        quoted(&bytes)
    }

    fn class(&mut self) -> Expression {
        let count = self.random.pick(&[1, 1, 1, 2, 3, 4]);
        let mut parts: Vec<Part> = (0..count).map(|_| self.part()).collect();
        if self.random.percent(8) {
            let at = self.random.below(parts.len() + 1);
            parts.insert(at, Part::Byte(self.random.pick(b"-^-^]")));
        }
        Expression::Class(parts)
    }

    fn part(&mut self) -> Part {
        let low = self.byte();
        match self.random.percent(50) {
            true => Part::between(low, low.saturating_add(self.random.pick(&[0, 1, 1, 25, 255]))),
            false => Part::Byte(low),
        }
    }
}
