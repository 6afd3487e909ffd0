//! The nineteen kinds, with steps, depth and room.
//!
//! The symbols of all tables are in one store, and a mark is its length at some moment. An expression alters nothing below the mark at which it began,
//! so one that fails undoes nothing: whoever goes on after the failure cuts the store back to that mark.

use super::image::{Grammar, Node};
use super::watch::{Happening, Watch};
use crate::{Limits, Refusal};

/// A symbol: a part of the input, held by a table.
#[derive(Clone, Copy)]
pub struct Symbol {
    pub table: u8,
    pub from: u16,
    pub to: u16,
}

/// The run is refused; it keeps by what number, and where.
struct Refused;

/// Where an expression that passed ends, none if it failed; or refused.
type Outcome = Result<Option<usize>, Refused>;

/// A run under way.
pub struct Run<'a, W> {
    nodes: &'a [Node],
    patterns: [u16; 8],
    image: &'a [u8],
    input: &'a [u8],
    limits: Limits,
    steps_left: u32,
    deepest: u32,
    /// The store, oldest first.
    symbols: Vec<Symbol>,
    /// For each table the mark below which a Local hides its symbols.
    floors: [u16; 8],
    truths: [bool; 8],
    refusal: Refusal,
    watch: W,
}

impl<'a, W: Watch> Run<'a, W> {
    pub fn new(grammar: &'a Grammar, image: &'a [u8], input: &'a [u8], limits: Limits, watch: W) -> Run<'a, W> {
        Run {
            nodes: &grammar.nodes,
            patterns: grammar.patterns,
            image,
            input,
            limits,
            steps_left: limits.steps,
            deepest: 0,
            symbols: Vec::new(),
            floors: [0; 8],
            truths: [true; 8],
            refusal: Refusal { number: 0, place: 0 },
            watch,
        }
    }

    /// Runs the node that a run begins with: where it ends, none if it fails, or the refusal.
    pub fn begin(&mut self, start: u16) -> Result<Option<usize>, Refusal> {
        self.eval(self.node(start), 0, 1).map_err(|Refused| self.refusal)
    }

    /// The steps spent.
    pub fn steps(&self) -> u32 {
        self.limits.steps - self.steps_left
    }

    /// The greatest depth entered.
    pub fn deepest(&self) -> u32 {
        self.deepest
    }

    /// The symbols held, oldest first.
    pub fn symbols(&self) -> &[Symbol] {
        &self.symbols
    }

    #[cold]
    fn refuse<T>(&mut self, number: u32, place: usize) -> Result<T, Refused> {
        self.refusal = Refusal { number, place: place as u32 };
        Err(Refused)
    }

    /// The step limit is looked at first, then the depth limit, which the greatest depth entered is never above; a refused entry is not charged.
    #[inline]
    fn charge(&mut self, at: usize, depth: u32) -> Result<(), Refused> {
        if self.steps_left == 0 {
            return self.refuse(12, at);
        }
        if depth > self.deepest {
            if depth > self.limits.depth {
                return self.refuse(13, at);
            }
            self.deepest = depth;
        }
        self.steps_left -= 1;
        Ok(())
    }

    /// A round of a Star after its first costs a step, and no depth.
    #[inline]
    fn charge_round(&mut self, at: usize) -> Result<(), Refused> {
        if self.steps_left == 0 {
            return self.refuse(12, at);
        }
        self.steps_left -= 1;
        Ok(())
    }

    #[inline]
    fn node(&self, number: u16) -> &'a Node {
        &self.nodes[usize::from(number)]
    }

    /// Runs a node. A single byte is looked at on the spot; all else is a call.
    #[inline(always)]
    fn eval(&mut self, node: &'a Node, at: usize, depth: u32) -> Outcome {
        match *node {
            Node::One(low, high) => {
                self.charge(at, depth)?;
                Ok(self.one(low, high, at))
            }
            _ => self.enter(node, at, depth),
        }
    }

    /// Runs a node, and with it the node that it ends with: the second of a Sequence or of a Choice, and what a Call names.
    fn enter(&mut self, mut node: &'a Node, mut at: usize, mut depth: u32) -> Outcome {
        loop {
            self.charge(at, depth)?;
            depth += 1;
            node = match *node {
                Node::Empty => return Ok(Some(at)),
                Node::One(low, high) => return Ok(self.one(low, high, at)),
                Node::Text(place, count) => return Ok(self.goes_on_with(self.raw_bytes(place, count), at)),
                Node::Sequence(a, b) => {
                    match self.eval(self.node(a), at, depth)? {
                        Some(end) => at = end,
                        None => return Ok(None),
                    }
                    self.node(b)
                }
                Node::Choice(a, b) => {
                    let mark = self.symbols.len();
                    let first = self.eval(self.node(a), at, depth)?;
                    if first.is_some() {
                        return Ok(first);
                    }
                    self.symbols.truncate(mark);
                    self.node(b)
                }
                Node::Star(a) => return self.star(self.node(a), at, depth),
                Node::Not(a) => {
                    let fails = self.eval_and_drop(self.node(a), at, depth)?.is_none();
                    return Ok(fails.then_some(at));
                }
                Node::Call(a) => self.node(a),
                Node::Def(table) => return self.def(table, at, depth),
                Node::Match(table) => return Ok(self.latest(table).and_then(|symbol| self.goes_on_with(self.text(symbol), at))),
                Node::Is(table) => return self.is(table, at, depth),
                Node::Isa(table) => return self.isa(table, at, depth),
                Node::Exists(table) => return Ok(self.latest(table).map(|_| at)),
                Node::Block(table, a) => return self.block(table, self.node(a), at, depth),
                Node::Local(table, a) => return self.local(table, self.node(a), at, depth),
                Node::If(condition, truth) => return Ok((self.truths[usize::from(condition)] == truth).then_some(at)),
                Node::On(condition, truth, a) => return self.on(condition, truth, self.node(a), at, depth),
            };
        }
    }

    #[inline]
    fn one(&self, low: u8, high: u8, at: usize) -> Option<usize> {
        match self.input.get(at) {
            Some(&byte) if low <= byte && byte <= high => Some(at + 1),
            _ => None,
        }
    }

    /// The bytes of a Text.
    #[inline]
    fn raw_bytes(&self, place: u16, count: u8) -> &'a [u8] {
        &self.image[usize::from(place)..][..usize::from(count)]
    }

    /// Most texts are short, or differ early: a loop takes less time than a call that compares memory.
    #[inline]
    fn goes_on_with(&self, text: &[u8], at: usize) -> Option<usize> {
        let rest = &self.input[at..];
        let same = text.len() <= rest.len() && text.iter().zip(rest).all(|(a, b)| a == b);
        same.then_some(at + text.len())
    }

    #[inline(always)]
    fn star(&mut self, body: &'a Node, mut at: usize, depth: u32) -> Outcome {
        loop {
            let mark = self.symbols.len();
            match self.eval(body, at, depth)? {
                Some(end) if end == at => return self.refuse(15, at),
                Some(end) => at = end,
                None => {
                    self.symbols.truncate(mark);
                    return Ok(Some(at));
                }
            }
            self.charge_round(at)?;
        }
    }

    /// Runs a node and drops what it stored, whether it passes or fails.
    #[inline(always)]
    fn eval_and_drop(&mut self, node: &'a Node, at: usize, depth: u32) -> Outcome {
        let mark = self.symbols.len();
        let end = self.eval(node, at, depth)?;
        self.symbols.truncate(mark);
        Ok(end)
    }

    fn pattern(&mut self, table: u8, at: usize, depth: u32) -> Outcome {
        self.eval_and_drop(self.node(self.patterns[usize::from(table)]), at, depth)
    }

    fn def(&mut self, table: u8, at: usize, depth: u32) -> Outcome {
        let end = self.pattern(table, at, depth)?;
        if let Some(end) = end {
            if self.symbols.len() >= self.limits.room as usize {
                return self.refuse(14, at);
            }
            self.symbols.push(Symbol { table, from: at as u16, to: end as u16 });
        }
        Ok(end)
    }

    fn is(&mut self, table: u8, at: usize, depth: u32) -> Outcome {
        match self.latest(table) {
            Some(symbol) => Ok(self.pattern(table, at, depth)?.filter(|&end| self.equal(symbol, &self.input[at..end]))),
            None => Ok(None),
        }
    }

    fn isa(&mut self, table: u8, at: usize, depth: u32) -> Outcome {
        if self.latest(table).is_none() {
            return Ok(None);
        }
        Ok(self.pattern(table, at, depth)?.filter(|&end| self.is_listed(table, &self.input[at..end])))
    }

    fn block(&mut self, table: u8, body: &'a Node, at: usize, depth: u32) -> Outcome {
        let mark = self.symbols.len();
        let end = self.eval(body, at, depth)?;
        if end.is_some() {
            if W::WATCHES {
                self.watch.sees(Happening::Closed { table, inside: &self.symbols[mark..] });
            }
            self.drop_from(mark, table);
        }
        Ok(end)
    }

    fn local(&mut self, table: u8, body: &'a Node, at: usize, depth: u32) -> Outcome {
        let floor = self.floors[usize::from(table)];
        self.floors[usize::from(table)] = self.symbols.len() as u16;
        let end = self.block(table, body, at, depth)?;
        self.floors[usize::from(table)] = floor;
        Ok(end)
    }

    fn on(&mut self, condition: u8, truth: bool, body: &'a Node, at: usize, depth: u32) -> Outcome {
        let before = self.truths[usize::from(condition)];
        self.truths[usize::from(condition)] = truth;
        let end = self.eval_and_drop(body, at, depth)?;
        self.truths[usize::from(condition)] = before;
        Ok(end)
    }

    /// The symbols that no Local hides from the table: its own are its list, oldest first.
    #[inline]
    fn visible(&self, table: u8) -> &[Symbol] {
        &self.symbols[usize::from(self.floors[usize::from(table)])..]
    }

    fn latest(&self, table: u8) -> Option<Symbol> {
        if W::WATCHES {
            self.watch.sees(Happening::Sought { table, among: self.visible(table) });
        }
        self.visible(table).iter().rev().find(|symbol| symbol.table == table).copied()
    }

    /// Whether some symbol of the table's list has these bytes.
    fn is_listed(&self, table: u8, bytes: &[u8]) -> bool {
        let among = self.visible(table);
        let equal = |symbol: &Symbol| symbol.table == table && self.equal(*symbol, bytes);
        if W::WATCHES {
            self.watch.sees(Happening::Compared { among, equal: among.iter().rposition(equal) });
        }
        among.iter().any(equal)
    }

    #[inline]
    fn text(&self, symbol: Symbol) -> &'a [u8] {
        &self.input[usize::from(symbol.from)..usize::from(symbol.to)]
    }

    /// Whether the symbol has these bytes.
    #[inline]
    fn equal(&self, symbol: Symbol, bytes: &[u8]) -> bool {
        usize::from(symbol.to - symbol.from) == bytes.len() && self.text(symbol) == bytes
    }

    /// Drops the table's symbols above the mark. Those of other tables move down and keep their order.
    fn drop_from(&mut self, mark: usize, table: u8) {
        let mut kept = mark;
        for i in mark..self.symbols.len() {
            let symbol = self.symbols[i];
            if symbol.table != table {
                self.symbols[kept] = symbol;
                kept += 1;
            }
        }
        self.symbols.truncate(kept);
    }
}
