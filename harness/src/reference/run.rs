//! The nineteen kinds, with steps, depth and room.

use super::{refused, Fault};
use crate::grammar::{Grammar, Node};
use crate::{Limits, Refusal};

/// A symbol: a part of the input, with the moment at which it was stored.
#[derive(Clone, Copy)]
pub struct Symbol {
    moment: usize,
    pub table: usize,
    pub from: usize,
    pub to: usize,
}

/// For each table its list, oldest first; and the symbols that a Local hides.
#[derive(Clone, Default)]
pub struct State {
    lists: [Vec<Symbol>; 8],
    hidden: Vec<Symbol>,
}

impl State {
    fn visible(&self) -> usize {
        self.lists.iter().map(Vec::len).sum()
    }

    /// All in all lists, the hidden ones included.
    fn held(&self) -> usize {
        self.visible() + self.hidden.len()
    }

    /// The symbols of all lists, oldest first.
    pub fn symbols(&self) -> Vec<Symbol> {
        let mut all: Vec<Symbol> = self.lists.iter().flatten().copied().collect();
        all.sort_by_key(|symbol| symbol.moment);
        all
    }
}

/// Where an expression that passed ends, and the state that it leaves.
pub struct Passed {
    pub end: usize,
    pub state: State,
}

/// Passed, failed (which carries no state: the one before holds), or refused.
type Outcome = Result<Option<Passed>, Refusal>;

/// Where an expression is entered: the place in the input, the depth, and the truth of all conditions.
#[derive(Clone, Copy)]
struct Here {
    at: usize,
    depth: u32,
    truths: [bool; 8],
}

impl Here {
    /// One deeper.
    fn inside(self) -> Here {
        Here { depth: self.depth + 1, ..self }
    }

    fn at(self, at: usize) -> Here {
        Here { at, ..self }
    }

    fn under(mut self, condition: usize, truth: bool) -> Here {
        self.truths[condition] = truth;
        self
    }
}

/// What a run needed and met.
#[derive(Clone, Default)]
pub struct Trace {
    /// The most symbols held at a time.
    pub room: u32,
    /// The kinds, by tag, of which an expression passed.
    pub passed: [bool; 19],
    /// The kinds, by tag, of which an expression failed.
    pub failed: [bool; 19],
}

/// A run under way.
pub struct Run<'a> {
    grammar: &'a Grammar,
    input: &'a [u8],
    limits: Limits,
    fault: Option<Fault>,
    steps: u32,
    /// Steps that a wrong machine leaves out of its count.
    uncounted: u32,
    pub deepest: u32,
    pub trace: Trace,
    /// Every symbol that was ever stored.
    stored: Vec<Symbol>,
}

impl<'a> Run<'a> {
    pub fn new(grammar: &'a Grammar, input: &'a [u8], limits: Limits, fault: Option<Fault>) -> Run<'a> {
        Run { grammar, input, limits, fault, steps: 0, uncounted: 0, deepest: 0, trace: Trace::default(), stored: Vec::new() }
    }

    /// Runs the start node: all lists empty, every condition true.
    pub fn start(&mut self) -> Outcome {
        self.enter(self.grammar.start, Here { at: 0, depth: 1, truths: [true; 8] }, &State::default())
    }

    /// The steps to report.
    pub fn counted_steps(&self) -> u32 {
        self.steps - self.uncounted
    }

    fn has(&self, fault: Fault) -> bool {
        self.fault == Some(fault)
    }

    /// The step limit is looked at first, then the depth limit; a refused entry is not charged.
    fn enter(&mut self, node: usize, here: Here, state: &State) -> Outcome {
        let too_deep = here.depth > self.limits.depth;
        if self.has(Fault::DepthFirst) && too_deep {
            return refused(13, here.at);
        }
        if self.steps >= self.limits.steps {
            return refused(12, here.at);
        }
        if too_deep {
            return refused(13, here.at);
        }
        self.steps += 1;
        self.deepest = self.deepest.max(here.depth);
        let node = &self.grammar.nodes[node];
        let outcome = self.node(node, here, state)?;
        match outcome {
            Some(_) => self.trace.passed[node.tag()] = true,
            None => self.trace.failed[node.tag()] = true,
        }
        Ok(outcome)
    }

    fn node(&mut self, node: &Node, here: Here, state: &State) -> Outcome {
        let rest = &self.input[here.at..];
        let inside = here.inside();
        let test = |ok: bool, count: usize| Ok(if ok { Some(Passed { end: here.at + count, state: state.clone() }) } else { None });
        match *node {
            Node::Empty => test(true, 0),
            Node::Byte(byte) => test(rest.first() == Some(&byte), 1),
            Node::Range(low, high) => test(rest.first().map_or(false, |byte| (low..=high).contains(byte)), 1),
            Node::Any => test(!rest.is_empty(), 1),
            Node::Text(ref bytes) => test(rest.starts_with(bytes), bytes.len()),
            Node::Sequence(a, b) => match self.enter(a, inside, state)? {
                Some(first) => self.enter(b, inside.at(first.end), &first.state),
                None => Ok(None),
            },
            Node::Choice(a, b) => self.choice(a, b, inside, state),
            Node::Star(a) => self.star(a, inside, state),
            Node::Not(a) => {
                let stored = self.stored.len();
                match self.enter(a, inside, state)? {
                    Some(_) => Ok(None),
                    None => Ok(Some(Passed { end: here.at, state: self.after_failure(state, stored, Fault::NotKeeps) })),
                }
            }
            Node::Call(a) => self.enter(a, inside, state),
            Node::Def(table) => self.def(table, inside, state),
            Node::Match(table) => match state.lists[table].last() {
                Some(symbol) => test(rest.starts_with(self.text(symbol)), symbol.to - symbol.from),
                None => Ok(None),
            },
            Node::Is(table) => {
                let list = &state.lists[table];
                self.compare(table, &list[list.len().saturating_sub(1)..], inside, state)
            }
            Node::Isa(table) => self.compare(table, &state.lists[table], inside, state),
            Node::Exists(table) => test(!state.lists[table].is_empty(), 0),
            Node::Block(table, a) => {
                let outcome = self.enter(a, inside, state)?;
                let cut_back = self.has(Fault::BlockCutsBack);
                Ok(outcome.map(|left| Passed { end: left.end, state: if cut_back { state.clone() } else { put_back(left.state, table, state) } }))
            }
            Node::Local(table, a) => {
                let shown = if self.has(Fault::LocalShows) { state.clone() } else { hide(state, table) };
                let outcome = self.enter(a, inside, &shown)?;
                Ok(outcome.map(|left| Passed { end: left.end, state: put_back(left.state, table, state) }))
            }
            Node::If(condition, truth) => test(here.truths[condition] == truth, 0),
            Node::On(condition, truth, a) => {
                let outcome = self.enter(a, inside.under(condition, truth), state)?;
                let keeps = self.has(Fault::OnKeeps);
                Ok(outcome.map(|left| Passed { end: left.end, state: if keeps { left.state } else { state.clone() } }))
            }
        }
    }

    fn choice(&mut self, a: usize, b: usize, inside: Here, state: &State) -> Outcome {
        let (steps, uncounted, stored) = (self.steps, self.uncounted, self.stored.len());
        let first = self.enter(a, inside, state)?;
        if first.is_some() {
            return Ok(first);
        }
        if self.has(Fault::FailureIsFree) {
            self.uncounted = uncounted + self.steps - steps;
        }
        let state = self.after_failure(state, stored, Fault::ChoiceKeeps);
        self.enter(b, inside, &state)
    }

    /// Each round after the first costs a step of its own, and no depth.
    fn star(&mut self, a: usize, inside: Here, state: &State) -> Outcome {
        let mut passed = Passed { end: inside.at, state: state.clone() };
        loop {
            let begin = passed.end;
            match self.enter(a, inside.at(begin), &passed.state)? {
                Some(round) if round.end == begin => return refused(15, begin),
                Some(round) => passed = round,
                None => return Ok(Some(passed)),
            }
            if self.has(Fault::StarOnce) {
                return Ok(Some(passed));
            }
            if self.steps >= self.limits.steps {
                return refused(12, passed.end);
            }
            self.steps += 1;
        }
    }

    /// The state is the one before the pattern ran: what the pattern stored is dropped.
    fn def(&mut self, table: usize, inside: Here, state: &State) -> Outcome {
        let end = match self.enter(self.grammar.patterns[table], inside, state)? {
            Some(pattern) => pattern.end,
            None => return Ok(None),
        };
        let held = if self.has(Fault::RoomOfVisible) { state.visible() } else { state.held() };
        if held >= self.limits.room as usize {
            return refused(14, inside.at);
        }
        let symbol = Symbol { moment: self.stored.len(), table, from: inside.at, to: end };
        self.stored.push(symbol);
        let mut state = state.clone();
        state.lists[table].push(symbol);
        self.trace.room = self.trace.room.max(state.held() as u32);
        Ok(Some(Passed { end, state }))
    }

    /// Is and Isa: the pattern must consume the bytes of one of the symbols. What it stored is dropped.
    fn compare(&mut self, table: usize, symbols: &[Symbol], inside: Here, state: &State) -> Outcome {
        if symbols.is_empty() {
            return Ok(None);
        }
        let end = match self.enter(self.grammar.patterns[table], inside, state)? {
            Some(pattern) => pattern.end,
            None => return Ok(None),
        };
        let consumed = &self.input[inside.at..end];
        let equal = |symbol: &Symbol| match self.has(Fault::ComparesFront) {
            true => self.input[inside.at..].starts_with(self.text(symbol)),
            false => consumed == self.text(symbol),
        };
        Ok(if symbols.iter().any(equal) { Some(Passed { end, state: state.clone() }) } else { None })
    }

    fn text(&self, symbol: &Symbol) -> &'a [u8] {
        &self.input[symbol.from..symbol.to]
    }

    /// The state after an expression failed: the one that it began with. With the fault, and what it stored.
    fn after_failure(&self, began: &State, stored: usize, fault: Fault) -> State {
        let mut state = began.clone();
        if self.has(fault) {
            for symbol in &self.stored[stored..] {
                state.lists[symbol.table].push(*symbol);
            }
        }
        state
    }
}

/// The state with the table's list empty; its symbols are hidden, and still held.
fn hide(state: &State, table: usize) -> State {
    let mut state = state.clone();
    let list = std::mem::take(&mut state.lists[table]);
    state.hidden.extend(list);
    state
}

/// What a scope leaves: its own table's list as before, and nothing hidden that was not.
fn put_back(left: State, table: usize, before: &State) -> State {
    let mut state = left;
    state.lists[table] = before.lists[table].clone();
    state.hidden = before.hidden.clone();
    state
}
