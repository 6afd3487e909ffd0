//! What productions mean, said of the tree itself: there are no nodes and no numbers here, and tables and conditions go by their names.

use std::collections::HashMap;

use super::tree::{Expression, Part, Production};

/// What a run of productions gives.
#[derive(Clone, Debug, PartialEq, Eq)]
pub enum Meant<'a> {
    /// So many bytes of the input, and the symbols that are held, oldest first.
    Accepted { consumed: usize, symbols: Vec<Symbol<'a>> },
    /// The first production fails.
    Failed,
    /// There is no answer.
    GivenUp(GivenUp),
}

/// Why there is no answer.
#[derive(Clone, Copy, Debug, PartialEq, Eq)]
pub enum GivenUp {
    /// A round of a repetition took nothing. It began here.
    EmptyRound(usize),
    /// Too many expressions were entered.
    Steps,
    /// Expressions were entered too deep in one another.
    Depth,
}

/// A part of the input, kept in a table.
#[derive(Clone, Copy, Debug, PartialEq, Eq)]
pub struct Symbol<'a> {
    pub table: &'a str,
    pub start: usize,
    pub end: usize,
}

/// How many expressions may be entered, and how deep in one another.
#[derive(Clone, Copy, Debug)]
pub struct Cap {
    pub steps: usize,
    pub depth: usize,
}

/// Runs the first production on the input. The productions keep the rules for names.
pub fn run<'a>(productions: &'a [Production], input: &[u8], cap: Cap) -> Meant<'a> {
    let mut run = Run { bodies: HashMap::new(), patterns: HashMap::new(), input, cap };
    for production in productions {
        run.bodies.insert(&production.name.text, &production.body);
        production.body.each(&mut |e| {
            if let Expression::Def(table, pattern, _) = e {
                run.patterns.entry(&table.text).or_insert(pattern);
            }
        });
    }
    let begin = Here { at: 0, depth: 0, switches: None };
    match run.enter(&productions[0].body, begin, &[]) {
        Ok(Some(Passed { end, symbols })) => Meant::Accepted { consumed: end, symbols },
        Ok(None) => Meant::Failed,
        Err(why) => Meant::GivenUp(why),
    }
}

/// Where an expression that passed ends, and the symbols that are held then.
struct Passed<'a> {
    end: usize,
    symbols: Vec<Symbol<'a>>,
}

/// Passed; failed, which leaves the symbols of its beginning; or given up.
type Outcome<'a> = Result<Option<Passed<'a>>, GivenUp>;

/// The innermost `<on C e>`, and those around it.
struct Switch<'s> {
    condition: &'s str,
    truth: bool,
    outer: Option<&'s Switch<'s>>,
}

/// Where an expression is entered.
#[derive(Clone, Copy)]
struct Here<'s> {
    at: usize,
    depth: usize,
    switches: Option<&'s Switch<'s>>,
}

impl Here<'_> {
    fn at(self, at: usize) -> Self {
        Here { at, ..self }
    }

    /// What the innermost `on` of the condition says; true if there is none.
    fn truth(self, condition: &str) -> bool {
        let mut switches = self.switches;
        while let Some(switch) = switches {
            if switch.condition == condition {
                return switch.truth;
            }
            switches = switch.outer;
        }
        true
    }
}

struct Run<'a, 'i> {
    bodies: HashMap<&'a str, &'a Expression>,
    patterns: HashMap<&'a str, &'a Expression>,
    input: &'i [u8],
    cap: Cap,
}

impl<'a, 'i> Run<'a, 'i> {
    fn enter(&mut self, e: &'a Expression, here: Here, held: &[Symbol<'a>]) -> Outcome<'a> {
        if here.depth >= self.cap.depth {
            return Err(GivenUp::Depth);
        }
        self.cap.steps = self.cap.steps.checked_sub(1).ok_or(GivenUp::Steps)?;
        self.expression(e, Here { depth: here.depth + 1, ..here }, held)
    }

    fn expression(&mut self, e: &'a Expression, here: Here, held: &[Symbol<'a>]) -> Outcome<'a> {
        let rest = &self.input[here.at..];
        let passed = |end: usize, symbols: Vec<Symbol<'a>>| Ok(Some(Passed { end, symbols }));
        let takes = |count: Option<usize>| Ok(count.map(|count| Passed { end: here.at + count, symbols: held.to_vec() }));
        let passes = |ok: bool| takes(if ok { Some(0) } else { None });
        match e {
            Expression::Quoted(bytes, _) => takes(rest.strip_prefix(bytes.as_slice()).map(|_| bytes.len())),
            Expression::Any => takes(rest.first().map(|_| 1)),
            Expression::Class(parts) => takes(rest.first().filter(|byte| is_of(parts, **byte)).map(|_| 1)),
            Expression::Sequence(a, b) => match self.enter(a, here, held)? {
                Some(first) => self.enter(b, here.at(first.end), &first.symbols),
                None => Ok(None),
            },
            Expression::Choice(a, b) => match self.enter(a, here, held)? {
                Some(first) => Ok(Some(first)),
                None => self.enter(b, here, held),
            },
            Expression::Optional(e) => match self.enter(e, here, held)? {
                Some(once) => Ok(Some(once)),
                None => passes(true),
            },
            Expression::Star(e) => self.rounds(e, here, Passed { end: here.at, symbols: held.to_vec() }),
            Expression::Plus(e) => match self.enter(e, here, held)? {
                Some(first) => self.rounds(e, here, first),
                None => Ok(None),
            },
            Expression::Not(e) => passes(self.enter(e, here, held)?.is_none()),
            Expression::And(e) => passes(self.enter(e, here, held)?.is_some()),
            Expression::Call(name) => self.enter(self.bodies[name.text.as_str()], here, held),
            Expression::Def(table, e, _) => match self.enter(e, here, held)? {
                Some(Passed { end, .. }) => {
                    let mut symbols = held.to_vec();
                    symbols.push(Symbol { table: &table.text, start: here.at, end });
                    passed(end, symbols)
                }
                None => Ok(None),
            },
            Expression::Match(table) => {
                let latest = kept(held, &table.text).last().map(|symbol| self.text(symbol));
                takes(latest.filter(|text| rest.starts_with(text)).map(<[u8]>::len))
            }
            Expression::Is(table) => {
                let latest = kept(held, &table.text).last();
                self.one_of(&table.text, latest.into_iter(), here, held)
            }
            Expression::Isa(table) => self.one_of(&table.text, kept(held, &table.text), here, held),
            Expression::Exists(table) => passes(kept(held, &table.text).next().is_some()),
            Expression::Block(table, e) => {
                let inside = self.enter(e, here, held)?;
                Ok(inside.map(|Passed { end, symbols }| Passed { end, symbols: after_scope(held, &symbols[held.len()..], &table.text) }))
            }
            Expression::Local(table, e) => {
                let shown: Vec<Symbol> = others(held, &table.text).collect();
                let inside = self.enter(e, here, &shown)?;
                Ok(inside.map(|Passed { end, symbols }| Passed { end, symbols: after_scope(held, &symbols[shown.len()..], &table.text) }))
            }
            Expression::If(condition, truth) => passes(here.truth(&condition.text) == *truth),
            Expression::On(condition, truth, e) => {
                let switch = Switch { condition: &condition.text, truth: *truth, outer: here.switches };
                let inside = self.enter(e, Here { at: here.at, depth: here.depth, switches: Some(&switch) }, held)?;
                takes(inside.map(|inside| inside.end - here.at))
            }
        }
    }

    /// As many rounds as pass, each of which must take something.
    fn rounds(&mut self, e: &'a Expression, here: Here, mut passed: Passed<'a>) -> Outcome<'a> {
        while let Some(round) = self.enter(e, here.at(passed.end), &passed.symbols)? {
            if round.end == passed.end {
                return Err(GivenUp::EmptyRound(passed.end));
            }
            passed = round;
        }
        Ok(Some(passed))
    }

    /// The table's pattern, if what it takes is the text of one of these symbols. Where there is none, the pattern is not run.
    fn one_of<'s>(&mut self, table: &str, symbols: impl Iterator<Item = &'s Symbol<'a>>, here: Here, held: &[Symbol<'a>]) -> Outcome<'a>
    where
        'a: 's,
    {
        let texts: Vec<&[u8]> = symbols.map(|symbol| self.text(symbol)).collect();
        if texts.is_empty() {
            return Ok(None);
        }
        let end = match self.enter(self.patterns[table], here, held)? {
            Some(Passed { end, .. }) => end,
            None => return Ok(None),
        };
        Ok(if texts.contains(&&self.input[here.at..end]) { Some(Passed { end, symbols: held.to_vec() }) } else { None })
    }

    fn text(&self, symbol: &Symbol) -> &'i [u8] {
        &self.input[symbol.start..symbol.end]
    }
}

fn is_of(parts: &[Part], byte: u8) -> bool {
    parts.iter().any(|part| match part {
        Part::Byte(own) => *own == byte,
        Part::Range(low, high) => (*low..=*high).contains(&byte),
    })
}

/// The symbols of a table, oldest first.
fn kept<'s, 'a>(held: &'s [Symbol<'a>], table: &'s str) -> impl DoubleEndedIterator<Item = &'s Symbol<'a>> {
    held.iter().filter(move |symbol| symbol.table == table)
}

/// The symbols of all other tables, oldest first.
fn others<'s, 'a>(held: &'s [Symbol<'a>], table: &'s str) -> impl Iterator<Item = Symbol<'a>> + 's {
    held.iter().copied().filter(move |symbol| symbol.table != table)
}

/// What a scope leaves: what was held before it, and of what was stored in it that of other tables.
fn after_scope<'a>(before: &[Symbol<'a>], stored: &[Symbol<'a>], table: &str) -> Vec<Symbol<'a>> {
    before.iter().copied().chain(others(stored, table)).collect()
}
