//! What the texts of a comparison met, counted, and how much of each there must be.

use std::fmt;

use super::maker::Case;
use super::writer::SPELLINGS;
use crate::notation::meaning::{GivenUp, Meant};
use crate::notation::tree::{each, Expression, Part};
use crate::notation::{Compiled, Stop, Why, LONGEST_IMAGE};
use crate::outcome::Refused;

/// So many texts there must be with each refusal.
const REFUSED: u64 = 500;
/// So many for each of the reasons that a refusal's number may stand for.
const REASON: u64 = 30;
/// So many good texts there must be with each operator, and with each spelling of it.
const OPERATOR: u64 = 1000;
const SPELLING: u64 = 500;
/// So many good texts there must be right at each limit.
const LIMIT: u64 = 10;
/// So many runs there must be of each sort.
const RUNS: u64 = 3000;

/// What may be written, by the lines of the page's table of operators.
const OPERATORS: [&str; 27] = [
    "''",
    "'a'",
    "'abc'",
    ".",
    "[a]",
    "[a-z]",
    "[a-z0-9_]",
    "a b",
    "a / b",
    "e*",
    "e+",
    "e?",
    "!e",
    "&e",
    "A",
    "<def T e>",
    "<match T>",
    "<is T>",
    "<isa T>",
    "<exists T>",
    "<block T e>",
    "<local T e>",
    "<if C>",
    "<if !C>",
    "<on C e>",
    "<on !C e>",
    "two defs of a table",
];

/// The number of an operator.
fn operator(e: &Expression) -> usize {
    match e {
        Expression::Quoted(bytes, _) => bytes.len().min(2),
        Expression::Any => 3,
        Expression::Class(parts) => match parts[..] {
            [Part::Byte(_)] => 4,
            [Part::Range(..)] => 5,
            _ => 6,
        },
        Expression::Sequence(..) => 7,
        Expression::Choice(..) => 8,
        Expression::Star(_) => 9,
        Expression::Plus(_) => 10,
        Expression::Optional(_) => 11,
        Expression::Not(_) => 12,
        Expression::And(_) => 13,
        Expression::Call(_) => 14,
        Expression::Def(..) => 15,
        Expression::Match(_) => 16,
        Expression::Is(_) => 17,
        Expression::Isa(_) => 18,
        Expression::Exists(_) => 19,
        Expression::Block(..) => 20,
        Expression::Local(..) => 21,
        Expression::If(_, true) => 22,
        Expression::If(_, false) => 23,
        Expression::On(_, true, _) => 24,
        Expression::On(_, false, _) => 25,
    }
}

const TWO_DEFS: usize = 26;

/// Where a good text may be right at a limit.
const LIMITS: [&str; 5] = ["eight tables", "eight conditions", "a quoted text of 64 bytes", "512 nodes", "an image of 16,384 bytes"];

/// Counts of texts and of runs.
#[derive(Default)]
pub struct Tally {
    written: u64,
    reasons: [u64; Why::ALL.len()],
    operators: [u64; OPERATORS.len()],
    spellings: [u64; SPELLINGS.len()],
    limits: [u64; LIMITS.len()],
    accepted: u64,
    holding: u64,
    failed: u64,
    empty_rounds: u64,
    given_up: u64,
    refused: u64,
}

impl Tally {
    /// Counts a text that is written.
    pub fn count_good(&mut self, case: &Case, compiled: &Compiled) {
        self.written += 1;
        let mut seen = [false; OPERATORS.len()];
        let mut long = false;
        let mut tables: Vec<&str> = Vec::new();
        each(&compiled.productions, &mut |e| {
            seen[operator(e)] = true;
            long |= matches!(e, Expression::Quoted(bytes, _) if bytes.len() == 64);
            if let Expression::Def(table, ..) = e {
                seen[TWO_DEFS] |= tables.contains(&table.text.as_str());
                tables.push(&table.text);
            }
        });
        add(&mut self.operators, &seen);
        let grammar = &compiled.grammar;
        let limits = [grammar.patterns.len() == 8, grammar.conditions == 8, long, grammar.nodes.len() == 512, compiled.image.len() == LONGEST_IMAGE];
        add(&mut self.limits, &limits);
        if case.productions.is_some() {
            add(&mut self.spellings, &case.spellings);
        }
    }

    /// Counts a text that is refused.
    pub fn count_refused(&mut self, stop: Stop) {
        let reason = Why::ALL.iter().position(|(why, _)| *why == stop.why);
        self.reasons[reason.expect("every reason is in the list")] += 1;
    }

    /// Counts a run.
    pub fn count_run(&mut self, meant: &Meant, refused: bool) {
        match meant {
            Meant::GivenUp(GivenUp::EmptyRound(_)) => self.empty_rounds += 1,
            Meant::GivenUp(_) => self.given_up += 1,
            _ if refused => self.refused += 1,
            Meant::Failed => self.failed += 1,
            Meant::Accepted { symbols, .. } => {
                self.accepted += 1;
                self.holding += u64::from(!symbols.is_empty());
            }
        }
    }

    /// How many texts were refused by this number.
    fn by_number(&self, number: u32) -> u64 {
        Why::ALL.iter().zip(&self.reasons).filter(|((why, _), _)| why.number() == number).map(|(_, count)| count).sum()
    }

    /// What there is too little of.
    pub fn faults(&self) -> Vec<String> {
        let mut faults = Vec::new();
        let mut want = |count: u64, wanted: u64, what: String| {
            if count < wanted {
                faults.push(format!("{count} {what}, fewer than {wanted}"));
            }
        };
        for number in 20..=25 {
            want(self.by_number(number), REFUSED, format!("texts refused {number}"));
        }
        for ((_, name), count) in Why::ALL.iter().zip(&self.reasons) {
            want(*count, REASON, format!("texts in which {name}"));
        }
        for (name, count) in OPERATORS.iter().zip(&self.operators) {
            want(*count, OPERATOR, format!("good texts with {name}"));
        }
        for (name, count) in SPELLINGS.iter().zip(&self.spellings) {
            want(*count, SPELLING, format!("good texts with {name}"));
        }
        for (name, count) in LIMITS.iter().zip(&self.limits) {
            want(*count, LIMIT, format!("good texts with {name}"));
        }
        want(self.accepted, RUNS, "runs accepted".into());
        want(self.holding, RUNS, "runs accepted that hold symbols".into());
        want(self.failed, RUNS, "runs failed".into());
        want(self.empty_rounds, REASON, "runs with an empty round".into());
        faults
    }
}

fn add<const N: usize>(counts: &mut [u64; N], seen: &[bool; N]) {
    for (count, seen) in counts.iter_mut().zip(seen) {
        *count += u64::from(*seen);
    }
}

impl fmt::Display for Tally {
    fn fmt(&self, f: &mut fmt::Formatter) -> fmt::Result {
        writeln!(f, "texts by answer:")?;
        writeln!(f, "  {:7} written", self.written)?;
        for number in 20..=25 {
            writeln!(f, "  {:7} refused {number}: {}", self.by_number(number), Refused { number, at: 0 }.reason())?;
        }
        writeln!(f, "refused texts by reason:")?;
        for ((why, name), count) in Why::ALL.iter().zip(&self.reasons) {
            writeln!(f, "  {count:7} {}: {name}", why.number())?;
        }
        writeln!(f, "good texts with an operator:")?;
        for (name, count) in OPERATORS.iter().zip(&self.operators) {
            writeln!(f, "  {count:7} {name}")?;
        }
        writeln!(f, "good texts with a spelling:")?;
        for (name, count) in SPELLINGS.iter().zip(&self.spellings) {
            writeln!(f, "  {count:7} {name}")?;
        }
        writeln!(f, "good texts right at a limit:")?;
        for (name, count) in LIMITS.iter().zip(&self.limits) {
            writeln!(f, "  {count:7} {name}")?;
        }
        writeln!(f, "runs, by the meaning of the productions:")?;
        writeln!(f, "  {:7} accepted, {} of them holding symbols", self.accepted, self.holding)?;
        writeln!(f, "  {:7} failed", self.failed)?;
        writeln!(f, "  {:7} with an empty round", self.empty_rounds)?;
        writeln!(f, "  {:7} refused by a limit of the machine", self.refused)?;
        writeln!(f, "  {:7} given up", self.given_up)
    }
}
