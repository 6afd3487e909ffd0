//! What the cases of a comparison met, counted, and how much of each there must be.

use std::fmt;

use crate::grammar::{Node, KINDS};
use crate::reference::Trace;
use crate::{Numbers, Refusal};

/// So many cases there must be of each answer, and for each kind of those in which it passes and of those in which it fails.
pub const WANTED: u64 = 1000;

/// Counts of cases.
#[derive(Default)]
pub struct Tally {
    accepted: u64,
    failed: u64,
    refused: [u64; 15],
    kind_passed: [u64; 19],
    kind_failed: [u64; 19],
}

/// Empty asks for nothing. Star keeps the rounds that passed, and none is enough.
fn cannot_fail(tag: usize) -> bool {
    tag == Node::Empty.tag() || tag == Node::Star(0).tag()
}

impl Tally {
    /// Counts a case. The answer is one of 01's.
    pub fn count(&mut self, answer: &Numbers, trace: &Trace) {
        match answer.kind {
            Numbers::ACCEPTED => self.accepted += 1,
            Numbers::FAILED => self.failed += 1,
            number => self.refused[number as usize - 1] += 1,
        }
        for tag in 0..KINDS.len() {
            self.kind_passed[tag] += u64::from(trace.passed[tag]);
            self.kind_failed[tag] += u64::from(trace.failed[tag]);
        }
    }

    /// What there is too little of; and a failure where there can be none.
    pub fn faults(&self) -> Vec<String> {
        let mut faults = Vec::new();
        let mut want = |count: u64, what: String| {
            if count < WANTED {
                faults.push(format!("{count} cases {what}, fewer than {WANTED}"));
            }
        };
        want(self.accepted, "accepted".into());
        want(self.failed, "failed".into());
        for (i, count) in self.refused.iter().enumerate() {
            want(*count, format!("refused {}", i + 1));
        }
        for (tag, name) in KINDS.iter().enumerate() {
            want(self.kind_passed[tag], format!("in which {name} passes"));
            if !cannot_fail(tag) {
                want(self.kind_failed[tag], format!("in which {name} fails"));
            }
        }
        let impossible = (0..KINDS.len()).filter(|tag| cannot_fail(*tag) && self.kind_failed[*tag] > 0);
        faults.extend(impossible.map(|tag| format!("{} fails, which it cannot", KINDS[tag])));
        faults
    }
}

impl fmt::Display for Tally {
    fn fmt(&self, f: &mut fmt::Formatter) -> fmt::Result {
        writeln!(f, "cases by answer:")?;
        writeln!(f, "  {:7} accepted", self.accepted)?;
        writeln!(f, "  {:7} failed", self.failed)?;
        for (number, count) in (1..).zip(&self.refused) {
            writeln!(f, "  {count:7} refused {number:2}: {}", Refusal { number, place: 0 }.reason())?;
        }
        writeln!(f, "cases in which a kind passes, fails:")?;
        for (tag, name) in KINDS.iter().enumerate() {
            let note = if cannot_fail(tag) { " (by 01 it cannot fail)" } else { "" };
            writeln!(f, "  {:7} {:7} {name}{note}", self.kind_passed[tag], self.kind_failed[tag])?;
        }
        Ok(())
    }
}
