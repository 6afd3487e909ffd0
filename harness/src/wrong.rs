//! Wrong machines and wrong readers: the independent ones, each with one thing wrong. A comparison must tell each from the right one on the same cases,
//! and so shows that a library with such a fault would not pass it.

use std::fmt;

/// Each must differ from the right one in at least this many cases.
const WANTED: u64 = 30;

/// One for each fault.
pub struct Wrong<F> {
    /// What a case is called.
    case: &'static str,
    each: Vec<One<F>>,
}

/// How many cases tell it from the right one, and the first of them.
struct One<F> {
    fault: F,
    name: &'static str,
    differs: u64,
    first: Option<u64>,
}

impl<F: Copy> Wrong<F> {
    /// One for each of these faults, told apart by no case so far.
    pub fn new(case: &'static str, faults: &[(F, &'static str)]) -> Wrong<F> {
        let each = faults.iter().map(|&(fault, name)| One { fault, name, differs: 0, first: None }).collect();
        Wrong { case, each }
    }

    /// Counts the case of a number for each that differs on it from the right one.
    pub fn count(&mut self, number: u64, differs: impl Fn(F) -> bool) {
        for one in &mut self.each {
            if differs(one.fault) {
                one.differs += 1;
                one.first = one.first.or(Some(number));
            }
        }
    }

    /// Those that too few cases tell apart.
    pub fn shortages(&self) -> Vec<String> {
        let few = self.each.iter().filter(|one| one.differs < WANTED);
        few.map(|one| format!("{} {}s tell apart '{}', fewer than {WANTED}", one.differs, self.case, one.name)).collect()
    }
}

impl<F> fmt::Display for Wrong<F> {
    fn fmt(&self, f: &mut fmt::Formatter) -> fmt::Result {
        for one in &self.each {
            let first = one.first.map_or("never".into(), |number| format!("first in {} {number}", self.case));
            writeln!(f, "  {:7} {} ({first})", one.differs, one.name)?;
        }
        Ok(())
    }
}
