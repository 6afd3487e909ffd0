//! Times in turn: one batch of each implementation on each case, and again.

use yarnspire::implementations::Implementation;
use yarnspire::timing::{calls_in_batch, Times, ROUNDS};

use crate::case::{slot_buffer, Case};
use crate::lua::Lua;

/// A case with its times, for each implementation.
pub struct Measured {
    pub case: Case,
    times: [Times; Implementation::ALL.len()],
}

impl Measured {
    pub fn new(case: Case) -> Measured {
        Measured { case, times: Default::default() }
    }

    pub fn best(&self, implementation: Implementation) -> f64 {
        self.times[implementation as usize].best()
    }

    pub fn median(&self, implementation: Implementation) -> f64 {
        self.times[implementation as usize].median()
    }

    /// How many times as long one takes as another.
    pub fn ratio(&self, one: Implementation, other: Implementation) -> f64 {
        self.median(one) / self.median(other)
    }

    pub fn a_byte(&self, implementation: Implementation) -> f64 {
        self.median(implementation) / self.case.input.len() as f64
    }

    pub fn a_step(&self, implementation: Implementation) -> f64 {
        self.median(implementation) / self.case.answer.steps as f64
    }
}

/// Times all cases and all implementations in turn, one batch of each, and again: what disturbs the machine for a while disturbs a few batches
/// of each, and not all batches of one.
pub fn time_in_turn(mut cases: Vec<&mut Measured>, lua: &mut Lua) {
    let mut slots = slot_buffer();
    let measured = Implementation::measured();
    let mut calls = |case: &Case, one| calls_in_batch(|count| case.batch(one, count, &mut slots, lua));
    let calls: Vec<Vec<usize>> = cases.iter().map(|row| measured.iter().map(|&one| calls(&row.case, one)).collect()).collect();
    for _ in 0..ROUNDS {
        for (row, calls) in cases.iter_mut().zip(&calls) {
            for (&one, &count) in measured.iter().zip(calls) {
                let time = row.case.batch(one, count, &mut slots, lua);
                row.times[one as usize].push(time / count as f64);
            }
        }
    }
}
