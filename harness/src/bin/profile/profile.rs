//! The instructions of a call on one input.

use std::collections::BTreeSet;

use yarnspire::implementations::Implementation;

use crate::callgrind::Instructions;

/// An input by its name: the steps of a call, and for each implementation the instructions.
pub struct Profile {
    pub input: String,
    pub steps: u32,
    pub instructions: Vec<(Implementation, Instructions)>,
}

impl Profile {
    /// The names of all functions of all implementations.
    pub fn functions(&self) -> Vec<&str> {
        let names: BTreeSet<&str> = self.instructions.iter().flat_map(|(_, of)| of.keys().map(String::as_str)).collect();
        names.into_iter().collect()
    }

    fn of(&self, implementation: Implementation) -> &Instructions {
        let found = self.instructions.iter().find(|(one, _)| *one == implementation);
        &found.expect("it was measured").1
    }

    /// The instructions of a function, for each step.
    pub fn a_step(&self, implementation: Implementation, function: &str) -> f64 {
        self.of(implementation).get(function).map_or(0.0, |&count| count as f64 / f64::from(self.steps))
    }

    /// Those of all functions.
    pub fn total(&self, implementation: Implementation) -> f64 {
        self.of(implementation).values().sum::<i64>() as f64 / f64::from(self.steps)
    }
}
