//! What is aimed at, and whether a run keeps it, for the pages in docs/bench/.

use std::fmt::Write;

/// A value by its name.
pub type Named = (&'static str, f64);

/// What is aimed at, what was measured, and what keeps each value within its bound, if there is one.
pub struct Target {
    says: String,
    measured: Vec<Named>,
    within: Option<Box<dyn Fn(f64) -> bool>>,
}

impl Target {
    pub fn new(says: String, measured: Vec<Named>, within: impl Fn(f64) -> bool + 'static) -> Target {
        Target { says, measured, within: Some(Box::new(within)) }
    }

    /// A figure to know, without a bound.
    pub fn unbounded(says: String, measured: Vec<Named>) -> Target {
        Target { says, measured, within: None }
    }

    fn holds(&self) -> String {
        let within = match &self.within {
            Some(within) => within,
            None => return "no bound".to_string(),
        };
        let outside: Vec<&str> = self.measured.iter().filter(|(_, value)| !within(*value)).map(|(name, _)| *name).collect();
        match outside.is_empty() {
            true => "yes".to_string(),
            false => format!("**no**: {}", outside.join(", ")),
        }
    }
}

/// The section on targets.
pub fn section(targets: &[Target]) -> String {
    let mut text = String::from("## Targets\n\n| target | measured | holds |\n|---|---|---|\n");
    for target in targets {
        let measured: Vec<String> = target.measured.iter().map(|(name, value)| format!("{name} {value:.3}")).collect();
        writeln!(text, "| {} | {} | {} |", target.says, measured.join(", "), target.holds()).expect("text grows");
    }
    text.push('\n');
    text
}
