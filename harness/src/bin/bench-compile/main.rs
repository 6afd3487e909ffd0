//! The proved library's `compile`, timed on texts as they are written and on the worst that are known. Run by scripts/bench-compile from the repository's
//! folder; writes docs/bench/compile.md.

mod case;
mod conditions;
mod page;
mod targets;

use std::fs;

use case::{time_in_turn, Case};
use yarnspire::facts::load_average;
use yarnspire::notation::{on_deep_stack, LONGEST_TEXT};
use yarnspire::texts::long::{long, NODES_OF_TWO, SECTIONS};
use yarnspire::texts::worst;

const SAMPLES: [&str; 6] = ["harbour", "bulletin", "tags", "indentation", "typedef", "heredoc"];
const RESULT: &str = "docs/bench/compile.md";

fn main() {
    let load = load_average();
    let mut results = on_deep_stack(Results::agreed);
    println!("library and reader agree on every text; timing ..");
    time_in_turn(results.all());
    let page = page::page(&results, &load);
    print!("{page}");
    fs::create_dir_all("docs/bench").expect("the folder for results");
    fs::write(RESULT, page).expect("the result is written");
}

/// Every case, by what it shows.
pub struct Results {
    /// The front of a long text, twice as much of it each time.
    by_length: Vec<Case>,
    samples: Vec<Case>,
    worst: Vec<Case>,
    /// The worst at half their length, in the same order.
    halves: Vec<Case>,
}

impl Results {
    /// The cases, on which the library and the reader of grammar texts agree.
    fn agreed() -> Results {
        let by_length = [1, 2, 4, SECTIONS].map(front).into();
        let samples = SAMPLES.iter().map(|&name| sample(name)).collect();
        let worst_of = |length| worst::all(length).into_iter().map(|worst| Case::new(worst.what, worst.text)).collect();
        Results { by_length, samples, worst: worst_of(LONGEST_TEXT), halves: worst_of(LONGEST_TEXT / 2) }
    }

    fn all(&mut self) -> Vec<&mut Case> {
        let Results { by_length, samples, worst, halves } = self;
        by_length.iter_mut().chain(samples).chain(worst).chain(halves).collect()
    }

    /// The whole of the long text.
    fn longest(&self) -> &Case {
        &self.by_length[self.by_length.len() - 1]
    }

    /// The text that takes longest.
    fn slowest(&self) -> &Case {
        self.worst.iter().max_by(|a, b| a.times.median().total_cmp(&b.times.median())).expect("there are such texts")
    }
}

/// The front of the long text.
fn front(sections: usize) -> Case {
    let case = Case::new("a long text", long(sections));
    assert_eq!(case.nodes, Some(sections * NODES_OF_TWO / 2));
    case
}

fn sample(name: &'static str) -> Case {
    let case = Case::new(name, fs::read(format!("samples/{name}/grammar.nez")).expect("the sample's grammar"));
    assert!(case.nodes.is_some(), "samples/{name}/grammar.nez is refused");
    case
}
