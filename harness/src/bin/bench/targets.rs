//! What is aimed at, and whether this run keeps it.

use yarnspire::implementations::Implementation::{Before, Library, Lpeg, Plain};
use yarnspire::inputs::KINDS;
use yarnspire::targets::{section, Named, Target};

use crate::held::few_and_many;
use crate::timing::Measured;
use crate::{Results, SIZES};

/// How many times as long as plain Rust the library may take.
const OF_PLAIN: f64 = 1.15;
/// How many times as long a step may take on the longest inputs as on the shortest.
const GROWTH: f64 = 1.2;
/// How long a call on an empty input may take, in microseconds.
const ON_NOTHING: f64 = 1.0;

/// The section on targets.
pub fn targets(results: &Results) -> String {
    section(&all(results))
}

fn all(results: &Results) -> [Target; 5] {
    let [shortest, longest] = [SIZES[0], SIZES[SIZES.len() - 1]];
    let of_size = |grammar, bytes| row(results, grammar, bytes);
    let to_plain = |grammar| SIZES.iter().map(|&bytes| of_size(grammar, bytes).ratio(Library, Plain)).fold(0.0, f64::max);
    let growth = |grammar| of_size(grammar, longest).a_step(Library) / of_size(grammar, shortest).a_step(Library);
    let to_lpeg = |grammar| of_size(grammar, longest).ratio(Library, Lpeg);
    let on_nothing = results.on_nothing.iter().map(|row| ("library", row.median(Library) / 1e3)).collect();
    let [few, many] = few_and_many(&results.by_names);
    let for_names = [Library, Before, Plain].into_iter().filter(|one| one.is_measured());
    let names = [few, many].map(|row| row.case.answer.symbols);
    let kilobytes = |bytes: usize| bytes / 1_000;
    [
        Target::new(format!("library / plain Rust, the greatest of all sizes: at most {OF_PLAIN}"), by_grammar(to_plain), |ratio| ratio <= OF_PLAIN),
        Target::new(format!("a call on an empty input, in microseconds: under {ON_NOTHING}"), on_nothing, |time| time < ON_NOTHING),
        Target::new(
            format!("a step of the library at {} kB / at {} kB: at most {GROWTH}", kilobytes(longest), kilobytes(shortest)),
            by_grammar(growth),
            |ratio| ratio <= GROWTH,
        ),
        Target::unbounded(
            format!("a step with {} names held / with {}", names[1], names[0]),
            for_names.map(|one| (one.name(), many.a_step(one) / few.a_step(one))).collect(),
        ),
        Target::unbounded(format!("library / LPeg at {} kB", kilobytes(longest)), by_grammar(to_lpeg)),
    ]
}

fn row<'a>(results: &'a Results, grammar: &str, bytes: usize) -> &'a Measured {
    results.by_size.iter().find(|row| row.case.grammar == grammar && row.case.input.len() == bytes).expect("each grammar has each size")
}

fn by_grammar(value: impl Fn(&'static str) -> f64) -> Vec<Named> {
    KINDS.iter().map(|kind| (kind.name, value(kind.name))).collect()
}
