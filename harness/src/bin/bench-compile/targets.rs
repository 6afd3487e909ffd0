//! What is aimed at, and whether this run keeps it.

use yarnspire::figures::grouped;
use yarnspire::targets::{section, Target};

use crate::Results;

/// How long the long text may take, in milliseconds.
const LONG: f64 = 2.0;
/// How long any text may take, in milliseconds.
const WORST: f64 = 100.0;
/// How many times as long a byte may take in the whole of the long text as in its front.
const GROWTH: f64 = 1.2;

/// The section on targets.
pub fn targets(results: &Results) -> String {
    let Results { by_length, worst, .. } = results;
    let (shortest, longest, slowest) = (&by_length[0], results.longest(), results.slowest());
    let length = |bytes: usize| grouped(bytes);
    let over: Vec<_> = worst.iter().map(|case| (case.what, case.times.median() / 1e6)).filter(|(_, time)| *time >= WORST).collect();
    let nodes = longest.nodes.expect("it is not refused");
    section(&[
        Target::new(
            format!("a text of {} bytes with {nodes} nodes, in milliseconds: under {LONG}", length(longest.text.len())),
            vec![(longest.what, longest.times.median() / 1e6)],
            |time| time < LONG,
        ),
        Target::new(
            format!("the worst text known, in milliseconds: under {WORST}"),
            if over.is_empty() { vec![(slowest.what, slowest.times.median() / 1e6)] } else { over },
            |time| time < WORST,
        ),
        Target::new(
            format!("a byte of the long text at {} bytes / at {}: at most {GROWTH}", length(longest.text.len()), length(shortest.text.len())),
            vec![(longest.what, longest.a_byte() / shortest.a_byte())],
            |ratio| ratio <= GROWTH,
        ),
    ])
}
