//! What was measured, how, and on what.

use yarnspire::facts::fact;
use yarnspire::figures::grouped;
use yarnspire::notation::{LONGEST_IMAGE, LONGEST_TEXT};
use yarnspire::timing::{BATCH, ROUNDS};

/// The last section of the page.
pub fn conditions(load: &str) -> String {
    format!(
        r"
## What was measured

- `yarnspire_compile` of the proved library, compiled for this machine's own processor and called through the Rust package in `harness/`. A buffer of
  {image} bytes is lent again and again. A call holds no state, and has its arrays on the stack: zeroing them is part of its time, and most of it for a short text.
- Each text was given to the independent reader first (`harness/src/notation`): number, place and image were equal. The answer of every timed call was compared
  too.
- Time is processor time of the process (the C library's `clock`). A batch is as many calls as take about {batch} ms, or one call. Each text had a batch, one text after the other, and so
  {rounds} times over. A figure is a batch's time over its calls; targets and ratios are of median batches.
- The long text comes from `harness/src/texts/long.rs`, the worst ones, of {length} bytes, from `worst.rs` beside it: the same bytes in every run.
- A refusal ends the passes behind it: 20 is found by the first pass over the text, and a text that is taken goes through all of them.

| | |
|---|---|
| date | {date} |
| commit | {commit} |
| processor | {processor} |
| load average at the start | {load} |
| library | {archive} |
| Rust | {rustc} |
",
        image = grouped(LONGEST_IMAGE),
        length = grouped(LONGEST_TEXT),
        batch = BATCH / 1e6,
        rounds = ROUNDS,
        date = fact("BENCH_DATE"),
        commit = fact("BENCH_COMMIT"),
        processor = fact("BENCH_PROCESSOR"),
        archive = fact("BENCH_ARCHIVE"),
        rustc = fact("BENCH_RUSTC"),
    )
}
