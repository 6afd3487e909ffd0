//! What was measured, how, on what, and what to make of it.

use yarnspire::facts::fact;
use yarnspire::implementations::Implementation::Before;
use yarnspire::timing::{BATCH, ROUNDS};
use yarnspire::Limits;

/// What the library is held against as it was.
fn before() -> String {
    match Before.recognise() {
        Some(_) => format!(
            "the same function of the library of commit `{}`, made as the present one is and linked beside it (`scripts/before-archive`)",
            fact("BENCH_BEFORE")
        ),
        None => "not measured; the clone in which this ran lacks the commit that `scripts/before-archive` names, or the kit cannot build it".to_string(),
    }
}

/// The last sections of the page.
pub fn conditions(load: &str, lua_version: &str) -> String {
    format!(
        r"
## What was measured

- **Library**: `yarnspire_recognise` of the proved library, called through the Rust package in `harness/`. Each call checks the image anew and
  runs under the greatest limits (B 1,000,000, D 256, R 256). The slot buffer of {slots} numbers is lent again and again, and the bench does not
  clear it between calls; the library itself puts zeros into the first 3R numbers in each call, and that is part of its time.
- **Before**: {before}.
- **Plain Rust**: 01 in safe Rust without a proof, written for speed (`harness/src/plain`). It decodes the image in each call, into nodes of eight
  bytes, and walks them with one store for the symbols of all tables. It has no memo tables, no classes of characters and nothing kept between calls.
- **Reference**: the readable implementation of 01 in Rust (`harness/src/reference`). It too reads the image in each call. Both are compiled for release.
- **LPeg**: the grammars in `harness/bench/`, built once, before the time is taken. What is timed is `lpeg.match` in a loop in Lua.
- Each input was given to all of them first. All but LPeg gave equal answers and equal slots. The answer was accepted with
  all bytes consumed, and LPeg consumed all bytes; the empty input is accepted by none. Each input of the first table has a damaged form, which none of
  them accepts. The answer of every timed call was compared too.
- Time is processor time of the process (the C library's `clock`, which Lua's `os.clock` reads as well). A batch is as many calls as take
  about {batch} ms. All ran a batch each on one input after the other, and so {rounds} times over. A figure is a batch's time over its calls, a ratio is one of
  two median batches, and tables and plots show the median batch unless they say best.
- Inputs come from `harness/src/inputs.rs`, the same bytes in every run, and small enough to stay in the processor's caches.

| | |
|---|---|
| date | {date} |
| processor | {processor} |
| load average at the start | {load} |
| library | {archive} |
| Rust | {rustc} |
| Lua | {lua_version} |

## What the figures do not say

- Plain Rust is one programmer's work. Several designs were tried on these inputs and the fastest was kept, so it is fitted to them a little. What
  helped most is that a single byte is looked at without a call, which the library does too; that the second part of a sequence or a choice runs in the
  call of the first helped less. Steps and depth are counted as 01 says all the same. 01 asks of the library that its evaluator calls itself on child
  nodes, that the state goes by value, and that one tally is carried; docs/landings/07-speed.md has what each of these costs.
- Where a function lies in memory moves its time, that of plain Rust by up to a tenth on some grammars. Here every function of the libraries and of the Rust
  code begins at a multiple of 64 bytes (`scripts/measure`), so that equal code takes equal time; in another program it may lie elsewhere.
- The ratio of library and plain Rust is one of two programs and two compilers: rustc made one, and Rattle with the kit's clang the other.
- The reference is the readable implementation, not a fast one: it hands the lists of all tables round by value, copies them in nearly every
  step, and carries the switches by which the tests make wrong machines of it. So its time a step grows with the names held. It shows what those
  copies cost, and no more.
- LPeg compiles a grammar for a machine of its own, with sets of characters and runs of a set as single instructions. An image of edition 1 has
  neither: a class like `[a-z0-9_]` is a choice of ranges, and each byte of a name is a round of a Star, an entry of its body, and an entry of each
  alternative tried.
- The images are compiled from the grammars of `samples/`, which are written to be read. Every byte of text between tags costs seven steps (a round, a choice,
  a call, a sequence, a look ahead with its byte, and any byte); the LPeg grammar takes the whole run of text at once.
- LPeg is asked for a match alone. It has captures only where the language needs them, and hands back no names; the library answers with the
  exact count of steps, the depth, and every name held. LPeg counts no steps and knows none of 01's limits.
- The LPeg grammars are written by hand for LPeg and not translated node by node. They look type names up in a Lua table by hash where the library
  walks its list, and count blanks where the library compares them. They are meant to accept the same texts, and the bench holds them to that on
  each input and its damaged form; where one relies on a declaration or a body never being tried in another way, a comment says so.
- The library holds no state between calls and reads the image each time; a caller with one grammar and many short inputs pays that each time,
  and a call on nothing shows how much.
",
        slots = Limits::AMPLE.slots(),
        batch = BATCH / 1e6,
        rounds = ROUNDS,
        date = fact("BENCH_DATE"),
        processor = fact("BENCH_PROCESSOR"),
        before = before(),
        archive = fact("BENCH_ARCHIVE"),
        rustc = fact("BENCH_RUSTC"),
    )
}
