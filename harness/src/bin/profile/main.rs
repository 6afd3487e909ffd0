//! The instructions that a call executes, by function, of the library, now and before, and of plain Rust. Run by scripts/profile from the repository's
//! folder; writes docs/bench/profile.md.
//!
//! With the names of an implementation and an input and a number it makes so many calls and ends: this is what it has valgrind run.

mod callgrind;
mod page;
mod profile;

use std::{env, fs};

use callgrind::instructions_of_a_call;
use profile::Profile;
use yarnspire::implementations::Implementation::{self, Before, Library, Plain};
use yarnspire::inputs::{typedef_holding, Kind, FEW_AND_MANY, KINDS};
use yarnspire::{samples, Limits};

const BYTES: usize = 30_000;
const COMPARED: [Implementation; 3] = [Before, Library, Plain];
const RESULT: &str = "docs/bench/profile.md";

fn main() {
    let words: Vec<String> = env::args().skip(1).collect();
    match &words[..] {
        [] => profile(),
        [implementation, input, count] => make_calls(implementation, input, count),
        _ => panic!("usage: profile [IMPLEMENTATION INPUT COUNT]"),
    }
}

/// A grammar of samples/ with a text.
struct Input {
    name: String,
    grammar: &'static str,
    text: Vec<u8>,
}

/// One of each kind, and the texts with few and with many names held.
fn inputs() -> Vec<Input> {
    let of_kind = |kind: &Kind| Input { name: format!("{}-{BYTES}", kind.name), grammar: kind.name, text: (kind.make)(BYTES) };
    let holding = |names| Input { name: format!("typedef-holding-{names}"), grammar: "typedef", text: typedef_holding(names) };
    KINDS.iter().map(of_kind).chain(FEW_AND_MANY.map(holding)).collect()
}

fn profile() {
    let compared: Vec<Implementation> = COMPARED.into_iter().filter(|one| one.is_measured()).collect();
    let profiles: Vec<Profile> = inputs().iter().map(|input| profile_of(input, &compared)).collect();
    let page = page::page(&profiles, &compared);
    print!("{page}");
    fs::write(RESULT, page).expect("the result is written");
}

fn profile_of(input: &Input, compared: &[Implementation]) -> Profile {
    println!("{} ..", input.name);
    let instructions = compared.iter().map(|&one| (one, instructions_of_a_call(one, &input.name))).collect();
    Profile { input: input.name.clone(), steps: steps(Library, input, 1), instructions }
}

fn make_calls(implementation: &str, input: &str, count: &str) {
    let implementation = COMPARED.into_iter().find(|one| one.name() == implementation).expect("one that is compared");
    let input = inputs().into_iter().find(|one| one.name == input).expect("one of the inputs");
    println!("{} steps", steps(implementation, &input, count.parse().expect("a number of calls")));
}

/// The steps of so many calls, all together.
fn steps(implementation: Implementation, input: &Input, calls: u32) -> u32 {
    let recognise = implementation.recognise().expect("it is linked");
    let image = samples::image(input.grammar);
    let mut slots = vec![0; Limits::AMPLE.slots()];
    (0..calls).map(|_| recognise(&image, &input.text, Limits::AMPLE, &mut slots).steps).sum()
}
