//! Holds the proved library, and the plain implementation, against the reference on 01's own cases and on random ones.
//!
//! `compare [SEED [COUNT]]` runs so many random cases: all answers, check's answers and every slot must be equal, and there must be enough cases of every
//! sort. Wrong machines run some of the cases too, and each must be told apart. `compare --case IMAGE INPUT B D R SLOTS` runs one case and prints what
//! all three make of it.

use std::process::exit;

use yarnspire::cases::{Case, Maker, Seen};
use yarnspire::harbour;
use yarnspire::reference::Fault;
use yarnspire::tally::Tally;
use yarnspire::wrong::Wrong;

const SEED: u64 = 20_260_101;
const COUNT: u64 = 300_000;

/// The wrong machines run this many cases, the first ones.
const WRONG_COUNT: u64 = 50_000;

fn main() {
    let words: Vec<String> = std::env::args().skip(1).collect();
    let done = match words.as_slice() {
        [] => compare(SEED, COUNT),
        [option, case @ ..] if option == "--case" => rerun(case),
        [seed] => number(seed).and_then(|seed| compare(seed, COUNT)),
        [seed, count] => number(seed).and_then(|seed| compare(seed, number(count)?)),
        _ => Err("usage: compare [SEED [COUNT]] | compare --case IMAGE INPUT B D R SLOTS".into()),
    };
    if let Err(what) = done {
        eprintln!("{what}");
        exit(1);
    }
}

fn number(word: &str) -> Result<u64, String> {
    word.parse().map_err(|_| format!("'{word}' is no number"))
}

fn compare(seed: u64, count: u64) -> Result<(), String> {
    println!("library, plain Rust and reference answer 01's {} Harbour cases as 01 says", harbour::run()?);
    println!("seed {seed}, {count} cases");
    let mut maker = Maker::new(seed);
    let mut tally = Tally::default();
    let mut wrong = Wrong::new("case", &Fault::ALL);
    for i in 1..=count {
        let case = maker.case();
        let (expected, trace) = case.by_reference(None);
        for (who, got) in held_to_reference(&case) {
            if got != expected {
                show("reference", &expected);
                show(who, &got);
                return Err(format!("case {i} differs; to run it again: compare --case {}", case.words()));
            }
        }
        tally.count(&expected.answer, &trace);
        if i <= WRONG_COUNT {
            wrong.count(i, |fault| case.by_reference(Some(fault)).0 != expected);
        }
    }
    println!("library, plain Rust and reference agree in all: check, the six numbers, every slot");
    print!("{tally}");
    println!("wrong machines, and in how many of the first {WRONG_COUNT} cases each is told apart:");
    print!("{wrong}");
    if count < COUNT {
        println!("fewer than {COUNT} cases: no count is asked for");
        return Ok(());
    }
    let mut faults = tally.faults();
    faults.extend(wrong.shortages());
    if faults.is_empty() {
        println!("ok");
        return Ok(());
    }
    Err(faults.join("\n"))
}

/// What is held to the reference's answer: the library and the plain implementation.
fn held_to_reference(case: &Case) -> [(&'static str, Seen); 2] {
    [("library", case.by_library()), ("plain Rust", case.by_plain())]
}

fn rerun(words: &[String]) -> Result<(), String> {
    let case = Case::read(words)?;
    let (expected, _) = case.by_reference(None);
    let others = held_to_reference(&case);
    show("reference", &expected);
    others.iter().for_each(|(who, got)| show(who, got));
    if others.iter().any(|(_, got)| *got != expected) {
        return Err("they differ".into());
    }
    println!("they agree");
    Ok(())
}

fn show(who: &str, seen: &Seen) {
    let (number, place) = seen.verdict;
    println!("{who}:");
    println!("  check: number {number}, place {place}");
    println!("  {}", seen.answer);
    println!("  slots and what lies behind them: {:x?}", seen.memory);
}
