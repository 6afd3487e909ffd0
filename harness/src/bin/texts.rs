//! Holds the library's `compile` against a second reader of grammar texts, and the images that it writes against the meaning of the texts.
//!
//! `texts [SEED [COUNT]]` compiles the extremes and so many random texts: numbers, places, images and every byte of the buffers must be equal, and there
//! must be enough texts of every sort. Wrong readers read some of the texts too, and each must be told apart. `texts --text FILE [INPUT]` compiles one
//! text and prints what both make of it, and of the input, which is written in hexadecimal digits.

use std::fs;
use std::process::exit;

use yarnspire::compiled::compile_numbers;
use yarnspire::notation::on_deep_stack;
use yarnspire::texts::{compare, show, Held, COUNT, SEED};
use yarnspire::{hex, recognise_numbers};

const LIBRARY: Held = Held { compile: compile_numbers, recognise: recognise_numbers };

fn main() {
    let words: Vec<String> = std::env::args().skip(1).collect();
    if let Err(what) = on_deep_stack(|| run(&words)) {
        eprintln!("{what}");
        exit(1);
    }
}

fn run(words: &[String]) -> Result<(), String> {
    match words {
        [] => compare(SEED, COUNT, LIBRARY),
        [option, file] if option == "--text" => show(&bytes(file)?, None, LIBRARY),
        [option, file, input] if option == "--text" => show(&bytes(file)?, Some(&hex::read(input)?), LIBRARY),
        [seed] => compare(number(seed)?, COUNT, LIBRARY),
        [seed, count] => compare(number(seed)?, number(count)?, LIBRARY),
        _ => Err("usage: texts [SEED [COUNT]] | texts --text FILE [INPUT]".into()),
    }
}

fn bytes(file: &str) -> Result<Vec<u8>, String> {
    fs::read(file).map_err(|error| format!("{file}: {error}"))
}

fn number(word: &str) -> Result<u64, String> {
    word.parse().map_err(|_| format!("'{word}' is no number"))
}
