//! docs/bench/profile.md.

use std::fmt::Write;

use yarnspire::facts::fact;
use yarnspire::figures::{figure, grouped};
use yarnspire::implementations::Implementation::{self, Before, Library, Plain};

use crate::profile::Profile;

/// A function that has fewer instructions a step everywhere has no line of its own.
const LEAST: f64 = 0.05;

pub fn page(profiles: &[Profile], compared: &[Implementation]) -> String {
    let mut page = format!(
        "# Where the instructions go\n\n\
         Written by `make bench`, as are the [times](table.md), which say what *before*, *library* and *plain Rust* are{before}.\n\n\
         Instructions a step, in one call on each input, by the function that they stand in and without those of the functions that it calls. Counted by\n\
         valgrind's callgrind as what two calls execute more than one, so that making the input counts for nothing. A compiler may put a function inside the one that\n\
         calls it, and its instructions then stand there. Functions with less than {LEAST} instructions a step are taken together.\n\n\
         ## In all\n\n{totals}",
        before = if compared.contains(&Before) { "" } else { "; *before* was not measured" },
        totals = totals(profiles, compared),
    );
    for profile in profiles {
        write!(page, "\n## {}\n\n{}", profile.input, functions(profile, compared)).expect("text grows");
    }
    page.push_str(&conditions());
    page
}

/// Instructions a step, of all functions together, on each input; and how many times as many one implementation has as another.
fn totals(profiles: &[Profile], compared: &[Implementation]) -> String {
    let pairs: Vec<[Implementation; 2]> = [[Before, Library], [Library, Plain]].into_iter().filter(|pair| pair.iter().all(|one| one.is_measured())).collect();
    let mut headings: Vec<String> = ["input", "steps"].map(String::from).to_vec();
    headings.extend(compared.iter().map(|one| one.name().to_string()));
    headings.extend(pairs.iter().map(|[one, other]| format!("{} / {}", one.name(), other.name())));
    let mut text = head(&headings);
    for profile in profiles {
        let mut cells = vec![profile.input.clone(), grouped(profile.steps as usize)];
        cells.extend(compared.iter().map(|&one| figure(profile.total(one))));
        cells.extend(pairs.iter().map(|&[one, other]| figure(profile.total(one) / profile.total(other))));
        line(&mut text, &cells);
    }
    text
}

/// Instructions a step of each function.
fn functions(profile: &Profile, compared: &[Implementation]) -> String {
    let names = shown(profile, compared);
    let mut headings = vec!["function".to_string()];
    headings.extend(compared.iter().map(|one| one.name().to_string()));
    let mut text = head(&headings);
    for name in &names {
        let mut cells = vec![format!("`{name}`")];
        cells.extend(compared.iter().map(|&one| count(profile.a_step(one, name))));
        line(&mut text, &cells);
    }
    let in_lines = |one| names.iter().map(|name| profile.a_step(one, name)).sum::<f64>();
    let mut others = vec!["all others".to_string()];
    others.extend(compared.iter().map(|&one| count(profile.total(one) - in_lines(one))));
    line(&mut text, &others);
    text
}

/// The functions that have lines: those of the library, then those that plain Rust alone has, the greatest first.
fn shown<'a>(profile: &'a Profile, compared: &[Implementation]) -> Vec<&'a str> {
    let greatest = |name| compared.iter().map(|&one| profile.a_step(one, name)).fold(0.0, f64::max);
    let only_plain = |name| compared.iter().all(|&one| one == Plain || profile.a_step(one, name) == 0.0);
    let mut names = profile.functions();
    names.retain(|name| greatest(name) >= LEAST);
    names.sort_by(|a, b| only_plain(a).cmp(&only_plain(b)).then(greatest(b).total_cmp(&greatest(a))));
    names
}

/// Zero is left blank: the implementation does not have the function.
fn count(instructions: f64) -> String {
    match instructions {
        none if none == 0.0 => String::new(),
        some => format!("{some:.2}"),
    }
}

fn head(headings: &[String]) -> String {
    format!("| {} |\n|---{}|\n", headings.join(" | "), "|--:".repeat(headings.len() - 1))
}

fn line(text: &mut String, cells: &[String]) {
    writeln!(text, "| {} |", cells.join(" | ")).expect("text grows");
}

fn conditions() -> String {
    format!(
        "\n## On what\n\n| | |\n|---|---|\n| date | {} |\n| processor | {} |\n| library | {} |\n| Rust | {} |\n| valgrind | {} |\n",
        fact("BENCH_DATE"),
        fact("BENCH_PROCESSOR"),
        fact("BENCH_ARCHIVE"),
        fact("BENCH_RUSTC"),
        fact("BENCH_VALGRIND"),
    )
}
