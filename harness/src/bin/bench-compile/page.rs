//! docs/bench/compile.md.

use std::fmt::Write;

use yarnspire::figures::{figure, grouped};

use crate::case::Case;
use crate::conditions::conditions;
use crate::targets::targets;
use crate::Results;

pub fn page(results: &Results, load: &str) -> String {
    let slowest = results.slowest();
    let mut page = String::from("# How fast a text is compiled\n\nWritten by `make bench`; [below](#what-was-measured) is what was measured.\n\n");
    page.push_str(&targets(results));
    page.push_str("## By length\n\nA long text and its front: names of several words, comments before each production, parts on lines of their own.\n\n");
    page.push_str(&table(&results.by_length));
    page.push_str("\n## The samples\n\n");
    page.push_str(&table(&results.samples));
    write!(
        page,
        "\n## The worst texts\n\nEach fills the greatest length with what one pass of `compile` has the most work with. The worst is \"{}\": {} ms. The last column is how many \
         times as long it takes as the same sort of text of half the length: 2 where time grows with the text, 4 where it grows with its square.\n\n",
        slowest.what,
        figure(slowest.times.median() / 1e6)
    )
    .expect("text grows");
    page.push_str(&worst(results));
    page.push_str(&conditions(load));
    page
}

/// What was taken, or the refusal.
fn answer(case: &Case) -> String {
    match case.nodes {
        Some(nodes) => format!("nodes {nodes}, bytes {}", grouped(case.answer.length as usize)),
        None => format!("{} at {}", case.answer.number, grouped(case.answer.at as usize)),
    }
}

/// Texts in microseconds.
fn table(cases: &[Case]) -> String {
    let mut text = String::from("| text | bytes | image | microseconds: best | median | ns a byte |\n|---|--:|--:|--:|--:|--:|\n");
    for case in cases {
        let [best, median] = [case.times.best(), case.times.median()].map(|time| figure(time / 1e3));
        let bytes = grouped(case.text.len());
        writeln!(text, "| {} | {bytes} | {} | {best} | {median} | {} |", case.what, answer(case), figure(case.a_byte())).expect("text grows");
    }
    text
}

/// The worst texts in milliseconds, the slowest first.
fn worst(results: &Results) -> String {
    let mut rows: Vec<(&Case, &Case)> = results.worst.iter().zip(&results.halves).collect();
    rows.sort_by(|(a, _), (b, _)| b.times.median().total_cmp(&a.times.median()));
    let mut text = String::from("| text | answer | milliseconds: best | median | ns a byte | to half the length |\n|---|--:|--:|--:|--:|--:|\n");
    for (case, half) in rows {
        let [best, median] = [case.times.best(), case.times.median()].map(|time| figure(time / 1e6));
        let growth = case.times.median() / half.times.median();
        writeln!(text, "| {} | {} | {best} | {median} | {} | {growth:.1} |", case.what, answer(case), figure(case.a_byte())).expect("text grows");
    }
    text
}
