//! What held names cost, and for what the store is looked at.

use std::fmt::Write;

use yarnspire::figures::{figure, grouped};
use yarnspire::implementations::Implementation::{Before, Library, Plain};
use yarnspire::inputs::FEW_AND_MANY;
use yarnspire::visits::{visits, Visits};

use crate::timing::Measured;
use crate::{Results, SIZES};

/// A case with few names held, and one with many.
pub fn few_and_many(by_names: &[Measured]) -> [&Measured; 2] {
    FEW_AND_MANY.map(|names| by_names.iter().find(|row| row.case.answer.symbols as usize == names).expect("so many names are held in one"))
}

/// The section on looks at the store.
pub fn looks(results: &Results) -> String {
    let greatest = SIZES[SIZES.len() - 1];
    let by_grammar = results.by_size.iter().filter(|row| row.case.input.len() == greatest);
    let mut text = String::from(
        "\n## Looks at stored names\n\n\
         How often a call looks at a stored name: in the searches for a table's latest one (of Match, Is and Exists, and of Isa, which fails on an empty list), in\n\
         Isa's walks through its list, and when scopes close; how many of the last are moved, and how many of these in place, no name below them having gone.\n\
         Counted over plain Rust (`harness/src/visits.rs`), for a store that nothing is kept beside, with every walk from the latest name back; plain Rust's own\n\
         goes through Isa's list from its oldest name on.\n\n\
         | input | searches | looks | Isa's walks | looks | scopes closed | looks | moved | in place |\n\
         |---|--:|--:|--:|--:|--:|--:|--:|--:|\n",
    );
    for row in results.by_names.iter().chain(by_grammar) {
        writeln!(text, "| {} | {} |", row.case.name, cells(counted(row)).join(" | ")).expect("text grows");
    }
    text.push_str(&difference(few_and_many(&results.by_names)));
    text
}

fn counted(row: &Measured) -> Visits {
    visits(&row.case.image, &row.case.input)
}

fn cells(counts: Visits) -> Vec<String> {
    let Visits { searches, sought, walks, compared, closings, closed, moved, moved_nowhere } = counts;
    [searches, sought, walks, compared, closings, closed, moved, moved_nowhere].map(|count| grouped(count as usize)).to_vec()
}

/// What many names cost more than few, and how much of it goes to which looks.
fn difference([few, many]: [&Measured; 2]) -> String {
    let [few_names, many_names] = FEW_AND_MANY;
    let [with_few, with_many] = [few, many].map(counted);
    let more = |of: fn(&Visits) -> u64| of(&with_many) as f64 - of(&with_few) as f64;
    let looks = more(Visits::all);
    let [sought, compared, closed, in_place] = [more(|of| of.sought), more(|of| of.compared), more(|of| of.closed), more(|of| of.moved_nowhere)];
    format!(
        "\nFrom {few_names} to {many_names} names held there are {looks} looks more: {sought} in searches, {compared} in Isa's walks, {closed} when scopes close. \
         A call takes more time:\n\n{times}\n\
         If each look takes as long as any other, Isa's walks are {isa} of that time. To have each table's latest name at hand would save at most the looks of the\n\
         searches, {searches} of it; here these are all Isa's, since the grammar has no Match, Is or Exists. To close a scope from the first name that goes would save at most\n\
         the moves in place, {moves} of it. The instructions of each function, with {few_names} names held and with {many_names}, are in [the profile](profile.md).\n",
        times = times_more([few, many], looks),
        isa = share(compared, looks),
        searches = share(sought, looks),
        moves = share(in_place, looks),
        looks = grouped(looks as usize),
        sought = signed(sought),
        compared = signed(compared),
        closed = signed(closed),
    )
}

fn times_more([few, many]: [&Measured; 2], looks: f64) -> String {
    let mut text = format!("| | microseconds more | of the time with {} | ns for each look more |\n|---|--:|--:|--:|\n", FEW_AND_MANY[0]);
    for one in [Library, Before, Plain].into_iter().filter(|one| one.is_measured()) {
        let time = many.median(one) - few.median(one);
        let cells = [figure(time / 1e3), share(time, few.median(one)), figure(time / looks)];
        writeln!(text, "| {} | {} |", one.name(), cells.join(" | ")).expect("text grows");
    }
    text
}

/// A whole number, with its sign.
fn signed(number: f64) -> String {
    format!("{}{}", if number < 0.0 { "-" } else { "+" }, grouped(number.abs() as usize))
}

fn share(part: f64, whole: f64) -> String {
    format!("{:.2} %", 100.0 * part / whole)
}
