//! The tables of times.

use std::fmt::Write;

use yarnspire::figures::{figure, grouped};
use yarnspire::implementations::Implementation::{self, Before, Library, Lpeg, Plain, Reference};

use crate::timing::Measured;

/// A column of a table: what it has for a case, if all that it speaks of was measured.
struct Column {
    heading: &'static str,
    of: &'static [Implementation],
    cell: fn(&Measured) -> String,
}

const COLUMNS: [Column; 13] = [
    Column { heading: "grammar", of: &[], cell: |row| row.case.grammar.to_string() },
    Column { heading: "bytes", of: &[], cell: |row| grouped(row.case.input.len()) },
    Column { heading: "steps", of: &[], cell: |row| grouped(row.case.answer.steps as usize) },
    Column { heading: "names", of: &[], cell: |row| grouped(row.case.most_held as usize) },
    Column { heading: "before, ns a step", of: &[Before], cell: |row| figure(row.a_step(Before)) },
    Column { heading: "library, ns a step", of: &[Library], cell: |row| figure(row.a_step(Library)) },
    Column { heading: "plain Rust, ns a step", of: &[Plain], cell: |row| figure(row.a_step(Plain)) },
    Column { heading: "reference, ns a step", of: &[Reference], cell: |row| figure(row.a_step(Reference)) },
    Column { heading: "before / library", of: &[Before, Library], cell: |row| figure(row.ratio(Before, Library)) },
    Column { heading: "library / plain Rust", of: &[Library, Plain], cell: |row| figure(row.ratio(Library, Plain)) },
    Column { heading: "library, ns a byte", of: &[Library], cell: |row| figure(row.a_byte(Library)) },
    Column { heading: "LPeg, ns a byte", of: &[Lpeg], cell: |row| figure(row.a_byte(Lpeg)) },
    Column { heading: "library / LPeg", of: &[Library, Lpeg], cell: |row| figure(row.ratio(Library, Lpeg)) },
];

/// What each implementation takes a step and a byte.
pub fn table(rows: &[Measured]) -> String {
    let columns: Vec<&Column> = COLUMNS.iter().filter(|column| column.of.iter().all(|one| one.is_measured())).collect();
    let headings: Vec<&str> = columns.iter().map(|column| column.heading).collect();
    let mut text = format!("| {} |\n|---{}|\n", headings.join(" | "), "|--:".repeat(headings.len() - 1));
    for row in rows {
        let cells: Vec<String> = columns.iter().map(|column| (column.cell)(row)).collect();
        writeln!(text, "| {} |", cells.join(" | ")).expect("text grows");
    }
    text
}

/// How long a call takes: the best and the median batch of each implementation.
pub fn calls<'a>(rows: impl IntoIterator<Item = &'a Measured>) -> String {
    let measured = Implementation::measured();
    let headings: Vec<String> = measured.iter().map(|one| format!("{}: best | median", one.name())).collect();
    let mut text = format!("| input | {} |\n|---{}|\n", headings.join(" | "), "|--:".repeat(2 * measured.len()));
    for row in rows {
        let times = measured.iter().flat_map(|&one| [row.best(one), row.median(one)]);
        let cells: Vec<String> = times.map(|time| figure(time / 1e3)).collect();
        writeln!(text, "| {} | {} |", row.case.name, cells.join(" | ")).expect("text grows");
    }
    text
}
