//! The two plots in docs/bench/.

use yarnspire::figures::grouped;
use yarnspire::implementations::Implementation::{self, Before, Library, Lpeg, Plain, Reference};
use yarnspire::inputs::{BYTES_WITH_NAMES_HELD, KINDS};

use crate::picture::{Axis, Frame, Line, Mark, Picture, Style};
use crate::timing::Measured;
use crate::SIZES;

fn style(implementation: Implementation) -> Style {
    match implementation {
        Before => Style { name: "library before", colour: "#6d7f8f", mark: Mark::Ring },
        Library => Style { name: "library (proved)", colour: "#0b62a8", mark: Mark::Circle },
        Plain => Style { name: "plain Rust", colour: "#8a3aa8", mark: Mark::Diamond },
        Reference => Style { name: "reference (Rust)", colour: "#c8501a", mark: Mark::Square },
        Lpeg => Style { name: "LPeg", colour: "#2b8a57", mark: Mark::Triangle },
    }
}

/// Those of them that were measured.
fn of_these(shown: &[Implementation]) -> impl Iterator<Item = Implementation> + '_ {
    shown.iter().copied().filter(|one| one.is_measured())
}

fn styles(shown: &[Implementation]) -> Vec<Style> {
    of_these(shown).map(style).collect()
}

/// Nanoseconds a byte over the size of the input, a panel for each grammar.
pub fn growth(rows: &[Measured]) -> String {
    let measured = Implementation::measured();
    let all: Vec<f64> = rows.iter().flat_map(|row| measured.iter().map(|&one| row.a_byte(one))).collect();
    let x = Axis::logarithmic("input, kB", 1.6, 37.5, SIZES.map(|bytes| bytes as f64 / 1e3).to_vec());
    let y = Axis::decades("ns a byte", &all);
    let mut picture = Picture::new(980.0, 660.0, "Time a byte, by grammar and size of the input", "both axes logarithmic; medians; lower is faster");
    for (i, kind) in KINDS.iter().enumerate() {
        let own = || rows.iter().filter(|row| row.case.grammar == kind.name);
        let points = |one| own().map(|row| (row.case.input.len() as f64 / 1e3, row.a_byte(one))).collect();
        let lines: Vec<Line> = measured.iter().map(|&one| Line { style: style(one), points: points(one) }).collect();
        let frame = Frame { left: 70.0 + 312.0 * (i % 3) as f64, top: 96.0 + 292.0 * (i / 3) as f64, width: 230.0, height: 200.0 };
        picture.panel(kind.name, frame, &x, &y, &lines);
        picture.last_values(frame, &x, &y, &lines);
    }
    picture.legend((724.0, 430.0), &styles(&[Reference, Before, Library, Plain, Lpeg]));
    picture.end()
}

/// Nanoseconds a step over the number of names held: the library, before and now, and plain Rust on one scale, the reference on another.
pub fn symbols(rows: &[Measured]) -> String {
    let x = Axis::linear("names held", &[250.0]);
    let under = format!("the typedef grammar on {} bytes; medians; each panel has its own scale, from 0", grouped(BYTES_WITH_NAMES_HELD));
    let mut picture = Picture::new(990.0, 380.0, "Time a step, by names held", &under);
    let points = |one| rows.iter().map(|row| (row.case.answer.symbols as f64, row.a_step(one))).collect();
    for (i, shown) in [&[Before, Library, Plain][..], &[Reference]].into_iter().enumerate() {
        let lines: Vec<Line> = of_these(shown).map(|one| Line { style: style(one), points: points(one) }).collect();
        let with_room_above = |line: &Line| line.points.iter().map(|point| 1.15 * point.1).collect::<Vec<_>>();
        let y = Axis::linear("ns a step", &lines.iter().flat_map(with_room_above).collect::<Vec<_>>());
        let frame = Frame { left: 70.0 + 400.0 * i as f64, top: 96.0, width: 310.0, height: 220.0 };
        let names: Vec<&str> = lines.iter().map(|line| line.style.name).collect();
        picture.panel(&names.join(", "), frame, &x, &y, &lines);
        picture.all_values(frame, &x, &y, &lines);
    }
    picture.legend((806.0, 120.0), &styles(&[Reference, Before, Library, Plain]));
    picture.end()
}
