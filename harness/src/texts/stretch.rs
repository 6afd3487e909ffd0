//! Productions stretched to a limit of 01, and just past it.

use super::trees::{def, name, quoted, sequence};
use super::writer;
use crate::grammar::Grammar;
use crate::notation::tree::{each, Expression, Part, Place, Production};
use crate::notation::{self, LONGEST_IMAGE};
use crate::random::Random;

/// Stretches productions in one way, and now and then in two.
pub fn stretch(random: &mut Random, productions: &mut Vec<Production>) {
    one_way(random, productions);
    if random.percent(25) {
        one_way(random, productions);
    }
}

fn one_way(random: &mut Random, productions: &mut Vec<Production>) {
    match random.below(20) {
        0..=4 => tables(random, productions),
        5..=9 => conditions(random, productions),
        10..=14 => long_text(random, productions),
        15..=18 => nodes(random, productions),
        _ => image(random, productions),
    }
}

/// Puts a production somewhere, often behind the others.
fn put(random: &mut Random, productions: &mut Vec<Production>, text: &str, body: Expression) {
    let at = if random.percent(70) { productions.len() } else { random.below(productions.len() + 1) };
    productions.insert(at, Production { name: name(text), body });
}

/// All of these in a row.
fn row(parts: Vec<Expression>) -> Expression {
    let joined = parts.into_iter().rev().reduce(|right, left| sequence(left, right));
    joined.expect("there is a part")
}

/// Defs of three to nine more tables, some of them twice.
fn tables(random: &mut Random, productions: &mut Vec<Production>) {
    let mut defs = Vec::new();
    for i in 0..3 + random.below(7) {
        let table = format!("{}{i}", random.pick(&["T", "t", "A", "_"]));
        for _ in 0..1 + random.below(2) {
            defs.push(def(&table, Expression::Any));
        }
    }
    put(random, productions, "Tables", row(defs));
}

/// Three to nine more conditions.
fn conditions(random: &mut Random, productions: &mut Vec<Production>) {
    let mut looks = Vec::new();
    for i in 0..3 + random.below(7) {
        let condition = name(&format!("{}{i}", random.pick(&["C", "c", "A", "_"])));
        let truth = random.percent(50);
        looks.push(match random.percent(50) {
            true => Expression::If(condition, truth),
            false => Expression::On(condition, truth, Box::new(quoted(b"A"))),
        });
    }
    put(random, productions, "Conditions", row(looks));
}

/// A quoted text of 62 to 67 bytes.
fn long_text(random: &mut Random, productions: &mut Vec<Production>) {
    let bytes: Vec<u8> = (0..62 + random.below(6)).map(|_| random.pick(b"AB=;\n'\"\\\xe4")).collect();
    put(random, productions, "Long", quoted(&bytes));
}

/// The nodes of productions, if they are within the limits.
fn grammar_of(random: &mut Random, productions: &[Production]) -> Option<Grammar> {
    let text = writer::write(random, productions).text;
    notation::compile(&text, None).ok().map(|compiled| compiled.grammar)
}

/// So many more nodes that there are 510 to 515.
fn nodes(random: &mut Random, productions: &mut Vec<Production>) {
    let count = grammar_of(random, productions).map_or(512, |grammar| grammar.nodes.len());
    if count > 500 {
        return;
    }
    let more = 510 + random.below(6) - count;
    // A class or a row of k has 2k - 1 nodes, and a star around it one more.
    let parts = (more + 1) / 2;
    let all = match random.percent(50) {
        true => Expression::Class(vec![Part::Byte(b'A'); parts]),
        false => row(vec![Expression::Any; parts]),
    };
    put(random, productions, "Nodes", if more % 2 == 0 { Expression::Star(Box::new(all)) } else { all });
}

/// So many quoted texts that the image has 16,382 to 16,387 bytes. The productions before stay in front, so that their nodes keep their numbers.
fn image(random: &mut Random, productions: &mut Vec<Production>) {
    let grammar = match grammar_of(random, productions) {
        Some(grammar) if grammar.nodes.len() < 128 => grammar,
        _ => return,
    };
    // The count of nodes will take a byte more.
    let mut left = LONGEST_IMAGE - 2 + random.below(6) - grammar.encode().len() - 1;
    let mut count = 0;
    while left > 0 {
        let (body, bytes) = match left {
            1..=3 => (Expression::Any, 1),
            // A text of k bytes takes k + 2.
            _ => {
                let length = (left - 2).min(64);
                (quoted(&vec![random.pick(b"AB;"); length]), length + 2)
            }
        };
        productions.push(Production { name: name(&format!("Image{count}")), body });
        left -= bytes;
        count += 1;
    }
}

/// A def that is not like the table's first one: a production of its own, at some place.
pub fn unlike(random: &mut Random, productions: &mut Vec<Production>) {
    let mut defs = Vec::new();
    each(productions, &mut |e| {
        if let Expression::Def(table, pattern, _) = e {
            defs.push((table.text.clone(), pattern.as_ref().clone()));
        }
    });
    if defs.is_empty() {
        defs.push(("T".to_string(), quoted(b"A")));
        put(random, productions, "First", def("T", quoted(b"A")));
    }
    let (table, pattern) = defs.swap_remove(random.below(defs.len()));
    let other = other(random, pattern);
    put(random, productions, "Unlike", def(&table, other));
}

/// Another expression that is nearly this one.
fn other(random: &mut Random, e: Expression) -> Expression {
    match (e, random.below(3)) {
        (Expression::Class(parts), _) => match parts[..] {
            [Part::Byte(byte)] if random.percent(50) => quoted(&[byte]),
            [Part::Byte(byte)] => Expression::Class(vec![Part::Byte(byte), Part::Byte(byte)]),
            [Part::Range(low, high)] => Expression::Class(vec![Part::Byte(low), Part::Byte(high)]),
            _ => Expression::Class(parts.into_iter().rev().chain([Part::Byte(b'A')]).collect()),
        },
        (Expression::Quoted(bytes, _), _) if bytes.len() == 1 => Expression::Class(vec![Part::Byte(bytes[0])]),
        (Expression::Plus(e), 0) => Expression::Star(e),
        (Expression::Plus(e), 1) => sequence(e.as_ref().clone(), Expression::Star(e)),
        (Expression::Star(e), 0) => Expression::Plus(e),
        (Expression::Optional(e), 0) => Expression::Choice(e, Box::new(Expression::Quoted(Vec::new(), Place::default()))),
        (Expression::Call(called), _) => Expression::And(Box::new(Expression::Call(called))),
        (e, 2) => sequence(e, quoted(b"")),
        (e, _) => Expression::Optional(Box::new(e)),
    }
}
