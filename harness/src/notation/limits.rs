//! 01's limits (24), in the order in which they are looked for.

use std::collections::HashSet;

use super::naming::{conditions, defs};
use super::nodes::Numbered;
use super::tree::{each, Expression, Name, Production};
use super::{Stop, Why, LONGEST_IMAGE};
use crate::grammar::Grammar;

/// There are at most so many tables, and at most so many conditions.
const MOST_NAMES: usize = 8;
/// A quoted text has at most so many bytes.
const LONGEST_QUOTED: usize = 64;
/// There are at most so many nodes.
const MOST_NODES: usize = 512;

/// Tables, conditions and quoted texts.
pub fn of_names_and_texts(productions: &[Production]) -> Result<(), Stop> {
    no_ninth(defs(productions).iter().map(|def| def.table), Why::Tables)?;
    no_ninth(conditions(productions).into_iter(), Why::Conditions)?;
    let mut long = None;
    each(productions, &mut |e| match e {
        Expression::Quoted(bytes, at) if bytes.len() > LONGEST_QUOTED => long = long.or(Some(at.0)),
        _ => {}
    });
    match long {
        Some(at) => Err(Stop { why: Why::Quoted, at }),
        None => Ok(()),
    }
}

/// Refused at the name with which there are nine.
fn no_ninth<'a>(mut names: impl Iterator<Item = &'a Name>, why: Why) -> Result<(), Stop> {
    let mut seen = HashSet::new();
    let ninth = names.find(|name| {
        seen.insert(&name.text);
        seen.len() > MOST_NAMES
    });
    match ninth {
        Some(name) => Err(Stop { why, at: name.at.0 }),
        None => Ok(()),
    }
}

/// Refused at the production with which there are too many nodes.
pub fn of_nodes(productions: &[Production], numbered: &Numbered) -> Result<(), Stop> {
    refuse_first(productions, numbered, Why::Nodes, |end| end > MOST_NODES)
}

/// Refused at the production in whose nodes the image passes its limit.
pub fn of_image(productions: &[Production], numbered: &Numbered, image: &[u8]) -> Result<(), Stop> {
    if image.len() <= LONGEST_IMAGE {
        return Ok(());
    }
    // The head is that of the whole image: with so many nodes their count takes two bytes, here and there.
    let grammar = &numbered.grammar;
    let up_to = |end: usize| Grammar { nodes: grammar.nodes[..end].to_vec(), ..grammar.clone() }.encode().len();
    refuse_first(productions, numbered, Why::Image, |end| up_to(end) > LONGEST_IMAGE)
}

/// Refused at the first production for which the count of nodes up to its end is too much.
fn refuse_first(productions: &[Production], numbered: &Numbered, why: Why, too_much: impl Fn(usize) -> bool) -> Result<(), Stop> {
    let first = numbered.ends.partition_point(|end| !too_much(*end));
    match productions.get(first) {
        Some(production) => Err(Stop { why, at: production.name.at.0 }),
        None => Ok(()),
    }
}
