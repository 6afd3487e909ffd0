//! The rules for names: each name used is defined (21), no two productions have the same (22), and the defs of a table are alike (23).

use std::collections::{HashMap, HashSet};

use super::tree::{each, Expression, Name, Place, Production};
use super::{Fault, Stop, Why};

/// The first refusal of 21 to 23, in this order.
pub fn check(productions: &[Production], fault: Option<Fault>) -> Result<(), Stop> {
    if fault == Some(Fault::TwiceFirst) {
        defined_once(productions)?;
    }
    defined(productions)?;
    defined_once(productions)?;
    alike(productions)
}

/// 21, at the first name that is not defined.
fn defined(productions: &[Production]) -> Result<(), Stop> {
    let names: HashSet<&str> = productions.iter().map(|production| production.name.text.as_str()).collect();
    let tables: HashSet<&str> = defs(productions).iter().map(|def| def.table.text.as_str()).collect();
    let mut first = None;
    each(productions, &mut |e| {
        let missing = match e {
            Expression::Call(name) if !names.contains(name.text.as_str()) => Some((Why::NoProduction, name)),
            _ => table(e).filter(|table| !tables.contains(table.text.as_str())).map(|table| (Why::NoDef, table)),
        };
        first = first.or(missing);
    });
    match first {
        Some((why, name)) => Err(Stop { why, at: name.at.0 }),
        None => Ok(()),
    }
}

/// The table that an expression names, if it names one.
fn table(e: &Expression) -> Option<&Name> {
    match e {
        Expression::Match(table) | Expression::Is(table) | Expression::Isa(table) | Expression::Exists(table) => Some(table),
        Expression::Def(table, ..) | Expression::Block(table, _) | Expression::Local(table, _) => Some(table),
        _ => None,
    }
}

/// 22, at the first production whose name stands before.
fn defined_once(productions: &[Production]) -> Result<(), Stop> {
    let mut names = HashSet::new();
    match productions.iter().find(|production| !names.insert(&production.name.text)) {
        Some(second) => Err(Stop { why: Why::Twice, at: second.name.at.0 }),
        None => Ok(()),
    }
}

/// 23, at the first def that is not like the first one of its table.
fn alike(productions: &[Production]) -> Result<(), Stop> {
    let mut firsts: HashMap<&str, &Expression> = HashMap::new();
    let mut defs = defs(productions).into_iter();
    match defs.find(|def| *firsts.entry(&def.table.text).or_insert(def.pattern) != def.pattern) {
        Some(def) => Err(Stop { why: Why::Unlike, at: def.at.0 }),
        None => Ok(()),
    }
}

/// `<def T e>`: T, e and the place of its `<`.
pub struct Def<'a> {
    pub table: &'a Name,
    pub pattern: &'a Expression,
    at: Place,
}

/// All defs, in the order in which they begin.
pub fn defs(productions: &[Production]) -> Vec<Def<'_>> {
    let mut defs = Vec::new();
    each(productions, &mut |e| {
        if let Expression::Def(table, pattern, at) = e {
            defs.push(Def { table, pattern, at: *at });
        }
    });
    defs
}

/// The names of all conditions, in the order of the text.
pub fn conditions(productions: &[Production]) -> Vec<&Name> {
    let mut names = Vec::new();
    each(productions, &mut |e| {
        if let Expression::If(name, _) | Expression::On(name, _, _) = e {
            names.push(name);
        }
    });
    names
}
