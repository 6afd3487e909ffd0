//! docs/bench/table.md.

use crate::conditions::conditions;
use crate::held::looks;
use crate::tables::{calls, table};
use crate::targets::targets;
use crate::Results;

pub fn page(results: &Results, load: &str, lua_version: &str) -> String {
    let Results { by_size, by_names, on_nothing } = results;
    let mut page = String::from("# How fast it is\n\nWritten by `make bench`; [below](#what-was-measured) is what was measured.\n\n");
    page.push_str(&targets(results));
    page.push_str("![Time a byte, by grammar and size of the input](growth.svg)\n\n![Time a step, by names held](symbols.svg)\n\n");
    page.push_str("## By grammar and size\n\n");
    page.push_str("Medians. *Names* is how many were held at a time, at most.\n\n");
    page.push_str(&table(by_size));
    page.push_str("\n## By names held\n\n");
    page.push_str("The typedef grammar: 250 typedefs, then variables of all types held. The typedefs not held stand in closed scopes. Medians.\n\n");
    page.push_str(&table(by_names));
    page.push_str(&looks(results));
    page.push_str("\n## A call on nothing\n\n");
    page.push_str("The image of `samples/harbour` (26 bytes) on an empty input, in microseconds.\n\n");
    page.push_str(&calls(on_nothing));
    page.push_str("\n## Microseconds a call, best and median\n\n");
    page.push_str(&calls(by_size.iter().chain(by_names)));
    page.push_str(&conditions(load, lua_version));
    page
}
