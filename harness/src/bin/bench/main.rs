//! The proved library, now and before, the same rules in plain Rust, the reference and LPeg, timed on the same grammars and inputs in one run. Run by
//! scripts/bench from the repository's folder; writes docs/bench/table.md and two plots.

mod case;
mod conditions;
mod held;
mod lua;
mod page;
mod picture;
mod plots;
mod tables;
mod targets;
mod timing;

use std::fs;

use case::{Case, INPUTS};
use lua::Lua;
use timing::{time_in_turn, Measured};
use yarnspire::facts::load_average;
use yarnspire::inputs::{typedef_holding, Kind, KINDS};

const SIZES: [usize; 3] = [2_000, 8_000, 30_000];
const NAMES_HELD: [usize; 5] = [20, 50, 100, 200, 250];
const RESULTS: &str = "docs/bench";

fn main() {
    fs::create_dir_all(INPUTS).expect("the folder for inputs");
    fs::create_dir_all(RESULTS).expect("the folder for results");
    let load = load_average();
    let mut lua = Lua::start();
    let by_size = KINDS.iter().flat_map(|kind| SIZES.map(|bytes| (kind, bytes))).map(|(kind, bytes)| sized(kind, bytes, &mut lua)).collect();
    let by_names = NAMES_HELD.iter().map(|&names| holding(names, &mut lua)).collect();
    let on_nothing = vec![empty(&mut lua)];
    println!("all agree on every input, and LPeg accepts what they accept; timing ..");
    let mut results = Results { by_size, by_names, on_nothing };
    time_in_turn(results.all(), &mut lua);

    let page = page::page(&results, &load, &lua.version());
    print!("{page}");
    write_result("table.md", &page);
    write_result("growth.svg", &plots::growth(&results.by_size));
    write_result("symbols.svg", &plots::symbols(&results.by_names));
}

/// Every case, by what it shows.
pub struct Results {
    by_size: Vec<Measured>,
    by_names: Vec<Measured>,
    on_nothing: Vec<Measured>,
}

impl Results {
    fn all(&mut self) -> Vec<&mut Measured> {
        let Results { by_size, by_names, on_nothing } = self;
        by_size.iter_mut().chain(by_names).chain(on_nothing).collect()
    }
}

/// An input of a kind, which all accept, and of which none accepts the damaged form.
fn sized(kind: &Kind, bytes: usize, lua: &mut Lua) -> Measured {
    let input = (kind.make)(bytes);
    let damaged = (kind.damage)(&input);
    Case::new(kind.name, &format!("{}-{bytes}-damaged", kind.name), damaged).assert_none_accepts(lua);
    let case = Case::new(kind.name, &format!("{}-{bytes}", kind.name), input);
    assert_eq!(case.input.len(), bytes);
    case.assert_all_accept(lua);
    Measured::new(case)
}

fn holding(names: usize, lua: &mut Lua) -> Measured {
    let case = Case::new("typedef", &format!("typedef-holding-{names}"), typedef_holding(names));
    case.assert_all_accept(lua);
    assert_eq!(case.answer.symbols as usize, names);
    Measured::new(case)
}

fn empty(lua: &mut Lua) -> Measured {
    let case = Case::new("harbour", "harbour-empty", Vec::new());
    case.assert_none_accepts(lua);
    Measured::new(case)
}

fn write_result(name: &str, text: &str) {
    fs::write(format!("{RESULTS}/{name}"), text).expect("the result is written");
}
