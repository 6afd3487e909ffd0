//! Who watches a run.

use super::run::Symbol;

/// What happens to the store. The symbols are oldest first.
pub enum Happening<'a> {
    /// The latest symbol of a table is sought among these.
    Sought { table: u8, among: &'a [Symbol] },
    /// Those of these that are a table's are compared with some bytes; of the equal ones the latest has this place, if there is one.
    Compared { among: &'a [Symbol], equal: Option<usize> },
    /// A scope of a table closes. These were stored inside it.
    Closed { table: u8, inside: &'a [Symbol] },
}

/// Someone who watches a run.
pub trait Watch {
    /// Whether anything is to be told: what is not told is not compiled either.
    const WATCHES: bool;

    fn sees(&self, what: Happening);
}

/// Nobody watches the run that is timed.
pub struct Nobody;

impl Watch for Nobody {
    const WATCHES: bool = false;

    fn sees(&self, _what: Happening) {}
}
