//! How often stored symbols are looked at in a run, and for what.
//!
//! Counted is what a machine does that has one store for all tables and nothing beside it: it finds a table's latest symbol by looking back from the
//! latest of all, goes through a list in the same direction, and closes a scope by a look at each symbol above the mark.

use std::cell::Cell;

use crate::plain::{recognise_watched, Happening, Symbol, Watch};
use crate::Limits;

/// Looks at stored symbols, by what they are for.
#[derive(Clone, Copy, Debug, Default, PartialEq, Eq)]
pub struct Visits {
    /// How often a table's latest symbol is sought: by Match, Is and Exists, and by Isa, to see whether its list is empty.
    pub searches: u64,
    /// The symbols that these look at.
    pub sought: u64,
    /// How often Isa goes through its list.
    pub walks: u64,
    /// The symbols that these look at.
    pub compared: u64,
    /// How many scopes close.
    pub closings: u64,
    /// The symbols that these look at.
    pub closed: u64,
    /// Of these, the ones that are moved.
    pub moved: u64,
    /// Of these, the ones below the first that goes: they are moved to where they are.
    pub moved_nowhere: u64,
}

impl Visits {
    /// Symbols looked at in all.
    pub fn all(&self) -> u64 {
        self.sought + self.compared + self.closed
    }

    fn and(self, what: Happening) -> Visits {
        match what {
            Happening::Sought { table, among } => {
                let latest = among.iter().rposition(|symbol| symbol.table == table);
                Visits { searches: self.searches + 1, sought: self.sought + down_to(latest, among), ..self }
            }
            Happening::Compared { among, equal } => Visits { walks: self.walks + 1, compared: self.compared + down_to(equal, among), ..self },
            Happening::Closed { table, inside } => {
                let stays = |symbol: &&Symbol| symbol.table != table;
                Visits {
                    closings: self.closings + 1,
                    closed: self.closed + inside.len() as u64,
                    moved: self.moved + inside.iter().filter(stays).count() as u64,
                    moved_nowhere: self.moved_nowhere + inside.iter().take_while(stays).count() as u64,
                    ..self
                }
            }
        }
    }
}

/// How many symbols there are from the latest back to a place, or all if there is no such place.
fn down_to(place: Option<usize>, among: &[Symbol]) -> u64 {
    (among.len() - place.unwrap_or(0)) as u64
}

#[derive(Default)]
struct Counter(Cell<Visits>);

impl Watch for &Counter {
    const WATCHES: bool = true;

    fn sees(&self, what: Happening) {
        self.0.set(self.0.get().and(what));
    }
}

/// The visits of a run under the greatest limits.
pub fn visits(image: &[u8], input: &[u8]) -> Visits {
    let counter = Counter::default();
    recognise_watched(image, input, Limits::AMPLE, &mut vec![0; Limits::AMPLE.slots()], &counter);
    counter.0.get()
}
