//! A second reader of grammar texts, written from docs/notation.md and knowing nothing of the proved one: a text becomes a tree of productions, and
//! that an image. Wrong readers show what a comparison with it can tell.
//!
//! Brackets may nest 30,000 deep, and so may calls in here: what works on a text of unknown depth belongs inside [`on_deep_stack`].

mod fault;
mod lexer;
mod limits;
pub mod meaning;
mod naming;
mod nodes;
mod places;
mod reader;
mod tokens;
pub mod tree;
mod why;

pub use fault::Fault;
pub use places::{tokens, Tokens};
pub use why::{Stop, Why};

use std::thread;

use crate::grammar::Grammar;
use lexer::Lexer;
use tree::Production;

/// A text is at most this long.
pub const LONGEST_TEXT: usize = 65_535;

/// An image is at most this long.
pub const LONGEST_IMAGE: usize = 16_384;

/// What a good text becomes.
#[derive(Clone, Debug, PartialEq, Eq)]
pub struct Compiled {
    /// The productions, in the order of the text.
    pub productions: Vec<Production>,
    /// The names of the tables, in the order of their numbers.
    pub tables: Vec<String>,
    /// The nodes.
    pub grammar: Grammar,
    /// The image.
    pub image: Vec<u8>,
}

/// The productions of a text, if it is of the notation. Its length is not looked at.
pub fn read(text: &[u8]) -> Option<Vec<Production>> {
    reader::read(&Lexer::new(text, None)).ok()
}

/// What a text becomes, or its refusal, 20 to 24: each is looked for in the whole text before the next. With a fault, what a wrong reader makes of it.
pub fn compile(text: &[u8], fault: Option<Fault>) -> Result<Compiled, Stop> {
    if text.len() > LONGEST_TEXT {
        return Err(Stop { why: Why::TooLong, at: LONGEST_TEXT });
    }
    let lexer = Lexer::new(text, fault);
    let productions = reader::read(&lexer).map_err(|tried| places::stopped(&lexer, tried))?;
    naming::check(&productions, fault)?;
    limits::of_names_and_texts(&productions)?;
    let numbered = nodes::number(&productions, fault);
    limits::of_nodes(&productions, &numbered)?;
    let image = numbered.grammar.encode();
    limits::of_image(&productions, &numbered, &image)?;
    Ok(Compiled { tables: numbered.tables, grammar: numbered.grammar, productions, image })
}

/// So many bytes of stack are enough for every text that is not too long.
const STACK: usize = 512 * 1024 * 1024;

/// Does the work on a stack of its own that is deep enough.
pub fn on_deep_stack<T: Send>(work: impl FnOnce() -> T + Send) -> T {
    thread::scope(|scope| {
        let started = thread::Builder::new().stack_size(STACK).spawn_scoped(scope, work).expect("a thread can be started");
        started.join().expect("the thread ends")
    })
}
