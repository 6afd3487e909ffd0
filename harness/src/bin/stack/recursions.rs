//! Recursion to the greatest depth that can be asked for, through each kind that runs something inside. The answers are worked out from 01.

use yarnspire::grammar::{Grammar, Node};
use yarnspire::{recognise, Answer, Limits, Refusal};

use crate::{kib, on_small_stack};

/// Runs each on the input `A` under the greatest limits.
pub fn run() -> Result<(), String> {
    for (name, grammar, steps) in recursions() {
        let image = grammar.encode();
        let expected = Answer::Refused { refusal: Refusal { number: 13, place: 0 }, steps, depth: 256 };
        let (got, taken) = on_small_stack(|| recognise(&image, b"A", Limits::AMPLE, &mut vec![0; Limits::AMPLE.slots()]));
        if got != expected {
            return Err(format!("{name}: {got:?}, and not {expected:?}"));
        }
        println!("{name}: depth 256 in {steps} steps, then refused 13, on a stack of 256 KiB; {} KiB of it are taken", kib(taken));
    }
    Ok(())
}

/// A name, a grammar that goes down for ever without consuming anything, and the steps spent when depth 256 is entered.
fn recursions() -> Vec<(&'static str, Grammar, u32)> {
    // Node 1 is of the kind, and what it runs first is node 0, which calls it again: every entry is one deeper than the one before.
    let through = |node: Node| Grammar { conditions: 1, start: 1, patterns: vec![0], nodes: vec![Node::Call(1), node] };
    // A Def whose pattern is that Def.
    let own_pattern = Grammar { conditions: 0, start: 0, patterns: vec![0], nodes: vec![Node::Def(0)] };
    // The pattern is Is, or else nothing. Def runs it first: the start, Def, the choice, Is on an empty list, and Empty, so five steps, and an empty
    // symbol is stored. Then the start's Is runs the pattern, and that Is again, and so on from depth 2.
    let comparing =
        |is: Node| Grammar { conditions: 0, start: 4, patterns: vec![2], nodes: vec![Node::Empty, is, Node::Choice(1, 0), Node::Def(0), Node::Sequence(3, 1)] };
    vec![
        ("Sequence", through(Node::Sequence(0, 0)), 256),
        ("Choice", through(Node::Choice(0, 0)), 256),
        ("Star", through(Node::Star(0)), 256),
        ("Not", through(Node::Not(0)), 256),
        ("Call", through(Node::Call(1)), 256),
        ("Def", own_pattern, 256),
        ("Is", comparing(Node::Is(0)), 260),
        ("Isa", comparing(Node::Isa(0)), 260),
        ("Block", through(Node::Block(0, 0)), 256),
        ("Local", through(Node::Local(0, 0)), 256),
        ("On", through(Node::On(0, false, 0)), 256),
    ]
}
