//! 01's Harbour cases, with the answers that 01 gives. They hold the reference to 01, and the library and the plain implementation too.

use crate::cases::{Case, Seen};
use crate::grammar::{Grammar, Node};
use crate::{Limits, Numbers};

/// A case, and whether an answer is the one that 01 gives.
type Known = (&'static str, Case, fn(&Seen) -> bool);

/// Runs all cases by the library and by both other implementations: how many there are, or the first that is not answered as 01 says.
pub fn run() -> Result<usize, String> {
    let cases: Vec<Known> = with_names().into_iter().chain(further()).chain(numbers()).collect();
    for (name, case, right) in &cases {
        for (who, seen) in [("library", case.by_library()), ("plain Rust", case.by_plain()), ("reference", case.by_reference(None).0)] {
            if !right(&seen) {
                return Err(format!("Harbour case '{name}': {who} answers {}, slots {:x?}", seen.answer, seen.memory));
            }
        }
    }
    Ok(cases.len())
}

fn case(image: Vec<u8>, input: &[u8], steps: u32, depth: u32, room: u32) -> Case {
    let limits = Limits { steps, depth, room };
    Case { image, input: input.to_vec(), limits, slots: limits.slots() }
}

fn ample(image: Vec<u8>, input: &[u8]) -> Case {
    let Limits { steps, depth, room } = Limits::AMPLE;
    case(image, input, steps, depth, room)
}

/// 01's image H: a name of letters A to Z is defined, then `=`, then the same name.
pub const H: &[u8] = b"\x01\x01\x00\x08\x07\x02\x02\x41\x5A\x07\x00\x05\x00\x01\x0A\x00\x01\x3D\x0C\x00\x05\x04\x05\x05\x03\x06";

/// Image H, or the same with another kind for Is.
fn image_h(is: u8) -> Vec<u8> {
    let mut image = H.to_vec();
    image[18] = is;
    image
}

fn with_names() -> Vec<Known> {
    let h = || image_h(12);
    vec![
        ("A=A", case(h(), b"A=A", 13, 6, 1), |seen| {
            seen.answer == Numbers { kind: 0, consumed: 3, steps: 13, depth: 6, symbols: 1, place: 0 } && seen.memory[..3] == [0, 0, 1]
        }),
        ("A=A, a step less", case(h(), b"A=A", 12, 6, 1), |seen| {
            seen.answer == Numbers { kind: 12, consumed: 0, steps: 12, depth: 5, symbols: 0, place: 3 } && seen.memory[..3] == [0, 0, 0]
        }),
        ("A=A, a depth less", case(h(), b"A=A", 13, 5, 1), |seen| seen.answer == Numbers { kind: 13, consumed: 0, steps: 12, depth: 5, symbols: 0, place: 3 }),
        ("A=A, no room", case(h(), b"A=A", 13, 6, 0), |seen| seen.answer == Numbers { kind: 14, consumed: 0, steps: 6, depth: 5, symbols: 0, place: 0 }),
        ("AB=AB", case(h(), b"AB=AB", 17, 6, 1), |seen| accepted(seen, 5) && seen.answer.steps == 17),
        ("A=B", case(h(), b"A=B", 13, 6, 1), |seen| failed(seen) && seen.answer.steps == 13),
        ("empty input", case(h(), b"", 4, 4, 0), |seen| failed(seen) && seen.answer.steps == 4 && seen.answer.depth == 4),
        ("A=AB", ample(h(), b"A=AB"), failed),
        ("A=AB with Match", ample(image_h(11), b"A=AB"), |seen| accepted(seen, 3)),
    ]
}

/// On the input `A`. A name is the letter A.
fn further() -> Vec<Known> {
    let image = |nodes: Vec<Node>| Grammar { conditions: 1, start: nodes.len() - 1, patterns: vec![0], nodes }.encode();
    let itself = || image(vec![Node::Call(0)]);
    let behind_def = |node: Node| ample(image(vec![Node::Byte(b'A'), Node::Def(0), Node::Exists(0), node, Node::Sequence(1, 3)]), b"A");
    let first_alternative_stores =
        vec![Node::Byte(b'A'), Node::Def(0), Node::Byte(b'!'), Node::Sequence(1, 2), Node::Exists(0), Node::Sequence(0, 4), Node::Choice(3, 5)];
    let on_stores = vec![Node::Byte(b'A'), Node::Def(0), Node::On(0, true, 1), Node::Exists(0), Node::Sequence(2, 3)];
    vec![
        ("a Call to itself, ten steps", case(itself(), b"A", 10, 256, 0), |seen| seen.answer.kind == 12 && seen.answer.steps == 10),
        ("a Call to itself, depth 4", case(itself(), b"A", 1000, 4, 0), |seen| seen.answer.kind == 13 && seen.answer.steps == 4),
        ("Star of Empty", ample(image(vec![Node::Empty, Node::Star(0)]), b"A"), |seen| seen.answer.kind == 15),
        ("a failed alternative has stored", ample(image(first_alternative_stores), b"A"), failed),
        ("Def then Local of Exists", behind_def(Node::Local(0, 2)), failed),
        ("Def then Block of Exists", behind_def(Node::Block(0, 2)), |seen| accepted(seen, 1)),
        ("On of Def, then Exists", ample(image(on_stores), b"A"), failed),
        ("If 1", ample(image(vec![Node::If(0, true)]), b"A"), |seen| accepted(seen, 0)),
        ("If 0", ample(image(vec![Node::If(0, false)]), b"A"), failed),
    ]
}

/// How numbers are written, seen on the edition.
fn numbers() -> Vec<Known> {
    vec![
        ("80 00", ample(vec![0x80, 0], b""), |seen| seen.verdict == (3, 0)),
        ("80 80 80", ample(vec![0x80, 0x80, 0x80], b""), |seen| seen.verdict == (3, 0)),
        ("80", ample(vec![0x80], b""), |seen| seen.verdict == (2, 1)),
        ("7F", ample(vec![0x7F], b""), |seen| seen.verdict == (4, 0)),
        ("80 80 01", ample(vec![0x80, 0x80, 1], b""), |seen| seen.verdict == (4, 0)),
    ]
}

fn accepted(seen: &Seen, consumed: u32) -> bool {
    seen.answer.kind == Numbers::ACCEPTED && seen.answer.consumed == consumed
}

fn failed(seen: &Seen) -> bool {
    seen.answer.kind == Numbers::FAILED
}
