//! The wrapper, by the examples of its documentation.

use yarnspire::harbour::H;
use yarnspire::{accepted_text, check, recognise, Answer, Limits, Refusal};

#[test]
fn names_are_handed_out() {
    assert_eq!(check(H), Ok(()));
    let input = b"AB=AB;";
    let limits = Limits { steps: 1000, depth: 50, room: 4 };
    let mut slots = vec![0; limits.slots()];
    let answer = recognise(H, input, limits, &mut slots);
    assert_eq!(answer, Answer::Accepted { consumed: 5, steps: 17, depth: 6, symbols: 1 });
    let names: Vec<&[u8]> = answer.symbols(&slots).map(|symbol| symbol.text(input)).collect();
    assert_eq!(names, [b"AB"]);
}

#[test]
fn the_accepted_front_is_handed_back() {
    let mut slots = [0; 3];
    let limits = Limits { steps: 100, depth: 10, room: 1 };
    let (text, _) = accepted_text(H, b"A=A=", limits, &mut slots);
    assert_eq!(text, b"A=A");
    let (text, answer) = accepted_text(H, b"A=B", limits, &mut slots);
    assert_eq!((text, answer), (&b""[..], Answer::Failed { steps: 13, depth: 6 }));
    let (text, answer) = accepted_text(H, b"A=A", Limits { steps: 12, ..limits }, &mut slots);
    let refusal = Refusal { number: 12, place: 3 };
    assert_eq!((text, answer), (&b""[..], Answer::Refused { refusal, steps: 12, depth: 5 }));
    assert_eq!(refusal.to_string(), "refused 12 at 3: the step limit is reached");
}
