//! A text, what it becomes, and how long that takes.

use yarnspire::compiled::compile_numbers;
use yarnspire::notation::{self, LONGEST_IMAGE};
use yarnspire::outcome::{Outcome, Refused};
use yarnspire::timing::{calls_in_batch, time_batch, Times, ROUNDS};

pub struct Case {
    pub what: &'static str,
    pub text: Vec<u8>,
    pub answer: Outcome,
    /// How many nodes the text becomes, if it is not refused.
    pub nodes: Option<usize>,
    pub times: Times,
}

impl Case {
    /// Asserts that the library answers as the independent reader does.
    pub fn new(what: &'static str, text: Vec<u8>) -> Case {
        let mut buffer = vec![0; LONGEST_IMAGE];
        let answer = compile_numbers(&text, &mut buffer);
        let read = notation::compile(&text, None);
        let expected = read.as_ref().map(|compiled| compiled.image.len()).map_err(|&stop| Refused::from(stop));
        assert_eq!(Result::from(answer), expected, "{what}: library and reader differ");
        let nodes = read.ok().map(|compiled| {
            assert_eq!(buffer[..compiled.image.len()], compiled.image, "{what}: the images of library and reader differ");
            compiled.grammar.nodes.len()
        });
        Case { what, text, answer, nodes, times: Times::default() }
    }

    pub fn a_byte(&self) -> f64 {
        self.times.median() / self.text.len() as f64
    }

    /// The nanoseconds that so many calls take. The buffer is lent to each call as the one before left it.
    fn batch(&self, count: usize, buffer: &mut [u8]) -> f64 {
        time_batch(count, || assert_eq!(compile_numbers(&self.text, buffer), self.answer))
    }
}

/// Times all cases in turn, one batch of each, and again: what disturbs the machine for a while disturbs a few batches of each, and not all batches of
/// one.
pub fn time_in_turn(mut cases: Vec<&mut Case>) {
    let mut buffer = vec![0; LONGEST_IMAGE];
    let calls: Vec<usize> = cases.iter().map(|case| calls_in_batch(|count| case.batch(count, &mut buffer))).collect();
    for _ in 0..ROUNDS {
        for (case, &count) in cases.iter_mut().zip(&calls) {
            let time = case.batch(count, &mut buffer);
            case.times.push(time / count as f64);
        }
    }
}
