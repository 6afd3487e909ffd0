//! The comparison of texts with itself: the second reader stands in for the library's `compile`, and the reference for its runs.

use yarnspire::notation::{compile, on_deep_stack, Stop, Why};
use yarnspire::outcome::{Outcome, Refused};
use yarnspire::texts::{compare, Held, SEED};
use yarnspire::{reference, Limits, Numbers};

/// The reader, in the shape of the library's function.
fn by_reader(text: &[u8], image: &mut [u8]) -> Outcome {
    let refused = |stop: Stop| {
        let Refused { number, at } = stop.into();
        Outcome { number, length: 0, at }
    };
    match compile(text, None) {
        Err(stop) => refused(stop),
        Ok(compiled) if compiled.image.len() > image.len() => refused(Stop { why: Why::Buffer, at: 0 }),
        Ok(compiled) => {
            image[..compiled.image.len()].copy_from_slice(&compiled.image);
            Outcome { number: 0, length: compiled.image.len() as u32, at: 0 }
        }
    }
}

fn by_reference(image: &[u8], input: &[u8], limits: Limits, slots: &mut [u32]) -> Numbers {
    reference::recognise(image, input, limits, slots, None).0
}

#[test]
fn the_texts_agree_with_themselves() {
    on_deep_stack(|| compare(SEED, 2000, Held { compile: by_reader, recognise: by_reference })).unwrap();
}
