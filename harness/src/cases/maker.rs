//! Random cases: good and damaged images, inputs that match or nearly do, limits around what the run needs, slot buffers of every length.

use super::damage::damage;
use super::{grammars, inputs, Case};
use crate::grammar::{Grammar, Node};
use crate::random::Random;
use crate::{reference, Limits};

/// Makes one case after the other.
pub struct Maker {
    random: Random,
    /// Images about as long as an image may be.
    long_images: Vec<Vec<u8>>,
}

impl Maker {
    /// The same seed makes the same cases.
    pub fn new(seed: u64) -> Maker {
        let mut random = Random::new(seed);
        let long_images = (16_382..16_390).map(|length| stretched(&mut random, length)).collect();
        Maker { random, long_images }
    }

    /// The next case.
    pub fn case(&mut self) -> Case {
        let random = &mut self.random;
        let mut grammar = grammars::grammar(random);
        let mut input = inputs::input(random, &grammar);
        if random.percent(2) {
            input = far(random, &mut grammar, input);
        }
        let image = match random.below(100) {
            0 | 1 => self.long_images[random.below(self.long_images.len())].clone(),
            2..=19 => damage(random, &grammar),
            _ => grammar.encode(),
        };
        let mut limits = limits_near(random, &image, &input);
        if random.percent(2) {
            set_outside(random, &mut limits);
        }
        let slots = slots_near(random, limits);
        Case { image, input, limits, slots }
    }
}

/// A good image of so many bytes (or one too long, good but for that): a grammar with texts behind it that nothing runs.
fn stretched(random: &mut Random, length: usize) -> Vec<u8> {
    let mut grammar = grammars::grammar(random);
    loop {
        let image = grammar.encode();
        match length - image.len() {
            0 => return image,
            1 | 2 => grammar.nodes.push(Node::Empty),
            // A text of k bytes takes k + 2. (N takes a second byte from node 128 on, long before the end.)
            left => grammar.nodes.push(Node::Text(vec![b'A'; (left - 2).min(64)])),
        }
    }
}

/// An input about as long as an input may be, with the given one near its end. Often the grammar then begins with a star that goes there.
fn far(random: &mut Random, grammar: &mut Grammar, input: Vec<u8>) -> Vec<u8> {
    let length = 65_534 + random.below(6);
    let mut long = vec![b'A'; 64 * 1023];
    long.extend(input);
    long.resize(length, b'B');
    if random.percent(25) {
        let text = grammar.nodes.len();
        grammar.nodes.extend([Node::Text(vec![b'A'; 64]), Node::Star(text), Node::Sequence(text + 1, grammar.start)]);
        grammar.start = text + 2;
    }
    long
}

/// Limits at, just below, just above and well above what the run needs.
fn limits_near(random: &mut Random, image: &[u8], input: &[u8]) -> Limits {
    let ample = match random.below(20) {
        0 => Limits { steps: 4000, depth: 256, room: 256 },
        _ => Limits { steps: 2500, depth: 40 + random.below(20) as u32, room: 12 },
    };
    let (need, trace) = reference::recognise(image, input, ample, &mut vec![0; ample.slots()], None);
    let mut near = |need: u32, ample: u32| match random.below(7) {
        0 => need.saturating_sub(1),
        1 => need,
        2 => need + 1,
        _ => ample,
    };
    Limits { steps: near(need.steps, ample.steps), depth: near(need.depth, ample.depth), room: near(trace.room, ample.room) }
}

/// Puts one limit outside its range. Three times 1,431,655,766 is 2 in 32 bits.
fn set_outside(random: &mut Random, limits: &mut Limits) {
    match random.below(3) {
        0 => limits.steps = random.pick(&[0, 1_000_001, u32::MAX]),
        1 => limits.depth = random.pick(&[0, 257, u32::MAX]),
        _ => limits.room = random.pick(&[257, 1_431_655_766, u32::MAX]),
    }
}

/// A slot buffer too short, just long enough, or longer.
fn slots_near(random: &mut Random, limits: Limits) -> usize {
    let lent = limits.slots().min(800);
    match random.below(20) {
        0 => lent.saturating_sub(1 + random.below(3)),
        1 => random.below(lent + 1),
        2..=9 => lent + 1 + random.below(9),
        _ => lent,
    }
}
