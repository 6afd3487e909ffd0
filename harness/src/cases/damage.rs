//! Images with something wrong, of every sort that 01 tells apart. Some turn out good all the same.

use crate::grammar::{Grammar, Piece};
use crate::random::Random;

/// Numbers at the ends of ranges, and past them.
const NUMBERS: [usize; 18] = [0, 1, 2, 7, 8, 9, 18, 19, 64, 65, 127, 128, 255, 256, 512, 513, 16_384, 2_097_151];

/// The grammar's image, damaged.
pub fn damage(random: &mut Random, grammar: &Grammar) -> Vec<u8> {
    let mut pieces = grammar.pieces();
    let some_number = 4 + random.below(pieces.len() - 4);
    match random.below(9) {
        0 => pieces[0] = Piece::Number(random.pick(&NUMBERS)),
        1 => pieces[1 + random.below(3)] = Piece::Number(random.pick(&NUMBERS)),
        2 => pieces[some_number] = Piece::Number(random.pick(&NUMBERS)),
        3 => raise(&mut pieces[some_number]),
        4 => {
            let at = random.below(pieces.len());
            write_badly(random, &mut pieces[at]);
        }
        5 => pieces.truncate(some_number),
        6 => pieces.push(Piece::Raw(vec![random.byte()])),
        _ => {}
    }
    let mut image = Vec::new();
    for piece in pieces {
        piece.write(&mut image);
    }
    if random.percent(30) {
        spoil(random, &mut image);
    }
    image
}

/// One more: often the first number outside the range.
fn raise(piece: &mut Piece) {
    if let Piece::Number(number) = piece {
        *number += 1;
    }
}

/// A number in groups that no number is written in: a needless zero group, or a third byte that continues.
fn write_badly(random: &mut Random, piece: &mut Piece) {
    if let Piece::Number(number) = *piece {
        let group = |shift: usize| (number >> shift) as u8 | 0x80;
        *piece = Piece::Raw(match random.below(4) {
            0 => vec![group(0), group(7), 0],
            1 => vec![group(0), group(7), group(14)],
            2 => vec![group(0), group(7), group(14), 1],
            _ => vec![group(0), 0],
        });
    }
}

/// Damage that knows nothing of numbers.
fn spoil(random: &mut Random, image: &mut Vec<u8>) {
    let at = random.below(image.len());
    match random.below(5) {
        0 => image.truncate(at),
        1 => image.insert(at, random.byte()),
        2 => image[at] = random.byte(),
        3 => image[at] ^= 0x80,
        _ => drop(image.remove(at)),
    }
}
