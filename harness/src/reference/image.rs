//! An image, read from front to back; the first fault is the answer.

use super::refused;
use crate::grammar::{Grammar, Node};
use crate::Refusal;

/// The grammar of an image, or its first fault.
pub fn read(image: &[u8]) -> Result<Grammar, Refusal> {
    if image.len() > 16_384 {
        return refused(1, 0);
    }
    let mut reader = Reader { image, at: 0 };
    reader.within(1, 1, 4)?;
    let tables = reader.within(0, 8, 5)?;
    let conditions = reader.within(0, 8, 5)?;
    let count = reader.within(1, 512, 5)?;
    let start = reader.below(count)?;
    let patterns = (0..tables).map(|_| reader.below(count)).collect::<Result<Vec<_>, _>>()?;
    let bounds = Bounds { tables, conditions, nodes: count };
    let nodes = (0..count).map(|own| reader.node(own, &bounds)).collect::<Result<Vec<_>, _>>()?;
    if reader.at < image.len() {
        return refused(8, reader.at);
    }
    Ok(Grammar { conditions, start, patterns, nodes })
}

/// What the head of an image says of the operands to come: each kind of operand is below one of these.
struct Bounds {
    tables: usize,
    conditions: usize,
    nodes: usize,
}

struct Reader<'a> {
    image: &'a [u8],
    at: usize,
}

impl Reader<'_> {
    fn byte(&mut self) -> Result<u8, Refusal> {
        match self.image.get(self.at) {
            Some(byte) => {
                self.at += 1;
                Ok(*byte)
            }
            None => refused(2, self.image.len()),
        }
    }

    /// The next number.
    fn number(&mut self) -> Result<usize, Refusal> {
        let begin = self.at;
        let mut value = 0;
        for group in 0..3 {
            let byte = self.byte()?;
            value += (byte as usize & 0x7f) << (7 * group);
            if byte & 0x80 == 0 {
                let needless = byte == 0 && group > 0;
                return if needless { refused(3, begin) } else { Ok(value) };
            }
        }
        refused(3, begin)
    }

    /// The next number, refused by the number `why` unless it is from `low` to `high`.
    fn within(&mut self, low: usize, high: usize, why: u32) -> Result<usize, Refusal> {
        let begin = self.at;
        let value = self.number()?;
        if value < low || high < value {
            return refused(why, begin);
        }
        Ok(value)
    }

    /// The next number, an operand below `end`.
    fn below(&mut self, end: usize) -> Result<usize, Refusal> {
        let begin = self.at;
        let value = self.number()?;
        if value >= end {
            return refused(7, begin);
        }
        Ok(value)
    }

    fn truth(&mut self) -> Result<bool, Refusal> {
        Ok(self.below(2)? == 1)
    }

    fn text(&mut self) -> Result<Vec<u8>, Refusal> {
        let count = self.within(1, 64, 7)?;
        (0..count).map(|_| self.byte()).collect()
    }

    /// The node with the number `own`.
    fn node(&mut self, own: usize, bounds: &Bounds) -> Result<Node, Refusal> {
        let &Bounds { tables, conditions, nodes } = bounds;
        Ok(match self.within(0, 18, 6)? {
            0 => Node::Empty,
            1 => Node::Byte(self.below(256)? as u8),
            2 => {
                let low = self.below(256)?;
                Node::Range(low as u8, self.within(low, 255, 7)? as u8)
            }
            3 => Node::Any,
            4 => Node::Text(self.text()?),
            5 => Node::Sequence(self.below(own)?, self.below(own)?),
            6 => Node::Choice(self.below(own)?, self.below(own)?),
            7 => Node::Star(self.below(own)?),
            8 => Node::Not(self.below(own)?),
            9 => Node::Call(self.below(nodes)?),
            10 => Node::Def(self.below(tables)?),
            11 => Node::Match(self.below(tables)?),
            12 => Node::Is(self.below(tables)?),
            13 => Node::Isa(self.below(tables)?),
            14 => Node::Exists(self.below(tables)?),
            15 => Node::Block(self.below(tables)?, self.below(own)?),
            16 => Node::Local(self.below(tables)?, self.below(own)?),
            17 => Node::If(self.below(conditions)?, self.truth()?),
            _ => Node::On(self.below(conditions)?, self.truth()?, self.below(own)?),
        })
    }
}
