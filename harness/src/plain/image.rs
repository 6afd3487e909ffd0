//! An image, read from front to back into nodes of eight bytes; the first fault is the answer.

use super::refused;
use crate::Refusal;

/// A node with its operands: the numbers of nodes in 16 bits, those of tables and conditions in 8.
#[derive(Clone, Copy)]
#[repr(align(8))]
pub enum Node {
    Empty,
    /// Byte, Range and Any: one byte from the first to the second.
    One(u8, u8),
    /// The place of the bytes in the image, and their count.
    Text(u16, u8),
    Sequence(u16, u16),
    Choice(u16, u16),
    Star(u16),
    Not(u16),
    Call(u16),
    Def(u8),
    Match(u8),
    Is(u8),
    Isa(u8),
    Exists(u8),
    Block(u8, u16),
    Local(u8, u16),
    If(u8, bool),
    On(u8, bool, u16),
}

/// The grammar of a good image. Every number in it is in its range.
pub struct Grammar {
    pub start: u16,
    pub patterns: [u16; 8],
    pub nodes: Vec<Node>,
}

/// The grammar of an image, or its first fault.
pub fn read(image: &[u8]) -> Result<Grammar, Refusal> {
    if image.len() > 16_384 {
        return refused(1, 0);
    }
    let mut reader = Reader { image, at: 0, tables: 0, conditions: 0, nodes: 0 };
    reader.within(1, 1, 4)?;
    reader.tables = reader.within(0, 8, 5)?;
    reader.conditions = reader.within(0, 8, 5)?;
    reader.nodes = reader.within(1, 512, 5)?;
    let start = reader.any_node()?;
    let mut patterns = [0; 8];
    for pattern in &mut patterns[..reader.tables] {
        *pattern = reader.any_node()?;
    }
    let mut nodes = Vec::with_capacity(reader.nodes);
    for own in 0..reader.nodes {
        nodes.push(reader.node(own)?);
    }
    if reader.at < image.len() {
        return refused(8, reader.at);
    }
    Ok(Grammar { start, patterns, nodes })
}

/// Stands over the image, with the counts from its head once they are read.
struct Reader<'a> {
    image: &'a [u8],
    at: usize,
    tables: usize,
    conditions: usize,
    nodes: usize,
}

impl Reader<'_> {
    /// The next number. Most are a single byte.
    #[inline]
    fn number(&mut self) -> Result<usize, Refusal> {
        match self.image.get(self.at) {
            Some(&byte) if byte < 0x80 => {
                self.at += 1;
                Ok(byte.into())
            }
            _ => self.long_number(),
        }
    }

    /// The next number, if it does not end with its first byte.
    fn long_number(&mut self) -> Result<usize, Refusal> {
        let rest = &self.image[self.at..];
        let mut value = 0;
        for (group, &byte) in rest.iter().take(3).enumerate() {
            value |= usize::from(byte & 0x7f) << (7 * group);
            if byte == 0 {
                return refused(3, self.at);
            }
            if byte < 0x80 {
                self.at += group + 1;
                return Ok(value);
            }
        }
        if rest.len() < 3 {
            return refused(2, self.image.len());
        }
        refused(3, self.at)
    }

    /// The next number, refused by the number `why` unless it is from `low` to `high`.
    #[inline]
    fn within(&mut self, low: usize, high: usize, why: u32) -> Result<usize, Refusal> {
        let place = self.at;
        let value = self.number()?;
        if value < low || high < value {
            return refused(why, place);
        }
        Ok(value)
    }

    /// The next number, an operand below `end`.
    #[inline]
    fn below(&mut self, end: usize) -> Result<usize, Refusal> {
        let place = self.at;
        let value = self.number()?;
        if value >= end {
            return refused(7, place);
        }
        Ok(value)
    }

    fn any_node(&mut self) -> Result<u16, Refusal> {
        Ok(self.below(self.nodes)? as u16)
    }

    /// A node with a lower number than `own`.
    fn lower(&mut self, own: usize) -> Result<u16, Refusal> {
        Ok(self.below(own)? as u16)
    }

    fn table(&mut self) -> Result<u8, Refusal> {
        Ok(self.below(self.tables)? as u8)
    }

    fn condition(&mut self) -> Result<u8, Refusal> {
        Ok(self.below(self.conditions)? as u8)
    }

    fn truth(&mut self) -> Result<bool, Refusal> {
        Ok(self.below(2)? == 1)
    }

    fn byte(&mut self) -> Result<Node, Refusal> {
        let byte = self.below(256)? as u8;
        Ok(Node::One(byte, byte))
    }

    fn range(&mut self) -> Result<Node, Refusal> {
        let low = self.below(256)?;
        let high = self.within(low, 255, 7)?;
        Ok(Node::One(low as u8, high as u8))
    }

    fn text(&mut self) -> Result<Node, Refusal> {
        let count = self.within(1, 64, 7)?;
        let place = self.at;
        if self.image.len() - place < count {
            return refused(2, self.image.len());
        }
        self.at += count;
        Ok(Node::Text(place as u16, count as u8))
    }

    /// The node with the number `own`.
    fn node(&mut self, own: usize) -> Result<Node, Refusal> {
        Ok(match self.within(0, 18, 6)? {
            0 => Node::Empty,
            1 => self.byte()?,
            2 => self.range()?,
            3 => Node::One(0, 255),
            4 => self.text()?,
            5 => Node::Sequence(self.lower(own)?, self.lower(own)?),
            6 => Node::Choice(self.lower(own)?, self.lower(own)?),
            7 => Node::Star(self.lower(own)?),
            8 => Node::Not(self.lower(own)?),
            9 => Node::Call(self.any_node()?),
            10 => Node::Def(self.table()?),
            11 => Node::Match(self.table()?),
            12 => Node::Is(self.table()?),
            13 => Node::Isa(self.table()?),
            14 => Node::Exists(self.table()?),
            15 => Node::Block(self.table()?, self.lower(own)?),
            16 => Node::Local(self.table()?, self.lower(own)?),
            17 => Node::If(self.condition()?, self.truth()?),
            _ => Node::On(self.condition()?, self.truth()?, self.lower(own)?),
        })
    }
}
