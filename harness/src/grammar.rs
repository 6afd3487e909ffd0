//! A grammar, and how it is written as an image.

/// A node: one of 01's nineteen kinds with its operands.
#[derive(Clone, Debug, PartialEq, Eq)]
pub enum Node {
    /// Passes and consumes nothing.
    Empty,
    /// One byte.
    Byte(u8),
    /// One byte from the first to the second.
    Range(u8, u8),
    /// Any one byte.
    Any,
    /// These bytes, 1 to 64 of them.
    Text(Vec<u8>),
    /// The first node, then the second.
    Sequence(usize, usize),
    /// The first node, or else the second.
    Choice(usize, usize),
    /// The node as often as it passes.
    Star(usize),
    /// Passes if the node fails.
    Not(usize),
    /// Any node of the grammar, itself included.
    Call(usize),
    /// The table's pattern, stored as a symbol.
    Def(usize),
    /// The table's latest symbol.
    Match(usize),
    /// The table's pattern, equal to its latest symbol.
    Is(usize),
    /// The table's pattern, equal to one of its symbols.
    Isa(usize),
    /// Passes if the table has a symbol.
    Exists(usize),
    /// Table and node: the table's list is put back after the node.
    Block(usize, usize),
    /// Table and node: the same, and the list is empty at the node's start.
    Local(usize, usize),
    /// Passes if the condition has this truth.
    If(usize, bool),
    /// Condition, truth and node: the condition has this truth while the node runs.
    On(usize, bool, usize),
}

/// The names of the kinds, in the order of their tags.
pub const KINDS: [&str; 19] =
    ["Empty", "Byte", "Range", "Any", "Text", "Sequence", "Choice", "Star", "Not", "Call", "Def", "Match", "Is", "Isa", "Exists", "Block", "Local", "If", "On"];

impl Node {
    /// The kind's tag.
    pub fn tag(&self) -> usize {
        match self {
            Node::Empty => 0,
            Node::Byte(_) => 1,
            Node::Range(..) => 2,
            Node::Any => 3,
            Node::Text(_) => 4,
            Node::Sequence(..) => 5,
            Node::Choice(..) => 6,
            Node::Star(_) => 7,
            Node::Not(_) => 8,
            Node::Call(_) => 9,
            Node::Def(_) => 10,
            Node::Match(_) => 11,
            Node::Is(_) => 12,
            Node::Isa(_) => 13,
            Node::Exists(_) => 14,
            Node::Block(..) => 15,
            Node::Local(..) => 16,
            Node::If(..) => 17,
            Node::On(..) => 18,
        }
    }

    /// The operands that are written as numbers: all but a text's bytes.
    fn operands(&self) -> Vec<usize> {
        match self {
            Node::Empty | Node::Any => vec![],
            Node::Byte(byte) => vec![*byte as usize],
            Node::Range(low, high) => vec![*low as usize, *high as usize],
            Node::Text(bytes) => vec![bytes.len()],
            Node::Sequence(a, b) | Node::Choice(a, b) => vec![*a, *b],
            Node::Star(a) | Node::Not(a) | Node::Call(a) => vec![*a],
            Node::Def(table) | Node::Match(table) | Node::Is(table) | Node::Isa(table) | Node::Exists(table) => vec![*table],
            Node::Block(table, a) | Node::Local(table, a) => vec![*table, *a],
            Node::If(condition, truth) => vec![*condition, *truth as usize],
            Node::On(condition, truth, a) => vec![*condition, *truth as usize, *a],
        }
    }
}

/// A grammar. It has as many tables as patterns.
#[derive(Clone, Debug, PartialEq, Eq)]
pub struct Grammar {
    /// How many conditions there are.
    pub conditions: usize,
    /// The node that a run begins with.
    pub start: usize,
    /// For each table the node of its pattern.
    pub patterns: Vec<usize>,
    /// The nodes.
    pub nodes: Vec<Node>,
}

/// A part of an image.
#[derive(Clone, Debug)]
pub enum Piece {
    /// A number, written in groups of seven bits.
    Number(usize),
    /// Bytes as they are.
    Raw(Vec<u8>),
}

impl Piece {
    /// Puts the piece at the image's end.
    pub fn write(&self, image: &mut Vec<u8>) {
        match self {
            Piece::Number(number) => write_number(*number, image),
            Piece::Raw(bytes) => image.extend(bytes),
        }
    }
}

/// Lowest group first; the top bit of a byte is set if another group follows.
fn write_number(mut number: usize, image: &mut Vec<u8>) {
    while number > 0x7f {
        image.push(number as u8 | 0x80);
        number >>= 7;
    }
    image.push(number as u8);
}

impl Grammar {
    /// The image's numbers and raw bytes, in their order.
    pub fn pieces(&self) -> Vec<Piece> {
        let head = [1, self.patterns.len(), self.conditions, self.nodes.len(), self.start];
        let mut pieces: Vec<Piece> = head.iter().chain(&self.patterns).copied().map(Piece::Number).collect();
        for node in &self.nodes {
            pieces.push(Piece::Number(node.tag()));
            pieces.extend(node.operands().into_iter().map(Piece::Number));
            if let Node::Text(bytes) = node {
                pieces.push(Piece::Raw(bytes.clone()));
            }
        }
        pieces
    }

    /// The image. It is good if the grammar keeps 01's ranges and the image is not too long; neither is looked at here.
    pub fn encode(&self) -> Vec<u8> {
        let mut image = Vec::new();
        for piece in self.pieces() {
            piece.write(&mut image);
        }
        image
    }
}
