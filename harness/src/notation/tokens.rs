//! The tokens: a name with `=` behind it, a leaf, an opener, and the single marks. A name is a leaf only where no `=` stands behind it, so these two
//! look past the gap behind the name.

use super::lexer::Lexer;
use super::tree::{Expression, Name, Place};
use super::Fault;

/// What opens a bracket that `>` closes.
pub enum Opener {
    Def(Name, Place),
    Block(Name),
    Local(Name),
    On(Name, bool),
}

impl Opener {
    /// The whole bracket.
    pub fn around(self, e: Expression) -> Expression {
        let e = Box::new(e);
        match self {
            Opener::Def(table, at) => Expression::Def(table, e, at),
            Opener::Block(table) => Expression::Block(table, e),
            Opener::Local(table) => Expression::Local(table, e),
            Opener::On(condition, truth) => Expression::On(condition, truth, e),
        }
    }
}

/// What makes an expression of a table's name.
type Looking = fn(Name) -> Expression;

impl Lexer<'_> {
    /// A production's name, and behind its `=`.
    pub fn head(&self, at: usize) -> Option<(Name, usize)> {
        let (name, end) = self.name(at)?;
        Some((name, self.byte(self.gap(end), b'=')?))
    }

    /// What stands for itself.
    pub fn leaf(&self, at: usize) -> Option<(Expression, usize)> {
        match self.rest(at).first()? {
            b'\'' | b'"' => self.quoted(at).map(|(bytes, end)| (Expression::Quoted(bytes, Place(at)), end)),
            b'[' => self.class_leaf(at),
            b'.' => Some((Expression::Any, at + 1)),
            b'<' => self.looking(at),
            _ => {
                let (name, end) = self.name(at)?;
                match self.byte(self.gap(end), b'=') {
                    Some(_) => None,
                    None => Some((Expression::Call(name), end)),
                }
            }
        }
    }

    fn class_leaf(&self, at: usize) -> Option<(Expression, usize)> {
        if let (Some(Fault::NoneOf), Some((parts, end))) = (self.fault, self.none_of(at)) {
            let stands = Expression::Not(Box::new(Expression::Class(parts)));
            return Some((Expression::Sequence(Box::new(stands), Box::new(Expression::Any)), end));
        }
        let (parts, end) = self.class(at)?;
        Some((Expression::Class(parts), end))
    }

    /// `<match T>` and the like: up to the `>`.
    fn looking(&self, at: usize) -> Option<(Expression, usize)> {
        let inside = self.gap(self.byte(at, b'<')?);
        let word = |word: &str| self.word(inside, word);
        let (leaf, end) = if let Some(end) = word("if") {
            let (truth, at) = self.truth(self.gap(end));
            let (condition, end) = self.name(at)?;
            (Expression::If(condition, truth), end)
        } else {
            let kinds: [(&str, Looking); 4] = [("match", Expression::Match), ("isa", Expression::Isa), ("is", Expression::Is), ("exists", Expression::Exists)];
            let (end, kind) = kinds.iter().find_map(|(name, kind)| Some((word(name)?, kind)))?;
            let (table, end) = self.name(self.gap(end))?;
            (kind(table), end)
        };
        Some((leaf, self.byte(self.gap(end), b'>')?))
    }

    /// `<def T` and the like: up to the name.
    pub fn opener(&self, at: usize) -> Option<(Opener, usize)> {
        let inside = self.gap(self.byte(at, b'<')?);
        let word = |word: &str| self.word(inside, word);
        if let Some(end) = word("on") {
            let (truth, at) = self.truth(self.gap(end));
            let (condition, end) = self.name(at)?;
            return Some((Opener::On(condition, truth), end));
        }
        let named = |end: usize| self.name(self.gap(end));
        if let Some(end) = word("def") {
            return named(end).map(|(table, end)| (Opener::Def(table, Place(at)), end));
        }
        if let Some(end) = word("block") {
            return named(end).map(|(table, end)| (Opener::Block(table), end));
        }
        named(word("local")?).map(|(table, end)| (Opener::Local(table), end))
    }

    /// False behind a `!` and the gap behind it; true if none stands here.
    fn truth(&self, at: usize) -> (bool, usize) {
        match self.byte(at, b'!') {
            Some(end) => (false, self.gap(end)),
            None => (true, at),
        }
    }
}
