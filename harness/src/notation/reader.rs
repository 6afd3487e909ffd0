//! The rules for tokens, one function a rule. Each takes the place where it begins, and gives what it reads and the place behind it and its gap.

use std::cell::Cell;

use super::lexer::Lexer;
use super::tree::{Expression, Production};
use super::Fault;

/// The productions of the text; or, if it is not of the notation, the furthest place at which anything was tried.
pub fn read(lexer: &Lexer) -> Result<Vec<Production>, usize> {
    let reader = Reader { lexer, furthest: Cell::new(0) };
    reader.text().ok_or(reader.furthest.get())
}

type Read = Option<(Expression, usize)>;

/// What makes an expression of its operand.
type Around = fn(Box<Expression>) -> Expression;

struct Reader<'a> {
    lexer: &'a Lexer<'a>,
    furthest: Cell<usize>,
}

impl Reader<'_> {
    fn has(&self, fault: Fault) -> bool {
        self.lexer.fault == Some(fault)
    }

    fn text(&self) -> Option<Vec<Production>> {
        let mut at = self.lexer.gap(0);
        let mut productions = Vec::new();
        while let Some((production, end)) = self.production(at) {
            productions.push(production);
            at = end;
        }
        if productions.is_empty() || !self.lexer.rest(at).is_empty() {
            return None;
        }
        Some(productions)
    }

    /// Something is tried here.
    fn tried(&self, at: usize) {
        self.furthest.set(self.furthest.get().max(at));
    }

    fn production(&self, at: usize) -> Option<(Production, usize)> {
        self.tried(at);
        let (name, end) = self.lexer.head(at)?;
        let (body, end) = self.expression(self.lexer.gap(end))?;
        Some((Production { name, body }, end))
    }

    fn expression(&self, at: usize) -> Read {
        if self.has(Fault::ChoiceBindsCloser) {
            return self.row(at, |at| self.choice(at, |at| self.prefix(at)));
        }
        self.choice(at, |at| self.row(at, |at| self.prefix(at)))
    }

    /// One or more with a `/` between them, leaning to the right.
    fn choice(&self, at: usize, part: impl Fn(usize) -> Read) -> Read {
        let (first, mut at) = part(at)?;
        let mut parts = vec![first];
        while let Some((next, end)) = self.mark(at, b'/').and_then(&part) {
            parts.push(next);
            at = end;
        }
        Some((lean_right(parts, Expression::Choice), at))
    }

    /// One or more in a row, leaning to the right.
    fn row(&self, at: usize, part: impl Fn(usize) -> Read) -> Read {
        let (first, mut at) = part(at)?;
        let mut parts = vec![first];
        while let Some((next, end)) = part(at) {
            parts.push(next);
            at = end;
        }
        let row = match self.has(Fault::RowsLeanLeft) {
            true => lean_left(parts, Expression::Sequence),
            false => lean_right(parts, Expression::Sequence),
        };
        Some((row, at))
    }

    fn prefix(&self, at: usize) -> Read {
        if self.has(Fault::PrefixBindsCloser) {
            return self.suffixes(self.prefixes(at, |at| self.primary(at))?);
        }
        self.prefixes(at, |at| self.suffixes(self.primary(at)?))
    }

    /// What a part gives, behind any number of `&` and `!`.
    fn prefixes(&self, mut at: usize, part: impl Fn(usize) -> Read) -> Read {
        let mut kinds: Vec<Around> = Vec::new();
        loop {
            if let Some(end) = self.mark(at, b'&') {
                kinds.push(Expression::And);
                at = end;
            } else if let Some(end) = self.mark(at, b'!') {
                kinds.push(Expression::Not);
                at = end;
            } else {
                break;
            }
        }
        let (operand, end) = part(at)?;
        Some((kinds.iter().rev().fold(operand, |e, kind| kind(Box::new(e))), end))
    }

    /// What was read, with any number of `?`, `*` and `+` behind it.
    fn suffixes(&self, (mut e, mut at): (Expression, usize)) -> Read {
        let kinds: [(u8, Around); 3] = [(b'?', Expression::Optional), (b'*', Expression::Star), (b'+', Expression::Plus)];
        while let Some((kind, end)) = kinds.iter().find_map(|(mark, kind)| Some((kind, self.mark(at, *mark)?))) {
            e = kind(Box::new(e));
            at = end;
        }
        Some((e, at))
    }

    fn primary(&self, at: usize) -> Read {
        self.tried(at);
        if let Some((leaf, end)) = self.lexer.leaf(at) {
            return Some((leaf, self.lexer.gap(end)));
        }
        if let Some(inside) = self.mark(at, b'(') {
            let (e, end) = self.expression(inside)?;
            return Some((e, self.mark(end, b')')?));
        }
        let (opener, end) = self.lexer.opener(at)?;
        let (e, end) = self.expression(self.lexer.gap(end))?;
        Some((opener.around(e), self.mark(end, b'>')?))
    }

    /// Behind a mark and the gap behind it.
    fn mark(&self, at: usize, mark: u8) -> Option<usize> {
        Some(self.lexer.gap(self.lexer.byte(at, mark)?))
    }
}

type Join = fn(Box<Expression>, Box<Expression>) -> Expression;

/// `a b c` as `a (b c)`. There is a part at least.
fn lean_right(parts: Vec<Expression>, join: Join) -> Expression {
    let joined = parts.into_iter().rev().reduce(|right, left| join(Box::new(left), Box::new(right)));
    joined.expect("there is a part")
}

/// `a b c` as `(a b) c`. There is a part at least.
fn lean_left(parts: Vec<Expression>, join: Join) -> Expression {
    let joined = parts.into_iter().reduce(|left, right| join(Box::new(left), Box::new(right)));
    joined.expect("there is a part")
}
