//! Productions as a tree. Rows and choices have two parts each, and brackets leave no trace.

/// A place in the text. It does not count when trees are compared: what stands at two places may be alike.
#[derive(Clone, Copy, Debug, Default)]
pub struct Place(pub usize);

impl PartialEq for Place {
    fn eq(&self, _: &Place) -> bool {
        true
    }
}

impl Eq for Place {}

/// A name, and where it stands.
#[derive(Clone, Debug, PartialEq, Eq)]
pub struct Name {
    pub text: String,
    pub at: Place,
}

/// A production: a name, `=`, and an expression.
#[derive(Clone, Debug, PartialEq, Eq)]
pub struct Production {
    pub name: Name,
    pub body: Expression,
}

/// A part of a class.
#[derive(Clone, Copy, Debug, PartialEq, Eq)]
pub enum Part {
    /// `a`
    Byte(u8),
    /// `a-z`, the second above the first
    Range(u8, u8),
}

impl Part {
    /// The bytes from one to the other. Where they are the same it is that byte: `[a-a]` reads as `[a]`.
    pub fn between(low: u8, high: u8) -> Part {
        if low == high {
            Part::Byte(low)
        } else {
            Part::Range(low, high)
        }
    }
}

/// An expression, by the operator that is written.
#[derive(Clone, Debug, PartialEq, Eq)]
pub enum Expression {
    /// `'abc'`, with the place of its first mark.
    Quoted(Vec<u8>, Place),
    /// `.`
    Any,
    /// `[a-z_]`, one part at least.
    Class(Vec<Part>),
    /// `a b`
    Sequence(Box<Expression>, Box<Expression>),
    /// `a / b`
    Choice(Box<Expression>, Box<Expression>),
    /// `e?`
    Optional(Box<Expression>),
    /// `e*`
    Star(Box<Expression>),
    /// `e+`
    Plus(Box<Expression>),
    /// `!e`
    Not(Box<Expression>),
    /// `&e`
    And(Box<Expression>),
    /// `A`
    Call(Name),
    /// `<def T e>`, with the place of its `<`.
    Def(Name, Box<Expression>, Place),
    /// `<match T>`
    Match(Name),
    /// `<is T>`
    Is(Name),
    /// `<isa T>`
    Isa(Name),
    /// `<exists T>`
    Exists(Name),
    /// `<block T e>`
    Block(Name, Box<Expression>),
    /// `<local T e>`
    Local(Name, Box<Expression>),
    /// `<if C>`, and with false `<if !C>`.
    If(Name, bool),
    /// `<on C e>`, and with false `<on !C e>`.
    On(Name, bool, Box<Expression>),
}

impl Expression {
    /// Shows this expression and all in it, in the order in which they begin in the text.
    pub fn each<'a>(&'a self, see: &mut impl FnMut(&'a Expression)) {
        see(self);
        match self {
            Expression::Sequence(a, b) | Expression::Choice(a, b) => {
                a.each(see);
                b.each(see);
            }
            Expression::Optional(e) | Expression::Star(e) | Expression::Plus(e) | Expression::Not(e) | Expression::And(e) => e.each(see),
            Expression::Def(_, e, _) | Expression::Block(_, e) | Expression::Local(_, e) | Expression::On(_, _, e) => e.each(see),
            Expression::Quoted(..) | Expression::Any | Expression::Class(_) | Expression::Call(_) | Expression::If(..) => {}
            Expression::Match(_) | Expression::Is(_) | Expression::Isa(_) | Expression::Exists(_) => {}
        }
    }
}

/// Shows every expression of the productions, in the order in which they begin in the text.
pub fn each<'a>(productions: &'a [Production], see: &mut impl FnMut(&'a Expression)) {
    for production in productions {
        production.body.each(see);
    }
}
