//! The faults of the wrong readers: each is the reader with one thing wrong. The comparison shows that its texts tell each from the right one, so a
//! library with such a fault would not pass it.

/// One thing that a wrong reader does.
#[derive(Clone, Copy, Debug, PartialEq, Eq)]
pub enum Fault {
    /// `a b / c d` is read as `a (b / c) d`.
    ChoiceBindsCloser,
    /// `!a*` is read as `(!a)*`.
    PrefixBindsCloser,
    /// Tables are numbered in the order of their first defs.
    TablesAsTheyCome,
    /// The operand of `+` has nodes twice.
    PlusCopies,
    /// In quoted text `\n` is a backslash and an n, and so on.
    RawEscapes,
    /// `[^a]` is any byte but a.
    NoneOf,
    /// A table's pattern is that of its last def.
    LastPattern,
    /// 22 is looked for before 21.
    TwiceFirst,
    /// A comment inside a comment must be closed too.
    CommentsNest,
    /// `a b c` is `(a b) c`.
    RowsLeanLeft,
}

impl Fault {
    /// Every fault, with its name in words.
    pub const ALL: [(Fault, &'static str); 10] = [
        (Fault::ChoiceBindsCloser, "a row binds looser than a choice"),
        (Fault::PrefixBindsCloser, "a prefix binds closer than a suffix"),
        (Fault::TablesAsTheyCome, "tables are numbered as they come"),
        (Fault::PlusCopies, "the operand of + is copied"),
        (Fault::RawEscapes, "escapes are kept raw"),
        (Fault::NoneOf, "[^a] is any byte but a"),
        (Fault::LastPattern, "the last def has the pattern"),
        (Fault::TwiceFirst, "22 comes before 21"),
        (Fault::CommentsNest, "comments nest"),
        (Fault::RowsLeanLeft, "rows lean to the left"),
    ];
}
