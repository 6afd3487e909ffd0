//! The faults of the wrong machines: each is the reference with one thing wrong. The comparison shows that its cases tell each from the right
//! one, so a library with such a fault would not pass it.

/// One thing that a wrong machine does.
#[derive(Clone, Copy, Debug, PartialEq, Eq)]
pub enum Fault {
    /// Is and Isa look whether the input goes on with the symbol, not whether the pattern consumed just that.
    ComparesFront,
    /// Block cuts the store back to its old length, so other tables' symbols are lost.
    BlockCutsBack,
    /// Local shows what it should hide.
    LocalShows,
    /// Room counts no symbol that a Local hides.
    RoomOfVisible,
    /// Not keeps the symbols of its failed body.
    NotKeeps,
    /// Choice keeps the symbols of its failed first alternative.
    ChoiceKeeps,
    /// On keeps the symbols of its body.
    OnKeeps,
    /// Star runs one round at most.
    StarOnce,
    /// The steps of a failed first alternative are left out of the count.
    FailureIsFree,
    /// The depth limit is looked at before the step limit.
    DepthFirst,
    /// Slot numbers past 3R are set to zero.
    ClearsPastRoom,
    /// Refusal 10 sets the slots to zero.
    RefusalClearsSlots,
}

impl Fault {
    /// Every fault, with its name in words.
    pub const ALL: [(Fault, &'static str); 12] = [
        (Fault::ComparesFront, "Is and Isa compare with the input's front"),
        (Fault::BlockCutsBack, "Block cuts other tables' lists back too"),
        (Fault::LocalShows, "Local does not hide"),
        (Fault::RoomOfVisible, "room counts no hidden symbol"),
        (Fault::NotKeeps, "Not keeps what its failed body stored"),
        (Fault::ChoiceKeeps, "a failed alternative's symbols stay"),
        (Fault::OnKeeps, "On keeps what its body stored"),
        (Fault::StarOnce, "Star stops after one round"),
        (Fault::FailureIsFree, "a failed alternative's steps are not counted"),
        (Fault::DepthFirst, "depth is looked at before steps"),
        (Fault::ClearsPastRoom, "slot numbers past 3R are cleared"),
        (Fault::RefusalClearsSlots, "refusal 10 clears the slots"),
    ];
}
