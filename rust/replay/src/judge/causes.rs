//! The causes of refusal. Each is one of document 01's numbers; 3 is given at two moments, so it
//! has two causes.

#[derive(Clone, Copy, Debug, PartialEq, Eq)]
pub enum Cause {
    /// 1: a setting outside its limits, or e above E.
    Settings,
    /// 2: a lent buffer too short.
    Short,
    /// 3: the state, or the held buffer, breaks its rules.
    State,
    /// 3 again, after 2: a page in a slot or an entry that the kind table does not call metadata.
    Kinds,
    /// 4: no such page.
    Page,
    /// 5: a kind neither 0 nor 1.
    Kind,
    /// 6: the span is empty or leaves the page.
    Span,
    /// 7: no slot is empty or clean.
    NoSlot,
    /// 8: the file has E pages.
    Full,
    /// 9: the last tick is closed.
    LastTick,
    /// 10: no room for the images or the entries.
    NoRoom,
    /// 11: no side file.
    NotSide,
    /// 12: a damaged side file, or one of other settings.
    Damaged,
    /// 13: the side file's tick is too far from the held one.
    Lag,
    /// 14: a damaged image.
    Image,
}

impl Cause {
    pub fn number(self) -> u32 {
        match self {
            Cause::Settings => 1,
            Cause::Short => 2,
            Cause::State | Cause::Kinds => 3,
            Cause::Page => 4,
            Cause::Kind => 5,
            Cause::Span => 6,
            Cause::NoSlot => 7,
            Cause::Full => 8,
            Cause::LastTick => 9,
            Cause::NoRoom => 10,
            Cause::NotSide => 11,
            Cause::Damaged => 12,
            Cause::Lag => 13,
            Cause::Image => 14,
        }
    }
}
