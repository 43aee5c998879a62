//! The table of refused work.

/// A refusal's word; its value is the number in document 01.
#[derive(Clone, Copy, Debug, PartialEq, Eq)]
#[repr(u8)]
pub enum Word {
    CutShort = 1,
    StrangeTag = 2,
    WrongLength = 3,
    OutOfTurn = 4,
    TooMany = 5,
    OffScale = 6,
    NoSuchEnd = 7,
    NoTask = 8,
    Loop = 9,
    TooHeavy = 10,
    OffTheKnob = 11,
    NoTempo = 12,
    ShortPage = 13,
    TooSoon = 14,
    Stranger = 15,
    ForeignState = 16,
}

/// A refusal: its word and, for 1 to 7, the offset of the refused field's tag.
#[derive(Clone, Copy, Debug, PartialEq, Eq)]
pub struct Refusal {
    pub word: Word,
    pub place: usize,
}

impl Refusal {
    /// A refusal that belongs to no field.
    pub fn of(word: Word) -> Refusal {
        Refusal { word, place: 0 }
    }

    /// Number and place in one negative number, as the library's calls return them.
    pub fn code(self) -> i64 {
        -(10_000 * self.word as i64 + self.place as i64)
    }
}
