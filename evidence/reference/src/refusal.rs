//! The refusals, with the numbers that the table of document 01 gives them.

/// Why a call is refused.
#[derive(Clone, Copy, Debug, PartialEq, Eq)]
#[repr(u32)]
pub enum Refusal {
    /// "the bytes end before the whole of n or of the record being read"
    CutShort = 1,
    /// "last of several groups is 0, or the fifth byte, taken whole, is 16 to 255"
    LongNumber = 2,
    /// "kind is readable and not 0 or 1"
    UnknownKind = 3,
    /// "a holder or a tag in a set is n or more"
    NoSuchContainer = 4,
    /// "from equals to"
    SameContainer = 5,
    /// "opening's number not above the greatest"
    OldNumber = 6,
    /// "512 channels open"
    TableFull = 7,
    /// No enabled flow has the number that a disable names.
    NotEnabled = 8,
    /// "n is 0 or above 256, or storage shorter than above"
    BadSize = 9,
    /// "output lacks places for the whole answer"
    ShortOutput = 10,
    /// "holder has four permitted sets"
    PoliciesFull = 11,
    /// The storage is long enough and the tracker is not valid.
    Invalid = 12,
}

impl Refusal {
    /// The number of this refusal in the table.
    pub fn number(self) -> u32 {
        self as u32
    }
}
