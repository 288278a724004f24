//! Document 01's refusals.

/// Why a call is refused; the number is document 01's.
#[derive(Clone, Copy, Debug, PartialEq, Eq)]
pub enum Refusal {
    BadShape = 2,
    BadSubmission = 3,
    OtherShape = 4,
    TexturesFull = 5,
    HistoryFull = 6,
    VersionsFull = 7,
    OutOfOrder = 8,
    HandFull = 9,
    HandEmpty = 10,
    ShortAnswer = 11,
    CounterSpent = 12,
}

impl Refusal {
    /// Document 01's number.
    pub const fn number(self) -> u64 {
        self as u64
    }

    /// This refusal where the condition holds. Calls test their conditions in ascending order of number.
    pub const fn when(self, condition: bool) -> Result<(), Self> {
        if condition { Err(self) } else { Ok(()) }
    }
}
