//! The table of refused calls.

/// Why a call is refused. The value of each case is the number that the table gives it; 13 is no
/// case's (document 02, E8).
#[derive(Clone, Copy, Debug, PartialEq, Eq)]
pub enum Refusal {
    /// The plan handed to the call breaks a limit.
    BrokenPlan = 0,
    /// The image has fewer than 4 octets, or fewer than its counts give.
    ImageTooShort = 1,
    /// The image has more octets than its counts give.
    ImageTooLong = 2,
    /// The image's version is neither 1 nor 2.
    Version = 3,
    /// The state count is 0 or above 512.
    StateCount = 4,
    /// The transition count is above 2,048.
    TransitionCount = 5,
    /// A pad bit is set, or a spare bit of version 1.
    SpareBit = 6,
    /// The state of a mark or a team, or the initial state of a text, is not below the state count.
    StateNumber = 7,
    /// Low is above high, or high above 2,047.
    Duration = 8,
    /// The list holds 2,048 transitions already.
    ListFull = 9,
    /// A transition number is not below the transition count.
    TransitionNumber = 10,
    /// The lent buffer is too short for the result.
    BufferTooShort = 11,
    /// The marks value is above 7.
    MarksValue = 12,
    /// The plan has not exactly one start.
    StartCount = 14,
    /// The text is off the form of Aldebaran text.
    TextForm = 15,
    /// A transition's from is not below the state count.
    FromState = 16,
    /// A transition's to is not below the state count.
    ToState = 17,
    /// The team is above 31.
    TeamNumber = 18,
}

impl Refusal {
    /// The number that a refused call returns.
    pub fn number(self) -> u32 {
        self as u32
    }
}

/// Refuses by `refusal` unless the condition holds.
pub(crate) fn require(condition: bool, refusal: Refusal) -> Result<(), Refusal> {
    if condition {
        Ok(())
    } else {
        Err(refusal)
    }
}
