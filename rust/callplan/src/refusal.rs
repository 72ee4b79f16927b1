//! The table of refused calls.

use core::error::Error;
use core::fmt;

/// Why a call was refused. A refused call changes nothing. Later versions may have more. None has
/// the number 13.
#[derive(Clone, Copy, Debug, PartialEq, Eq, Hash)]
#[non_exhaustive]
pub enum Refusal {
    /// The plan breaks a limit of a plan. No [`Plan`](crate::Plan) does, so this never comes back.
    PlanLimits,
    /// The image has fewer than 4 octets, or fewer than its counts give.
    ImageShort,
    /// The image has more octets than its counts give.
    ImageLong,
    /// The image's version is neither 1 nor 2.
    Version,
    /// The state count is 0 or above 512.
    StateCount,
    /// The transition count is above 2,048.
    TransitionCount,
    /// A pad bit is set, or a spare bit of version 1.
    SpareBits,
    /// A state number is not below the state count: of [`Plan::mark`](crate::Plan::mark) or
    /// [`Plan::team`](crate::Plan::team), or the initial state of
    /// [`Plan::import`](crate::Plan::import).
    StateNumber,
    /// Low is above high, or high above 2,047.
    Duration,
    /// The plan has 2,048 transitions already.
    ListFull,
    /// A transition number is not below the transition count.
    TransitionNumber,
    /// A lent buffer is shorter than what is to be put there.
    BufferLength,
    /// The marks value is above 7.
    MarksValue,
    /// Not exactly one state is marked start.
    StartCount,
    /// The text is off the form of Aldebaran text.
    TextForm,
    /// A transition's from is not below the state count.
    FromState,
    /// A transition's to is not below the state count.
    ToState,
    /// A team is above 31: of [`Plan::team`](crate::Plan::team),
    /// [`Plan::least_count_for`](crate::Plan::least_count_for) or
    /// [`Plan::greatest_count_for`](crate::Plan::greatest_count_for).
    TeamNumber,
    /// The slices are no list of calls, of [`Plan::replay`](crate::Plan::replay) alone. Its number is none
    /// of the table.
    NoCalls,
    /// A number that this version of the crate does not know.
    Other(u32),
}

/// Each refusal with its number, and what it says.
const REFUSALS: [(Refusal, u32, &str); 19] = [
    (Refusal::PlanLimits, 0, "the plan breaks a limit of a plan"),
    (
        Refusal::ImageShort,
        1,
        "the image has fewer than 4 octets, or fewer than its counts give",
    ),
    (
        Refusal::ImageLong,
        2,
        "the image has more octets than its counts give",
    ),
    (
        Refusal::Version,
        3,
        "the image's version is neither 1 nor 2",
    ),
    (Refusal::StateCount, 4, "the state count is 0 or above 512"),
    (
        Refusal::TransitionCount,
        5,
        "the transition count is above 2,048",
    ),
    (
        Refusal::SpareBits,
        6,
        "a pad bit is set, or a spare bit of version 1",
    ),
    (
        Refusal::StateNumber,
        7,
        "a state number is not below the state count",
    ),
    (
        Refusal::Duration,
        8,
        "low is above high, or high above 2,047",
    ),
    (
        Refusal::ListFull,
        9,
        "the plan has 2,048 transitions already",
    ),
    (
        Refusal::TransitionNumber,
        10,
        "a transition number is not below the transition count",
    ),
    (
        Refusal::BufferLength,
        11,
        "a lent buffer is shorter than what is to be put there",
    ),
    (Refusal::MarksValue, 12, "the marks value is above 7"),
    (
        Refusal::StartCount,
        14,
        "not exactly one state is marked start",
    ),
    (
        Refusal::TextForm,
        15,
        "the text is off the form of Aldebaran text",
    ),
    (
        Refusal::FromState,
        16,
        "a transition's from is not below the state count",
    ),
    (
        Refusal::ToState,
        17,
        "a transition's to is not below the state count",
    ),
    (Refusal::TeamNumber, 18, "the team is above 31"),
    (Refusal::NoCalls, 254, "the slices are no list of calls"),
];

impl Refusal {
    /// The number that the table gives it.
    #[must_use]
    pub fn number(self) -> u32 {
        match (REFUSALS.iter().find(|row| row.0 == self), self) {
            (Some(row), _) => row.1,
            (None, Refusal::Other(number)) => number,
            (None, _) => unreachable!("every refusal but the last has its row"),
        }
    }

    /// The refusal with a number.
    pub(crate) fn of(number: u32) -> Refusal {
        match REFUSALS.iter().find(|row| row.1 == number) {
            Some(row) => row.0,
            None => Refusal::Other(number),
        }
    }
}

impl fmt::Display for Refusal {
    fn fmt(&self, f: &mut fmt::Formatter) -> fmt::Result {
        match REFUSALS.iter().find(|row| row.0 == *self) {
            Some(row) => f.write_str(row.2),
            None => f.write_str("an unknown answer"),
        }
    }
}

impl Error for Refusal {}

#[cfg(test)]
mod tests {
    use super::*;
    use std::string::ToString;

    #[test]
    fn every_number_has_its_refusal() {
        for number in 0..300 {
            assert_eq!(Refusal::of(number).number(), number);
        }
    }

    #[test]
    fn a_refusal_says_what_it_is() {
        assert_eq!(
            Refusal::SpareBits.to_string(),
            "a pad bit is set, or a spare bit of version 1"
        );
        assert_eq!(Refusal::TeamNumber.number(), 18);
        assert_eq!(Refusal::TeamNumber.to_string(), "the team is above 31");
        assert_eq!(Refusal::FromState.number(), 16);
        assert_eq!(Refusal::ToState.number(), 17);
        assert_eq!(
            Refusal::ToState.to_string(),
            "a transition's to is not below the state count"
        );
        assert_eq!(Refusal::of(255).to_string(), "an unknown answer");
    }

    #[test]
    fn no_refusal_is_13() {
        assert_eq!(Refusal::of(13), Refusal::Other(13));
        let numbers = REFUSALS.map(|row| row.1);
        assert!(numbers
            .into_iter()
            .eq((0..19).filter(|&number| number != 13).chain([254])));
    }
}
