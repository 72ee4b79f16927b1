//! Transitions that are wrong in their from, in their to, in their durations, or in several of
//! these: document 02, E3.

use reference::{Plan, Transition};

const fn transition(from: usize, to: usize, low: u32, high: u32) -> Transition {
    Transition {
        from,
        to,
        low,
        high,
    }
}

/// Transitions with the number that each is refused by in a plan of 4 states.
pub const TRANSITIONS: [(Transition, Option<u32>); 8] = [
    (transition(0, 3, 3, 5), None),
    (transition(4, 3, 3, 5), Some(16)),
    (transition(0, 4, 3, 5), Some(17)),
    (transition(4, 4, 3, 5), Some(16)),
    (transition(0, 3, 5, 3), Some(8)),
    (transition(4, 3, 5, 3), Some(16)),
    (transition(0, 4, 5, 3), Some(17)),
    (transition(4, 4, 5, 3), Some(16)),
];

/// Plans of 4 states and 4 transitions, two of which are any of those, with the number that the
/// image and the text of each are refused by: that of the first transition that has one.
pub fn plans() -> Vec<(Plan, Option<u32>)> {
    let mut list = Vec::new();
    for (earlier, later) in [(0, 1), (0, 2), (0, 3), (1, 2), (1, 3), (2, 3)] {
        for (one, first_number) in TRANSITIONS {
            for (other, second_number) in TRANSITIONS {
                let mut transitions = vec![transition(3, 3, 0, 0); 4];
                transitions[earlier] = one;
                transitions[later] = other;
                let plan = Plan::of(vec![4, 1, 1, 2], transitions);
                list.push((plan, first_number.or(second_number)));
            }
        }
    }
    list
}
