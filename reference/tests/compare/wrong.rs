//! What is wrong with the transition that a call is refused for, as its arguments have it.

use std::str;

use crate::generate::{get, transition_at};
use crate::pair::Call;

/// Whether its from, its to and its durations are wrong.
pub type Wrong = [bool; 3];

/// Every way in which a transition can be wrong, in their order.
pub const WAYS: [Wrong; 7] = [
    [false, false, true],
    [false, true, false],
    [false, true, true],
    [true, false, false],
    [true, false, true],
    [true, true, false],
    [true, true, true],
];

/// What is wrong, in words.
pub fn parts(wrong: Wrong) -> String {
    let parts = ["from", "to", "durations"].into_iter().zip(wrong);
    let parts = parts.filter_map(|(part, is_wrong)| is_wrong.then_some(part));
    parts.collect::<Vec<&str>>().join(" and ")
}

/// The number that a transition is refused by: document 02, E3.
pub fn number(wrong: Wrong) -> u32 {
    match wrong {
        [true, _, _] => 16,
        [_, true, _] => 17,
        _ => 8,
    }
}

/// What is wrong with the first wrong transition that a call on a plan of `n` states is given.
pub fn of_call(call: &Call, n: usize) -> Option<Wrong> {
    match call {
        Call::Join(t) => {
            let fields = [t.from, t.to, t.low as usize, t.high as usize];
            first(n, 2047, [fields].into_iter())
        }
        Call::Read(octets) | Call::FromImage(octets) => of_image(octets),
        Call::Import(text) => of_text(text),
        _ => None,
    }
}

/// Of an image with a good header and the length that it gives.
pub fn of_image(octets: &[u8]) -> Option<Wrong> {
    let (n, m) = (get(octets, 4, 10), get(octets, 14, 12));
    let transitions = (0..m).map(|number| {
        let at = transition_at(n, number);
        [(0, 9), (9, 9), (18, 11), (29, 11)].map(|(bit, width)| get(octets, at + bit, width))
    });
    first(n, 2047, transitions)
}

/// Of a text on form. Numerals are compared by their length, and then as strings.
fn of_text(text: &[u8]) -> Option<Wrong> {
    let lines = str::from_utf8(text).ok()?.lines().map(|line| {
        let words = line.split(|c: char| !c.is_ascii_digit());
        let numerals = words.filter(|word| !word.is_empty());
        numerals.map(|numeral| (numeral.len(), numeral)).collect()
    });
    let lines: Vec<Vec<(usize, &str)>> = lines.collect();
    let transitions = lines[1..]
        .iter()
        .map(|line| [line[0], line[3], line[1], line[2]]);
    first(lines[0][2], (4, "2047"), transitions)
}

/// The first transition, as from, to, low and high, with anything wrong.
fn first<N: PartialOrd>(
    n: N,
    longest: N,
    mut transitions: impl Iterator<Item = [N; 4]>,
) -> Option<Wrong> {
    transitions.find_map(|[from, to, low, high]| {
        let wrong = [from >= n, to >= n, low > high || high > longest];
        wrong.contains(&true).then_some(wrong)
    })
}
