//! The Aldebaran text of a plan, both ways: document 02, E1.
//!
//! A text is split into lines, and a line into numerals at the words between them. A numeral stays
//! a string of digits until it is known to be small, so numbers of any length have their value.

use std::cmp::Ordering;
use std::str;

use crate::plan::{require_ends, Plan, Transition, MAX_TRANSITIONS};
use crate::refusal::{require, Refusal};

const START: u8 = 4;
const NO_STATES: Numeral = Numeral("0");
const MOST_STATES: Numeral = Numeral("512");
const LONGEST_DURATION: Numeral = Numeral("2047");

impl Plan {
    /// Replaces the whole plan by the one that the text holds.
    pub fn import(&mut self, text: &[u8]) -> Result<(), Refusal> {
        self.require_limits()?;
        *self = decode(text)?;
        Ok(())
    }

    /// Puts the text at the front of the buffer and returns its length. Later octets stay.
    pub fn export(&self, buffer: &mut [u8]) -> Result<usize, Refusal> {
        self.require_limits()?;
        let text = encode(self)?;
        require(buffer.len() >= text.len(), Refusal::BufferTooShort)?;
        buffer[..text.len()].copy_from_slice(text.as_bytes());
        Ok(text.len())
    }

    /// The same plan without its final and counted marks and its teams.
    pub fn stripped(&self) -> Plan {
        let marks = self.states.iter().map(|state| state.marks & START);
        Plan::of(marks.collect(), self.transitions.clone())
    }
}

/// The plan that a text holds, or the first ground for refusing it.
pub fn decode(text: &[u8]) -> Result<Plan, Refusal> {
    let holding = holding(text).ok_or(Refusal::TextForm)?;
    let n = holding.states;
    require(NO_STATES < n && n <= MOST_STATES, Refusal::StateCount)?;
    require(
        holding.lines.len() <= MAX_TRANSITIONS,
        Refusal::TransitionCount,
    )?;
    require(holding.initial < n, Refusal::StateNumber)?;
    for line in &holding.lines {
        require_ends(line.from, line.to, n)?;
        let in_order = line.low <= line.high && line.high <= LONGEST_DURATION;
        require(in_order, Refusal::Duration)?;
    }

    let mut marks = vec![0; n.small()];
    marks[holding.initial.small()] = START;
    let transitions = holding.lines.iter().map(|line| Transition {
        from: line.from.small(),
        to: line.to.small(),
        low: line.low.small() as u32,
        high: line.high.small() as u32,
    });
    Ok(Plan::of(marks, transitions.collect()))
}

/// The text of a plan, which must be within the limits and have exactly one start.
pub fn encode(plan: &Plan) -> Result<String, Refusal> {
    let n = plan.states.len();
    let starts: Vec<usize> = (0..n).filter(|&state| plan.is_start(state)).collect();
    let [initial] = starts[..] else {
        return Err(Refusal::StartCount);
    };
    let mut text = format!("des ({initial}, {}, {n})\n", plan.transitions.len());
    for t in &plan.transitions {
        text += &format!("({}, \"{}..{}\", {})\n", t.from, t.low, t.high, t.to);
    }
    Ok(text)
}

/// A decimal number of any length, without leading zeros.
#[derive(Clone, Copy, PartialEq, Eq)]
struct Numeral<'a>(&'a str);

impl<'a> Numeral<'a> {
    fn of(text: &'a str) -> Option<Numeral<'a>> {
        let is_number = !text.is_empty() && text.bytes().all(|octet| octet.is_ascii_digit());
        let has_leading_zero = text.len() > 1 && text.starts_with('0');
        (is_number && !has_leading_zero).then_some(Numeral(text))
    }

    /// Its value, which is known to be a small one.
    fn small(self) -> usize {
        self.0.parse().expect("it was compared with a limit")
    }
}

/// Of two numerals without leading zeros the longer is greater; of two with one length, the later
/// in the order of strings.
impl Ord for Numeral<'_> {
    fn cmp(&self, other: &Self) -> Ordering {
        (self.0.len(), self.0).cmp(&(other.0.len(), other.0))
    }
}

impl PartialOrd for Numeral<'_> {
    fn partial_cmp(&self, other: &Self) -> Option<Ordering> {
        Some(self.cmp(other))
    }
}

/// What a text holds, numbers of any length.
struct Holding<'a> {
    initial: Numeral<'a>,
    states: Numeral<'a>,
    lines: Vec<Line<'a>>,
}

struct Line<'a> {
    from: Numeral<'a>,
    low: Numeral<'a>,
    high: Numeral<'a>,
    to: Numeral<'a>,
}

/// What a text holds, if it is on form and has as many lines as it says. What is no UTF-8 has
/// octets that no text on form has.
fn holding(text: &[u8]) -> Option<Holding<'_>> {
    let text = str::from_utf8(text).ok()?;
    let mut lines = text.strip_suffix('\n')?.split('\n');
    let first = lines.next()?.strip_prefix("des (")?.strip_suffix(')')?;
    let (initial, rest) = first.split_once(", ")?;
    let (count, states) = rest.split_once(", ")?;
    let lines = lines.map(line).collect::<Option<Vec<Line>>>()?;
    let holding = Holding {
        initial: Numeral::of(initial)?,
        states: Numeral::of(states)?,
        lines,
    };
    (count == holding.lines.len().to_string()).then_some(holding)
}

/// The numbers of a later line, if it is on form.
fn line(text: &str) -> Option<Line<'_>> {
    let text = text.strip_prefix('(')?.strip_suffix(')')?;
    let (from, rest) = text.split_once(", \"")?;
    let (label, to) = rest.split_once("\", ")?;
    let (low, high) = label.split_once("..")?;
    Some(Line {
        from: Numeral::of(from)?,
        low: Numeral::of(low)?,
        high: Numeral::of(high)?,
        to: Numeral::of(to)?,
    })
}

#[cfg(test)]
mod tests {
    use super::*;

    #[test]
    fn numerals_have_a_digit_and_no_leading_zero() {
        for text in ["0", "1", "9", "10", "2047", "18446744073709551616"] {
            assert!(Numeral::of(text).is_some(), "{text:?}");
        }
        for text in [
            "", "00", "01", "007", "-1", "+1", " 1", "1 ", "1e3", "1,000", "0x1", "1.", "٣",
        ] {
            assert!(Numeral::of(text).is_none(), "{text:?}");
        }
    }

    #[test]
    fn numerals_are_in_the_order_of_their_values() {
        let long = "9".repeat(400);
        let longer = format!("1{}", "0".repeat(400));
        let rising = [
            "0",
            "1",
            "9",
            "10",
            "99",
            "511",
            "512",
            "2047",
            "18446744073709551615",
            "18446744073709551617",
            &long,
            &longer,
        ];
        for (i, one) in rising.into_iter().enumerate() {
            for (j, other) in rising.into_iter().enumerate() {
                assert_eq!(Numeral(one).cmp(&Numeral(other)), i.cmp(&j));
            }
        }
    }
}
