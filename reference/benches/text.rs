//! Times importing and exporting the text of a full plan: through the proved library, by a baseline
//! that is written for speed, and by the reference.
//!
//! It prints the times and their ratios to the baseline's, and asserts nothing about them.

mod shared;
#[path = "../tests/texts/mod.rs"]
mod texts;

use std::hint::black_box;

use reference::aldebaran::encode;
use reference::proved::{LentPlan, ACCEPTED};
use reference::{Plan, MAX_STATES, MAX_TRANSITIONS};
use shared::{compare, full_plan, Baseline, CALLS, ROUNDS};

/// No text has so many lines, and no limit is so large: greater numbers need no value of their own.
const LARGE: u64 = 1 << 40;

fn main() {
    let mut full = full_plan();
    for state in &mut full.states {
        state.marks %= 4;
    }
    full.states[MAX_STATES / 2].marks += 4;
    let text = encode(&full).expect("it has one start");
    let text = text.as_bytes();
    let mut lent = LentPlan::zeroed();
    assert_eq!(lent.fresh(MAX_STATES), ACCEPTED);
    let mut quick = Baseline::fresh(MAX_STATES);
    let mut plan = Plan::fresh(MAX_STATES).unwrap();
    for (text, answer) in texts::edges() {
        assert_eq!(quick.import(&text), answer, "the baseline imports as asked");
        if answer == ACCEPTED {
            let mut buffer = vec![0; text.len()];
            let exported = ACCEPTED + text.len() as u32;
            assert_eq!(quick.export(&mut buffer), exported);
            assert!(buffer == text, "the baseline exports what it imported");
        }
    }

    println!(
        "The text of a full plan: {MAX_STATES} states, {MAX_TRANSITIONS} transitions, {} octets.",
        text.len()
    );
    println!(
        "Medians of {ROUNDS} rounds of {CALLS} calls each, the three taking turns. The baseline"
    );
    println!("looks at each octet once, tests all that the rules ask, and puts numerals from a");
    println!("table. Nothing was cleared between calls: each import but the first is handed the");
    println!("full plan of the one before, on all sides.");

    compare(
        "import",
        || assert_eq!(lent.import(black_box(text)), ACCEPTED),
        || assert_eq!(quick.import(black_box(text)), ACCEPTED),
        || assert_eq!(plan.import(black_box(text)), Ok(())),
    );
    assert!(
        plan == full.stripped(),
        "the plan stripped of its marks and teams"
    );
    assert!(
        lent.plan() == plan,
        "the library and the reference hold the same plan"
    );
    assert!(
        quick.plan() == plan,
        "the baseline and the reference hold the same plan"
    );

    let exported = ACCEPTED + text.len() as u32;
    let mut lent_buffer = vec![0; text.len()];
    let mut quick_buffer = vec![0; text.len()];
    let mut buffer = vec![0; text.len()];
    compare(
        "export",
        || assert_eq!(lent.export(black_box(&mut lent_buffer)), exported),
        || assert_eq!(quick.export(black_box(&mut quick_buffer)), exported),
        || assert_eq!(plan.export(black_box(&mut buffer)), Ok(text.len())),
    );
    assert!(lent_buffer == text && quick_buffer == text && buffer == text);
}

/// Goes over a text from octet to octet.
struct Scanner<'a> {
    text: &'a [u8],
    at: usize,
}

impl Scanner<'_> {
    /// Whether a word stands here. The place is then after it.
    #[inline(always)]
    fn word<const N: usize>(&mut self, word: &[u8; N]) -> bool {
        let rest = self.text.get(self.at..).unwrap_or_default();
        self.at += N;
        rest.first_chunk() == Some(word)
    }

    /// The digit so many octets on. What is none is above 9.
    #[inline(always)]
    fn digit(&self, ahead: usize) -> u64 {
        match self.text.get(self.at + ahead) {
            Some(octet) => octet.wrapping_sub(b'0').into(),
            None => 10,
        }
    }

    /// A number, or `LARGE` where it is greater.
    #[inline(always)]
    fn number(&mut self) -> Option<u64> {
        let mut value = self.digit(0);
        if value > 9 {
            return None;
        }
        for taken in 1..=4 {
            let digit = self.digit(taken);
            if digit > 9 {
                self.at += taken;
                return Some(value);
            }
            if value == 0 {
                return None;
            }
            value = 10 * value + digit;
        }
        Some(self.long(value))
    }

    /// The same of a number with five digits or more, the first five of which have this value.
    #[cold]
    fn long(&mut self, mut value: u64) -> u64 {
        self.at += 5;
        while self.digit(0) <= 9 {
            value = (10 * value + self.digit(0)).min(LARGE);
            self.at += 1;
        }
        value
    }

    fn first_line(&mut self) -> Option<[u64; 3]> {
        let mut on_form = self.word(b"des (");
        let initial = self.number()?;
        on_form &= self.word(b", ");
        let count = self.number()?;
        on_form &= self.word(b", ");
        let states = self.number()?;
        on_form &= self.word(b")\n");
        on_form.then_some([initial, count, states])
    }

    #[inline(always)]
    fn line(&mut self) -> Option<[u64; 4]> {
        let mut on_form = self.word(b"(");
        let from = self.number()?;
        on_form &= self.word(b", \"");
        let low = self.number()?;
        on_form &= self.word(b"..");
        let high = self.number()?;
        on_form &= self.word(b"\", ");
        let to = self.number()?;
        on_form &= self.word(b")\n");
        on_form.then_some([from, low, high, to])
    }
}

impl Baseline {
    fn import(&mut self, text: &[u8]) -> u32 {
        if !self.sound() {
            return 0;
        }
        let mut next = self.clone();
        match next.scan(text) {
            Some(ACCEPTED) => {
                *self = next;
                ACCEPTED
            }
            Some(number) => number,
            None => 15,
        }
    }

    /// Fills the plan in one pass over the text; the first ground of a line is kept until the form of
    /// the rest is known. Nothing where the text is off the form.
    fn scan(&mut self, text: &[u8]) -> Option<u32> {
        let mut scanner = Scanner { text, at: 0 };
        let [initial, count, n] = scanner.first_line()?;
        let mut lines = 0;
        let mut answer = ACCEPTED;
        while scanner.at < text.len() {
            let [from, low, high, to] = scanner.line()?;
            if answer == ACCEPTED {
                if from >= n {
                    answer = 16;
                } else if to >= n {
                    answer = 17;
                } else if low > high || high > 2047 {
                    answer = 8;
                }
            }
            if lines < MAX_TRANSITIONS {
                self.from[lines] = from as u16;
                self.to[lines] = to as u16;
                self.low[lines] = low as u16;
                self.high[lines] = high as u16;
            }
            lines += 1;
        }
        if lines as u64 != count {
            return None;
        }
        if !(1..=MAX_STATES as u64).contains(&n) {
            return Some(4);
        }
        if lines > MAX_TRANSITIONS {
            return Some(5);
        }
        if initial >= n {
            return Some(7);
        }
        (self.states, self.transitions) = (n as usize, lines);
        self.marks[..self.states].fill(0);
        self.teams[..self.states].fill(0);
        self.marks[initial as usize] = 4;
        Some(answer)
    }

    fn export(&self, buffer: &mut [u8]) -> u32 {
        if !self.sound() {
            return 0;
        }
        let (n, m) = (self.states, self.transitions);
        let marks = &self.marks[..n];
        let starts = marks.iter().filter(|&&marks| marks >= 4).count();
        if starts != 1 {
            return 14;
        }
        let initial = marks.iter().position(|&marks| marks >= 4).unwrap_or(0) as u16;
        let (from, to) = (&self.from[..m], &self.to[..m]);
        let (low, high) = (&self.low[..m], &self.high[..m]);
        let mut length = b"des (, , )\n".len();
        length += digits(initial) + digits(m as u16) + digits(n as u16);
        length += m * b"(, \"..\", )\n".len();
        for i in 0..m {
            length += digits(from[i]) + digits(low[i]) + digits(high[i]) + digits(to[i]);
        }
        let Some(text) = buffer.get_mut(..length) else {
            return 11;
        };

        let mut at = 0;
        put(text, &mut at, b"des (");
        put_number(text, &mut at, initial);
        put(text, &mut at, b", ");
        put_number(text, &mut at, m as u16);
        put(text, &mut at, b", ");
        put_last_number(text, &mut at, n as u16);
        put(text, &mut at, b")\n");
        for i in 0..m {
            put(text, &mut at, b"(");
            put_number(text, &mut at, from[i]);
            put(text, &mut at, b", \"");
            put_number(text, &mut at, low[i]);
            put(text, &mut at, b"..");
            put_number(text, &mut at, high[i]);
            put(text, &mut at, b"\", ");
            if i + 1 < m {
                put_number(text, &mut at, to[i]);
            } else {
                put_last_number(text, &mut at, to[i]);
            }
            put(text, &mut at, b")\n");
        }
        ACCEPTED + length as u32
    }
}

/// The numerals of all numbers that a text may have, each in four octets, and their lengths.
static NUMERALS: [([u8; 4], u8); MAX_TRANSITIONS + 1] = numerals();

const fn numerals() -> [([u8; 4], u8); MAX_TRANSITIONS + 1] {
    let mut list = [([0; 4], 0); MAX_TRANSITIONS + 1];
    let mut number = 0;
    while number < list.len() {
        let mut unit = 1000;
        while unit > 0 {
            let (octets, length) = &mut list[number];
            if number >= unit || unit == 1 {
                octets[*length as usize] = b'0' + (number / unit % 10) as u8;
                *length += 1;
            }
            unit /= 10;
        }
        number += 1;
    }
    list
}

/// The digits of a number below 10,000, without a branch.
#[inline(always)]
fn digits(number: u16) -> usize {
    1 + usize::from(number >= 10) + usize::from(number >= 100) + usize::from(number >= 1000)
}

#[inline(always)]
fn put<const N: usize>(text: &mut [u8], at: &mut usize, word: &[u8; N]) {
    text[*at..*at + N].copy_from_slice(word);
    *at += N;
}

/// Puts four octets whatever the number: those after its digits are written over by what follows.
#[inline(always)]
fn put_number(text: &mut [u8], at: &mut usize, number: u16) {
    let (octets, length) = &NUMERALS[usize::from(number)];
    text[*at..*at + 4].copy_from_slice(octets);
    *at += usize::from(*length);
}

/// Puts its digits alone, where fewer than four octets may follow.
fn put_last_number(text: &mut [u8], at: &mut usize, number: u16) {
    let (octets, length) = &NUMERALS[usize::from(number)];
    let octets = &octets[..usize::from(*length)];
    text[*at..*at + octets.len()].copy_from_slice(octets);
    *at += octets.len();
}
