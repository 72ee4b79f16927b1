//! Counts the answers of a run by call, and holds them to the table of refused calls.

use std::collections::BTreeMap;

use reference::proved::ACCEPTED;

use reference::rng::print;

use crate::pair::Call;
use crate::wrong::{self, Wrong, WAYS};

/// The numbers by which the table lets each call be refused; of replay also those of what is no
/// list of calls, and no plan.
const TABLE: [(&str, &[u32]); 15] = [
    ("fresh", &[4]),
    ("generate", &[4, 5]),
    ("from_image", &[1, 2, 3, 4, 5, 6, 8, 16, 17]),
    ("mark", &[0, 7, 12]),
    ("team", &[0, 7, 18]),
    ("join", &[0, 8, 9, 16, 17]),
    ("unjoin", &[0, 10]),
    ("read", &[0, 1, 2, 3, 4, 5, 6, 8, 16, 17]),
    ("import", &[0, 4, 5, 7, 8, 15, 16, 17]),
    ("write", &[0, 11]),
    ("export", &[0, 11, 14]),
    ("count_for", &[0, 11, 18]),
    ("record", &[0, 11]),
    ("quote", &[1, 2, 3, 4, 5, 6, 8, 16, 17]),
    ("replay", &[4, 11, 254, 255]),
];

/// The numbers by which a transition is refused.
const OF_TRANSITIONS: [u32; 3] = [8, 16, 17];

/// How often each call gave each answer, accepted calls counted together, and how often it was
/// refused for a transition that is wrong in each way.
#[derive(Default)]
pub struct Tally {
    counts: BTreeMap<(&'static str, u32), u64>,
    wrong: BTreeMap<(&'static str, Wrong), u64>,
}

impl Tally {
    pub fn add(&mut self, call: &'static str, answer: u32) {
        *self.counts.entry((call, answer.min(ACCEPTED))).or_default() += 1;
    }

    /// The same of a call on a plan of `n` states. A transition that is refused must be so by the
    /// number for what is wrong with it.
    pub fn add_call(&mut self, call: &Call, n: usize, answer: u32) {
        self.add_wrong(call.name(), answer, || wrong::of_call(call, n));
    }

    /// The same of a call that is given an image alone.
    #[cfg(feature = "quotations")]
    pub fn add_image(&mut self, call: &'static str, octets: &[u8], answer: u32) {
        self.add_wrong(call, answer, || wrong::of_image(octets));
    }

    fn add_wrong(
        &mut self,
        call: &'static str,
        answer: u32,
        wrong: impl FnOnce() -> Option<Wrong>,
    ) {
        self.add(call, answer);
        if OF_TRANSITIONS.contains(&answer) {
            let wrong = wrong().expect("a transition is wrong");
            assert_eq!(answer, wrong::number(wrong), "{call}: {wrong:?}");
            *self.wrong.entry((call, wrong)).or_default() += 1;
        }
    }

    pub fn calls(&self) -> u64 {
        self.counts.values().sum()
    }

    /// Asserts that each named call was accepted and was refused by every number that the table
    /// gives it, and by no other; and, where it is given transitions, for ones that are wrong in
    /// every way.
    pub fn assert_covers(&self, calls: &[&str]) {
        for (call, numbers) in TABLE {
            if calls.contains(&call) {
                let mut expected = numbers.to_vec();
                expected.push(ACCEPTED);
                assert_eq!(self.answers(call), expected, "answers of {call}");
                if OF_TRANSITIONS.iter().all(|number| numbers.contains(number)) {
                    assert_eq!(self.ways(call), WAYS, "wrong transitions of {call}");
                }
            }
        }
    }

    fn answers(&self, call: &str) -> Vec<u32> {
        let of_call = self.counts.keys().filter(|(name, _)| *name == call);
        of_call.map(|&(_, answer)| answer).collect()
    }

    fn ways(&self, call: &str) -> Vec<Wrong> {
        let of_call = self.wrong.keys().filter(|(name, _)| *name == call);
        of_call.map(|&(_, way)| way).collect()
    }

    /// Prints the counts under a title.
    pub fn print(&self, title: &str) {
        let mut text = format!("{title}\n");
        for (call, _) in TABLE {
            if self.answers(call).is_empty() {
                continue;
            }
            text += &format!("  {call:6}");
            for answer in self.answers(call) {
                let count = self.counts[&(call, answer)];
                if answer == ACCEPTED {
                    text += &format!(" accepted: {count}");
                } else {
                    text += &format!(" {answer}: {count},");
                }
            }
            text += "\n";
            if !self.ways(call).is_empty() {
                let ways = self.ways(call).into_iter().map(|way| {
                    let count = self.wrong[&(call, way)];
                    format!("{}: {count}", wrong::parts(way))
                });
                let ways: Vec<String> = ways.collect();
                text += &format!("         wrong {}\n", ways.join(", "));
            }
        }
        print(&text);
    }
}
