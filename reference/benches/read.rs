//! Times reading and writing a full image: through the proved library, by a baseline that is
//! written for speed, and by the reference.
//!
//! It prints the times and their ratios to the baseline's, and asserts nothing about them.

mod shared;

use std::hint::black_box;

use reference::image::{encode, length};
use reference::proved::{LentPlan, ACCEPTED};
use reference::{Plan, Refusal, MAX_STATES, MAX_TRANSITIONS};
use shared::{compare, full_plan, Baseline, CALLS, ROUNDS};

fn main() {
    let octets = encode(&full_plan());
    let octets = octets.as_slice();
    assert_eq!(octets.len(), length(MAX_STATES, MAX_TRANSITIONS));
    let mut lent = LentPlan::zeroed();
    assert_eq!(lent.fresh(MAX_STATES), ACCEPTED);
    let mut quick = Baseline::fresh(MAX_STATES);
    let mut plan = Plan::fresh(MAX_STATES).unwrap();

    println!(
        "A full image: {MAX_STATES} states, {MAX_TRANSITIONS} transitions, {} octets.",
        octets.len()
    );
    println!(
        "Medians of {ROUNDS} rounds of {CALLS} calls each, the three taking turns. The baseline"
    );
    println!("loads five octets a transition and shifts, and tests all that the rules ask.");
    println!("Before the first round the library's plan slices and the write buffers were zeroed,");
    println!("and the plans were made by one fresh. Nothing was cleared between calls: each read");
    println!("but the first is handed the full plan of the one before, on all sides.");

    compare(
        "read",
        || assert_eq!(lent.read(black_box(octets)), ACCEPTED),
        || assert_eq!(quick.read(black_box(octets)), ACCEPTED),
        || assert_eq!(plan.read(black_box(octets)), Ok(())),
    );
    assert!(
        lent.plan() == plan,
        "the library and the reference hold the same plan"
    );
    assert!(
        quick.plan() == plan,
        "the baseline and the reference hold the same plan"
    );

    // Refused at its last transition, whose low is above its high: all of it is taken, and the plan stays.
    let mut wrong = full_plan();
    let last = wrong.transitions.last_mut().expect("a full list");
    (last.low, last.high) = (1, 0);
    let wrong = encode(&wrong);
    let wrong = wrong.as_slice();
    compare(
        "read, refused at the last",
        || assert_eq!(lent.read(black_box(wrong)), 8),
        || assert_eq!(quick.read(black_box(wrong)), 8),
        || assert_eq!(plan.read(black_box(wrong)), Err(Refusal::Duration)),
    );
    assert!(lent.plan() == plan && quick.plan() == plan);

    let written = ACCEPTED + octets.len() as u32;
    let mut lent_buffer = vec![0; octets.len()];
    let mut quick_buffer = vec![0; octets.len()];
    let mut buffer = vec![0; octets.len()];
    compare(
        "write",
        || assert_eq!(lent.write(black_box(&mut lent_buffer)), written),
        || assert_eq!(quick.write(black_box(&mut quick_buffer)), written),
        || assert_eq!(plan.write(black_box(&mut buffer)), Ok(octets.len())),
    );
    assert!(lent_buffer == octets && quick_buffer == octets && buffer == octets);
}

impl Baseline {
    fn read(&mut self, octets: &[u8]) -> u32 {
        if !self.sound() {
            return 0;
        }
        let Some(&[a, b, c, d]) = octets.first_chunk() else {
            return 1;
        };
        let header = u32::from_be_bytes([a, b, c, d]);
        let n = (header >> 18 & 1023) as usize;
        let m = (header >> 6 & 4095) as usize;
        // The bits of a state that are spare.
        let spare = match header >> 28 {
            1 => 31,
            2 => 0,
            _ => return 3,
        };
        if !(1..=MAX_STATES).contains(&n) {
            return 4;
        }
        if m > MAX_TRANSITIONS {
            return 5;
        }
        if header & 63 != 0 {
            return 6;
        }
        if octets.len() < length(n, m) {
            return 1;
        }
        if octets.len() > length(n, m) {
            return 2;
        }
        let mut next = self.clone();
        (next.states, next.transitions) = (n, m);
        let (states, transitions) = octets[4..].split_at(n);
        let places = next.marks.iter_mut().zip(&mut next.teams);
        for ((marks, team), state) in places.zip(states) {
            if state & spare != 0 {
                return 6;
            }
            (*marks, *team) = (state >> 5, state & 31);
        }
        for (i, t) in transitions.chunks_exact(5).enumerate() {
            let bits = u64::from_be_bytes([0, 0, 0, t[0], t[1], t[2], t[3], t[4]]);
            let (from, to) = ((bits >> 31) as u16, (bits >> 22 & 511) as u16);
            let (low, high) = ((bits >> 11 & 2047) as u16, (bits & 2047) as u16);
            if usize::from(from) >= n {
                return 16;
            }
            if usize::from(to) >= n {
                return 17;
            }
            if low > high {
                return 8;
            }
            (next.from[i], next.to[i], next.low[i], next.high[i]) = (from, to, low, high);
        }
        *self = next;
        ACCEPTED
    }

    fn write(&self, buffer: &mut [u8]) -> u32 {
        if !self.sound() {
            return 0;
        }
        let (n, m) = (self.states, self.transitions);
        let Some(image) = buffer.get_mut(..length(n, m)) else {
            return 11;
        };
        let header = 2 << 28 | (n as u32) << 18 | (m as u32) << 6;
        let (front, rest) = image.split_at_mut(4);
        let (states, transitions) = rest.split_at_mut(n);
        front.copy_from_slice(&header.to_be_bytes());
        let held = self.marks.iter().zip(&self.teams);
        for (state, (marks, team)) in states.iter_mut().zip(held) {
            *state = marks << 5 | team;
        }
        for (i, t) in transitions.chunks_exact_mut(5).enumerate() {
            let ends = u64::from(self.from[i]) << 31 | u64::from(self.to[i]) << 22;
            let bits = ends | u64::from(self.low[i]) << 11 | u64::from(self.high[i]);
            t.copy_from_slice(&bits.to_be_bytes()[3..]);
        }
        ACCEPTED + length(n, m) as u32
    }
}
