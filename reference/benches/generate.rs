//! Times making a full plan from a seed: through the proved library, by a baseline that is written for
//! speed, and by the reference.
//!
//! It prints the times and their ratios to the baseline's, and asserts nothing about them.

mod shared;

use std::hint::black_box;

use reference::proved::{LentPlan, ACCEPTED};
use reference::{Plan, Refusal, MAX_STATES, MAX_TRANSITIONS};
use shared::{compare, full_plan, Baseline, CALLS, ROUNDS};

/// Words that come before those that are drawn.
const SEEDED: usize = 55;
/// Seeds at the edges, on which the three are compared.
const SEEDS: [u32; 5] = [0, 1, 305_419_896, 1 << 31, u32::MAX];
fn main() {
    let mut lent = LentPlan::zeroed();
    let mut quick = Baseline::fresh(MAX_STATES);
    let mut plan = full_plan();
    lent.hold(&plan);
    for seed in SEEDS {
        for (n, m) in [(1, 0), (1, 2048), (2, 1), (3, 50), (512, 0), (512, 2048)] {
            assert_eq!(lent.generate(seed, n, m), ACCEPTED);
            assert_eq!(quick.generate(seed, n, m), ACCEPTED);
            assert!(quick.sound(), "the baseline's plan is within the limits");
            plan = Plan::generate(seed, n, m).expect("good counts");
            assert!(lent.plan() == plan && quick.plan() == plan);
        }
    }
    for (n, m, answer) in [(0, 2049, 4), (513, 0, 4), (512, 2049, 5)] {
        assert_eq!(lent.generate(1, n, m), answer);
        assert_eq!(quick.generate(1, n, m), answer);
        assert_eq!(
            Plan::generate(1, n, m).map_err(Refusal::number),
            Err(answer)
        );
        assert!(lent.plan() == plan && quick.plan() == plan);
    }

    let (n, m) = (MAX_STATES, MAX_TRANSITIONS);
    println!("A full plan made from a seed: {n} states, {m} transitions.");
    println!(
        "Medians of {ROUNDS} rounds of {CALLS} calls each, the three taking turns. The baseline"
    );
    println!("puts all words into one list, and adds and divides in 32 bits. Nothing was cleared");
    println!("between calls: each makes its plan over the one before, on all sides.");
    compare(
        "generate",
        || assert_eq!(lent.generate(black_box(1), n, m), ACCEPTED),
        || assert_eq!(quick.generate(black_box(1), n, m), ACCEPTED),
        || plan = Plan::generate(black_box(1), n, m).expect("good counts"),
    );
    assert!(lent.plan() == plan && quick.plan() == plan);
}

impl Baseline {
    fn generate(&mut self, seed: u32, n: usize, m: usize) -> u32 {
        if !(1..=MAX_STATES).contains(&n) {
            return 4;
        }
        if m > MAX_TRANSITIONS {
            return 5;
        }
        let mut words = [0u32; SEEDED + 4 * MAX_TRANSITIONS];
        let mut word = seed;
        for place in &mut words[..SEEDED] {
            *place = word;
            word = word.wrapping_add(0x9E37_79B9);
        }
        for i in SEEDED..SEEDED + 4 * m {
            words[i] = words[i - 24].wrapping_add(words[i - 55]);
        }
        *self = Baseline::fresh(n);
        self.transitions = m;
        self.marks[0] = 4;
        self.marks[n - 1] += 2;
        let (from, to) = (&mut self.from[..m], &mut self.to[..m]);
        let (low, high) = (&mut self.low[..m], &mut self.high[..m]);
        let draws = words[SEEDED..].chunks_exact(4);
        for (i, four) in draws.take(m).enumerate() {
            from[i] = (four[0] % n as u32) as u16;
            to[i] = (four[1] % n as u32) as u16;
            let least = four[2] % 2048;
            low[i] = least as u16;
            high[i] = (least + four[3] % (2048 - least)) as u16;
        }
        ACCEPTED
    }
}
