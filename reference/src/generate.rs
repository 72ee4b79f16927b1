//! Plans made from a seed: document 02, E7.
//!
//! The words stand in one list of whole numbers, each found by its number from the sentence of the
//! document. A sum is written out in 64 bits, and is then divided by 4,294,967,296 for the rest.

use crate::plan::{Plan, Transition, MAX_STATES, MAX_TRANSITIONS};
use crate::refusal::{require, Refusal};

const MODULUS: u64 = 4_294_967_296;
/// "9E3779B9 hex"
const STEP: u64 = 0x9E37_79B9;
/// How many words come before those that are drawn.
const SEEDED: usize = 55;
/// A low and a high are below this.
const DURATIONS: u64 = 2048;

/// Words 1 to `count` of a seed.
///
/// "From a 32-bit seed s, the first 55 words are s, then each the one before plus 9E3779B9 hex. Each
/// later word is the word 24 back plus the word 55 back, with sums reduced modulo 4,294,967,296."
pub fn words(seed: u32, count: usize) -> Vec<u64> {
    let mut words: Vec<u64> = Vec::with_capacity(count);
    for number in 1..=count {
        // Word 1 is at place 0.
        let back = |k: usize| words[number - k - 1];
        let sum = match number {
            1 => u64::from(seed),
            2..=SEEDED => back(1) + STEP,
            _ => back(24) + back(55),
        };
        words.push(sum % MODULUS);
    }
    words
}

/// "Words are drawn from the 56th on": the first `count` of these.
pub fn draws(seed: u32, count: usize) -> Vec<u64> {
    words(seed, SEEDED + count).split_off(SEEDED)
}

/// "A transition takes four draws: from and to are a draw modulo n, low a draw modulo 2,048, and high
/// is low plus a draw modulo (2,048 − low)."
fn transition(n: usize, draws: &[u64]) -> Transition {
    let state = |draw: u64| (draw % n as u64) as usize;
    let low = draws[2] % DURATIONS;
    let high = low + draws[3] % (DURATIONS - low);
    Transition {
        from: state(draws[0]),
        to: state(draws[1]),
        low: low as u32,
        high: high as u32,
    }
}

impl Plan {
    /// The plan of `n` states and `m` transitions that a seed makes.
    ///
    /// "State 0 is start and state n − 1 final, no other mark set and all teams zero." "A bad n returns
    /// 4, then a transition count above 2,048 returns 5."
    pub fn generate(seed: u32, n: usize, m: usize) -> Result<Plan, Refusal> {
        require((1..=MAX_STATES).contains(&n), Refusal::StateCount)?;
        require(m <= MAX_TRANSITIONS, Refusal::TransitionCount)?;
        let draws = draws(seed, 4 * m);
        let transitions = draws.chunks_exact(4).map(|four| transition(n, four));
        let mut plan = Plan::of(vec![0; n], transitions.collect());
        plan.states[0].marks += 4;
        plan.states[n - 1].marks += 2;
        Ok(plan)
    }
}
