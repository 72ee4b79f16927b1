//! Random lists of calls.

use reference::image::encode;
use reference::proved::ACCEPTED;
use reference::rng::{Case, Rng};
use reference::{MAX_STATES, MAX_TRANSITIONS};

use crate::generate;
use crate::pair::{Call, Pair};
use crate::tally::Tally;

const SEED: u64 = 0x0001_CA11;
const LISTS: u64 = 24_000;

/// The calls that a list may hold.
pub const CALLS: [&str; 10] = [
    "fresh", "generate", "mark", "team", "join", "unjoin", "read", "import", "write", "export",
];

#[test]
fn random_lists_of_calls() {
    let mut tally = Tally::default();
    for number in 0..LISTS {
        let case = Case { seed: SEED, number };
        run_list(&mut case.rng(), &mut tally);
    }
    tally.print(&format!(
        "lists of calls: seed {SEED:#x}, {LISTS} lists, {} calls",
        tally.calls()
    ));
    tally.assert_covers(&CALLS);
}

/// One list, from a fresh plan. Returns what it leaves.
pub fn run_list(rng: &mut Rng, tally: &mut Tally) -> Pair {
    let n = match rng.below(10) {
        0 => rng.pick(&[511, 512]),
        1 => rng.between(1, MAX_STATES),
        _ => rng.between(1, 9),
    };
    let mut pair = Pair::fresh(rng, n);
    let step = |rng: &mut Rng, pair: &mut Pair, tally: &mut Tally| {
        let call = generate::call(rng, pair);
        let n = pair.plan().states.len();
        let answer = pair.run(&call);
        tally.add_call(&call, n, answer);
    };

    // Some lists go on from an almost full plan, so that joins meet the end of the list.
    if rng.one_in(50) {
        let m = rng.between(MAX_TRANSITIONS - 3, MAX_TRANSITIONS);
        let octets = encode(&generate::plan(rng, n, m));
        assert_eq!(pair.run(&Call::Read(octets)), ACCEPTED);
    }

    for _ in 0..rng.between(1, 50) {
        step(rng, &mut pair, tally);
        match rng.below(60) {
            0 => pair.fill_past_counts(rng),
            1..=2 => {
                // A plan altered by hand is handed in for some calls, then the one before again.
                let kept = pair.clone();
                generate::alter(rng, &mut pair);
                for _ in 0..rng.between(1, 3) {
                    step(rng, &mut pair, tally);
                }
                pair = kept;
            }
            _ => {}
        }
    }
    pair
}
