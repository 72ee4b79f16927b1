//! Plans made from a seed (document 02, E7): answers, plans and every lent place, what is done with such
//! a plan afterwards, and the vectors that are proved.

use reference::generate::draws;
use reference::image::encode;
use reference::proved::{LentPlan, ACCEPTED};
use reference::rng::{Case, Rng};
#[cfg(feature = "quotations")]
use reference::{kinds::Kinds, rounds, values, FIGURES};
use reference::{Duration, MAX_STATES, MAX_TRANSITIONS};

use crate::generate;
#[cfg(feature = "quotations")]
use crate::library;
use crate::pair::{Call, Pair};
use crate::seeds::{adler32, vectors, WORDS};
use crate::tally::Tally;

const SEED: u64 = 0x0000_5EED;
const PLANS: u64 = 6_000;
#[cfg(feature = "quotations")]
const QUOTED: u64 = 4_000;

/// Seeds at the edges. With 61C88647 hex the second word is 0.
const SEEDS: [u32; 9] = [
    0,
    1,
    2,
    0x61C8_8647,
    305_419_896,
    (1 << 31) - 1,
    1 << 31,
    u32::MAX - 1,
    u32::MAX,
];

/// Numbers of states and of transitions at the edges. The last ones of each are good in fewer bits.
const STATES: [usize; 13] = [
    0,
    1,
    2,
    3,
    511,
    512,
    513,
    1024,
    usize::MAX,
    1 << 16,
    (1 << 16) + 1,
    1 << 32,
    (1 << 32) + 1,
];
const TRANSITIONS: [usize; 11] = [
    0,
    1,
    2,
    2047,
    2048,
    2049,
    4096,
    usize::MAX,
    (1 << 16) + 1,
    1 << 32,
    (1 << 63) + 1,
];

/// What a call with these counts is answered, by the sentence: "A bad n returns 4, then a transition
/// count above 2,048 returns 5."
fn answer(n: usize, m: usize) -> u32 {
    match (n, m) {
        (0 | 513.., _) => 4,
        (_, 2049..) => 5,
        _ => ACCEPTED,
    }
}

/// A plan that is made reads back whole: its image is written, and read over another plan.
fn assert_round_trip(rng: &mut Rng, pair: &mut Pair) {
    let octets = encode(pair.plan());
    let written = ACCEPTED + octets.len() as u32;
    let mut buffer = vec![0xAA; octets.len()];
    assert_eq!(pair.lent().write(&mut buffer), written);
    assert!(buffer == octets, "the image that is written");
    assert_eq!(pair.run(&Call::Write(buffer.clone())), written);
    let mut other = Pair::fresh(rng, 3);
    assert_eq!(other.run(&Call::Read(buffer)), ACCEPTED);
    assert!(other.plan() == pair.plan(), "the plan that is read");
    assert!(other.lent().plan() == pair.lent().plan());
}

/// Every seed with every pair of counts, over noise and over a plan: the slices are compared place by
/// place, after refusals too.
#[test]
fn counts_and_seeds_at_the_edges() {
    let mut rng = Rng::of_test("counts_and_seeds_at_the_edges", SEED);
    let mut tally = Tally::default();
    for seed in SEEDS {
        for n in STATES {
            for m in TRANSITIONS {
                let call = Call::Generate(seed, n, m);
                for mut pair in [Pair::noise(&mut rng), Pair::fresh(&mut rng, 7)] {
                    let given = pair.run(&call);
                    assert_eq!(given, answer(n, m), "{call:?}");
                    tally.add_call(&call, n, given);
                    if given == ACCEPTED {
                        assert_round_trip(&mut rng, &mut pair);
                    }
                }
            }
        }
    }
    tally.print(&format!(
        "counts and seeds at the edges: {} calls",
        tally.calls()
    ));
    tally.assert_covers(&["generate"]);
}

/// Random seeds and counts, and a few calls on what they make.
#[test]
fn random_seeds_then_edits() {
    let mut tally = Tally::default();
    for number in 0..PLANS {
        let case = Case { seed: SEED, number };
        let mut rng = case.rng();
        let mut pair = match rng.one_in(2) {
            true => Pair::noise(&mut rng),
            false => Pair::fresh(&mut rng, 5),
        };
        let call = generate::generated(&mut rng);
        let answer = pair.run(&call);
        tally.add_call(&call, 0, answer);
        if answer != ACCEPTED {
            continue;
        }
        if rng.one_in(4) {
            pair.fill_past_counts(&mut rng);
        }
        assert_round_trip(&mut rng, &mut pair);
        for _ in 0..rng.between(1, 8) {
            let call = generate::call(&mut rng, &pair);
            let n = pair.plan().states.len();
            let answer = pair.run(&call);
            tally.add_call(&call, n, answer);
        }
    }
    tally.print(&format!(
        "random seeds, then edits: seed {SEED:#x}, {PLANS} plans, {} calls",
        tally.calls()
    ));
    tally.assert_covers(&["generate"]);
}

/// A full plan, made over others: the lists of calls go on from it.
#[test]
fn edits_of_a_full_plan() {
    let mut rng = Rng::of_test("edits_of_a_full_plan", SEED);
    let mut pair = Pair::noise(&mut rng);
    for seed in SEEDS {
        let full = Call::Generate(seed, MAX_STATES, MAX_TRANSITIONS);
        assert_eq!(pair.run(&full), ACCEPTED);
        let open = pair.plan().transitions.iter();
        let open = open.filter(|transition| transition.longest() == Duration::Open);
        assert!(open.count() > 0, "some highs are open");
        let last = *pair.plan().transitions.last().expect("a full list");
        assert_eq!(pair.run(&Call::Join(last)), 9);
        assert_eq!(pair.run(&Call::Unjoin(1000)), ACCEPTED);
        assert_eq!(pair.run(&Call::Join(last)), ACCEPTED);
        assert_eq!(pair.run(&Call::Mark(511, 7)), ACCEPTED);
        assert_eq!(pair.run(&Call::Team(0, 31)), ACCEPTED);
        assert_round_trip(&mut rng, &mut pair);
        // Refused over it, and then made smaller: the places past the counts are zero.
        assert_eq!(pair.run(&Call::Generate(seed, 513, 0)), 4);
        assert_eq!(pair.run(&Call::Generate(seed, 512, 2049)), 5);
        assert_eq!(pair.run(&Call::Generate(seed, 1, 1)), ACCEPTED);
        assert_eq!(pair.plan().marks(), [6]);
        assert!(pair.lent().states[1..MAX_STATES].iter().all(|&m| m == 0));
        assert!(pair.lent().fields[1..MAX_TRANSITIONS]
            .iter()
            .all(|&f| f == 0));
    }
}

/// The figures of plans that seeds make, small ones and full ones, some with another state marked: every
/// kind comes up.
#[cfg(feature = "quotations")]
#[test]
fn random_seeds_then_quotations() {
    let mut kinds = Kinds::default();
    for number in 0..QUOTED {
        let case = Case {
            seed: SEED + 1,
            number,
        };
        let mut rng = case.rng();
        let (n, m) = match number {
            0..5 => (MAX_STATES, MAX_TRANSITIONS),
            _ => (rng.between(1, 12), rng.below(30)),
        };
        let mut pair = Pair::noise(&mut rng);
        let call = Call::Generate(generate::seed(&mut rng), n, m);
        assert_eq!(pair.run(&call), ACCEPTED);
        if rng.one_in(2) {
            // Another state counts, or answers; the first is a desk.
            let (state, marks) = (rng.below(n), rng.below(8) as u32);
            assert_eq!(pair.run(&Call::Mark(state, marks)), ACCEPTED);
        }
        let quotations = FIGURES.map(|figure| rounds::quote(pair.plan(), figure));
        let values = values(&quotations);
        library::compare(&mut rng, pair.lent(), pair.plan(), &values);
        for figure in &FIGURES[2..] {
            let asked = figure.for_class_of(generate::team(&mut rng));
            let expected = rounds::quote(pair.plan(), asked).value;
            library::quote(&mut rng, pair.lent(), pair.plan(), asked, n, Ok(expected));
        }
        kinds.add(pair.plan(), &quotations);
    }
    kinds.print(&format!(
        "random seeds, then quotations: seed {:#x}, {QUOTED} plans",
        SEED + 1
    ));
    kinds.assert_covers();
}

/// The words that are proved, by what the library makes of them. Over all n from 1 to 512 no two words
/// have the same rest, so the froms and tos determine theirs; lows and highs have theirs modulo 2,048 and
/// what it leaves.
#[test]
fn proved_words_are_in_the_librarys_plans() {
    for (seed, words) in vectors().words {
        assert_eq!(draws(seed, WORDS), words, "seed {seed}");
        let whole = WORDS / 4;
        for n in 1..=MAX_STATES {
            let mut lent = LentPlan::zeroed();
            assert_eq!(lent.generate(seed, n, whole + 1), ACCEPTED);
            let plan = lent.plan();
            for (transition, drawn) in plan.transitions.iter().zip(words.chunks(4)) {
                let state = |draw: u64| (draw % n as u64) as usize;
                assert_eq!(transition.from, state(drawn[0]), "seed {seed}");
                assert_eq!(transition.to, state(drawn[1]), "seed {seed}");
                let low = drawn[2] % 2048;
                assert_eq!(u64::from(transition.low), low, "seed {seed}");
                // Of the last one the word for its high is no vector.
                if let Some(draw) = drawn.get(3) {
                    let high = low + draw % (2048 - low);
                    assert_eq!(u64::from(transition.high), high, "seed {seed}");
                }
            }
        }
    }
}

/// The plans that are proved: the image that the library writes of its own plan, and the second
/// calculator's, have the checksum.
#[test]
fn proved_plans_are_the_librarys() {
    let mut rng = Rng::of_test("proved_plans_are_the_librarys", SEED);
    for ((seed, n, m), sum) in vectors().plans {
        let mut pair = Pair::noise(&mut rng);
        assert_eq!(pair.run(&Call::Generate(seed, n, m)), ACCEPTED);
        let mut buffer = vec![0; pair.image_length()];
        let written = ACCEPTED + buffer.len() as u32;
        assert_eq!(pair.lent().write(&mut buffer), written);
        assert_eq!(adler32(&buffer), sum, "{seed} {n} {m}");
        assert_eq!(adler32(&encode(pair.plan())), sum, "{seed} {n} {m}");
    }
}
