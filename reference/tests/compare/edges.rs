//! The edges of every limit, and plans built by hand.

use reference::image::{encode, length};
use reference::proved::{LentPlan, ACCEPTED, COUNTS, FIELDS, SHORT_SLICE, STATES};
use reference::rng::Rng;
use reference::{Plan, Transition, MAX_STATES, MAX_TRANSITIONS};

use crate::ends;
use crate::generate::{self, put};
use crate::pair::{Call, Pair};
use crate::texts::P1_TEXT;
use crate::vectors::{P1, P1_WRITTEN};

const SEED: u64 = 0xED6E;

fn join(from: usize, to: usize, low: u32, high: u32) -> Call {
    Call::Join(Transition {
        from,
        to,
        low,
        high,
    })
}

/// P1 on both, with noise past its counts.
pub fn p1(rng: &mut Rng) -> Pair {
    let mut pair = Pair::fresh(rng, 9);
    assert_eq!(pair.run(&Call::Read(P1.to_vec())), ACCEPTED);
    pair.fill_past_counts(rng);
    pair
}

/// A random plan of the given size on both, with noise past its counts.
pub fn random(rng: &mut Rng, n: usize, m: usize) -> Pair {
    let mut pair = Pair::fresh(rng, 1);
    let octets = encode(&generate::plan(rng, n, m));
    assert_eq!(pair.run(&Call::Read(octets)), ACCEPTED);
    pair.fill_past_counts(rng);
    pair
}

#[test]
fn the_image_of_p1() {
    let mut rng = Rng::of_test("the_image_of_p1", SEED);
    let mut pair = p1(&mut rng);
    assert_eq!(pair.plan().marks(), [4, 1, 1, 2]);
    assert_eq!(pair.run(&Call::Write(vec![0xAA; 31])), ACCEPTED + 28);
    assert_eq!(pair.run(&Call::Write(vec![0xAA; 28])), ACCEPTED + 28);
    assert_eq!(encode(pair.plan()), P1_WRITTEN);
    assert_eq!(pair.run(&Call::Read(P1_WRITTEN.to_vec())), ACCEPTED);
}

#[test]
fn state_counts() {
    let mut rng = Rng::of_test("state_counts", SEED);
    let mut pair = Pair::noise(&mut rng);
    for (n, answer) in [
        (0, 4),
        (1, ACCEPTED),
        (511, ACCEPTED),
        (512, ACCEPTED),
        (513, 4),
        (1 << 16, 4),
        ((1 << 16) + 1, 4),
        ((1 << 32) + 1, 4),
        (usize::MAX, 4),
    ] {
        assert_eq!(pair.run(&Call::Fresh(n)), answer, "fresh {n}");
    }
    for n in 1..=MAX_STATES {
        let mut pair = Pair::fresh(&mut rng, n);
        assert_eq!(pair.run(&Call::Mark(n - 1, 7)), ACCEPTED);
        assert_eq!(pair.run(&Call::Mark(n, 7)), 7);
        assert_eq!(pair.run(&Call::Team(n - 1, 31)), ACCEPTED);
        assert_eq!(pair.run(&Call::Team(n, 31)), 7);
        assert_eq!(pair.run(&Call::Team(n, 32)), 7);
        assert_eq!(pair.run(&join(n - 1, 0, 0, 0)), ACCEPTED);
        assert_eq!(pair.run(&join(0, n - 1, 0, 0)), ACCEPTED);
        assert_eq!(pair.run(&join(n, 0, 0, 0)), 16);
        assert_eq!(pair.run(&join(0, n, 0, 0)), 17);
        assert_eq!(pair.run(&join(n, n, 0, 0)), 16);
    }

    // The same in an image: 512 states, and 513 of the right length.
    let mut octets = encode(&Plan::fresh(512).unwrap());
    assert_eq!(pair.run(&Call::Read(octets.clone())), ACCEPTED);
    put(&mut octets, 4, 10, 513);
    assert_eq!(pair.run(&Call::Read(octets.clone())), 4);
    octets.push(0);
    assert_eq!(pair.run(&Call::Read(octets)), 4);
    assert_eq!(pair.run(&Call::Read(vec![0x10, 0, 0, 0])), 4);
}

#[test]
fn transition_counts() {
    let mut rng = Rng::of_test("transition_counts", SEED);
    let mut pair = Pair::fresh(&mut rng, 512);
    for number in 0..MAX_TRANSITIONS {
        let low = (number % 2048) as u32;
        assert_eq!(
            pair.run(&join(number % 512, number * 7 % 512, low, 2047)),
            ACCEPTED
        );
    }
    assert_eq!(pair.run(&join(0, 0, 0, 0)), 9);
    assert_eq!(pair.run(&join(512, 0, 0, 0)), 16);
    assert_eq!(pair.run(&join(512, 512, 1, 0)), 16);
    assert_eq!(pair.run(&join(0, 512, 0, 0)), 17);
    assert_eq!(pair.run(&join(0, 512, 1, 0)), 17);
    assert_eq!(pair.run(&join(0, 0, 1, 0)), 8);

    // The largest image, and one with a transition more.
    let mut octets = encode(pair.plan());
    assert_eq!(octets.len(), length(MAX_STATES, MAX_TRANSITIONS));
    assert_eq!(pair.run(&Call::Read(octets.clone())), ACCEPTED);
    put(&mut octets, 14, 12, 2049);
    assert_eq!(pair.run(&Call::Read(octets.clone())), 5);
    octets.extend([0; 5]);
    assert_eq!(pair.run(&Call::Read(octets)), 5);

    // A place that unjoin frees can be filled again.
    for number in [0, 1, 1000, 2046, 2047] {
        assert_eq!(pair.run(&Call::Unjoin(2048)), 10);
        assert_eq!(pair.run(&Call::Unjoin(number)), ACCEPTED);
        assert_eq!(pair.run(&Call::Unjoin(2047)), 10);
        assert_eq!(pair.run(&join(511, 511, 5, 6)), ACCEPTED);
        assert_eq!(pair.run(&join(511, 511, 5, 6)), 9);
    }
    while !pair.plan().transitions.is_empty() {
        let number = rng.below(pair.plan().transitions.len());
        assert_eq!(pair.run(&Call::Unjoin(number)), ACCEPTED);
    }
    assert_eq!(pair.run(&Call::Unjoin(0)), 10);
}

/// A join with a wrong from, a wrong to, wrong durations, or several of these. Some of the states are
/// good ones in fewer bits.
#[test]
fn ends_and_durations() {
    let mut rng = Rng::of_test("ends_and_durations", SEED);
    let mut pair = p1(&mut rng);
    let few_bits = [1 << 9, 1 << 16, 1 << 32, (1 << 32) + 1, 1 << 63];
    for state in few_bits.into_iter().chain([4, 5, 511, usize::MAX]) {
        for (low, high) in [(3, 5), (5, 3), (0, 2048), (u32::MAX, 0)] {
            for other in [0, 3, 4, state, usize::MAX] {
                let answer = pair.run(&join(state, other, low, high));
                assert_eq!(answer, 16, "{state} to {other}, {low}..{high}");
            }
            for from in [0, 3] {
                let answer = pair.run(&join(from, state, low, high));
                assert_eq!(answer, 17, "{from} to {state}, {low}..{high}");
            }
        }
    }
    for (transition, number) in ends::TRANSITIONS {
        let answer = pair.run(&Call::Join(transition));
        assert_eq!(answer, number.unwrap_or(ACCEPTED), "{transition:?}");
    }
}

#[test]
fn durations_and_marks() {
    let mut rng = Rng::of_test("durations_and_marks", SEED);
    let mut pair = Pair::fresh(&mut rng, 2);
    for (low, high, answer) in [
        (0, 0, ACCEPTED),
        (0, 2047, ACCEPTED),
        (2047, 2047, ACCEPTED),
        (2046, 2047, ACCEPTED),
        (2047, 2046, 8),
        (1, 0, 8),
        (0, 2048, 8),
        (2048, 2048, 8),
        (2048, 2047, 8),
        (0, 1 << 16, 8),
        (0, u32::MAX, 8),
        (u32::MAX, u32::MAX, 8),
        (u32::MAX, 0, 8),
    ] {
        assert_eq!(pair.run(&join(0, 1, low, high)), answer, "{low}..{high}");
    }
    for value in (0..20).chain([255, 256, 1 << 16, u32::MAX]) {
        let answer = if value <= 7 { ACCEPTED } else { 12 };
        assert_eq!(pair.run(&Call::Mark(1, value)), answer);
        assert_eq!(pair.run(&Call::Mark(2, value)), 7);
    }
}

/// Every team up to 70 and wide ones, some of them teams in fewer bits; mark leaves the team, and team
/// leaves the marks.
#[test]
fn teams() {
    let mut rng = Rng::of_test("teams", SEED);
    let mut pair = Pair::fresh(&mut rng, 2);
    let wide = [255, 256, 259, 1 << 16, (1 << 16) + 31, 1 << 31, u32::MAX];
    for team in (0..70).chain(wide) {
        let marks = team % 8;
        assert_eq!(pair.run(&Call::Mark(1, marks)), ACCEPTED);
        let answer = if team <= 31 { ACCEPTED } else { 18 };
        assert_eq!(pair.run(&Call::Team(1, team)), answer, "{team}");
        for state in [2, 511, 512, 1 << 16, 1 << 32, usize::MAX] {
            assert_eq!(pair.run(&Call::Team(state, team)), 7, "{team}");
        }
        assert_eq!(pair.plan().marks(), [0, marks as u8]);
        let kept = pair.plan().teams();
        assert_eq!(kept, [0, team.min(31) as u8]);
        assert_eq!(pair.run(&Call::Mark(1, 7 - marks)), ACCEPTED);
        assert_eq!(pair.plan().teams(), kept);
    }
    // A fresh plan in its place has none, and so has one that a seed makes or that a version 1 image or a
    // text puts there.
    for call in [
        Call::Fresh(2),
        Call::Generate(7, 2, 2),
        Call::Read(P1.to_vec()),
        Call::FromImage(P1.to_vec()),
        Call::Import(P1_TEXT.into()),
    ] {
        let mut pair = pair.clone();
        assert_eq!(pair.run(&Call::Team(0, 31)), ACCEPTED);
        assert_eq!(pair.run(&call), ACCEPTED);
        assert!(pair.plan().teams().iter().all(|&team| team == 0));
    }
}

#[test]
fn buffers() {
    let mut rng = Rng::of_test("buffers", SEED);
    for (n, m) in [(1, 0), (4, 4), (512, 0), (1, 2048), (512, 2048)] {
        let mut pair = random(&mut rng, n, m);
        let length = pair.image_length();
        assert_eq!(length, 4 + n + 5 * m);
        let written = ACCEPTED + length as u32;
        for (lent, answer) in [
            (0, 11),
            (3, 11),
            (length - 1, 11),
            (length, written),
            (length + 1, written),
            (length + 100, written),
        ] {
            let buffer = rng.octets(lent);
            assert_eq!(pair.run(&Call::Write(buffer)), answer, "{n} {m} {lent}");
        }
    }
}

pub type Change = Box<dyn Fn(&mut LentPlan)>;

/// Changes by hand, each of which breaks one limit of a plan of `n` states and `m` transitions.
pub fn breaks(n: usize, m: usize) -> Vec<(String, Change)> {
    let mut list: Vec<(String, Change)> = Vec::new();
    for count in [0, 513, 1 << 16, (1 << 32) + n, usize::MAX] {
        let change = move |lent: &mut LentPlan| lent.counts[0] = count;
        list.push((format!("{count} states"), Box::new(change)));
    }
    for count in [2049, 1 << 16, (1 << 32) + m, usize::MAX] {
        let change = move |lent: &mut LentPlan| lent.counts[1] = count;
        list.push((format!("{count} transitions"), Box::new(change)));
    }
    for (state, value) in [(0, 8), (n - 1, 8), (n / 2, 255)] {
        let change = move |lent: &mut LentPlan| lent.states[state] = value;
        list.push((format!("marks {value} of state {state}"), Box::new(change)));
    }
    for (state, team) in [(0, 32), (n - 1, 32), (n / 2, 255), (0, 64)] {
        let change = move |lent: &mut LentPlan| lent.states[MAX_STATES + state] = team;
        list.push((format!("team {team} of state {state}"), Box::new(change)));
    }
    for number in [0, m / 2, m - 1] {
        let at = move |field: usize| field * MAX_TRANSITIONS + number;
        for end in [n as u16, 512, u16::MAX] {
            let from = move |lent: &mut LentPlan| lent.fields[at(0)] = end;
            list.push((format!("from {end} in {number}"), Box::new(from)));
            let to = move |lent: &mut LentPlan| lent.fields[at(1)] = end;
            list.push((format!("to {end} in {number}"), Box::new(to)));
        }
        for (low, high) in [(1, 0), (2047, 2046), (0, 2048), (2048, 2048), (0, u16::MAX)] {
            let change = move |lent: &mut LentPlan| {
                lent.fields[at(2)] = low;
                lent.fields[at(3)] = high;
            };
            list.push((format!("{low}..{high} in {number}"), Box::new(change)));
        }
    }
    list
}

#[test]
fn plans_that_break_a_limit() {
    let mut rng = Rng::of_test("plans_that_break_a_limit", SEED);
    let small = p1(&mut rng);
    let full = random(&mut rng, MAX_STATES, MAX_TRANSITIONS);
    for good in [small, full] {
        let n = good.plan().states.len();
        let m = good.plan().transitions.len();
        for (name, change) in breaks(n, m) {
            let mut pair = good.clone();
            pair.by_hand(change);
            assert!(!pair.plan().within_limits(), "{name}");
            for call in [
                Call::Mark(0, 0),
                Call::Mark(usize::MAX, 8),
                Call::Team(0, 0),
                Call::Team(n - 1, 31),
                Call::Team(usize::MAX, 32),
                join(0, 0, 0, 0),
                join(usize::MAX, 0, 1, 0),
                join(0, 0, 1, 0),
                Call::Unjoin(0),
                Call::Unjoin(usize::MAX),
                Call::Read(P1.to_vec()),
                Call::Read(vec![]),
                Call::Read(vec![0xFF; 40]),
                Call::Import(P1_TEXT.into()),
                Call::Import(vec![]),
                Call::Import(b"des (0, 0, 513)\n".to_vec()),
                Call::Write(vec![0xAA; 20_000]),
                Call::Write(vec![]),
                Call::Export(vec![0xAA; 60_000]),
                Call::Export(vec![]),
            ] {
                assert_eq!(pair.run(&call), 0, "{name}");
            }
            // Fresh and generate are given no plan, so the broken one is no ground.
            assert_eq!(pair.run(&Call::Fresh(0)), 4, "{name}");
            assert_eq!(pair.run(&Call::Fresh(513)), 4, "{name}");
            assert_eq!(pair.run(&Call::Generate(7, 0, 2049)), 4, "{name}");
            assert_eq!(pair.run(&Call::Generate(7, 513, 0)), 4, "{name}");
            assert_eq!(pair.run(&Call::Generate(7, 5, 2049)), 5, "{name}");
            let made = Call::Generate(7, 5, 6);
            assert_eq!(pair.clone().run(&made), ACCEPTED, "{name}");
            assert_eq!(pair.run(&Call::Fresh(5)), ACCEPTED, "{name}");
        }
    }
}

/// What stands past the counts breaks no limit, however bad it looks.
#[test]
fn values_past_the_counts() {
    let mut rng = Rng::of_test("values_past_the_counts", SEED);
    let mut good = p1(&mut rng);
    good.by_hand(|lent| {
        lent.states[4..MAX_STATES].fill(255);
        lent.states[MAX_STATES + 4..].fill(255);
        for field in 0..4 {
            let first = field * MAX_TRANSITIONS;
            lent.fields[first + 4..first + MAX_TRANSITIONS].fill(u16::MAX);
        }
    });
    for (call, answer) in [
        (Call::Mark(3, 7), ACCEPTED),
        (Call::Mark(4, 7), 7),
        (Call::Team(3, 31), ACCEPTED),
        (Call::Team(4, 31), 7),
        (join(3, 3, 0, 0), ACCEPTED),
        (join(4, 3, 0, 0), 16),
        (join(3, 4, 0, 0), 17),
        (Call::Unjoin(3), ACCEPTED),
        (Call::Unjoin(4), 10),
        (Call::Read(P1.to_vec()), ACCEPTED),
        (Call::Import(P1_TEXT.into()), ACCEPTED),
        (Call::Write(vec![0; 28]), ACCEPTED + 28),
        (
            Call::Export(vec![0; P1_TEXT.len()]),
            ACCEPTED + P1_TEXT.len() as u32,
        ),
    ] {
        assert_eq!(good.clone().run(&call), answer, "{call:?}");
    }
    // And they become none by the calls that move the counts.
    let mut pair = good;
    for number in [0, 2, 1, 0] {
        assert_eq!(pair.run(&Call::Unjoin(number)), ACCEPTED);
    }
    for _ in 0..6 {
        assert_eq!(pair.run(&join(1, 2, 3, 4)), ACCEPTED);
    }
    assert_eq!(pair.run(&Call::Fresh(20)), ACCEPTED);
    assert_eq!(pair.run(&Call::Mark(19, 1)), ACCEPTED);
    assert_eq!(pair.run(&Call::Team(19, 1)), ACCEPTED);
}

/// A slice with too few places for a plan is refused before all else, and nothing is touched.
#[test]
fn short_lent_slices() {
    let sizes = [
        (0, STATES, FIELDS),
        (1, STATES, FIELDS),
        (COUNTS, 0, FIELDS),
        (COUNTS, MAX_STATES, FIELDS),
        (COUNTS, STATES - 1, FIELDS),
        (COUNTS, STATES, 0),
        (COUNTS, STATES, FIELDS - 1),
        (1, STATES - 1, FIELDS - 1),
        (0, 0, 0),
    ];
    for (counts, states, fields) in sizes {
        // One state where the slices reach, so that the plan itself would do.
        let lent = LentPlan {
            counts: [1, 0][..counts].to_vec(),
            states: vec![0; states],
            fields: vec![0; fields],
        };
        let mut octets = P1.to_vec();
        octets.push(0);
        let mut buffer = [0xAA; 100];
        let transition = |from| Transition {
            from,
            to: 0,
            low: 0,
            high: 0,
        };
        let mut after = lent.clone();
        let answers = [
            after.fresh(1),
            after.fresh(0),
            after.generate(1, 1, 1),
            after.generate(1, 0, 2049),
            after.generate(1, 1, 2049),
            after.mark(0, 1),
            after.mark(1, 8),
            after.team(0, 1),
            after.team(1, 32),
            after.join(transition(0)),
            after.join(transition(1)),
            after.unjoin(0),
            after.read(&P1),
            after.read(&octets),
            after.write(&mut buffer),
            after.write(&mut buffer[..0]),
            after.import(P1_TEXT.as_bytes()),
            after.import(&[]),
            after.export(&mut buffer),
            after.export(&mut buffer[..0]),
        ];
        assert_eq!(answers, [SHORT_SLICE; 20], "{counts} {states} {fields}");
        assert!(after == lent, "{counts} {states} {fields}");
        assert_eq!(buffer, [0xAA; 100]);
    }
}

/// Every transition of a list taken out in turn, of lists of every length up to 12.
#[test]
fn unjoin_at_every_place() {
    let mut rng = Rng::of_test("unjoin_at_every_place", SEED);
    for m in 1..=12 {
        let pair = random(&mut rng, 6, m);
        for number in 0..=m {
            let mut pair = pair.clone();
            let answer = if number < m { ACCEPTED } else { 10 };
            assert_eq!(pair.run(&Call::Unjoin(number)), answer);
            assert_eq!(pair.run(&join(5, 0, 1, 1)), ACCEPTED);
        }
    }
}

/// The version of the archive, 0.9.0.
#[test]
fn the_library_says_its_version() {
    assert_eq!(reference::proved::version(), 900);
}
