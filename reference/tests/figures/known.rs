//! The plans of document 01 whose figures it gives, those of our own for E2, E4 and E5 of document 02,
//! and the edges beside them.

use std::fs;
use std::ops::RangeInclusive;
use std::path::Path;

use reference::bits::BitReader;
use reference::check::check;
use reference::image::{decode, encode};
use reference::quotation::RECORD_OCTETS;
use reference::rng::Rng;
use reference::{rounds, text, values, Figure, Plan, Refusal, Transition, Value, FIGURES};

use crate::means::{agree, agree_class, compare, COUNTS};
use crate::shapes::give_teams;
use crate::vectors::{P1, P1_WRITTEN};
use Value::{Endless, None, Number, Stranded};

const SEED: u64 = 0x0000_0001;
pub const P1_LINES: &str = "\
least delay 7: 0 2
greatest delay 60: 0 1 3
least count 1: 0 2
greatest count 2: 0 1 3
";
const P1_RECORD: [u8; RECORD_OCTETS] = [
    0x00, 0x00, 0x1C, 0x00, 0x03, 0xC0, 0x00, 0x00, 0x40, 0x00, 0x02,
];

fn plan(marks: &[u8], steps: &[(usize, usize, u32, u32)]) -> Plan {
    let transitions = steps.iter().map(|&(from, to, low, high)| Transition {
        from,
        to,
        low,
        high,
    });
    Plan::of(marks.to_vec(), transitions.collect())
}

/// A plan with its name and its figures.
pub type Row = (&'static str, Plan, [Value; 4]);

/// All plans with known figures but the chains and the rings.
pub fn known() -> Vec<Row> {
    [closed(), opened(), answered()].concat()
}

/// P1 to P9, and some more that no row of them is like.
fn closed() -> Vec<Row> {
    let p1 = decode(&P1).unwrap();
    let p5 = Plan::of(vec![0, 1, 1, 2], p1.transitions.clone());
    vec![
        ("P1", p1, [Number(7), Number(60), Number(1), Number(2)]),
        // "P2 gets P3's figures" (document 02, E5).
        ("P2", plan(&[7], &[]), [None, Stranded, None, Stranded]),
        ("P3", plan(&[4, 2], &[]), [None, Stranded, None, Stranded]),
        (
            "P4",
            plan(&[4, 2], &[(0, 0, 0, 0), (0, 1, 1, 1)]),
            [Number(1), Endless, Number(0), Endless],
        ),
        ("P5", p5, [None; 4]),
        (
            "P6",
            plan(&[4, 2], &[(0, 1, 1, 9), (0, 1, 3, 4)]),
            [Number(1), Number(9), Number(0), Number(0)],
        ),
        (
            "P7",
            plan(&[4, 2, 0], &[(0, 1, 2, 3), (2, 2, 1, 1)]),
            [Number(2), Number(3), Number(0), Number(0)],
        ),
        (
            "P8",
            plan(&[4, 2], &[(0, 1, 1, 2), (1, 1, 5, 5)]),
            [Number(1), Number(2), Number(0), Number(0)],
        ),
        (
            "P9",
            plan(&[4, 0], &[(0, 0, 1, 1), (0, 1, 1, 1)]),
            [None, Endless, None, Endless],
        ),
        (
            "an unreached dead end",
            plan(&[4, 2, 0], &[(0, 1, 2, 3)]),
            [Number(2), Number(3), Number(0), Number(0)],
        ),
        (
            "a dead end beside an answer",
            plan(&[4, 2, 0], &[(0, 1, 2, 3), (0, 2, 1, 1)]),
            [Number(2), Stranded, Number(0), Stranded],
        ),
        (
            "both ends counted",
            plan(&[5, 3], &[(0, 1, 2, 3)]),
            [Number(2), Number(3), Number(2), Number(2)],
        ),
        (
            "two starts without transitions, one of them final",
            plan(&[4, 7], &[]),
            [None, Stranded, None, Stranded],
        ),
    ]
}

/// "A high of 2,047 shall mean no limit" (document 02, E2).
fn opened() -> Vec<Row> {
    vec![
        (
            "an open transition reached",
            open_reached(),
            [Number(2), Endless, Number(1), Number(1)],
        ),
        (
            "one that no start reaches",
            plan(&[4, 2, 0], &[(0, 1, 2, 3), (2, 1, 1, 2047)]),
            [Number(2), Number(3), Number(0), Number(0)],
        ),
        (
            "one out of a final state",
            plan(&[4, 2, 0], &[(0, 1, 1, 2), (1, 2, 5, 2047)]),
            [Number(1), Number(2), Number(0), Number(0)],
        ),
        (
            "one to a final state at once, with a low of 2,047",
            plan(&[4, 2], &[(0, 1, 2047, 2047)]),
            [Number(2047), Endless, Number(0), Number(0)],
        ),
        (
            "one beside a dead end",
            plan(&[4, 2, 0], &[(0, 1, 1, 2047), (0, 2, 1, 1)]),
            [Number(1), Endless, Number(0), Stranded],
        ),
        (
            "one to a dead end, and no route",
            plan(&[4, 0], &[(0, 1, 1, 2047)]),
            [None, Endless, None, Stranded],
        ),
        (
            "one past a dead end's turning",
            plan(
                &[4, 0, 0, 2],
                &[(0, 1, 1, 1), (0, 2, 1, 1), (2, 3, 1, 2047)],
            ),
            [Number(2), Endless, Number(0), Stranded],
        ),
        (
            "one whose low is small",
            plan(&[4, 2], &[(0, 1, 3, 2047), (0, 1, 5, 9)]),
            [Number(3), Endless, Number(0), Number(0)],
        ),
        (
            "a second less",
            plan(&[4, 2], &[(0, 1, 0, 2046)]),
            [Number(0), Number(2046), Number(0), Number(0)],
        ),
        (
            "one to its own state",
            plan(&[4, 2], &[(0, 0, 1, 2047), (0, 1, 1, 1)]),
            [Number(1), Endless, Number(0), Endless],
        ),
        (
            "one back on the walk",
            plan(&[4, 0, 2], &[(0, 1, 1, 1), (1, 0, 1, 2047), (1, 2, 1, 1)]),
            [Number(2), Endless, Number(0), Endless],
        ),
        (
            "one beside a loop",
            plan(&[4, 2], &[(0, 0, 1, 1), (0, 1, 1, 2047)]),
            [Number(1), Endless, Number(0), Endless],
        ),
        (
            "one to its own state, which is final",
            plan(&[4, 3], &[(0, 1, 1, 2), (1, 1, 5, 2047)]),
            [Number(1), Number(2), Number(1), Number(1)],
        ),
        (
            "one out of a start that is final, to a dead end",
            plan(&[6, 0], &[(0, 1, 1, 2047)]),
            [None, Endless, None, Stranded],
        ),
        (
            "one out of a start that is final, beside a start that is not",
            plan(&[6, 5], &[(0, 1, 1, 2047), (1, 0, 4, 2046)]),
            [Number(4), Endless, Number(1), Number(1)],
        ),
        (
            "one out of the second start",
            plan(&[4, 5, 2], &[(0, 2, 1, 1), (1, 2, 7, 2047)]),
            [Number(1), Endless, Number(0), Number(1)],
        ),
        (
            "one and no start",
            plan(&[0, 2], &[(0, 1, 1, 2047)]),
            [None; 4],
        ),
    ]
}

/// "Its first state may be final, and no state between its first and last may be." (document 02, E5)
fn answered() -> Vec<Row> {
    vec![
        (
            "a transition to itself",
            answered_returns(),
            [Number(3), Number(4), Number(2), Number(2)],
        ),
        (
            "to an unfinished loop",
            plan(&[6, 0], &[(0, 1, 1, 1), (1, 1, 1, 1)]),
            [None, Endless, None, Endless],
        ),
        (
            "to a dead end",
            plan(&[6, 0], &[(0, 1, 1, 1)]),
            [None, Stranded, None, Stranded],
        ),
        (
            "to another final state",
            plan(&[7, 3], &[(0, 1, 2, 3)]),
            [Number(2), Number(3), Number(2), Number(2)],
        ),
        (
            "without transitions, beside a good start",
            plan(&[6, 4, 2], &[(1, 2, 1, 2)]),
            [Number(1), Stranded, Number(0), Stranded],
        ),
        (
            "an open transition to another final state",
            plan(&[6, 2], &[(0, 1, 1, 2047)]),
            [Number(1), Endless, Number(0), Number(0)],
        ),
        (
            "an open transition to itself",
            plan(&[6], &[(0, 0, 1, 2047)]),
            [Number(1), Endless, Number(0), Number(0)],
        ),
        (
            "a ring, which is no loop",
            plan(&[7, 1, 0], &[(0, 1, 1, 2), (1, 2, 3, 5), (2, 0, 0, 9)]),
            [Number(4), Number(16), Number(3), Number(3)],
        ),
        (
            "back, or on to an answer",
            plan(&[7, 0, 2], &[(0, 1, 1, 1), (1, 0, 1, 2), (1, 2, 5, 5)]),
            [Number(2), Number(6), Number(1), Number(2)],
        ),
        (
            "an answer on the way, where calls begin too",
            plan(&[4, 7, 2], &[(0, 1, 1, 1), (1, 2, 5, 6)]),
            [Number(1), Number(6), Number(1), Number(1)],
        ),
        (
            "two that lead to each other",
            plan(&[7, 6], &[(0, 1, 5, 6), (1, 0, 7, 9)]),
            [Number(5), Number(9), Number(1), Number(1)],
        ),
        (
            "a loop, a dead end and an open transition past an answer",
            plan(
                &[6, 2, 0, 0],
                &[(0, 1, 1, 1), (1, 2, 1, 2047), (2, 2, 1, 1), (1, 3, 1, 1)],
            ),
            [Number(1), Number(1), Number(0), Number(0)],
        ),
        (
            "a dead end that is final where no call begins",
            plan(&[6, 2, 2], &[(0, 1, 1, 4), (0, 2, 2, 3)]),
            [Number(1), Number(4), Number(0), Number(0)],
        ),
        (
            "a dead end before a loop that another start reaches",
            plan(&[6, 4, 0], &[(1, 2, 1, 1), (2, 1, 1, 1)]),
            [None, Endless, None, Endless],
        ),
    ]
}

/// A start that is final and counted, with a transition to itself: a route that ends where it began,
/// and counts its state twice.
pub fn answered_returns() -> Plan {
    plan(&[7], &[(0, 0, 3, 4)])
}

/// The greatest delay is ENDLESS by the walk 0 1, whose last transition is open, beside numbers.
pub fn open_reached() -> Plan {
    plan(&[4, 1, 2], &[(0, 1, 1, 1), (1, 2, 1, 2047)])
}

/// "P10's steps become 2046..2046": 512 states in a chain, the last final.
pub fn p10() -> Plan {
    chain(2046)
}

/// 512 states in a chain, the last final, each step with these seconds for its low and its high.
pub fn chain(seconds: u32) -> Plan {
    let mut plan = Plan::fresh(512).unwrap();
    plan.mark(0, 4).unwrap();
    plan.mark(511, 2).unwrap();
    for from in 0..511 {
        let (to, low, high) = (from + 1, seconds, seconds);
        plan.join(Transition {
            from,
            to,
            low,
            high,
        })
        .unwrap();
    }
    plan
}

/// 512 counted states in a ring through one that is start and final, each step with these seconds for
/// its low and its high.
pub fn ring(seconds: u32) -> Plan {
    let mut plan = Plan::fresh(512).unwrap();
    for from in 0..512 {
        let (to, low, high) = ((from + 1) % 512, seconds, seconds);
        plan.mark(from, if from == 0 { 7 } else { 1 }).unwrap();
        plan.join(Transition {
            from,
            to,
            low,
            high,
        })
        .unwrap();
    }
    plan
}

#[test]
fn known_plans() {
    let mut rng = Rng::of_test("known_plans", SEED);
    for (name, plan, values) in known() {
        let quotations = compare(&mut rng, &plan);
        assert_eq!(reference::values(&quotations), values, "{name}");
        let octets = encode(&plan);
        let lines = FIGURES.map(|figure| {
            let mut buffer = vec![7; plan.states.len() + 1];
            let quotation = plan.quote(figure, &mut buffer).unwrap();
            let k = quotation.walk.len();
            let numbers: Vec<u16> = quotation.walk.iter().map(|&number| number as u16).collect();
            assert_eq!(buffer[..k], numbers, "{name}");
            assert!(buffer[k..].iter().all(|&place| place == 7), "{name}");
            text::line(figure, &quotation)
        });
        assert_eq!(text::quote(&octets), lines.concat(), "{name}");
    }
}

#[test]
fn the_lines_of_p1() {
    assert_eq!(text::quote(&P1), P1_LINES);
    assert_eq!(text::quote(&P1_WRITTEN), P1_LINES);
    // "The counts may be quoted for any one of these five classes": the lines have the counted mark.
    let mut octets = P1_WRITTEN;
    for state in 0..4 {
        octets[4 + state] += 31 - 7 * state as u8;
    }
    assert_eq!(text::quote(&octets), P1_LINES);
}

/// The teams of each class: none, wards, clinics, switchboards, outside lines (document 02, E4).
const CLASSES: [RangeInclusive<u32>; 5] = [0..=0, 1..=9, 10..=19, 20..=29, 30..=31];

/// A plan with these teams.
pub fn with_teams(plan: &Plan, teams: &[u8]) -> Plan {
    let mut plan = plan.clone();
    for (state, &team) in plan.states.iter_mut().zip(teams) {
        state.team = team;
    }
    plan
}

/// P1 with teams, and for each class in turn the least and the greatest count. Its routes visit states
/// 0, 1, 3 and 0, 1, 2, 3.
pub const P1_CLASSES: [([u8; 4], [[u32; 2]; 5]); 6] = [
    ([0, 0, 0, 0], [[3, 4], [0, 0], [0, 0], [0, 0], [0, 0]]),
    ([0, 9, 10, 31], [[1, 1], [1, 1], [0, 1], [0, 0], [1, 1]]),
    ([9, 1, 5, 31], [[0, 0], [2, 3], [0, 0], [0, 0], [1, 1]]),
    ([10, 19, 20, 29], [[0, 0], [0, 0], [2, 2], [1, 2], [0, 0]]),
    ([30, 31, 30, 1], [[0, 0], [1, 1], [0, 0], [0, 0], [2, 3]]),
    ([20, 20, 29, 0], [[1, 1], [0, 0], [0, 0], [2, 3], [0, 0]]),
];

/// A quotation for each of the 32 team numbers: each number of a class has the figures of the class.
#[test]
fn every_team_names_its_class() {
    let p1 = decode(&P1).unwrap();
    for (teams, counts) in P1_CLASSES {
        let plan = with_teams(&p1, &teams);
        assert_eq!(decode(&encode(&plan)), Ok(plan.clone()));
        for (class, counts) in CLASSES.into_iter().zip(counts) {
            for team in class {
                let values = counts.map(Number);
                assert_eq!(agree_class(&plan, team), values, "{teams:?} {team}");
                for (figure, value) in COUNTS.into_iter().zip(values) {
                    let asked = figure.for_class_of(team);
                    let quotation = plan.quote(asked, &mut [0; 4]).unwrap();
                    assert_eq!(quotation.value, value, "{teams:?} {team}");
                }
            }
        }
    }
}

/// A state of every team on one route: each class counts as many as it has numbers.
#[test]
fn all_teams_on_one_route() {
    let n = 32;
    let mut plan = Plan::fresh(n).unwrap();
    plan.mark(0, 5).unwrap();
    plan.mark(n - 1, 3).unwrap();
    for state in 0..n {
        plan.team(state, 31 - state as u32).unwrap();
        if state > 0 {
            plan.join(Transition {
                from: state - 1,
                to: state,
                low: 1,
                high: 1,
            })
            .unwrap();
        }
    }
    for (class, count) in CLASSES.into_iter().zip([1, 9, 10, 10, 2]) {
        for team in class {
            assert_eq!(agree_class(&plan, team), [Number(count); 2], "{team}");
        }
    }
    // The counted mark is another yes-or-no.
    assert_eq!(values(&agree(&plan))[2..], [Number(2); 2]);
}

/// Whatever the teams, a count for a class has the kind that the count has: "NONE", "STRANDED" and
/// "ENDLESS" are of the walks alone.
#[test]
fn counts_for_a_class_have_the_kinds_of_the_counts() {
    let mut rng = Rng::of_test("counts_for_a_class_have_the_kinds_of_the_counts", SEED);
    for (name, mut plan, [.., least, greatest]) in known() {
        for _ in 0..4 {
            for team in 0..32 {
                let values = agree_class(&plan, team);
                for (value, count) in values.into_iter().zip([least, greatest]) {
                    assert_eq!(value.kind(), count.kind(), "{name} for team {team}");
                }
            }
            give_teams(&mut rng, &mut plan);
        }
    }
}

#[test]
fn lines_of_other_kinds() {
    let lines = |plan: &Plan| text::quote(&encode(plan));
    let known = known();
    assert_eq!(
        lines(&known[3].1),
        "least delay 1: 1\ngreatest delay ENDLESS: 0 @0\n\
         least count 0: 1\ngreatest count ENDLESS: 0 @0\n"
    );
    assert_eq!(
        lines(&known[2].1),
        "least delay NONE:\ngreatest delay STRANDED:\n\
         least count NONE:\ngreatest count STRANDED:\n"
    );
    assert_eq!(
        lines(&known[1].1),
        "least delay NONE:\ngreatest delay STRANDED:\n\
         least count NONE:\ngreatest count STRANDED:\n"
    );
    assert_eq!(
        lines(&answered_returns()),
        "least delay 3: 0\ngreatest delay 4: 0\nleast count 2: 0\ngreatest count 2: 0\n"
    );
    assert_eq!(
        lines(&open_reached()),
        "least delay 2: 0 1\ngreatest delay ENDLESS: 0 1 @2\n\
         least count 1: 0 1\ngreatest count 1: 0 1\n"
    );
    assert_eq!(text::quote(&[]), "refused 1\n");
    assert_eq!(text::quote(&P1[..27]), "refused 1\n");
    assert_eq!(text::quote(&[&P1[..], &[0]].concat()), "refused 2\n");
}

#[test]
fn the_chain_of_512_states() {
    let mut rng = Rng::of_test("the_chain_of_512_states", SEED);
    let plan = p10();
    assert_eq!(
        values(&compare(&mut rng, &plan)),
        [Number(1_045_506), Number(1_045_506), Number(0), Number(0)]
    );
    for figure in FIGURES {
        let quotation = plan.quote(figure, &mut [0; 512]).unwrap();
        assert_eq!(quotation.walk, (0..511).collect::<Vec<_>>());
    }
    assert_eq!(Plan::fresh(513), Err(Refusal::StateCount));
    let step = |high| Transition {
        from: 0,
        to: 1,
        low: 0,
        high,
    };
    assert_eq!(plan.clone().join(step(2047)), Ok(()));
    assert_eq!(plan.clone().join(step(2048)), Err(Refusal::Duration));
}

/// A chain of 2047..2047.
#[test]
fn the_open_chain() {
    let mut rng = Rng::of_test("the_open_chain", SEED);
    assert_eq!(
        values(&compare(&mut rng, &chain(2047))),
        [Number(1_046_017), Endless, Number(0), Number(0)]
    );
    // Its last transition alone open.
    let mut plan = p10();
    plan.transitions[510].high = 2047;
    assert_eq!(
        values(&compare(&mut rng, &plan)),
        [Number(1_045_506), Endless, Number(0), Number(0)]
    );
    let quotation = plan.quote(Figure::GreatestDelay, &mut [0; 512]).unwrap();
    assert_eq!(quotation.walk, (0..511).collect::<Vec<_>>());
    assert_eq!(quotation.j, 511);
}

/// The ring of 512 states: each figure is the greatest that there is, over 512 transitions.
#[test]
fn the_ring_of_512_states() {
    let mut rng = Rng::of_test("the_ring_of_512_states", SEED);
    for (seconds, delays) in [
        (2047, [Number(1_048_064), Endless]),
        (2046, [Number(1_047_552), Number(1_047_552)]),
    ] {
        let plan = ring(seconds);
        let [least, greatest] = delays;
        let figures = [least, greatest, Number(513), Number(513)];
        assert_eq!(values(&compare(&mut rng, &plan)), figures);
        for (figure, value) in FIGURES.into_iter().zip(figures) {
            let quotation = plan.quote(figure, &mut [0; 512]).unwrap();
            // The first transition is open.
            let k = if value == Endless { 1 } else { 512 };
            assert_eq!(quotation.walk, (0..k).collect::<Vec<_>>());
            assert_eq!(quotation.j, if value == Endless { 1 } else { 0 });
        }
        // The record's 20 bits hold them: 1,048,064 is FFE00 hex.
        let mut record = [0; 11];
        assert_eq!(plan.record(&mut record), Ok(11));
        let mut bits = BitReader::new(&record);
        for value in figures {
            assert_eq!(
                (bits.take(2), bits.take(20)),
                (value.kind(), value.figure())
            );
        }
    }
    // Its last transition alone open: the longest walk that shows one.
    let mut plan = ring(2046);
    plan.transitions[511].high = 2047;
    assert_eq!(
        values(&compare(&mut rng, &plan)),
        [Number(1_047_552), Endless, Number(513), Number(513)]
    );
    let quotation = plan.quote(Figure::GreatestDelay, &mut [0; 512]).unwrap();
    assert_eq!(quotation.walk, (0..512).collect::<Vec<_>>());
    assert_eq!(quotation.j, 512);
    // Where its last transition leads to state 1 instead, there is a loop and no route; and so where the
    // first state is not final.
    let mut plan = ring(2046);
    for (marks, j) in [(7, 1), (5, 1), (5, 0)] {
        plan.states[0].marks = marks;
        plan.transitions[511].to = j;
        let figures = [None, Endless, None, Endless];
        assert_eq!(values(&compare(&mut rng, &plan)), figures);
        let quotation = plan.quote(Figure::GreatestCount, &mut [0; 512]).unwrap();
        assert_eq!(quotation.walk, (0..512).collect::<Vec<_>>());
        assert_eq!(quotation.j, j);
    }
}

#[test]
fn records() {
    let p1 = decode(&P1).unwrap();
    let mut buffer = [0xAA; 12];
    assert_eq!(p1.record(&mut buffer[..10]), Err(Refusal::BufferTooShort));
    assert_eq!(buffer, [0xAA; 12]);
    assert_eq!(p1.record(&mut buffer[..11]), Ok(11));
    assert_eq!(buffer[..11], P1_RECORD);
    assert_eq!(p1.record(&mut buffer), Ok(11));
    assert_eq!(buffer[11], 0xAA);

    // P4's kinds: 0 and 3 by turns, with the figure 1 in the last of the first 22 bits.
    let p4 = &known()[3].1;
    assert_eq!(p4.record(&mut buffer), Ok(11));
    let expected = [0x00, 0x00, 0x07, 0, 0, 0, 0, 0, 0x30, 0, 0];
    assert_eq!(buffer[..11], expected);

    // P2 by E5: the kinds 1, 2, 1 and 2.
    let p2 = &known()[1].1;
    assert_eq!(p2.record(&mut buffer), Ok(11));
    let expected = [0x40, 0x00, 0x02, 0, 0, 0x04, 0, 0, 0x20, 0, 0];
    assert_eq!(buffer[..11], expected);

    // Kind 3 and figure 0 for the greatest delay, between numbers: 2, 1 and 1.
    assert_eq!(open_reached().record(&mut buffer), Ok(11));
    let expected = [0x00, 0x00, 0x0B, 0, 0, 0, 0, 0, 0x40, 0, 0x01];
    assert_eq!(buffer[..11], expected);
}

/// The lines stored beside the example images: the values of this calculator, and walks as asked.
#[test]
fn stored_lines() {
    let folder = Path::new(env!("CARGO_MANIFEST_DIR")).join("../examples/plans");
    let mut quoted = 0;
    for entry in fs::read_dir(folder).unwrap() {
        let image = entry.unwrap().path();
        if image.extension() != Some("image".as_ref()) {
            continue;
        }
        let octets = fs::read(&image).unwrap();
        let stored = fs::read_to_string(image.with_extension("lines")).unwrap();
        let Ok(plan) = decode(&octets) else {
            assert_eq!(stored, text::quote(&octets), "{image:?}");
            continue;
        };
        let lines: Vec<&str> = stored.split_inclusive('\n').collect();
        assert_eq!(lines.len(), FIGURES.len(), "{image:?}");
        for (figure, line) in FIGURES.into_iter().zip(lines) {
            let shown = text::parse(figure, line).expect("a line of the figure");
            assert_eq!(shown.value, rounds::quote(&plan, figure).value, "{image:?}");
            assert_eq!(check(&plan, figure, &shown), Ok(()), "{image:?}");
        }
        quoted += 1;
    }
    assert!(quoted >= 9, "{quoted} plans");
}

#[test]
fn short_buffers_and_broken_plans() {
    let p1 = decode(&P1).unwrap();
    let broken = with_teams(&answered_returns(), &[32]);
    for figure in FIGURES {
        let mut buffer = [7; 5];
        let refused = p1.quote(figure, &mut buffer[..3]);
        assert_eq!(refused, Err(Refusal::BufferTooShort));
        assert_eq!(broken.quote(figure, &mut []), Err(Refusal::BrokenPlan));
        assert_eq!(broken.quote(figure, &mut buffer), Err(Refusal::BrokenPlan));
        assert_eq!(buffer, [7; 5]);
        assert!(p1.quote(figure, &mut buffer[..4]).is_ok());
    }
    assert_eq!(broken.record(&mut []), Err(Refusal::BrokenPlan));
    assert_eq!(broken.record(&mut [0; 11]), Err(Refusal::BrokenPlan));
}
