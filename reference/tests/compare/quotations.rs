//! Quotations after lists of calls, of images of all sorts, and of plans and slices that are wrong.

use std::collections::BTreeSet;

use reference::image::decode;
use reference::kinds::Kinds;
use reference::proved::{
    self, LentPlan, ACCEPTED, COUNTS, FIELDS, OUT, SHORT_SLICE, STATES, WALKS,
};
use reference::rng::{Case, Rng};
use reference::{
    rounds, values, Figure, Plan, Quotation, Refusal, Transition, Value, FIGURES, MAX_STATES,
    MAX_TRANSITIONS,
};

use crate::calls::{run_list, CALLS};
use crate::edges::{breaks, p1, random};
use crate::generate;
use crate::library;
use crate::pair::{Call, Pair};
use crate::tally::Tally;
use crate::vectors::P1;

const SEED: u64 = 0x0000_0C0D;
const LISTS: u64 = 8_000;
const IMAGES: u64 = 40_000;
const CLASS_PLANS: u64 = 20_000;
const RECORD_PLANS: u64 = 20_000;

fn quotations(plan: &Plan) -> [Quotation; 4] {
    FIGURES.map(|figure| rounds::quote(plan, figure))
}

/// The second calculator's plan comes from the arguments of the calls alone.
#[test]
fn lists_of_calls_then_quotations() {
    let mut tally = Tally::default();
    let mut kinds = Kinds::default();
    for number in 0..LISTS {
        let case = Case { seed: SEED, number };
        let mut rng = case.rng();
        let pair = run_list(&mut rng, &mut tally);
        let quotations = quotations(pair.plan());
        let values = values(&quotations);
        library::compare(&mut rng, pair.lent(), pair.plan(), &values);
        for _ in 0..2 {
            let team = generate::about_team(&mut rng);
            count_for(&mut rng, &pair, team, &mut tally);
        }
        kinds.add(pair.plan(), &quotations);
    }
    kinds.print(&format!(
        "lists of calls, then quotations: seed {SEED:#x}, {LISTS} lists, {} calls",
        tally.calls()
    ));
    kinds.assert_covers();
    tally.assert_covers(&CALLS);
}

const CLASS_COUNTS: [Figure; 2] = [Figure::LeastCount, Figure::GreatestCount];

/// Both counts for the class of a team, or of what is no team, into buffers that are long enough or too
/// short: what the second calculator says.
fn count_for(rng: &mut Rng, pair: &Pair, team: u32, tally: &mut Tally) {
    let (lent, plan) = (pair.lent(), pair.plan());
    let n = plan.states.len();
    for figure in CLASS_COUNTS {
        let fewer = rng.below(n);
        let places = rng.pick(&[n, n + 1, n + 600, n - 1, fewer]);
        let asked = figure.for_class_of(team);
        let quoted = plan.quote(asked, &mut vec![0; places]);
        let expected = quoted.map(|quotation| quotation.value);
        library::quote(rng, lent, plan, asked, places, expected);
        let answer = expected.map_or_else(Refusal::number, |_| ACCEPTED);
        tally.add("count_for", answer);
    }
}

/// Counts for classes after lists of calls, of plans altered by hand too: every answer that the table
/// gives them, and all four kinds.
#[test]
fn counts_for_classes() {
    let mut rng = Rng::of_test("counts_for_classes", SEED);
    let mut tally = Tally::default();
    let mut kinds = BTreeSet::new();
    for _ in 0..CLASS_PLANS {
        let n = rng.between(1, 12);
        let m = rng.below(3 * n);
        let mut pair = random(&mut rng, n, m);
        for team in [generate::team(&mut rng), generate::about_team(&mut rng)] {
            count_for(&mut rng, &pair, team, &mut tally);
            for figure in CLASS_COUNTS {
                if let Ok(quotation) = pair.plan().quote(figure.for_class_of(team), &mut [0; 12]) {
                    kinds.insert((figure.name(), quotation.value.kind()));
                }
            }
        }
        generate::alter(&mut rng, &mut pair);
        if !pair.plan().states.is_empty() {
            let team = generate::about_team(&mut rng);
            count_for(&mut rng, &pair, team, &mut tally);
        }
    }
    tally.print(&format!("counts for classes: {CLASS_PLANS} plans"));
    tally.assert_covers(&["count_for"]);
    let [least, greatest] = CLASS_COUNTS.map(Figure::name);
    let greatest_kinds = [0, 1, 2, 3].map(|kind| (greatest, kind));
    let least_kinds = [0, 1].map(|kind| (least, kind));
    assert!(kinds
        .into_iter()
        .eq(greatest_kinds.into_iter().chain(least_kinds)));
}

/// The records of random plans, altered by hand too, into buffers that are long enough or too short: 0,
/// then 11, and no other number (document 02, E8).
#[test]
fn records() {
    let mut rng = Rng::of_test("records", SEED);
    let mut tally = Tally::default();
    for _ in 0..RECORD_PLANS {
        let n = rng.between(1, 12);
        let m = rng.below(3 * n);
        let mut pair = random(&mut rng, n, m);
        for altered in [false, true] {
            if altered {
                generate::alter(&mut rng, &mut pair);
            }
            let octets = rng.pick(&[0, 10, 11, 12, 40]);
            let answer = library::record(&mut rng, pair.lent(), pair.plan(), octets);
            tally.add("record", answer);
        }
    }
    tally.print(&format!("records: {RECORD_PLANS} plans"));
    tally.assert_covers(&["record"]);
}

/// P1 with teams: each of the 32 numbers, and the numbers past them.
#[test]
fn every_team_number() {
    let mut rng = Rng::of_test("every_team_number", SEED);
    let mut tally = Tally::default();
    for teams in [
        [0, 0, 0, 0],
        [0, 9, 10, 31],
        [9, 1, 5, 30],
        [10, 19, 20, 29],
    ] {
        let mut pair = p1(&mut rng);
        for (state, team) in teams.into_iter().enumerate() {
            assert_eq!(pair.run(&Call::Team(state, team)), ACCEPTED);
        }
        for team in (0..40).chain([255, 256, 259, 1 << 16, u32::MAX]) {
            count_for(&mut rng, &pair, team, &mut tally);
        }
    }
}

/// P10, made by calls, and then its transitions open from the last one on.
#[test]
fn the_chain_by_calls() {
    let mut rng = Rng::of_test("the_chain_by_calls", SEED);
    let mut pair = Pair::fresh(&mut rng, MAX_STATES);
    assert_eq!(pair.run(&Call::Fresh(513)), Refusal::StateCount.number());
    let step = |from, low, high| {
        let to = from + 1;
        Call::Join(Transition {
            from,
            to,
            low,
            high,
        })
    };
    let refused = Refusal::Duration.number();
    for from in 0..511 {
        assert_eq!(pair.run(&step(from, 2046, 2048)), refused);
        assert_eq!(pair.run(&step(from, 2046, 2046)), ACCEPTED);
    }
    assert_eq!(pair.run(&Call::Mark(0, 4)), ACCEPTED);
    assert_eq!(pair.run(&Call::Mark(511, 2)), ACCEPTED);
    let delay = Value::Number(1_045_506);
    let zero = Value::Number(0);
    let values = [delay, delay, zero, zero];
    library::compare(&mut rng, pair.lent(), pair.plan(), &values);
    for (figure, value) in FIGURES.into_iter().zip(values) {
        let (mut walk, mut out) = (vec![0; 512], [0; OUT]);
        assert_eq!(pair.lent().quote(figure, &mut walk, &mut out), ACCEPTED);
        assert_eq!(out, [0, value.figure(), 511, 0]);
        assert_eq!(walk[..511], (0..511).collect::<Vec<u16>>());
    }

    // The last transition open, which all 511 show; then every one.
    for opened in 1..=511 {
        let from = 511 - opened;
        assert_eq!(pair.run(&Call::Unjoin(from)), ACCEPTED);
        assert_eq!(pair.run(&step(from, 2047, 2048)), refused);
        assert_eq!(pair.run(&step(from, 2047, 2047)), ACCEPTED);
        if opened == 1 {
            let (mut walk, mut out) = (vec![0; 512], [0; OUT]);
            let answer = pair
                .lent()
                .quote(Figure::GreatestDelay, &mut walk, &mut out);
            assert_eq!(answer, ACCEPTED);
            assert_eq!(out, [Value::Endless.kind(), 0, 511, 511]);
            assert_eq!(walk[..511], (0..511).collect::<Vec<u16>>());
        }
        if opened % 100 == 11 || opened == 1 {
            let delay = Value::Number(1_045_506 + opened as u32);
            let values = [delay, Value::Endless, zero, zero];
            library::compare(&mut rng, pair.lent(), pair.plan(), &values);
        }
    }
}

/// A ring of 512 states through one that is start and final, made by calls, and its greatest figures:
/// 512 transitions are shown in 512 places. Then its transitions are open from the last one on.
#[test]
fn the_ring_by_calls() {
    let mut rng = Rng::of_test("the_ring_by_calls", SEED);
    let mut pair = Pair::fresh(&mut rng, MAX_STATES);
    let step = |from, seconds| {
        Call::Join(Transition {
            from,
            to: (from + 1) % MAX_STATES,
            low: seconds,
            high: seconds,
        })
    };
    for from in 0..MAX_STATES {
        assert_eq!(pair.run(&step(from, 2046)), ACCEPTED);
        let marks = if from == 0 { 7 } else { 1 };
        assert_eq!(pair.run(&Call::Mark(from, marks)), ACCEPTED);
    }
    let count = Value::Number(513);
    for opened in 0..=512 {
        if opened > 0 {
            let from = 512 - opened;
            assert_eq!(pair.run(&Call::Unjoin(from)), ACCEPTED);
            assert_eq!(pair.run(&step(from, 2047)), ACCEPTED);
        }
        if ![0, 1, 256, 512].contains(&opened) {
            continue;
        }
        let least = Value::Number(1_047_552 + opened as u32);
        let greatest = if opened == 0 { least } else { Value::Endless };
        let values = [least, greatest, count, count];
        library::compare(&mut rng, pair.lent(), pair.plan(), &values);
        for (figure, value) in FIGURES.into_iter().zip(values) {
            let (mut walk, mut out) = (vec![0; 512], [0; OUT]);
            assert_eq!(pair.lent().quote(figure, &mut walk, &mut out), ACCEPTED);
            if value != Value::Endless {
                assert_eq!(out, [0, value.figure(), 512, 0]);
            } else if opened == 1 {
                assert_eq!(out, [3, 0, 512, 512]);
            } else {
                continue;
            }
            // It leaves every state in turn: unjoin and join have put transitions at the list's end.
            let steps = walk
                .into_iter()
                .map(|number| pair.plan().transitions[usize::from(number)]);
            assert!(steps.map(|step| step.from).eq(0..512));
        }
    }
}

#[test]
fn images_quoted_at_once() {
    let mut tally = Tally::default();
    let mut kinds = Kinds::default();
    let mut short = BTreeSet::new();
    for number in 0..IMAGES {
        let case = Case { seed: SEED, number };
        let mut rng = case.rng();
        let octets = generate::image(&mut rng);
        let decoded = decode(&octets);
        let refusal = decoded.as_ref().err().copied();
        short.insert(library::quote_image_short(&mut rng, &octets, refusal));
        match decoded {
            Ok(plan) => {
                let quotations = quotations(&plan);
                let values = values(&quotations);
                library::quote_image(&mut rng, &octets, Ok((&plan, &values)));
                kinds.add(&plan, &quotations);
                tally.add_image("quote", &octets, ACCEPTED);
            }
            Err(refusal) => {
                library::quote_image(&mut rng, &octets, Err(refusal));
                tally.add_image("quote", &octets, refusal.number());
            }
        }
    }
    kinds.print(&format!(
        "images quoted at once: seed {SEED:#x}, {IMAGES} images, {} of them accepted",
        kinds.plans()
    ));
    kinds.assert_covers();
    tally.assert_covers(&["quote"]);
    let image_refusals_and_11 = [1, 2, 3, 4, 5, 6, 8, 11, 16, 17];
    assert!(short.into_iter().eq(image_refusals_and_11));
}

#[test]
fn buffers_of_walks_and_records() {
    let mut rng = Rng::of_test("buffers_of_walks_and_records", SEED);
    for (n, m) in [(1, 0), (1, 3), (4, 4), (512, 0), (512, 2048)] {
        let pair = random(&mut rng, n, m);
        let values = values(&quotations(pair.plan()));
        for figure in FIGURES {
            let short = Err(Refusal::BufferTooShort);
            let value = Ok(values[figure as usize]);
            for (places, expected) in [
                (0, short),
                (n - 1, short),
                (n, value),
                (n + 1, value),
                (n + 600, value),
            ] {
                library::quote(&mut rng, pair.lent(), pair.plan(), figure, places, expected);
            }
        }
        for figure in CLASS_COUNTS {
            for team in [0, 9, 10, 31, 32, 259, u32::MAX] {
                let asked = figure.for_class_of(team);
                for places in [0, n - 1, n, n + 1] {
                    let quoted = pair.plan().quote(asked, &mut vec![0; places]);
                    let expected = quoted.map(|quotation| quotation.value);
                    library::quote(&mut rng, pair.lent(), pair.plan(), asked, places, expected);
                }
            }
        }
        for octets in [0, 10, 11, 12, 40] {
            library::record(&mut rng, pair.lent(), pair.plan(), octets);
        }
    }
}

#[test]
fn quotations_of_plans_that_break_a_limit() {
    let mut rng = Rng::of_test("quotations_of_plans_that_break_a_limit", SEED);
    for good in [p1(&mut rng), random(&mut rng, MAX_STATES, MAX_TRANSITIONS)] {
        let n = good.plan().states.len();
        let m = good.plan().transitions.len();
        for (_, change) in breaks(n, m) {
            let mut pair = good.clone();
            pair.by_hand(change);
            let (lent, plan) = (pair.lent(), pair.plan());
            assert!(!plan.within_limits());
            for figure in FIGURES {
                for places in [0, n - 1, n, 600] {
                    let refused = Err(Refusal::BrokenPlan);
                    library::quote(&mut rng, lent, plan, figure, places, refused);
                }
            }
            for figure in CLASS_COUNTS {
                for team in [0, 31, 32, u32::MAX] {
                    for places in [0, n - 1, n, 600] {
                        let refused = Err(Refusal::BrokenPlan);
                        let asked = figure.for_class_of(team);
                        library::quote(&mut rng, lent, plan, asked, places, refused);
                    }
                }
            }
            for octets in [0, 10, 11, 12] {
                assert_eq!(plan.record(&mut vec![0; octets]), Err(Refusal::BrokenPlan));
                library::record(&mut rng, lent, plan, octets);
            }
        }
    }
}

/// Slices with too few places for a plan are no plan, whatever else is lent. Too few places for an
/// answer are 11, after 0.
#[test]
fn short_slices_for_plans_and_answers() {
    let (broken, few) = (
        Refusal::BrokenPlan.number(),
        Refusal::BufferTooShort.number(),
    );
    for (counts, states, fields) in [
        (1, STATES, FIELDS),
        (COUNTS, MAX_STATES, FIELDS),
        (COUNTS, STATES - 1, FIELDS),
        (COUNTS, STATES, FIELDS - 1),
        (0, 0, 0),
        (COUNTS, STATES, FIELDS),
    ] {
        let is_plan = (counts, states, fields) == (COUNTS, STATES, FIELDS);
        for n in [0, 1] {
            // No plan, or a plan of one state.
            let lent = LentPlan {
                counts: [n, 0][..counts].to_vec(),
                states: vec![0; states],
                fields: vec![0; fields],
            };
            let before = lent.clone();
            for (places, out) in [(0, OUT), (0, 0), (5, 0), (5, OUT - 1)] {
                let mut walk = vec![7; places];
                let mut answers = vec![7; out];
                let expected = match (is_plan, n) {
                    (false, _) => SHORT_SLICE,
                    (true, 0) => broken,
                    (true, _) => few,
                };
                for figure in FIGURES {
                    let answer = lent.quote(figure, &mut walk, &mut answers);
                    assert_eq!(answer, expected, "{counts} {states} {fields} {out}");
                }
                for figure in CLASS_COUNTS {
                    for team in [0, 31, 32, 259] {
                        let asked = figure.for_class_of(team);
                        let answer = lent.quote(asked, &mut walk, &mut answers);
                        // A team above 31 comes after the plan and before the places.
                        let expected = match expected == few && team > 31 {
                            true => Refusal::TeamNumber.number(),
                            false => expected,
                        };
                        assert_eq!(answer, expected, "{counts} {states} {fields} {out}");
                    }
                }
                assert!(walk.iter().all(|&place| place == 7));
                assert!(answers.iter().all(|&place| place == 7));
            }
            for octets in [0, 20] {
                let mut buffer = vec![7; octets];
                if !is_plan {
                    assert_eq!(lent.record(&mut buffer), SHORT_SLICE);
                }
                assert!(buffer.iter().all(|&octet| octet == 7));
            }
            assert!(lent == before);
        }
    }
    let short = Refusal::ImageTooShort.number();
    for (octets, expected) in [(&P1[..], few), (&P1[..3], short), (&[], short)] {
        for (walks, out) in [(WALKS - 1, 4 * OUT), (WALKS, 4 * OUT - 1), (0, 0)] {
            let mut walks = vec![7; walks];
            let mut out = vec![7; out];
            assert_eq!(proved::quote(octets, &mut walks, &mut out), expected);
            assert!(walks.iter().all(|&place| place == 7));
            assert!(out.iter().all(|&place| place == 7));
        }
    }
}
