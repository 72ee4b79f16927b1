//! Random plans, small and of middling size.

use reference::kinds::Kinds;
use reference::rng::{Case, Rng};
use reference::{values, Plan, Transition, Value, MAX_CLOSED_HIGH, OPEN_HIGH};

use crate::means::compare;
use crate::shapes::{give_teams, Greatest, Shape, SHAPES};

const SEED: u64 = 0x0001_9A7E;
const PLANS: u64 = 117_000;
const SMALL_PLANS: u64 = 60_000;

#[test]
fn random_plans_of_many_shapes() {
    let mut all = Kinds::default();
    let mut by_shape: Vec<Kinds> = SHAPES.iter().map(|_| Kinds::default()).collect();
    for number in 0..PLANS {
        let case = Case { seed: SEED, number };
        let mut rng = case.rng();
        let place = number as usize % SHAPES.len();
        let n = match rng.below(20) {
            0 => rng.between(30, 60),
            1..=4 => rng.between(14, 30),
            _ => rng.between(8, 14),
        };
        let m = rng.between(2 * n, 4 * n);
        let kinds = &mut [&mut by_shape[place], &mut all];
        compare_shape(&mut rng, &SHAPES[place], n, m, kinds);
    }
    for (shape, kinds) in SHAPES.iter().zip(&by_shape) {
        kinds.print_greatest(shape.name);
    }
    all.print(&format!(
        "plans of many shapes: seed {SEED:#x}, {PLANS} plans"
    ));
    all.assert_covers();
}

/// Plans so small that their walks are listed too.
#[test]
fn random_small_plans() {
    let mut kinds = Kinds::default();
    for number in 0..SMALL_PLANS {
        let case = Case { seed: SEED, number };
        let mut rng = case.rng();
        let plan = small_plan(&mut rng);
        let quotations = compare(&mut rng, &plan);
        kinds.add(&plan, &quotations);
    }
    kinds.print(&format!("small plans: seed {SEED:#x}, {SMALL_PLANS} plans"));
    kinds.assert_covers();
}

/// Draws a plan of the shape, quotes it by all means, holds it to what the shape decides and adds it to
/// the counts.
pub fn compare_shape(rng: &mut Rng, shape: &Shape, n: usize, m: usize, counts: &mut [&mut Kinds]) {
    let plan = shape.draw(rng, n, m);
    let quotations = compare(rng, &plan);
    let values = values(&quotations);
    let is_number = |value: Value| matches!(value, Value::Number(_));
    for (greatest, value) in shape.greatest.into_iter().zip([values[1], values[3]]) {
        let holds = match greatest {
            Greatest::Number => is_number(value),
            Greatest::Stranded => value == Value::Stranded,
            Greatest::Endless => value == Value::Endless,
            Greatest::Any => true,
        };
        assert!(holds, "{}: {value:?} of {plan:?}", shape.name);
    }
    if !shape.greatest.contains(&Greatest::Any) {
        let holds = is_number(values[0]) && is_number(values[2]);
        assert!(holds, "{}: {values:?} of {plan:?}", shape.name);
    }
    for kinds in counts {
        kinds.add(&plan, &quotations);
    }
}

/// One plan in three has loops of all sorts, one those of one state alone, and one none. Three in four
/// have highs of 2,046 and 2,047, few or many.
fn small_plan(rng: &mut Rng) -> Plan {
    let n = rng.between(1, 5);
    let m = rng.below(9);
    let loops = rng.below(3);
    let long = rng.pick(&[usize::MAX, 6, 3, 2]);
    let transitions = (0..m).map(|_| {
        let ends = (rng.below(n), rng.below(n));
        let low = rng.below(4) as u32;
        let (from, to) = if loops < 2 && ends.0 > ends.1 {
            (ends.1, ends.0)
        } else {
            ends
        };
        let high = match rng.one_in(long) {
            true => rng.pick(&[MAX_CLOSED_HIGH, OPEN_HIGH]),
            false => low + rng.below(4) as u32,
        };
        Transition {
            from,
            to,
            low,
            high,
        }
    });
    let mut transitions: Vec<Transition> = transitions.collect();
    if loops == 0 {
        transitions.retain(|transition| transition.from != transition.to);
    }
    let marks = (0..n).map(|_| rng.below(8) as u8).collect();
    let mut plan = Plan::of(marks, transitions);
    give_teams(rng, &mut plan);
    plan
}
