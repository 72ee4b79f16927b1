//! One plan quoted by every means.

use reference::check::check;
use reference::image::encode;
use reference::rng::Rng;
use reference::{
    rounds, values, walks, Asked, Figure, Plan, Quotation, State, Value, FIGURES, MAX_STATES,
    MAX_TEAM,
};

use crate::baseline;
#[cfg(feature = "quotations")]
use crate::{lent::lend, library};
#[cfg(feature = "quotations")]
use reference::Refusal;

/// The plans whose walks are listed: there are at most 8^5 of the longest.
fn is_small(plan: &Plan) -> bool {
    plan.states.len() <= 5 && plan.transitions.len() <= 8
}

/// Quotes the figures by the second calculator's own means, which must agree, and returns the
/// quotations.
pub fn agree(plan: &Plan) -> [Quotation; 4] {
    FIGURES.map(|figure| agree_on(plan, figure.into()))
}

/// The same of one quotation.
fn agree_on(plan: &Plan, asked: Asked) -> Quotation {
    let quotation = rounds::quote(plan, asked);
    assert_shown(plan, asked, &quotation);
    if is_small(plan) {
        let listed = walks::quote(plan, asked);
        let name = asked.name();
        assert_eq!(listed.value, quotation.value, "{name} of {plan:?}");
        assert_shown(plan, asked, &listed);
    }
    quotation
}

/// Quotes the figures of the plan in which no state is start and final, which must be the same. A walk
/// that is shown for the one may be shown for the other.
pub fn agree_apart(plan: &Plan, quotations: &[Quotation; 4]) {
    let apart = apart(plan);
    for (figure, quotation) in FIGURES.into_iter().zip(quotations) {
        let other = rounds::quote(&apart, figure);
        let name = figure.name();
        assert_eq!(other.value, quotation.value, "{name} of {plan:?}");
        assert_shown(plan, figure.into(), &other);
        assert_shown(&apart, figure.into(), quotation);
    }
}

/// The plan in which each state that is start and final is two: one that calls arrive at, final and no
/// start, and one that they leave, a start and unfinished. A call that begins answered (document 02,
/// E5) is then as any other. It may have more states than a plan may have.
fn apart(plan: &Plan) -> Plan {
    let mut apart = plan.clone();
    for state in 0..plan.states.len() {
        if plan.is_start(state) && plan.is_final(state) {
            let State { marks, team } = plan.states[state];
            let new = apart.states.len();
            apart.states[state].marks = marks - 4;
            let marks = marks - 2;
            apart.states.push(State { marks, team });
            let left = apart.transitions.iter_mut();
            for transition in left.filter(|transition| transition.from == state) {
                transition.from = new;
            }
        }
    }
    apart
}

/// The least and the greatest count for the class of a team, by the second calculator's own means.
/// They are the counts of the plan in which just the states of the class are marked counted, which
/// is found here by the bounds of the class.
pub fn agree_class(plan: &Plan, team: u32) -> [Value; 2] {
    let values = COUNTS.map(|figure| agree_on(plan, figure.for_class_of(team)).value);
    let marked = marked_by_class(plan, team);
    let by_marks = COUNTS.map(|figure| rounds::quote(&marked, figure).value);
    assert_eq!(values, by_marks, "for team {team} of {plan:?}");
    values
}

pub const COUNTS: [Figure; 2] = [Figure::LeastCount, Figure::GreatestCount];

/// The plan in which just the states of the team's class are marked counted.
pub fn marked_by_class(plan: &Plan, team: u32) -> Plan {
    // How many classes begin at or before a team.
    let begun = |team: u32| {
        let firsts = [1, 10, 20, 30].into_iter();
        firsts.filter(|&first| first <= team).count()
    };
    let mut plan = plan.clone();
    for state in &mut plan.states {
        let is_counted = begun(state.team.into()) == begun(team);
        state.marks = state.marks / 2 * 2 + u8::from(is_counted);
    }
    plan
}

/// Quotes the figures by all means, with the library's among them where it is linked.
#[cfg_attr(not(feature = "quotations"), allow(unused_variables))]
pub fn compare(rng: &mut Rng, plan: &Plan) -> [Quotation; 4] {
    let quotations = agree(plan);
    agree_apart(plan, &quotations);
    let values = values(&quotations);
    compare_baseline(plan, &values);
    // Mostly the class of some state.
    let state = rng.below(plan.states.len());
    let team = match rng.one_in(4) {
        true => rng.below(MAX_TEAM as usize + 1) as u32,
        false => u32::from(plan.states[state].team),
    };
    let class_values = agree_class(plan, team);
    compare_baseline_class(plan, team, &class_values);
    #[cfg(feature = "quotations")]
    {
        let lent = lend(rng, plan);
        library::compare(rng, &lent, plan, &values);
        for (figure, value) in COUNTS.into_iter().zip(class_values) {
            let n = plan.states.len();
            let places = n - 1 + rng.below(3);
            let expected = match places >= n {
                true => Ok(value),
                false => Err(Refusal::BufferTooShort),
            };
            let asked = figure.for_class_of(team);
            library::quote(rng, &lent, plan, asked, places, expected);
        }
    }
    quotations
}

/// Compares the baseline's figures with the values found.
fn compare_baseline(plan: &Plan, values: &[Value; 4]) {
    let mut walks = [[0; MAX_STATES]; 4];
    let mut answers = [[0; 4]; 4];
    let answer = baseline::quote(&encode(plan), &mut walks, &mut answers);
    assert_eq!(answer, Ok(()), "{plan:?}");
    for (place, figure) in FIGURES.into_iter().enumerate() {
        assert_answer(
            plan,
            figure.into(),
            values[place],
            &walks[place],
            answers[place],
        );
    }
}

/// The same for the counts of a class.
fn compare_baseline_class(plan: &Plan, team: u32, values: &[Value; 2]) {
    let mut walks = [[0; MAX_STATES]; 2];
    let mut answers = [[0; 4]; 2];
    let answer = baseline::quote_class(&encode(plan), team, &mut walks, &mut answers);
    assert_eq!(answer, Ok(()), "{plan:?}");
    for (place, figure) in COUNTS.into_iter().enumerate() {
        let asked = figure.for_class_of(team);
        assert_answer(plan, asked, values[place], &walks[place], answers[place]);
    }
}

/// Asserts that the baseline's answer has this value, and a walk as asked.
fn assert_answer(plan: &Plan, asked: Asked, value: Value, walk: &[u16], answer: [u32; 4]) {
    let [kind, number, k, j] = answer;
    let name = asked.name();
    assert_eq!(
        [kind, number],
        [value.kind(), value.figure()],
        "{name} of {plan:?}"
    );
    let walk = &walk[..k as usize];
    let walk = walk.iter().map(|&number| usize::from(number)).collect();
    let j = j as usize;
    assert_shown(plan, asked, &Quotation { value, walk, j });
}

fn assert_shown(plan: &Plan, asked: Asked, shown: &Quotation) {
    let name = asked.name();
    assert_eq!(
        check(plan, asked, shown),
        Ok(()),
        "{name}: {shown:?} of {plan:?}"
    );
}
