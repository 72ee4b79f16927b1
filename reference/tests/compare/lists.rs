//! Whole lists of calls, made by one call of the library and quoted: answers, plan, figures and
//! every lent place.

use std::collections::BTreeSet;

use reference::kinds::Kinds;
use reference::proved::{
    self, LentCalls, LentPlan, ACCEPTED, COUNTS, FIELDS, NO_CALLS, OUT, SHORT_SLICE, STATES, WALKS,
};
use reference::rng::{Case, Rng};
use reference::{rounds, values, Plan, Refusal, FIGURES, MAX_STATES};

use crate::generate;
use crate::library;
use crate::pair::{Call, Pair};
use crate::tally::Tally;
use crate::texts::{edges, P1_TEXT};

const SEED: u64 = 0x0000_1157;
const LISTS: u64 = 12_000;

/// What the second calculator makes of a list: the answers, the plan, and the slices that hold it.
struct Made {
    calls: LentCalls,
    answers: Vec<u32>,
    plan: Plan,
    lent: LentPlan,
}

/// Puts a call at the end of a list. Arguments that are not looked at are noise, and so are some
/// octets between those of the reads and imports.
fn push(rng: &mut Rng, calls: &mut LentCalls, call: &Call) {
    let mut arguments: [usize; 4] = std::array::from_fn(|_| rng.next() as usize);
    let kind = match call {
        Call::Mark(state, value) => {
            arguments[..2].copy_from_slice(&[*state, *value as usize]);
            0
        }
        Call::Join(t) => {
            arguments = [t.from, t.to, t.low as usize, t.high as usize];
            1
        }
        Call::Team(state, team) => {
            arguments[..2].copy_from_slice(&[*state, *team as usize]);
            5
        }
        Call::Unjoin(number) => {
            arguments[0] = *number;
            2
        }
        Call::Read(octets) | Call::Import(octets) => {
            let noise = rng.below(3);
            calls.octets.extend(rng.octets(noise));
            let start = calls.octets.len();
            calls.octets.extend(octets);
            arguments[..2].copy_from_slice(&[start, calls.octets.len()]);
            if matches!(call, Call::Read(_)) {
                3
            } else {
                4
            }
        }
        _ => panic!("no call of a list"),
    };
    calls.kinds.push(kind);
    calls.arguments.extend(arguments);
}

/// A random list from a fresh plan of `n` states, made by the second calculator.
fn make(rng: &mut Rng, n: usize, tally: &mut Tally) -> Made {
    let mut pair = Pair::fresh(rng, n);
    let mut lent = LentPlan::zeroed();
    lent.hold(pair.plan());
    let mut calls = LentCalls::default();
    let mut answers = Vec::new();
    for _ in 0..rng.below(30) {
        let call = generate::call(rng, &pair);
        if matches!(
            call,
            Call::Fresh(_) | Call::Generate(..) | Call::Write(_) | Call::Export(_)
        ) {
            continue;
        }
        push(rng, &mut calls, &call);
        let n = pair.plan().states.len();
        let answer = pair.run(&call);
        tally.add_call(&call, n, answer);
        answers.push(answer);
        lent.hold(pair.plan());
    }
    Made {
        calls,
        answers,
        plan: pair.plan().clone(),
        lent,
    }
}

/// Makes a list of calls none: an unknown kind, a part that does not lie within the octets, or an
/// argument too few.
fn damage(rng: &mut Rng, calls: &mut LentCalls) {
    let last = calls.kinds.len() - 1;
    match rng.below(4) {
        0 => calls.kinds[rng.below(last + 1)] = rng.pick(&[6, 7, 128, 255]),
        1 => {
            calls.kinds[last] = rng.pick(&[3, 4]);
            let end = calls.octets.len();
            calls.arguments[4 * last..][..2].copy_from_slice(&[end, end + 1]);
        }
        2 => {
            calls.kinds[last] = rng.pick(&[3, 4]);
            calls.arguments[4 * last..][..2].copy_from_slice(&[1, 0]);
        }
        _ => {
            calls.arguments.pop();
        }
    }
}

#[test]
fn whole_lists_of_calls() {
    let mut tally = Tally::default();
    let mut kinds = Kinds::default();
    let mut answers = BTreeSet::new();
    for number in 0..LISTS {
        let case = Case { seed: SEED, number };
        answers.extend(one(&mut case.rng(), &mut tally, &mut kinds));
    }
    kinds.print(&format!(
        "whole lists of calls: seed {SEED:#x}, {LISTS} lists, {} calls, {} lists quoted",
        tally.calls(),
        kinds.plans()
    ));
    kinds.assert_covers();
    tally.assert_covers(&["replay"]);
    // Calls of lists are never handed a plan that breaks a limit, and their lists are seldom full.
    answers.remove(&Refusal::ListFull.number());
    assert!(answers
        .into_iter()
        .eq([1, 2, 3, 4, 5, 6, 7, 8, 10, 12, 15, 16, 17, 18, ACCEPTED]));
}

/// Arguments of lists are wide: a team or a marks value that is one in 32 bits is none.
#[test]
fn wide_arguments_in_lists() {
    let wide = 1usize << 32;
    let rows = [
        (5, [0, 31], ACCEPTED),
        (5, [0, 32], 18),
        (5, [0, 259], 18),
        (5, [0, wide + 3], 18),
        (5, [0, usize::MAX], 18),
        (5, [2, wide + 3], 7),
        (5, [wide, 3], 7),
        (0, [1, wide + 3], 12),
        (0, [1, 3], ACCEPTED),
        (5, [1, 20], ACCEPTED),
        (0, [1, 2], ACCEPTED),
    ];
    let calls = LentCalls {
        kinds: rows.iter().map(|row| row.0).collect(),
        arguments: rows
            .iter()
            .flat_map(|row| [row.1[0], row.1[1], 0, 0])
            .collect(),
        octets: Vec::new(),
    };
    let mut answers = vec![0; rows.len()];
    let mut lent = LentPlan::zeroed();
    let (mut walks, mut out) = (vec![0; WALKS], vec![0; 4 * OUT]);
    let answer = proved::replay(2, &calls, &mut answers, &mut lent, &mut walks, &mut out);
    assert_eq!(answer, ACCEPTED);
    assert_eq!(answers, rows.map(|row| row.2));
    let plan = lent.plan();
    assert_eq!((plan.marks(), plan.teams()), (vec![0, 2], vec![31, 20]));
}

/// Every text at the edges, imported in one list: first without its last octet, which is a part of
/// the same octets. Marks and teams come between.
#[test]
fn a_list_of_imports() {
    let mut rng = Rng::of_test("a_list_of_imports", SEED);
    let mut pair = Pair::fresh(&mut rng, 3);
    let mut calls = LentCalls::default();
    let mut expected = Vec::new();
    let mut expected_lent = LentPlan::zeroed();
    let mut texts = edges();
    texts.push((P1_TEXT.into(), ACCEPTED));
    for (text, answer) in texts {
        let start = calls.octets.len();
        calls.octets.extend(&text);
        for length in [text.len().saturating_sub(1), text.len()] {
            calls.kinds.push(4);
            calls.arguments.extend([start, start + length, 0, 0]);
            expected.push(pair.run(&Call::Import(text[..length].to_vec())));
            expected_lent.hold(pair.plan());
        }
        assert_eq!(expected.last(), Some(&answer));
        for call in [Call::Mark(0, 7), Call::Team(0, 31), Call::Mark(3, 2)] {
            push(&mut rng, &mut calls, &call);
            expected.push(pair.run(&call));
            expected_lent.hold(pair.plan());
        }
    }

    let mut answers = vec![0; expected.len()];
    let mut lent = LentPlan::zeroed();
    let (mut walks, mut out) = (vec![0; WALKS], vec![0; 4 * OUT]);
    let (mut expected_walks, mut expected_out) = (walks.clone(), out.clone());
    let answer = proved::replay(3, &calls, &mut answers, &mut lent, &mut walks, &mut out);
    assert_eq!(answer, ACCEPTED);
    assert_eq!(answers, expected);
    assert!(lent == expected_lent, "the plan after the imports");
    let values = FIGURES.map(|figure| rounds::quote(pair.plan(), figure).value);
    library::assert_four(
        pair.plan(),
        &values,
        &walks,
        &out,
        &mut expected_walks,
        &mut expected_out,
    );
    assert!(walks == expected_walks && out == expected_out);
}

/// One list. Most are good; some are wrong in one way or in several, and the first in the order of
/// the rows is answered. Returns the answers of a list that was made.
fn one(rng: &mut Rng, tally: &mut Tally, kinds: &mut Kinds) -> Vec<u32> {
    let n = match rng.below(12) {
        0 => rng.pick(&[511, 512]),
        1 => rng.between(1, MAX_STATES),
        _ => rng.between(1, 9),
    };
    let made = make(rng, n, tally);
    let count = made.calls.kinds.len();
    let mut calls = made.calls.clone();
    let is_list = count == 0 || !rng.one_in(8);
    if !is_list {
        damage(rng, &mut calls);
    }
    let has_states = !rng.one_in(8);
    let n = match has_states {
        true => n,
        false => rng.pick(&[0, 513, 1 << 16, usize::MAX]),
    };
    let mut size = |enough: usize, can_be_short: bool| match can_be_short && rng.one_in(12) {
        true => (rng.below(enough), true),
        false => (enough + rng.below(3), false),
    };
    let (answer_places, few_answers) = size(count, count > 0);
    let (walk_places, few_walks) = size(WALKS, true);
    let (out_places, few_out) = size(4 * OUT, true);
    let (count_places, few_counts) = size(COUNTS, true);
    let (state_places, few_states) = size(STATES, true);
    let (field_places, few_fields) = size(FIELDS, true);

    let mut answers: Vec<u32> = (0..answer_places).map(|_| rng.next() as u32).collect();
    let mut walks: Vec<u16> = (0..walk_places).map(|_| rng.next() as u16).collect();
    let mut out: Vec<u32> = (0..out_places).map(|_| rng.next() as u32).collect();
    let mut lent = LentPlan {
        counts: (0..count_places).map(|_| rng.next() as usize).collect(),
        states: rng.octets(state_places),
        fields: (0..field_places).map(|_| rng.next() as u16).collect(),
    };
    let (mut expected_answers, mut expected_walks) = (answers.clone(), walks.clone());
    let (mut expected_out, mut expected_lent) = (out.clone(), lent.clone());
    let calls_before = calls.clone();

    let answer = proved::replay(n, &calls, &mut answers, &mut lent, &mut walks, &mut out);
    tally.add("replay", answer);
    let expected = if few_counts || few_states || few_fields {
        SHORT_SLICE
    } else if !is_list {
        NO_CALLS
    } else if !has_states {
        Refusal::StateCount.number()
    } else if few_answers || few_walks || few_out {
        Refusal::BufferTooShort.number()
    } else {
        ACCEPTED
    };
    assert_eq!(answer, expected, "{n} {calls:?}");
    if answer == ACCEPTED {
        expected_answers[..count].copy_from_slice(&made.answers);
        expected_lent.counts[..COUNTS].copy_from_slice(&made.lent.counts);
        expected_lent.states[..STATES].copy_from_slice(&made.lent.states);
        expected_lent.fields[..FIELDS].copy_from_slice(&made.lent.fields);
        let quotations = FIGURES.map(|figure| rounds::quote(&made.plan, figure));
        library::assert_four(
            &made.plan,
            &values(&quotations),
            &walks,
            &out,
            &mut expected_walks,
            &mut expected_out,
        );
        kinds.add(&made.plan, &quotations);
    }
    assert_eq!(answers, expected_answers, "answers of {calls:?}");
    assert!(lent == expected_lent, "the plan after {calls:?}");
    assert!(walks == expected_walks, "a place beside the walks changed");
    assert!(out == expected_out, "a place past the answers changed");
    assert!(calls == calls_before, "the list changed");
    match answer {
        ACCEPTED => made.answers,
        _ => Vec::new(),
    }
}
