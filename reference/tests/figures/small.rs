//! Every plan with up to 3 states and 3 transitions over a few durations, an open one among them, with
//! all marks. The counted states are those of a class of teams, another from plan to plan.

use std::thread;

use reference::kinds::Kinds;
use reference::rng::Case;
use reference::{rounds, values, Plan, Transition, OPEN_HIGH};

#[cfg(feature = "quotations")]
use crate::lent::{compare_some, lend};
use crate::means::{agree, agree_apart, COUNTS};

const SEED: u64 = 0x0000_5A11;
const WORKERS: usize = 2;

/// The durations with open highs and closed ones. Among them the smaller low has the greater high.
const OPEN: (u32, u32) = (0, OPEN_HIGH);
const CLOSED: [(u32, u32); 3] = [(1, 2), (0, 3), (0, 0)];

#[test]
fn every_small_plan() {
    let lists: Vec<(usize, Vec<Transition>)> = (1..=3)
        .flat_map(|n| (0..=3).flat_map(move |m| lists(n, m).into_iter().map(move |list| (n, list))))
        .collect();
    let mut kinds = Kinds::default();
    thread::scope(|scope| {
        let workers = lists.chunks(lists.len().div_ceil(WORKERS));
        let workers: Vec<_> = (0..)
            .zip(workers)
            .map(|(number, lists)| scope.spawn(move || compare(Case { seed: SEED, number }, lists)))
            .collect();
        for worker in workers {
            kinds.add_all(&worker.join().expect("no comparison failed"));
        }
    });
    // Of three states, 9 ends with 4 durations in lists of up to 2; in lists of 3 with 2, or one of the
    // three open and the others with 1.
    let of_1 = 8 * (1 + 4 + 4 * 4 + (2 * 2 * 2 + 3));
    let of_2 = 64 * (1 + 16 + 16 * 16 + (8 * 8 * 8 + 3 * 4 * 4 * 4));
    let of_3 = 512 * (1 + 36 + 36 * 36 + (18 * 18 * 18 + 3 * 9 * 9 * 9));
    assert_eq!(kinds.plans(), of_1 + of_2 + of_3);
    kinds.print(&format!(
        "every small plan: seed {SEED:#x}, {} plans",
        kinds.plans()
    ));
    kinds.assert_covers();
}

/// Quotes every plan with one of the lists of transitions.
#[cfg_attr(not(feature = "quotations"), allow(unused_variables))]
fn compare(case: Case, lists: &[(usize, Vec<Transition>)]) -> Kinds {
    #[cfg(feature = "quotations")]
    let mut rng = case.rng();
    #[cfg(feature = "quotations")]
    let mut lent = lend(&mut rng, &Plan::default());
    let mut kinds = Kinds::default();
    for (n, transitions) in lists {
        for marks in 0..1 << (3 * n) {
            let states = (0..*n).map(|state| (marks >> (3 * state) & 7) as u8);
            let mut plan = Plan::of(states.collect(), transitions.clone());
            let class = &CLASSES[kinds.plans() as usize % CLASSES.len()];
            let team = give_class(&mut plan, class);
            let quotations = agree(&plan);
            let values = values(&quotations);
            // Of every fourth plan its states apart, and the second calculator's own counts for the class:
            // each class comes up, and the tests stay short.
            if kinds.plans() % 4 == 0 {
                agree_apart(&plan, &quotations);
                for (figure, value) in COUNTS.into_iter().zip(&values[2..]) {
                    let quotation = rounds::quote(&plan, figure.for_class_of(team));
                    assert_eq!(quotation.value, *value, "for team {team} of {plan:?}");
                }
            }
            #[cfg(feature = "quotations")]
            {
                lent.hold(&plan);
                compare_some(&mut rng, &lent, &plan, &values, team);
            }
            kinds.add(&plan, &quotations);
        }
    }
    kinds
}

/// The first and the last team of each class, and one of another class before it and after it.
const CLASSES: [[u8; 4]; 5] = [
    [0, 0, 1, 31],
    [1, 9, 0, 10],
    [10, 19, 9, 20],
    [20, 29, 19, 30],
    [30, 31, 29, 0],
];

/// Gives teams of a class to the counted states and of others to the rest, so that the counts for the
/// class are the plan's counts. Returns a team of the class.
fn give_class(plan: &mut Plan, [first, last, before, after]: &[u8; 4]) -> u32 {
    for (number, state) in plan.states.iter_mut().enumerate() {
        state.team = match (state.marks % 2 == 1, number % 2 == 0) {
            (true, true) => *first,
            (true, false) => *last,
            (false, true) => *before,
            (false, false) => *after,
        };
    }
    u32::from(*last)
}

/// The lists of `m` transitions between `n` states: with each of the durations at each place where
/// they are up to 2, else closed ones, or an open one at one place.
fn lists(n: usize, m: usize) -> Vec<Vec<Transition>> {
    if m < 3 {
        let all = [&[OPEN], &CLOSED[..]].concat();
        return product(&vec![choices(n, &all); m]);
    }
    let mut lists = product(&vec![choices(n, &CLOSED[..2]); m]);
    for place in 0..m {
        let mut places = vec![choices(n, &CLOSED[..1]); m];
        places[place] = choices(n, &[OPEN]);
        lists.extend(product(&places));
    }
    lists
}

/// Every list with one of the choices at each place.
fn product(places: &[Vec<Transition>]) -> Vec<Vec<Transition>> {
    let mut lists = vec![Vec::new()];
    for choices in places {
        let longer = lists.iter().flat_map(|list| {
            choices.iter().map(|&transition| {
                let mut list = list.clone();
                list.push(transition);
                list
            })
        });
        lists = longer.collect();
    }
    lists
}

/// Every transition between `n` states with one of the durations.
fn choices(n: usize, durations: &[(u32, u32)]) -> Vec<Transition> {
    let ends = (0..n).flat_map(|from| (0..n).map(move |to| (from, to)));
    let choices = ends.flat_map(|(from, to)| {
        durations.iter().map(move |&(low, high)| Transition {
            from,
            to,
            low,
            high,
        })
    });
    choices.collect()
}
