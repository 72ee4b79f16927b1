//! Quotations of small plans in document 01's own words: list the walks and look among them.
//!
//! Walks of up to n transitions are enough, n the number of states. A route that leaves no state
//! twice has at most n, and n where it visits every state and ends where it began (document 02, E5);
//! one that does leave a state twice goes round a loop of unfinished states. A walk of n transitions
//! to unfinished states visits one of them twice: its first state is unfinished too, which makes n + 1
//! visits, or it is final, and the others are at most n - 1. So it can go on forever; and an endless
//! walk begins with one. A shortest walk that takes an open transition takes it last and leaves no
//! state twice, so it has at most n. The list grows with a power of the transitions.

use std::ops::Add;

use crate::figure::{Asked, Cost, Quotation, Value};
use crate::plan::Plan;

/// A start state followed by transitions.
#[derive(Clone)]
struct Walk {
    start: usize,
    transitions: Vec<usize>,
}

impl Walk {
    /// Whether it is a start alone.
    fn is_alone(&self) -> bool {
        self.transitions.is_empty()
    }

    fn last_state(&self, plan: &Plan) -> usize {
        match self.transitions.last() {
            Some(&number) => plan.transitions[number].to,
            None => self.start,
        }
    }

    fn cost(&self, plan: &Plan, asked: Asked) -> Cost {
        let steps = self.transitions.iter();
        let costs = steps.map(|&number| asked.step_cost(plan, number));
        costs.fold(asked.first_cost(plan, self.start), Add::add)
    }
}

/// The walks of up to n transitions that no final state is on but as their first or their last,
/// shorter ones first.
fn walks(plan: &Plan) -> Vec<Walk> {
    let n = plan.states.len();
    let starts = (0..n).filter(|&state| plan.is_start(state));
    let begin = |start| Walk {
        start,
        transitions: Vec::new(),
    };
    let mut list: Vec<Walk> = starts.map(begin).collect();
    let mut place = 0;
    while place < list.len() {
        let walk = list[place].clone();
        let state = walk.last_state(plan);
        let goes_on = walk.is_alone() || !plan.is_final(state);
        if walk.transitions.len() < n && goes_on {
            for (number, transition) in plan.transitions.iter().enumerate() {
                if transition.from == state {
                    let mut longer = walk.clone();
                    longer.transitions.push(number);
                    list.push(longer);
                }
            }
        }
        place += 1;
    }
    list
}

/// The value of what is asked and a walk that documents 01 and 02 let be shown with it.
pub fn quote(plan: &Plan, asked: impl Into<Asked>) -> Quotation {
    let asked = asked.into();
    let n = plan.states.len();
    let list = walks(plan);
    let cost = |walk: &&Walk| walk.cost(plan, asked);
    // "an unfinished walk from a start can take a transition with an open high" (E2): the first in
    // the list ends with its one open transition. It is shown before a loop; `rounds` has the loop
    // first.
    if let Some(walk) = list.iter().find(|walk| cost(walk) == Cost::Endless) {
        return Quotation::of_open(walk.transitions.clone());
    }

    // "a route has at least one transition" (E5): a start alone, final or not, is unfinished.
    let (routes, unfinished): (Vec<Walk>, Vec<Walk>) = list
        .into_iter()
        .partition(|walk| !walk.is_alone() && plan.is_final(walk.last_state(plan)));
    let best = if asked.figure.is_least() {
        // The first of the least: the one with fewest transitions, so it leaves no state twice.
        routes.iter().min_by_key(cost)
    } else {
        let endless = unfinished.iter().find(|walk| walk.transitions.len() == n);
        if let Some(walk) = endless {
            return Quotation::of_loop(plan, walk.start, &walk.transitions);
        }
        let stranded = unfinished
            .into_iter()
            .find(|walk| !plan.is_left(walk.last_state(plan)));
        if let Some(walk) = stranded {
            return Quotation::new(Value::Stranded, walk.transitions);
        }
        routes.iter().max_by_key(cost)
    };
    let Some(route) = best else {
        return Quotation::none();
    };
    let Cost::Number(number) = cost(&route) else {
        panic!("no listed walk takes an open transition");
    };
    Quotation::new(Value::Number(number), route.transitions.clone())
}
