//! Quotations of plans of any size, by rounds over the list of transitions.
//!
//! Round r finds, for each state, the best walk of just r transitions that ends there, from the
//! walks of the round before and all transitions. These are Bellman and Ford's rounds, kept
//! apart by length. As many rounds as there are states are enough, for the reasons in `walks`.
//! "Its first state may be final" (document 02, E5): round 1 leaves every start, and each later
//! round the unfinished states alone. So what it costs to arrive at a final state and what it costs
//! to begin there stand in different rounds.
//! An endless cost is the best of a greatest delay, so the rounds carry a walk that takes an open
//! transition on as they do any other.

use crate::figure::{Asked, Cost, Figure, Quotation, Value};
use crate::plan::Plan;

/// The best walk of a round that ends at a state: its cost, and its last transition. In round 0
/// there is none, and the number means nothing.
#[derive(Clone, Copy)]
struct End {
    cost: Cost,
    number: u16,
}

struct Rounds<'a> {
    plan: &'a Plan,
    /// By round, then by state.
    ends: Vec<Vec<Option<End>>>,
}

impl Rounds<'_> {
    /// Rounds 0 to n, or up to the first with no walk. No walk goes on from a final state but from
    /// its first.
    fn new(plan: &Plan, asked: Asked) -> Rounds<'_> {
        let figure = asked.figure;
        let n = plan.states.len();
        let costs: Vec<Cost> = (0..plan.transitions.len())
            .map(|number| asked.step_cost(plan, number))
            .collect();
        let first = |state| {
            plan.is_start(state).then(|| End {
                cost: asked.first_cost(plan, state),
                number: 0,
            })
        };
        let mut ends: Vec<Vec<Option<End>>> = vec![(0..n).map(first).collect()];
        while ends.len() <= n && ends[ends.len() - 1].iter().any(Option::is_some) {
            let is_first_step = ends.len() == 1;
            let before = &ends[ends.len() - 1];
            let mut after: Vec<Option<End>> = vec![None; n];
            for (number, transition) in plan.transitions.iter().enumerate() {
                let Some(end) = before[transition.from] else {
                    continue;
                };
                if plan.is_final(transition.from) && !is_first_step {
                    continue;
                }
                let cost = end.cost + costs[number];
                let is_better = match after[transition.to] {
                    None => true,
                    Some(other) if figure.is_least() => cost < other.cost,
                    Some(other) => cost > other.cost,
                };
                if is_better {
                    let number = number as u16;
                    after[transition.to] = Some(End { cost, number });
                }
            }
            ends.push(after);
        }
        Rounds { plan, ends }
    }

    /// The first round and state with a walk that the test accepts.
    fn find(&self, accepts: impl Fn(usize, usize) -> bool) -> Option<(usize, usize)> {
        let n = self.plan.states.len();
        let places = (0..self.ends.len()).flat_map(|round| (0..n).map(move |state| (round, state)));
        let mut walks = places.filter(|&(round, state)| self.ends[round][state].is_some());
        walks.find(|&(round, state)| accepts(round, state))
    }

    /// The walk of a round that ends at a state, with its start.
    fn walk(&self, round: usize, state: usize) -> (usize, Vec<usize>) {
        let mut walk = Vec::new();
        let mut state = state;
        for round in (1..=round).rev() {
            let end = self.ends[round][state].expect("a walk of this round ends here");
            let number = usize::from(end.number);
            walk.push(number);
            state = self.plan.transitions[number].from;
        }
        walk.reverse();
        (state, walk)
    }

    /// The best cost over the routes of all rounds. Round 0 has none: "a route has at least one
    /// transition" (E5).
    fn best(&self, figure: Figure) -> Option<Cost> {
        let finals = (0..self.plan.states.len()).filter(|&state| self.plan.is_final(state));
        let rounds = &self.ends[1..];
        let ends = finals.flat_map(|state| rounds.iter().filter_map(move |row| row[state]));
        let costs = ends.map(|end| end.cost);
        if figure.is_least() {
            costs.min()
        } else {
            costs.max()
        }
    }
}

/// The value of what is asked and a walk that documents 01 and 02 let be shown with it.
pub fn quote(plan: &Plan, asked: impl Into<Asked>) -> Quotation {
    let asked = asked.into();
    let figure = asked.figure;
    let n = plan.states.len();
    let rounds = Rounds::new(plan, asked);
    let costs = |round: usize, state: usize, cost: Cost| {
        rounds.ends[round][state].is_some_and(|end| end.cost == cost)
    };
    if !figure.is_least() {
        let endless = rounds.find(|round, state| round == n && !plan.is_final(state));
        if let Some((round, state)) = endless {
            let (start, walk) = rounds.walk(round, state);
            return Quotation::of_loop(plan, start, &walk);
        }
        // "an unfinished walk from a start can take a transition with an open high" (E2): in the
        // first round that has one it ends with its one open transition. It leaves no state twice:
        // without what lies between it would be in an earlier round.
        let open = rounds.find(|round, state| costs(round, state, Cost::Endless));
        if let Some((round, state)) = open {
            return Quotation::of_open(rounds.walk(round, state).1);
        }
        // "a start without transitions is a dead end" (E5), final or not; later ones are unfinished.
        let is_left: Vec<bool> = (0..n).map(|state| plan.is_left(state)).collect();
        let stranded =
            rounds.find(|round, state| !is_left[state] && (round == 0 || !plan.is_final(state)));
        if let Some((round, state)) = stranded {
            return Quotation::new(Value::Stranded, rounds.walk(round, state).1);
        }
    }
    let number = match rounds.best(figure) {
        Some(Cost::Number(number)) => number,
        Some(Cost::Endless) => panic!("no walk of the rounds takes an open transition"),
        None => return Quotation::none(),
    };
    // The first round that attains it: the fewest transitions, so no unfinished state is on the route
    // twice. A final one is, where it is the first and the last.
    let attains = |round: usize, state: usize| {
        round > 0 && plan.is_final(state) && costs(round, state, Cost::Number(number))
    };
    let (round, state) = rounds.find(attains).expect("some route attains the best");
    Quotation::new(Value::Number(number), rounds.walk(round, state).1)
}
