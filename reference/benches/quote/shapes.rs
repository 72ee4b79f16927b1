//! The plans that the benchmark times: nine shapes, with so many states and transitions.

use reference::rng::Rng;
use reference::{Plan, Transition, MAX_CLOSED_HIGH, OPEN_HIGH};

use Made::{Drawn, Seeded};

/// The seed of the plan with loops: the least one whose plans, of every size that is timed or tested, lead
/// from the start to the answer and round a loop.
pub const LOOPS_SEED: u32 = 3;

pub struct Shape {
    pub name: &'static str,
    /// A plan of `n` states, n a multiple of 16, and `m` transitions, at least 2 for each state. Without
    /// random numbers it is made from a seed.
    plan: Made,
}

enum Made {
    Drawn(fn(&mut Rng, usize, usize) -> Plan),
    Seeded(fn(usize, usize) -> Plan),
}

pub const SHAPES: [Shape; 9] = [
    Shape {
        name: "chain",
        plan: Drawn(chain),
    },
    Shape {
        name: "layers",
        plan: Drawn(layers),
    },
    Shape {
        name: "random acyclic",
        plan: Drawn(acyclic),
    },
    Shape {
        name: "random with loops",
        plan: Seeded(loops),
    },
    Shape {
        name: "many starts, finals",
        plan: Drawn(many),
    },
    Shape {
        name: "cheap chain, shortcuts",
        plan: Drawn(shortcuts),
    },
    Shape {
        name: "acyclic, open rings",
        plan: Drawn(open_rings),
    },
    Shape {
        name: "ring, begun answered",
        plan: Drawn(answered_ring),
    },
    Shape {
        name: "many, begun answered",
        plan: Drawn(answered_many),
    },
];

impl Shape {
    /// The shape's plan with its transitions in a random order. Those that a seed makes are, as they stand.
    pub fn draw(&self, rng: &mut Rng, n: usize, m: usize) -> Plan {
        let plan = match self.plan {
            Drawn(plan) => {
                let mut plan = plan(rng, n, m);
                rng.shuffle(&mut plan.transitions);
                plan
            }
            Seeded(plan) => plan(n, m),
        };
        assert_eq!((plan.states.len(), plan.transitions.len()), (n, m));
        plan
    }
}

/// A transition with a closed high.
fn step(rng: &mut Rng, from: usize, to: usize) -> Transition {
    let one = rng.below(MAX_CLOSED_HIGH as usize + 1) as u32;
    let other = rng.below(MAX_CLOSED_HIGH as usize + 1) as u32;
    Transition {
        from,
        to,
        low: one.min(other),
        high: one.max(other),
    }
}

/// A plan with the given starts and finals, every other state counted, and states of every team in
/// turn. From each state equally many transitions lead where `next` says; those of the states that it
/// gives none go to others.
fn plan(
    rng: &mut Rng,
    (n, m): (usize, usize),
    is_start: impl Fn(usize) -> bool,
    is_final: impl Fn(usize) -> bool,
    next: impl Fn(&mut Rng, usize) -> Option<usize>,
) -> Plan {
    let marks = (0..n).map(|state| {
        4 * u8::from(is_start(state)) + 2 * u8::from(is_final(state)) + (state % 2) as u8
    });
    let mut transitions = Vec::new();
    let mut from = 0;
    while transitions.len() < m {
        if let Some(to) = next(rng, from) {
            transitions.push(step(rng, from, to));
        }
        from = if from + 1 < n { from + 1 } else { 0 };
    }
    let mut plan = Plan::of(marks.collect(), transitions);
    give_teams(&mut plan);
    plan
}

/// Gives the states every team in turn.
fn give_teams(plan: &mut Plan) {
    for (number, state) in plan.states.iter_mut().enumerate() {
        state.team = (number % 32) as u8;
    }
}

/// A chain has n - 1 transitions by nature. The rest are further ones between its neighbours.
fn chain(rng: &mut Rng, n: usize, m: usize) -> Plan {
    let next = |_: &mut Rng, state: usize| (state + 1 < n).then_some(state + 1);
    plan(
        rng,
        (n, m),
        |state| state == 0,
        |state| state == n - 1,
        next,
    )
}

/// From each state to random ones of the next layer, of 16 states or a quarter of them all. The
/// last layer is final, the first are starts.
fn layers(rng: &mut Rng, n: usize, m: usize) -> Plan {
    let wide = (n / 4).min(16);
    let next = |rng: &mut Rng, state: usize| {
        (state + wide < n).then(|| state - state % wide + wide + rng.below(wide))
    };
    plan(
        rng,
        (n, m),
        |state| state < wide,
        |state| state + wide >= n,
        next,
    )
}

/// From each state to any later ones.
fn acyclic(rng: &mut Rng, n: usize, m: usize) -> Plan {
    let next = |rng: &mut Rng, state: usize| (state + 1 < n).then(|| rng.between(state + 1, n - 1));
    plan(
        rng,
        (n, m),
        |state| state == 0,
        |state| state == n - 1,
        next,
    )
}

/// The same, with open transitions to the answer: the greatest delay is ENDLESS, and the greatest count
/// has to be worked out as ever.
fn open_rings(rng: &mut Rng, n: usize, m: usize) -> Plan {
    let mut plan = acyclic(rng, n, m);
    for transition in &mut plan.transitions {
        if transition.to == n - 1 {
            transition.high = OPEN_HIGH;
        }
    }
    plan
}

/// A ring through a state that is start and final, the one route being all its states. The rest are
/// further transitions between its neighbours.
fn answered_ring(rng: &mut Rng, n: usize, m: usize) -> Plan {
    let next = |_: &mut Rng, state: usize| Some((state + 1) % n);
    plan(rng, (n, m), |state| state == 0, |state| state == 0, next)
}

/// From each state to later ones. One state in four is start and final, and the last one final.
fn answered_many(rng: &mut Rng, n: usize, m: usize) -> Plan {
    let next = |rng: &mut Rng, state: usize| (state + 1 < n).then(|| rng.between(state + 1, n - 1));
    plan(
        rng,
        (n, m),
        |state| state % 4 == 0,
        |state| state % 4 == 0 || state == n - 1,
        next,
    )
}

/// From any state to any: the plan that a seed makes (document 02, E7), every other state counted and
/// teams in turn as in the others.
fn loops(n: usize, m: usize) -> Plan {
    let mut plan = Plan::generate(LOOPS_SEED, n, m).expect("the counts are within the limits");
    for state in plan.states.iter_mut().skip(1).step_by(2) {
        state.marks += 1;
    }
    give_teams(&mut plan);
    plan
}

/// From each state to later ones. One state in four is a start and one in four final.
fn many(rng: &mut Rng, n: usize, m: usize) -> Plan {
    let next = |rng: &mut Rng, state: usize| (state + 1 < n).then(|| rng.between(state + 1, n - 1));
    plan(
        rng,
        (n, m),
        |state| state % 4 == 0,
        |state| state % 4 == 3,
        next,
    )
}

/// A chain of steps that take a second each, and shortcuts that take longer than the chain.
fn shortcuts(rng: &mut Rng, n: usize, m: usize) -> Plan {
    let next = |rng: &mut Rng, state: usize| (state + 1 < n).then(|| rng.between(state + 1, n - 1));
    let mut plan = plan(
        rng,
        (n, m),
        |state| state == 0,
        |state| state == n - 1,
        next,
    );
    for (place, transition) in plan.transitions.iter_mut().enumerate() {
        if place < n - 1 {
            transition.to = transition.from + 1;
            (transition.low, transition.high) = (1, 1);
        } else {
            let length = (transition.to - transition.from) as u32;
            let low = (2 * length + 10 * rng.below(50) as u32).min(MAX_CLOSED_HIGH);
            (transition.low, transition.high) = (low, low);
        }
    }
    plan
}
