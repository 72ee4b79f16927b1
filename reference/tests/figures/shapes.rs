//! Random plans of many shapes. Where the shape decides the kind of a figure, it says which.

use reference::rng::Rng;
use reference::{Plan, State, Transition, MAX_CLOSED_HIGH, OPEN_HIGH};

/// What a greatest figure of a shape is by the way it is made.
#[derive(Clone, Copy, Debug, PartialEq, Eq)]
pub enum Greatest {
    Number,
    Stranded,
    Endless,
    /// Nothing decides it.
    Any,
}
use Greatest::{Any, Endless, Number, Stranded};

pub struct Shape {
    pub name: &'static str,
    /// A plan of `n` states and `m` transitions, n at least 8 and m at least 2n.
    pub plan: fn(&mut Rng, usize, usize) -> Plan,
    /// The greatest delay and the greatest count. Where they are decided, the least figures are
    /// numbers.
    pub greatest: [Greatest; 2],
}

const fn shape(
    name: &'static str,
    plan: fn(&mut Rng, usize, usize) -> Plan,
    greatest: [Greatest; 2],
) -> Shape {
    Shape {
        name,
        plan,
        greatest,
    }
}

/// The shapes. Only those named open have open highs, so in the others loops and dead ends decide.
pub const SHAPES: [Shape; 24] = [
    shape("chain", chain, [Number, Number]),
    shape("layers", layers, [Number, Number]),
    shape("sound", sound, [Number, Number]),
    shape("loop reached", loop_reached, [Endless, Endless]),
    shape("loop unreached", loop_unreached, [Number, Number]),
    shape("dead end reached", dead_end_reached, [Stranded, Stranded]),
    shape("dead end unreached", dead_end_unreached, [Number, Number]),
    shape("open reached", open_reached, [Endless, Number]),
    shape("open unreached", open_unreached, [Number, Number]),
    shape("open and dead end", open_and_dead_end, [Endless, Stranded]),
    shape("open and loop", open_and_loop, [Endless, Endless]),
    shape("open anywhere", open_anywhere, [Any, Any]),
    shape("answered ring", answered_ring, [Number, Number]),
    shape("answered sound", answered_sound, [Number, Number]),
    shape("answered loop", answered_loop, [Endless, Endless]),
    shape("answered dead end", answered_dead_end, [Stranded, Stranded]),
    shape("answered alone", answered_alone, [Stranded, Stranded]),
    shape("answered open", answered_open, [Endless, Number]),
    shape("dense", dense, [Any, Any]),
    shape("zero durations", zero_durations, [Any, Any]),
    shape("many starts", many_starts, [Any, Any]),
    shape("finals that are starts", finals_that_start, [Any, Any]),
    shape("equal transitions", equal_transitions, [Any, Any]),
    shape("anything", anything, [Any, Any]),
];

impl Shape {
    /// A plan of this shape, its states renumbered and its transitions in a random order.
    pub fn draw(&self, rng: &mut Rng, n: usize, m: usize) -> Plan {
        let plan = (self.plan)(rng, n, m);
        assert_eq!((plan.states.len(), plan.transitions.len()), (n, m));
        let mut states: Vec<usize> = (0..n).collect();
        rng.shuffle(&mut states);
        let mut renumbered = plan.states.clone();
        for (state, &value) in plan.states.iter().enumerate() {
            renumbered[states[state]] = value;
        }
        let renumber = |transition: Transition| Transition {
            from: states[transition.from],
            to: states[transition.to],
            ..transition
        };
        let mut transitions: Vec<Transition> = plan.transitions.into_iter().map(renumber).collect();
        rng.shuffle(&mut transitions);
        let mut plan = Plan {
            states: renumbered,
            transitions,
        };
        give_teams(rng, &mut plan);
        plan
    }
}

/// Gives the states teams: of all classes, of a few of them, at the edges between classes, or none.
pub fn give_teams(rng: &mut Rng, plan: &mut Plan) {
    const EDGES: [u8; 9] = [0, 1, 9, 10, 19, 20, 29, 30, 31];
    let few = [(); 3].map(|()| rng.below(32) as u8);
    let way = rng.below(4);
    for state in &mut plan.states {
        state.team = match way {
            0 => rng.below(32) as u8,
            1 => rng.pick(&few),
            2 => rng.pick(&EDGES),
            _ => 0,
        };
    }
}

/// A transition with durations of all sizes, and a closed high. One in eight has the greatest such.
fn step(rng: &mut Rng, from: usize, to: usize) -> Transition {
    let limit = rng.pick(&[0, 1, 3, 20, MAX_CLOSED_HIGH as usize]);
    let one = rng.below(limit + 1) as u32;
    let other = rng.below(limit + 1) as u32;
    let is_greatest = rng.one_in(8);
    Transition {
        from,
        to,
        low: one.min(other),
        high: if is_greatest {
            MAX_CLOSED_HIGH
        } else {
            one.max(other)
        },
    }
}

/// Makes a transition open. Now and then its low is 2,047 too.
fn open(rng: &mut Rng, transition: &mut Transition) {
    transition.high = OPEN_HIGH;
    if rng.one_in(8) {
        transition.low = OPEN_HIGH;
    }
}

/// An unfinished state that is no start, counted or not.
fn unmarked(rng: &mut Rng) -> State {
    let marks = marks(rng, false, false);
    State { marks, team: 0 }
}

/// A marks value, counted or not.
fn marks(rng: &mut Rng, is_start: bool, is_final: bool) -> u8 {
    4 * u8::from(is_start) + 2 * u8::from(is_final) + rng.below(2) as u8
}

/// One state after another, with several transitions between some of them.
fn chain(rng: &mut Rng, n: usize, m: usize) -> Plan {
    let marks = (0..n).map(|state| marks(rng, state == 0, state == n - 1));
    let marks = marks.collect();
    let mut transitions: Vec<Transition> = (0..n - 1)
        .map(|state| step(rng, state, state + 1))
        .collect();
    while transitions.len() < m {
        let state = rng.below(n - 1);
        transitions.push(step(rng, state, state + 1));
    }
    Plan::of(marks, transitions)
}

/// Transitions lead from each layer to the next, from the starts to the final states.
fn layers(rng: &mut Rng, n: usize, m: usize) -> Plan {
    let width = rng.between(2, 4);
    let last = (n - 1) / width * width;
    let next = |rng: &mut Rng, state: usize| {
        let first = state - state % width + width;
        rng.between(first, (first + width).min(n) - 1)
    };
    // The states from `last` on are the last layer, which is final.
    let marks = (0..n).map(|state| marks(rng, state < width, state >= last));
    let marks = marks.collect();
    let mut transitions = Vec::new();
    for number in 0..m {
        let from = if number < last {
            number
        } else {
            rng.below(last)
        };
        let to = next(rng, from);
        transitions.push(step(rng, from, to));
    }
    Plan::of(marks, transitions)
}

/// Every state but the last is left, an unfinished one by transitions to higher states, and the last
/// one is final and no start: all walks come to an answer. From final states transitions lead anywhere,
/// and some of them are starts.
fn sound(rng: &mut Rng, n: usize, m: usize) -> Plan {
    let few = rng.pick(&[2, 8, 1000]);
    let reach = rng.pick(&[1, 3, n]);
    let marks: Vec<u8> = (0..n)
        .map(|state| {
            let is_start = state == 0 || (state < n - 1 && rng.one_in(few));
            let is_final = state == n - 1 || (state > 0 && rng.one_in(few));
            marks(rng, is_start, is_final)
        })
        .collect();
    let is_final = |state: usize| marks[state] & 2 != 0;
    let mut transitions = Vec::new();
    for number in 0..m {
        let from = if number < n - 1 { number } else { rng.below(n) };
        let to = if is_final(from) {
            rng.below(n)
        } else {
            rng.between(from + 1, (from + reach).min(n - 1))
        };
        transitions.push(step(rng, from, to));
    }
    Plan::of(marks, transitions)
}

/// The states of a walk through unfinished states from state 0, the start of a sound plan and of
/// those made of one.
fn unfinished_walk(rng: &mut Rng, plan: &Plan) -> Vec<usize> {
    let mut states = vec![0];
    for _ in 0..rng.below(plan.states.len()) {
        let state = states[states.len() - 1];
        let steps = plan.transitions.iter().filter(|step| step.from == state);
        let targets: Vec<usize> = steps.map(|step| step.to).collect();
        if targets.is_empty() {
            break;
        }
        let target = rng.pick(&targets);
        if plan.is_final(target) {
            break;
        }
        states.push(target);
    }
    states
}

/// A sound plan, and one transition back on a walk.
fn loop_reached(rng: &mut Rng, n: usize, m: usize) -> Plan {
    let mut plan = sound(rng, n, m - 1);
    let states = unfinished_walk(rng, &plan);
    let to = rng.pick(&states);
    plan.transitions
        .push(step(rng, states[states.len() - 1], to));
    plan
}

/// A sound plan, and a loop that only a final state leads to, which is no start.
fn loop_unreached(rng: &mut Rng, n: usize, m: usize) -> Plan {
    let length = rng.between(1, 3);
    let mut plan = sound(rng, n - length, m - length - 2);
    let first = n - length;
    for state in first..n {
        plan.states.push(unmarked(rng));
        let next = if state + 1 < n { state + 1 } else { first };
        plan.transitions.push(step(rng, state, next));
    }
    plan.transitions.push(step(rng, first - 1, first));
    let to = rng.below(n);
    plan.transitions.push(step(rng, n - 1, to));
    plan
}

/// A sound plan, and a transition from a walk to a dead end.
fn dead_end_reached(rng: &mut Rng, n: usize, m: usize) -> Plan {
    let mut plan = sound(rng, n - 1, m - 1);
    let states = unfinished_walk(rng, &plan);
    let from = rng.pick(&states);
    plan.states.push(unmarked(rng));
    plan.transitions.push(step(rng, from, n - 1));
    plan
}

/// A sound plan, and a dead end that only a final state and an unreached one lead to.
fn dead_end_unreached(rng: &mut Rng, n: usize, m: usize) -> Plan {
    let mut plan = sound(rng, n - 2, m - 2);
    plan.states.push(unmarked(rng));
    plan.states.push(unmarked(rng));
    plan.transitions.push(step(rng, n - 3, n - 1));
    plan.transitions.push(step(rng, n - 2, n - 1));
    plan
}

/// Makes a transition open that an unfinished walk from state 0 can take.
fn open_one(rng: &mut Rng, plan: &mut Plan) {
    let states = unfinished_walk(rng, plan);
    let steps = plan.transitions.iter().enumerate();
    let steps = steps.filter(|(_, step)| states.contains(&step.from));
    let numbers: Vec<usize> = steps.map(|(number, _)| number).collect();
    let number = rng.pick(&numbers);
    open(rng, &mut plan.transitions[number]);
}

/// Neither loop nor dead end is reached, and an open transition is: it alone decides. It may leave the
/// start, lie deep in a chain, and lead to an unfinished state or to a final one.
fn open_reached(rng: &mut Rng, n: usize, m: usize) -> Plan {
    let make = rng.pick(&[chain, layers, sound]);
    let mut plan = make(rng, n, m);
    for _ in 0..rng.pick(&[1, 1, 3]) {
        open_one(rng, &mut plan);
    }
    plan
}

/// A sound plan in which no open transition counts: they leave final states that are no starts, and a
/// state that only such a one leads to. The others are a second below open now and then.
fn open_unreached(rng: &mut Rng, n: usize, m: usize) -> Plan {
    let mut plan = sound(rng, n - 1, m - 2);
    for number in 0..m - 2 {
        let from = plan.transitions[number].from;
        if plan.is_final(from) && !plan.is_start(from) && !rng.one_in(4) {
            open(rng, &mut plan.transitions[number]);
        }
    }
    plan.states.push(unmarked(rng));
    let to = rng.below(n);
    for (from, to) in [(n - 2, n - 1), (n - 1, to)] {
        let mut transition = step(rng, from, to);
        open(rng, &mut transition);
        plan.transitions.push(transition);
    }
    plan
}

/// A dead end is reached and so is an open transition, which may be the one that leads there. The
/// delay is ENDLESS, and the count STRANDED.
fn open_and_dead_end(rng: &mut Rng, n: usize, m: usize) -> Plan {
    let mut plan = dead_end_reached(rng, n, m);
    open_one(rng, &mut plan);
    plan
}

/// A loop is reached and so is an open transition, half of the time the one that closes the loop:
/// either may be shown for the delay, the loop alone for the count.
fn open_and_loop(rng: &mut Rng, n: usize, m: usize) -> Plan {
    let mut plan = loop_reached(rng, n, m);
    if rng.one_in(2) {
        open(rng, &mut plan.transitions[m - 1]);
    } else {
        open_one(rng, &mut plan);
    }
    plan
}

/// Plans of other shapes with open highs, and with highs a second below, in all or in few places:
/// where they count and where they do not.
fn open_anywhere(rng: &mut Rng, n: usize, m: usize) -> Plan {
    let make = rng.pick(&[mixed, dense, many_starts, finals_that_start, anything]);
    let mut plan = make(rng, n, m);
    let opened = rng.pick(&[1, 4, n, 4 * n]);
    let closed = rng.pick(&[2, n]);
    for transition in &mut plan.transitions {
        if rng.one_in(opened) {
            open(rng, transition);
        }
        if rng.one_in(closed) {
            transition.low = transition.low.min(MAX_CLOSED_HIGH);
            transition.high = MAX_CLOSED_HIGH;
        }
    }
    plan
}

/// A ring through a state that is start and final, with shortcuts to later states and back to it. Every
/// route ends where it began.
fn answered_ring(rng: &mut Rng, n: usize, m: usize) -> Plan {
    let marks = (0..n).map(|state| marks(rng, state == 0, state == 0));
    let marks = marks.collect();
    let reach = rng.pick(&[1, 3, n]);
    let mut transitions: Vec<Transition> = (0..n)
        .map(|state| step(rng, state, (state + 1) % n))
        .collect();
    while transitions.len() < m {
        let state = rng.below(n);
        let to = rng.between(state + 1, (state + reach).min(n));
        transitions.push(step(rng, state, to % n));
    }
    Plan::of(marks, transitions)
}

/// A sound plan in which every start is final. All calls begin answered.
fn answered_sound(rng: &mut Rng, n: usize, m: usize) -> Plan {
    let mut plan = sound(rng, n, m);
    for state in &mut plan.states {
        if state.marks & 4 != 0 {
            state.marks |= 2;
        }
    }
    plan
}

/// The same, and a loop that only a start leads to.
fn answered_loop(rng: &mut Rng, n: usize, m: usize) -> Plan {
    let length = rng.between(1, 3);
    let mut plan = answered_sound(rng, n - length, m - length - 1);
    let first = n - length;
    for state in first..n {
        plan.states.push(unmarked(rng));
        let next = if state + 1 < n { state + 1 } else { first };
        plan.transitions.push(step(rng, state, next));
    }
    let to = rng.between(first, n - 1);
    plan.transitions.push(step(rng, 0, to));
    plan
}

/// The same with a dead end in place of the loop.
fn answered_dead_end(rng: &mut Rng, n: usize, m: usize) -> Plan {
    let mut plan = answered_sound(rng, n - 1, m - 1);
    plan.states.push(unmarked(rng));
    plan.transitions.push(step(rng, 0, n - 1));
    plan
}

/// A sound plan, in which starts are final or not, and a final start without transitions.
fn answered_alone(rng: &mut Rng, n: usize, m: usize) -> Plan {
    let make = rng.pick(&[sound, answered_sound]);
    let mut plan = make(rng, n - 1, m);
    let marks = marks(rng, true, true);
    plan.states.push(State { marks, team: 0 });
    // Calls may arrive there.
    for transition in &mut plan.transitions {
        if rng.one_in(n) {
            transition.to = n - 1;
        }
    }
    plan
}

/// A sound plan in which all calls begin answered, and open transitions that leave a start.
fn answered_open(rng: &mut Rng, n: usize, m: usize) -> Plan {
    let mut plan = answered_sound(rng, n, m);
    let is_first = |step: &Transition| plan.is_start(step.from);
    let numbers = (0..m).filter(|&number| is_first(&plan.transitions[number]));
    let numbers: Vec<usize> = numbers.collect();
    for _ in 0..rng.pick(&[1, 1, 3]) {
        let number = rng.pick(&numbers);
        open(rng, &mut plan.transitions[number]);
    }
    plan
}

/// A random plan with one state in `starts` a start and one in `finals` final.
fn random(rng: &mut Rng, n: usize, m: usize, starts: usize, finals: usize) -> Plan {
    let marks = (0..n).map(|_| {
        let is_start = rng.one_in(starts);
        let is_final = rng.one_in(finals);
        marks(rng, is_start, is_final)
    });
    let marks = marks.collect();
    let transitions = (0..m).map(|_| {
        let (from, to) = (rng.below(n), rng.below(n));
        step(rng, from, to)
    });
    let transitions = transitions.collect();
    Plan::of(marks, transitions)
}

/// As many transitions as there are, between the first few states only.
fn dense(rng: &mut Rng, n: usize, m: usize) -> Plan {
    let few = rng.between(2, 8);
    let mut plan = random(rng, few, m, 3, 3);
    plan.states.resize(n, State::default());
    if rng.one_in(2) {
        // No loops but those of one state, and those seldom.
        for transition in &mut plan.transitions {
            let ends = (transition.from, transition.to);
            transition.from = ends.0.min(ends.1);
            transition.to = ends.0.max(ends.1);
            if transition.from == transition.to && !rng.one_in(100) {
                transition.from = 0;
                transition.to = few - 1;
            }
        }
    }
    plan
}

fn zero_durations(rng: &mut Rng, n: usize, m: usize) -> Plan {
    let mut plan = mixed(rng, n, m);
    let all = rng.one_in(2);
    for transition in &mut plan.transitions {
        if all || rng.one_in(2) {
            transition.low = 0;
            transition.high = 0;
        }
    }
    plan
}

/// A plan of no special shape, often a sound one with something added.
fn mixed(rng: &mut Rng, n: usize, m: usize) -> Plan {
    match rng.below(6) {
        0 => sound(rng, n, m),
        1 => loop_reached(rng, n, m),
        2 => dead_end_reached(rng, n, m),
        3 => loop_unreached(rng, n, m),
        4 => layers(rng, n, m),
        _ => random(rng, n, m, 4, 2),
    }
}

fn many_starts(rng: &mut Rng, n: usize, m: usize) -> Plan {
    let mut plan = mixed(rng, n, m);
    for state in &mut plan.states {
        if !rng.one_in(4) {
            state.marks |= 4;
        }
    }
    plan
}

fn finals_that_start(rng: &mut Rng, n: usize, m: usize) -> Plan {
    let mut plan = mixed(rng, n, m);
    for state in &mut plan.states {
        if state.marks & 2 != 0 || rng.one_in(4) {
            state.marks |= 6;
        }
    }
    plan
}

/// Some of the transitions stand in the list several times.
fn equal_transitions(rng: &mut Rng, n: usize, m: usize) -> Plan {
    let mut plan = mixed(rng, n, m);
    for _ in 0..m / 2 {
        let (from, to) = (rng.below(m), rng.below(m));
        plan.transitions[to] = plan.transitions[from];
    }
    plan
}

/// Marks of all values, starts and finals many or few, and some plans with none.
fn anything(rng: &mut Rng, n: usize, m: usize) -> Plan {
    let starts = rng.pick(&[1, 2, 8, n, 100_000]);
    let finals = rng.pick(&[2, 8, n, 100_000]);
    random(rng, n, m, starts, finals)
}
