//! What the benchmarks of a plan's calls share: the times, and the baseline's plan.

use std::time::Instant;

use reference::{Plan, State, Transition, MAX_STATES, MAX_TRANSITIONS};

pub const ROUNDS: usize = 201;
pub const CALLS: u32 = 40;

/// Times the three calls by turns and prints the median time of each and its ratio to the baseline's.
pub fn compare(
    name: &str,
    mut proved: impl FnMut(),
    mut baseline: impl FnMut(),
    mut reference: impl FnMut(),
) {
    let mut times = [Vec::new(), Vec::new(), Vec::new()];
    for _ in 0..ROUNDS {
        times[0].push(microseconds(&mut proved));
        times[1].push(microseconds(&mut baseline));
        times[2].push(microseconds(&mut reference));
    }
    let [proved, baseline, reference] = times.map(median);
    println!(
        "{name:6}: baseline {baseline:.2} us; proved library {proved:.2} us, ratio {:.2}; reference {reference:.2} us, ratio {:.2}",
        proved / baseline,
        reference / baseline
    );
}

/// The time of one call, taken over `CALLS` of them.
fn microseconds(call: &mut impl FnMut()) -> f64 {
    let begin = Instant::now();
    for _ in 0..CALLS {
        call();
    }
    begin.elapsed().as_secs_f64() * 1e6 / f64::from(CALLS)
}

fn median(mut times: Vec<f64>) -> f64 {
    times.sort_by(f64::total_cmp);
    times[times.len() / 2]
}

/// A plan of the largest size, with values of all sizes in its fields, and states of every team.
pub fn full_plan() -> Plan {
    let states = (0..MAX_STATES).map(|state| State {
        marks: (state % 8) as u8,
        team: (state / 8 % 32) as u8,
    });
    Plan {
        states: states.collect(),
        transitions: (0..MAX_TRANSITIONS)
            .map(|number| Transition {
                from: number * 5 % MAX_STATES,
                to: number * 11 % MAX_STATES,
                low: (number * 13 % 1024) as u32,
                high: 1024 + (number * 17 % 1024) as u32,
            })
            .collect(),
    }
}

/// A plan as the proved library has it, for calls that are written for speed in plain Rust. Their
/// answers are the library's numbers.
#[derive(Clone)]
pub struct Baseline {
    pub states: usize,
    pub transitions: usize,
    pub marks: [u8; MAX_STATES],
    pub teams: [u8; MAX_STATES],
    pub from: [u16; MAX_TRANSITIONS],
    pub to: [u16; MAX_TRANSITIONS],
    pub low: [u16; MAX_TRANSITIONS],
    pub high: [u16; MAX_TRANSITIONS],
}

impl Baseline {
    pub fn fresh(states: usize) -> Baseline {
        Baseline {
            states,
            transitions: 0,
            marks: [0; MAX_STATES],
            teams: [0; MAX_STATES],
            from: [0; MAX_TRANSITIONS],
            to: [0; MAX_TRANSITIONS],
            low: [0; MAX_TRANSITIONS],
            high: [0; MAX_TRANSITIONS],
        }
    }

    /// Whether the plan is within the limits of a plan. Every place is tested, with no way out before
    /// the last, so that the compiler can test many at once.
    pub fn sound(&self) -> bool {
        let (n, m) = (self.states, self.transitions);
        if !(1..=MAX_STATES).contains(&n) || m > MAX_TRANSITIONS {
            return false;
        }
        let end = n as u16;
        let (from, to) = (&self.from[..m], &self.to[..m]);
        let (low, high) = (&self.low[..m], &self.high[..m]);
        let states = self.marks[..n].iter().zip(&self.teams[..n]);
        let mut sound = states.fold(true, |ok, (&marks, &team)| ok & (marks <= 7) & (team <= 31));
        for i in 0..m {
            sound &= (from[i] < end) & (to[i] < end) & (low[i] <= high[i]) & (high[i] <= 2047);
        }
        sound
    }

    /// The same plan as the reference has it.
    pub fn plan(&self) -> Plan {
        let states = self.marks.into_iter().zip(self.teams).take(self.states);
        Plan {
            states: states.map(|(marks, team)| State { marks, team }).collect(),
            transitions: (0..self.transitions)
                .map(|i| Transition {
                    from: self.from[i].into(),
                    to: self.to[i].into(),
                    low: self.low[i].into(),
                    high: self.high[i].into(),
                })
                .collect(),
        }
    }
}
