//! The plan, its limits and its edits.

use crate::refusal::{require, Refusal};

pub const MAX_STATES: usize = 512;
pub const MAX_TRANSITIONS: usize = 2048;
pub const MAX_DURATION: u32 = 2047;
/// The high that means no limit.
pub const OPEN_HIGH: u32 = 2047;
/// The greatest high that is a number of seconds.
pub const MAX_CLOSED_HIGH: u32 = 2046;
/// All three marks: 4 for start, 2 for final, 1 for counted.
pub const MAX_MARKS: u32 = 7;
/// The greatest team number.
pub const MAX_TEAM: u32 = 31;

/// "A high of 2,047 shall mean no limit, so a duration taken from a plan is either a number or
/// open." (document 02, E2)
#[derive(Clone, Copy, Debug, PartialEq, Eq)]
pub enum Duration {
    Seconds(u32),
    Open,
}

/// A transition between two states, with its range of durations in seconds.
#[derive(Clone, Copy, Debug, PartialEq, Eq)]
pub struct Transition {
    pub from: usize,
    pub to: usize,
    pub low: u32,
    pub high: u32,
}

/// A state: its marks value, and the number of its team (document 02, E4).
#[derive(Clone, Copy, Debug, Default, PartialEq, Eq)]
pub struct State {
    pub marks: u8,
    pub team: u8,
}

/// A call plan. States and transitions are numbered from 0 by place.
///
/// The fields are open, so a plan built by hand may break a limit; every call then refuses it.
/// The default, with no states, is such a plan.
#[derive(Clone, Debug, Default, PartialEq, Eq)]
pub struct Plan {
    pub states: Vec<State>,
    pub transitions: Vec<Transition>,
}

impl Plan {
    /// A plan of `n` states with no marks, no teams and no transitions.
    pub fn fresh(n: usize) -> Result<Plan, Refusal> {
        require((1..=MAX_STATES).contains(&n), Refusal::StateCount)?;
        Ok(Plan::of(vec![0; n], Vec::new()))
    }

    /// The plan with these marks values, all teams zero, and these transitions. It may break a limit.
    pub fn of(marks: Vec<u8>, transitions: Vec<Transition>) -> Plan {
        let states = marks.into_iter().map(|marks| State { marks, team: 0 });
        Plan {
            states: states.collect(),
            transitions,
        }
    }

    /// The marks value of each state.
    pub fn marks(&self) -> Vec<u8> {
        self.states.iter().map(|state| state.marks).collect()
    }

    /// The team of each state.
    pub fn teams(&self) -> Vec<u8> {
        self.states.iter().map(|state| state.team).collect()
    }

    /// Gives a state its marks value. Its team stays.
    pub fn mark(&mut self, state: usize, value: u32) -> Result<(), Refusal> {
        self.require_limits()?;
        require(state < self.states.len(), Refusal::StateNumber)?;
        require(value <= MAX_MARKS, Refusal::MarksValue)?;
        self.states[state].marks = value as u8;
        Ok(())
    }

    /// Gives a state its team. Its marks stay.
    pub fn team(&mut self, state: usize, team: u32) -> Result<(), Refusal> {
        self.require_limits()?;
        require(state < self.states.len(), Refusal::StateNumber)?;
        require_team(team)?;
        self.states[state].team = team as u8;
        Ok(())
    }

    /// Puts a transition at the end of the list.
    pub fn join(&mut self, transition: Transition) -> Result<(), Refusal> {
        self.require_limits()?;
        transition.require_limits(self.states.len())?;
        require(self.transitions.len() < MAX_TRANSITIONS, Refusal::ListFull)?;
        self.transitions.push(transition);
        Ok(())
    }

    /// Takes a transition out of the list. Later ones move down by one.
    pub fn unjoin(&mut self, number: usize) -> Result<(), Refusal> {
        self.require_limits()?;
        require(number < self.transitions.len(), Refusal::TransitionNumber)?;
        self.transitions.remove(number);
        Ok(())
    }

    pub fn is_start(&self, state: usize) -> bool {
        self.states[state].marks / 4 == 1
    }

    pub fn is_final(&self, state: usize) -> bool {
        self.states[state].marks / 2 % 2 == 1
    }

    pub fn is_counted(&self, state: usize) -> bool {
        self.states[state].marks % 2 == 1
    }

    /// Whether some transition leaves the state.
    pub fn is_left(&self, state: usize) -> bool {
        self.transitions.iter().any(|step| step.from == state)
    }

    /// Whether the plan keeps every limit.
    pub fn within_limits(&self) -> bool {
        let n = self.states.len();
        (1..=MAX_STATES).contains(&n)
            && self.transitions.len() <= MAX_TRANSITIONS
            && self.states.iter().all(|state| {
                u32::from(state.marks) <= MAX_MARKS && u32::from(state.team) <= MAX_TEAM
            })
            && self
                .transitions
                .iter()
                .all(|transition| transition.require_limits(n).is_ok())
    }

    /// The ground that comes first in every call that is given a plan.
    pub(crate) fn require_limits(&self) -> Result<(), Refusal> {
        require(self.within_limits(), Refusal::BrokenPlan)
    }
}

impl Transition {
    /// The longest that it takes.
    pub fn longest(&self) -> Duration {
        match self.high {
            OPEN_HIGH => Duration::Open,
            seconds => Duration::Seconds(seconds),
        }
    }

    /// The limits of a transition in a plan of `n` states, in the order of join and read.
    pub(crate) fn require_limits(&self, n: usize) -> Result<(), Refusal> {
        require_ends(self.from, self.to, n)?;
        require(
            self.low <= self.high && self.high <= MAX_DURATION,
            Refusal::Duration,
        )
    }
}

/// "A team above 31 returns 18" (document 02, E4).
pub(crate) fn require_team(team: u32) -> Result<(), Refusal> {
    require(team <= MAX_TEAM, Refusal::TeamNumber)
}

/// "a bad from returns 16, then a bad to 17" (document 02, E3), for numbers of any sort.
pub(crate) fn require_ends<N: Ord>(from: N, to: N, n: N) -> Result<(), Refusal> {
    let columns = [(from, Refusal::FromState), (to, Refusal::ToState)];
    match columns.into_iter().find(|(state, _)| *state >= n) {
        Some((_, refusal)) => Err(refusal),
        None => Ok(()),
    }
}
