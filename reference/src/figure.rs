//! The four figures, what is asked for, what it comes to, and the walk shown with it.

use std::ops::Add;

use crate::class::class;
use crate::plan::{Duration, Plan};

/// A figure of a plan.
#[derive(Clone, Copy, Debug, PartialEq, Eq)]
pub enum Figure {
    LeastDelay,
    GreatestDelay,
    LeastCount,
    GreatestCount,
}

/// The figures in the order of the record and of the lines that `quote` prints.
pub const FIGURES: [Figure; 4] = [
    Figure::LeastDelay,
    Figure::GreatestDelay,
    Figure::LeastCount,
    Figure::GreatestCount,
];

impl Figure {
    pub fn name(self) -> &'static str {
        match self {
            Figure::LeastDelay => "least delay",
            Figure::GreatestDelay => "greatest delay",
            Figure::LeastCount => "least count",
            Figure::GreatestCount => "greatest count",
        }
    }

    pub fn is_least(self) -> bool {
        matches!(self, Figure::LeastDelay | Figure::LeastCount)
    }

    /// The counts may be asked for a class: for the class that this team is in.
    pub fn for_class_of(self, team: u32) -> Asked {
        assert!(matches!(self, Figure::LeastCount | Figure::GreatestCount));
        let team = Some(team);
        Asked { figure: self, team }
    }
}

/// What is quoted: a figure, and of a count which states count. Where it names a team, it is "quoted
/// for any one of these five classes, named by a team number in it, instead of the counted mark"
/// (document 02, E4). A team above 31 is in no class.
#[derive(Clone, Copy, Debug, PartialEq, Eq)]
pub struct Asked {
    pub figure: Figure,
    pub team: Option<u32>,
}

impl From<Figure> for Asked {
    fn from(figure: Figure) -> Asked {
        Asked { figure, team: None }
    }
}

impl Asked {
    pub fn name(self) -> String {
        match self.team {
            Some(team) => format!("{} for team {team}", self.figure.name()),
            None => self.figure.name().to_string(),
        }
    }

    /// Whether a state counts.
    pub fn counts(self, plan: &Plan, state: usize) -> bool {
        match self.team {
            Some(team) => class(u32::from(plan.states[state].team)) == class(team),
            None => plan.is_counted(state),
        }
    }

    /// What a visit of a state adds to a count.
    fn state_cost(self, plan: &Plan, state: usize) -> Cost {
        Cost::Number(u32::from(self.counts(plan, state)))
    }

    /// What a walk costs that begins at a state. One that it arrives at in the end as well "counts twice
    /// if counted" (document 02, E5): here, and with the transition that leads there.
    pub(crate) fn first_cost(self, plan: &Plan, state: usize) -> Cost {
        match self.figure {
            Figure::LeastDelay | Figure::GreatestDelay => Cost::Number(0),
            Figure::LeastCount | Figure::GreatestCount => self.state_cost(plan, state),
        }
    }

    /// What a transition of a given number adds, with the state where it arrives.
    pub(crate) fn step_cost(self, plan: &Plan, number: usize) -> Cost {
        let transition = plan.transitions[number];
        match self.figure {
            Figure::LeastDelay => Cost::Number(transition.low),
            Figure::GreatestDelay => match transition.longest() {
                Duration::Seconds(seconds) => Cost::Number(seconds),
                Duration::Open => Cost::Endless,
            },
            Figure::LeastCount | Figure::GreatestCount => self.state_cost(plan, transition.to),
        }
    }
}

/// What a walk costs. Where it takes an open transition that is more than any number: "For the
/// greatest delay an open ring then counts as going on forever unanswered." (document 02, E2)
#[derive(Clone, Copy, Debug, PartialEq, Eq, PartialOrd, Ord)]
pub(crate) enum Cost {
    Number(u32),
    Endless,
}

impl Add for Cost {
    type Output = Cost;

    fn add(self, other: Cost) -> Cost {
        match (self, other) {
            (Cost::Number(one), Cost::Number(other)) => Cost::Number(one + other),
            _ => Cost::Endless,
        }
    }
}

/// What a figure comes to.
#[derive(Clone, Copy, Debug, PartialEq, Eq)]
pub enum Value {
    Number(u32),
    None,
    Stranded,
    Endless,
}

impl Value {
    /// The kind's number in the record.
    pub fn kind(self) -> u32 {
        match self {
            Value::Number(_) => 0,
            Value::None => 1,
            Value::Stranded => 2,
            Value::Endless => 3,
        }
    }

    /// The record's figure, zero unless the value is a number.
    pub fn figure(self) -> u32 {
        match self {
            Value::Number(number) => number,
            _ => 0,
        }
    }
}

/// A figure's value and the walk shown with it, as transition numbers.
#[derive(Clone, Debug, PartialEq, Eq)]
pub struct Quotation {
    pub value: Value,
    pub walk: Vec<usize>,
    /// Of ENDLESS: below k the place to which the walk comes back, and k where its last transition
    /// is open. Else 0.
    pub j: usize,
}

/// The values of the four figures.
pub fn values(quotations: &[Quotation; 4]) -> [Value; 4] {
    quotations.each_ref().map(|quotation| quotation.value)
}

impl Quotation {
    pub(crate) fn new(value: Value, walk: Vec<usize>) -> Quotation {
        Quotation { value, walk, j: 0 }
    }

    /// NONE, with no walk.
    pub(crate) fn none() -> Quotation {
        Quotation::new(Value::None, Vec::new())
    }

    /// ENDLESS, shown by a walk whose last transition is open.
    pub(crate) fn of_open(walk: Vec<usize>) -> Quotation {
        let (value, j) = (Value::Endless, walk.len());
        Quotation { value, walk, j }
    }

    /// ENDLESS, shown by a walk that meets a state twice, cut off where it first does.
    pub(crate) fn of_loop(plan: &Plan, start: usize, walk: &[usize]) -> Quotation {
        let mut states = vec![start];
        for (place, &number) in walk.iter().enumerate() {
            let state = plan.transitions[number].to;
            if let Some(j) = states.iter().position(|&earlier| earlier == state) {
                let walk = walk[..=place].to_vec();
                let value = Value::Endless;
                return Quotation { value, walk, j };
            }
            states.push(state);
        }
        panic!("the walk meets no state twice");
    }
}
