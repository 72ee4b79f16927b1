//! The states and the transitions of a plan, one after another.

use core::iter::FusedIterator;

use crate::{Plan, Transition};

/// A state: a sum of [`START`](crate::START), [`FINAL`](crate::FINAL) and
/// [`COUNTED`](crate::COUNTED), and the number of its team.
#[derive(Clone, Copy, Debug, PartialEq, Eq, Hash)]
#[allow(missing_docs)]
pub struct State {
    pub marks: u32,
    pub team: u32,
}

impl Plan {
    /// The states, in the order of their numbers.
    ///
    /// ```
    /// use callplan::{Plan, State, FINAL, START};
    ///
    /// let mut plan = Plan::fresh(3)?;
    /// plan.mark(2, START + FINAL)?;
    /// plan.team(2, 31)?;
    /// assert_eq!(plan.iter_states().len(), 3);
    /// assert_eq!(plan.iter_states().last(), Some(State { marks: START + FINAL, team: 31 }));
    /// assert_eq!(plan.iter_states().position(|state| state.marks != 0), Some(2));
    /// # Ok::<(), callplan::Refusal>(())
    /// ```
    pub fn iter_states(
        &self,
    ) -> impl ExactSizeIterator<Item = State> + DoubleEndedIterator + FusedIterator + Clone + '_
    {
        let [marks, teams] = self.state_parts();
        marks.iter().zip(teams).map(|(&marks, &team)| State {
            marks: marks.into(),
            team: team.into(),
        })
    }

    /// The transitions, in the order of their numbers.
    ///
    /// ```
    /// use callplan::Plan;
    ///
    /// let plan = Plan::generate(1, 16, 32)?;
    /// assert_eq!(plan.iter_transitions().len(), 32);
    /// assert_eq!(plan.iter_transitions().next(), plan.transition(0));
    /// let out_of_0 = plan.iter_transitions().filter(|transition| transition.from == 0);
    /// assert!(out_of_0.count() < 32);
    /// # Ok::<(), callplan::Refusal>(())
    /// ```
    pub fn iter_transitions(
        &self,
    ) -> impl ExactSizeIterator<Item = Transition> + DoubleEndedIterator + FusedIterator + Clone + '_
    {
        let [from, to, low, high] = self.parts();
        (0..self.transitions()).map(move |number| Transition {
            from: from[number].into(),
            to: to[number].into(),
            low: low[number].into(),
            high: high[number].into(),
        })
    }
}
