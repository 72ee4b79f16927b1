//! A list of calls, made at once.

use crate::{accepted, archive, check_version, Plan, Quotation, Refusal, MAX_STATES};

/// The kinds of calls in a list. Each has four arguments, of which the first ones are looked at.
#[derive(Clone, Copy, Debug, PartialEq, Eq, Hash)]
#[repr(u8)]
pub enum CallKind {
    /// [`Plan::mark`]: state, value.
    Mark = 0,
    /// [`Plan::join`]: from, to, low, high.
    Join = 1,
    /// [`Plan::unjoin`]: number.
    Unjoin = 2,
    /// [`Plan::read`]: the places where its octets start and end among those that are lent.
    Read = 3,
    /// [`Plan::import`]: the same, of its text.
    Import = 4,
    /// [`Plan::team`]: state, team.
    Team = 5,
}

/// What a number says that [`Plan::replay`] put among the answers.
///
/// # Errors
///
/// The refusal with this number.
pub fn answer(number: u32) -> Result<(), Refusal> {
    accepted(number).map(|_| ())
}

impl Plan {
    /// Makes a list of calls in turn from a fresh plan with n states, each on the plan that the one
    /// before it left. Becomes the plan after the list, whatever it was, and gives its least delay,
    /// greatest delay, least count and greatest count.
    ///
    /// There are four arguments for each kind, and a place for each call's answer; later places stay.
    /// The octets of the reads and imports are parts of `octets`. A call of the list that is refused
    /// leaves the plan as it is, and the list goes on; [`answer`] says what was put at its place.
    ///
    /// ```
    /// use callplan::{answer, CallKind, Figure, Plan, Refusal, FINAL, START};
    ///
    /// let kinds = [CallKind::Mark, CallKind::Mark, CallKind::Join, CallKind::Join];
    /// let marks = [[0, START as usize, 0, 0], [1, FINAL as usize, 0, 0]];
    /// let arguments = [marks[0], marks[1], [0, 2, 5, 20], [0, 1, 5, 20]];
    /// let mut answers = [0; 4];
    /// let mut plan = Plan::fresh(1)?;
    /// let quotations = plan.replay(2, &kinds, &arguments, &[], &mut answers)?;
    /// assert_eq!(quotations[1].figure(), Figure::Number(20));
    /// assert_eq!(answers.map(answer), [Ok(()), Ok(()), Err(Refusal::ToState), Ok(())]);
    /// # Ok::<(), Refusal>(())
    /// ```
    ///
    /// # Errors
    ///
    /// [`Refusal::NoCalls`] where there are fewer arguments, or a read or import whose octets lie
    /// outside; [`Refusal::StateCount`] of n; [`Refusal::BufferLength`] where there are fewer places
    /// for the answers. The plan and the answers then stay as they were.
    pub fn replay(
        &mut self,
        n: usize,
        kinds: &[CallKind],
        arguments: &[[usize; 4]],
        octets: &[u8],
        answers: &mut [u32],
    ) -> Result<[Quotation; 4], Refusal> {
        check_version();
        let mut walks = [[0; MAX_STATES]; 4];
        let mut out = [[0; 4]; 4];
        // SAFETY: as of the other calls of a plan; a kind is an octet.
        let answer = unsafe {
            archive::callplan_lent_replay(
                n,
                kinds.as_ptr().cast(),
                kinds.len(),
                arguments.as_flattened().as_ptr(),
                arguments.as_flattened().len(),
                octets.as_ptr(),
                octets.len(),
                answers.as_mut_ptr(),
                answers.len(),
                self.counts.as_mut_ptr(),
                self.counts.len(),
                self.states.as_mut_ptr(),
                self.states.len(),
                self.fields.as_mut_ptr(),
                self.fields.len(),
                walks.as_flattened_mut().as_mut_ptr(),
                walks.as_flattened().len(),
                out.as_flattened_mut().as_mut_ptr(),
                out.as_flattened().len(),
            )
        };
        accepted(answer).map(|_| [0, 1, 2, 3].map(|i: usize| Quotation::of(out[i], walks[i])))
    }
}
