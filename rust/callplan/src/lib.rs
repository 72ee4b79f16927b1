//! The call plan calculator: a call plan is edited, read and written as an image, imported and
//! exported as Aldebaran text, made from a seed, and quoted.
//!
//! The calls are those of the proved archive, `libcallplan.a`, and each answers as `callplan.h`
//! says. No call keeps anything when it has returned, so plans may be used from any thread. The
//! crate needs neither a heap nor `std`.
//!
//! ```
//! use callplan::{Figure, Plan, Transition, FINAL, START};
//!
//! let mut plan = Plan::fresh(2)?;
//! plan.mark(0, START)?;
//! plan.mark(1, FINAL)?;
//! plan.join(Transition { from: 0, to: 1, low: 5, high: 20 })?;
//! let quotation = plan.greatest_delay();
//! assert_eq!(quotation.figure(), Figure::Number(20));
//! assert_eq!(quotation.walk(), [0]);
//! # Ok::<(), callplan::Refusal>(())
//! ```

#![no_std]
#![deny(missing_docs)]

#[cfg(test)]
extern crate std;

mod archive;
mod iterators;
mod kind;
mod refusal;
mod replay;
mod version;

use core::fmt;
use core::hash::{Hash, Hasher};

pub use iterators::State;
pub use kind::Kind;
pub use refusal::Refusal;
pub use replay::{answer, CallKind};
pub use version::{version, Version, VERSION};

/// The most states of a plan.
pub const MAX_STATES: usize = 512;
/// The most transitions of a plan.
pub const MAX_TRANSITIONS: usize = 2048;
/// The greatest low and high, in seconds.
pub const MAX_DURATION: u32 = 2047;
/// The greatest team number.
///
/// A state has a team, a number from 0 on. Every team is in one of five classes: 0 in none, 1 to 9 in
/// wards, 10 to 19 in clinics, 20 to 29 in switchboards, 30 and 31 in outside lines. A class is named by
/// the number of any team in it.
pub const MAX_TEAM: u32 = 31;
/// A high that means no limit: the transition is open, as of a phone that rings until it is picked
/// up.
pub const OPEN_HIGH: u32 = 2047;
/// The most octets of an image.
pub const MAX_IMAGE_OCTETS: usize = 10756;
/// The most octets of a text that is exported, or accepted by [`Plan::import`].
pub const MAX_TEXT_OCTETS: usize = 51221;
/// The octets of a record.
pub const RECORD_OCTETS: usize = 11;

/// A marks value is a sum of [`START`], [`FINAL`] and [`COUNTED`].
pub const START: u32 = 4;
/// A person has answered.
pub const FINAL: u32 = 2;
/// The state counts.
pub const COUNTED: u32 = 1;

/// The version of the archive that this crate is for: 10,000 times the first number, 100 times the
/// second, and the third.
pub const VERSION_NUMBER: u32 = 900;

/// What the archive answers for accepted. Write, export and record add the octets' number.
const ACCEPTED: u32 = 256;

/// A transition: it takes from `low` to `high` seconds, or `low` or more where `high` is
/// [`OPEN_HIGH`].
#[derive(Clone, Copy, Debug, PartialEq, Eq, Hash)]
#[allow(missing_docs)]
pub struct Transition {
    pub from: usize,
    pub to: usize,
    pub low: u32,
    pub high: u32,
}

/// A figure: its number or kind.
#[derive(Clone, Copy, Debug, PartialEq, Eq, Hash)]
pub enum Figure {
    /// Seconds, at most 1,048,064 for the least delay and 1,047,552 for the greatest, or counted
    /// states, at most 513.
    Number(u32),
    /// A least figure of a plan without routes, or a greatest one of a plan without a start.
    None,
    /// A call can end unanswered, in a state that nothing leaves: an unfinished one, or a start, final
    /// or not.
    Stranded,
    /// A call can go on forever unanswered. Where `j` is below the walk's length, the walk arrives
    /// where it was after `j` transitions. Where it is the walk's length, which it can be for the
    /// greatest delay alone, the last transition is open ([`OPEN_HIGH`]).
    #[allow(missing_docs)]
    Endless { j: usize },
}

/// A figure, with a walk that shows it.
///
/// A route begins at a start and takes at least one transition, the last to a final state. Its first state
/// may be final too, as of a desk that puts a caller back into the plan, and no state between its first
/// and its last is. So a route may end where it began, and that state then counts twice. A walk that
/// shows another kind may begin at a final start as well.
///
/// ```
/// use callplan::{Figure, Plan, Transition, COUNTED, FINAL, START};
///
/// let mut plan = Plan::fresh(1)?;
/// plan.mark(0, START + FINAL + COUNTED)?;
/// assert_eq!(plan.greatest_delay().figure(), Figure::Stranded);
/// plan.join(Transition { from: 0, to: 0, low: 3, high: 4 })?;
/// assert_eq!(plan.greatest_delay().figure(), Figure::Number(4));
/// assert_eq!(plan.greatest_count().figure(), Figure::Number(2));
/// # Ok::<(), callplan::Refusal>(())
/// ```
#[derive(Clone)]
pub struct Quotation {
    figure: Figure,
    k: usize,
    places: [u16; MAX_STATES],
}

impl Quotation {
    /// The figure.
    #[must_use]
    pub fn figure(&self) -> Figure {
        self.figure
    }

    /// The walk, as transition numbers, at most as many as the plan has states. Beside a number there is
    /// at least one; beside [`Figure::Stranded`] an empty walk is a start alone, which nothing leaves.
    #[must_use]
    pub fn walk(&self) -> &[u16] {
        &self.places[..self.k]
    }

    /// The quotation with this kind, value, k and j.
    fn of([kind, value, k, j]: [u32; 4], places: [u16; MAX_STATES]) -> Quotation {
        let figure = match kind {
            0 => Figure::Number(value),
            1 => Figure::None,
            2 => Figure::Stranded,
            _ => Figure::Endless { j: j as usize },
        };
        Quotation {
            figure,
            k: k as usize,
            places,
        }
    }
}

/// Equal where figure and walk are.
impl PartialEq for Quotation {
    fn eq(&self, other: &Quotation) -> bool {
        self.figure == other.figure && self.walk() == other.walk()
    }
}

impl Eq for Quotation {}

impl Hash for Quotation {
    fn hash<H: Hasher>(&self, state: &mut H) {
        self.figure.hash(state);
        self.walk().hash(state);
    }
}

impl fmt::Debug for Quotation {
    fn fmt(&self, f: &mut fmt::Formatter) -> fmt::Result {
        f.debug_struct("Quotation")
            .field("figure", &self.figure)
            .field("walk", &self.walk())
            .finish()
    }
}

/// A quotation of the archive, and one for the class of a team.
type Quote = unsafe extern "C" fn(
    *const usize,
    usize,
    *const u8,
    usize,
    *const u16,
    usize,
    *mut u16,
    usize,
    *mut u32,
    usize,
) -> u32;

type CountFor = unsafe extern "C" fn(
    *const usize,
    usize,
    *const u8,
    usize,
    *const u16,
    usize,
    u32,
    *mut u16,
    usize,
    *mut u32,
    usize,
) -> u32;

/// A plan, always within the limits. It is 17,424 octets large, and is kept where it is put. Two
/// plans are equal where their states and transitions are.
#[derive(Clone)]
pub struct Plan {
    counts: [usize; 2],
    /// All marks values, then all teams.
    states: [u8; 2 * MAX_STATES],
    fields: [u16; 4 * MAX_TRANSITIONS],
}

/// No plan yet: 0 states, all else zero.
const NO_PLAN: Plan = Plan {
    counts: [0; 2],
    states: [0; 2 * MAX_STATES],
    fields: [0; 4 * MAX_TRANSITIONS],
};

// SAFETY, of each call of the archive: every pointer stands beside its number of places, which live
// through the call, and those that it may write to are borrowed for it alone.
impl Plan {
    /// A plan with n states, all marks and teams 0, and no transitions.
    ///
    /// # Errors
    ///
    /// [`Refusal::StateCount`].
    pub fn fresh(n: usize) -> Result<Plan, Refusal> {
        check_version();
        let mut plan = NO_PLAN;
        let answer = unsafe {
            archive::callplan_lent_fresh(
                n,
                plan.counts.as_mut_ptr(),
                plan.counts.len(),
                plan.states.as_mut_ptr(),
                plan.states.len(),
                plan.fields.as_mut_ptr(),
                plan.fields.len(),
            )
        };
        accepted(answer)?;
        Ok(plan)
    }

    /// The plan with n states and m transitions that a seed makes. The same seed and counts make the same
    /// plan everywhere, and a smaller m the first m of its transitions. State 0 is marked [`START`] and
    /// state n - 1 [`FINAL`], no other mark is set, and all teams are 0. Transitions lead from any state to
    /// any, and a high may come out as [`OPEN_HIGH`].
    ///
    /// The first 55 words of 32 bits are the seed, then each the one before plus 9E3779B9 hex; each later
    /// word is the word 24 back plus the word 55 back, modulo 4,294,967,296. Words are drawn from the 56th
    /// on, four a transition: from and to are a draw modulo n, low a draw modulo 2,048, and high is low
    /// plus a draw modulo (2,048 - low).
    ///
    /// ```
    /// use callplan::{Plan, Refusal, Transition, FINAL, START};
    ///
    /// let plan = Plan::generate(1, 2, 1)?;
    /// assert_eq!((plan.marks(0), plan.marks(1)), (Some(START), Some(FINAL)));
    /// let made = Transition { from: 1, to: 1, low: 1101, high: 1368 };
    /// assert_eq!(plan.transition(0), Some(made));
    /// assert_eq!(Plan::generate(1, 513, 2049), Err(Refusal::StateCount));
    /// # Ok::<(), Refusal>(())
    /// ```
    ///
    /// # Errors
    ///
    /// [`Refusal::StateCount`], [`Refusal::TransitionCount`].
    pub fn generate(seed: u32, n: usize, m: usize) -> Result<Plan, Refusal> {
        check_version();
        let mut plan = NO_PLAN;
        let answer = unsafe {
            archive::callplan_lent_generate(
                seed,
                n,
                m,
                plan.counts.as_mut_ptr(),
                plan.counts.len(),
                plan.states.as_mut_ptr(),
                plan.states.len(),
                plan.fields.as_mut_ptr(),
                plan.fields.len(),
            )
        };
        accepted(answer)?;
        Ok(plan)
    }

    /// The plan that the octets are the image of, of version 1 or 2. An image of version 1 has no teams:
    /// they are all 0.
    ///
    /// # Errors
    ///
    /// [`Refusal::ImageShort`] of fewer than 4 octets, [`Refusal::Version`],
    /// [`Refusal::StateCount`], [`Refusal::TransitionCount`], [`Refusal::SpareBits`] of the pad,
    /// [`Refusal::ImageShort`], [`Refusal::ImageLong`]; of version 1 state by state
    /// [`Refusal::SpareBits`]; transition by transition [`Refusal::FromState`], [`Refusal::ToState`],
    /// [`Refusal::Duration`].
    pub fn from_image(octets: &[u8]) -> Result<Plan, Refusal> {
        check_version();
        let mut plan = NO_PLAN;
        let answer = unsafe {
            archive::callplan_lent_from_image(
                octets.as_ptr(),
                octets.len(),
                plan.counts.as_mut_ptr(),
                plan.counts.len(),
                plan.states.as_mut_ptr(),
                plan.states.len(),
                plan.fields.as_mut_ptr(),
                plan.fields.len(),
            )
        };
        accepted(answer)?;
        Ok(plan)
    }

    /// Makes the marks value of a state the value given. Its team stays.
    ///
    /// # Errors
    ///
    /// [`Refusal::StateNumber`], [`Refusal::MarksValue`].
    pub fn mark(&mut self, state: usize, value: u32) -> Result<(), Refusal> {
        let answer = unsafe {
            archive::callplan_lent_mark(
                self.counts.as_mut_ptr(),
                self.counts.len(),
                self.states.as_mut_ptr(),
                self.states.len(),
                self.fields.as_mut_ptr(),
                self.fields.len(),
                state,
                value,
            )
        };
        accepted(answer).map(|_| ())
    }

    /// Makes the team of a state the one given, at most [`MAX_TEAM`]. Its marks stay.
    ///
    /// # Errors
    ///
    /// [`Refusal::StateNumber`], [`Refusal::TeamNumber`].
    pub fn team(&mut self, state: usize, team: u32) -> Result<(), Refusal> {
        let answer = unsafe {
            archive::callplan_lent_team(
                self.counts.as_mut_ptr(),
                self.counts.len(),
                self.states.as_mut_ptr(),
                self.states.len(),
                self.fields.as_mut_ptr(),
                self.fields.len(),
                state,
                team,
            )
        };
        accepted(answer).map(|_| ())
    }

    /// Puts a transition at the end of the list.
    ///
    /// # Errors
    ///
    /// [`Refusal::FromState`], [`Refusal::ToState`], [`Refusal::Duration`], [`Refusal::ListFull`].
    pub fn join(&mut self, transition: Transition) -> Result<(), Refusal> {
        let answer = unsafe {
            archive::callplan_lent_join(
                self.counts.as_mut_ptr(),
                self.counts.len(),
                self.states.as_mut_ptr(),
                self.states.len(),
                self.fields.as_mut_ptr(),
                self.fields.len(),
                transition.from,
                transition.to,
                transition.low,
                transition.high,
            )
        };
        accepted(answer).map(|_| ())
    }

    /// Takes the transition with this number out of the list. The later ones move down by one.
    ///
    /// # Errors
    ///
    /// [`Refusal::TransitionNumber`].
    pub fn unjoin(&mut self, number: usize) -> Result<(), Refusal> {
        let answer = unsafe {
            archive::callplan_lent_unjoin(
                self.counts.as_mut_ptr(),
                self.counts.len(),
                self.states.as_mut_ptr(),
                self.states.len(),
                self.fields.as_mut_ptr(),
                self.fields.len(),
                number,
            )
        };
        accepted(answer).map(|_| ())
    }

    /// Becomes the plan that the octets are the image of. They are gone over once, up to the item that
    /// refuses them: the header, a state or a transition.
    ///
    /// # Errors
    ///
    /// Those of [`Plan::from_image`]; the plan then stays as it was, at the last transition too.
    pub fn read(&mut self, octets: &[u8]) -> Result<(), Refusal> {
        let answer = unsafe {
            archive::callplan_lent_read(
                self.counts.as_mut_ptr(),
                self.counts.len(),
                self.states.as_mut_ptr(),
                self.states.len(),
                self.fields.as_mut_ptr(),
                self.fields.len(),
                octets.as_ptr(),
                octets.len(),
            )
        };
        accepted(answer).map(|_| ())
    }

    /// Puts the image, of version 2, at the front of the buffer, and gives the number of its octets.
    ///
    /// # Errors
    ///
    /// [`Refusal::BufferLength`].
    pub fn write(&self, buffer: &mut [u8]) -> Result<usize, Refusal> {
        accepted(unsafe {
            archive::callplan_lent_write(
                self.counts.as_ptr(),
                self.counts.len(),
                self.states.as_ptr(),
                self.states.len(),
                self.fields.as_ptr(),
                self.fields.len(),
                buffer.as_mut_ptr(),
                buffer.len(),
            )
        })
    }

    /// Becomes the plan that the Aldebaran text holds. The initial state is marked [`START`], nothing
    /// else is marked, and all teams are 0. [`Plan::export`] then gives the same text.
    ///
    /// The first line is `des (INITIAL, TRANSITIONS, STATES)`, with the initial state and the two
    /// counts. Then there is a line `(FROM, "LOW..HIGH", TO)` for each transition, in their order.
    /// Every line is ended by a line feed, and every space is as it stands here. Numbers are decimal,
    /// of any length and without leading zeros. A HIGH of 2047 is [`OPEN_HIGH`].
    ///
    /// ```
    /// use callplan::{Plan, Refusal, START};
    ///
    /// let mut plan = Plan::fresh(1)?;
    /// plan.import(b"des (1, 1, 2)\n(1, \"5..20\", 0)\n")?;
    /// assert_eq!((plan.states(), plan.marks(1)), (2, Some(START)));
    /// assert_eq!(plan.import(b"des (1,0,2)\n"), Err(Refusal::TextForm));
    /// # Ok::<(), Refusal>(())
    /// ```
    ///
    /// # Errors
    ///
    /// [`Refusal::TextForm`] of the whole text, the number of its lines included;
    /// [`Refusal::StateCount`], [`Refusal::TransitionCount`]; [`Refusal::StateNumber`] of the initial
    /// state; line by line [`Refusal::FromState`], [`Refusal::ToState`], [`Refusal::Duration`]. The
    /// plan then stays as it was.
    pub fn import(&mut self, text: &[u8]) -> Result<(), Refusal> {
        let answer = unsafe {
            archive::callplan_lent_import(
                self.counts.as_mut_ptr(),
                self.counts.len(),
                self.states.as_mut_ptr(),
                self.states.len(),
                self.fields.as_mut_ptr(),
                self.fields.len(),
                text.as_ptr(),
                text.len(),
            )
        };
        accepted(answer).map(|_| ())
    }

    /// Puts the Aldebaran text at the front of the buffer, and gives the number of its octets, at
    /// most [`MAX_TEXT_OCTETS`]. Imported, it is the plan without its final and counted
    /// marks and its teams.
    ///
    /// # Errors
    ///
    /// [`Refusal::StartCount`], [`Refusal::BufferLength`].
    pub fn export(&self, buffer: &mut [u8]) -> Result<usize, Refusal> {
        accepted(unsafe {
            archive::callplan_lent_export(
                self.counts.as_ptr(),
                self.counts.len(),
                self.states.as_ptr(),
                self.states.len(),
                self.fields.as_ptr(),
                self.fields.len(),
                buffer.as_mut_ptr(),
                buffer.len(),
            )
        })
    }

    /// The smallest sum of lows over all routes. Open highs are of no account.
    #[must_use]
    pub fn least_delay(&self) -> Quotation {
        self.quote(archive::callplan_lent_least_delay)
    }

    /// The largest sum of highs over all routes, unless calls can go unanswered. It is
    /// [`Figure::Endless`] also where a walk of unfinished states from a start, which may be final, can
    /// take an open transition, which may lead anywhere.
    ///
    /// ```
    /// use callplan::{Figure, Plan, Transition, FINAL, OPEN_HIGH, START};
    ///
    /// let mut plan = Plan::fresh(2)?;
    /// plan.mark(0, START)?;
    /// plan.mark(1, FINAL)?;
    /// plan.join(Transition { from: 0, to: 1, low: 5, high: OPEN_HIGH })?;
    /// let quotation = plan.greatest_delay();
    /// assert_eq!(quotation.figure(), Figure::Endless { j: 1 });
    /// assert_eq!(quotation.walk(), [0]);
    /// assert_eq!(plan.least_delay().figure(), Figure::Number(5));
    /// # Ok::<(), callplan::Refusal>(())
    /// ```
    #[must_use]
    pub fn greatest_delay(&self) -> Quotation {
        self.quote(archive::callplan_lent_greatest_delay)
    }

    /// The smallest number of counted states on a route, first and last included, one that is both
    /// twice. Open highs are of no account.
    #[must_use]
    pub fn least_count(&self) -> Quotation {
        self.quote(archive::callplan_lent_least_count)
    }

    /// The largest number of counted states on a route, unless calls can go unanswered. Open highs
    /// are of no account.
    #[must_use]
    pub fn greatest_count(&self) -> Quotation {
        self.quote(archive::callplan_lent_greatest_count)
    }

    /// The least count for a class, the one that the team is in: a state counts where its own team is in
    /// that class, and its counted mark is of no account.
    ///
    /// ```
    /// use callplan::{Figure, Plan, Refusal, Transition, FINAL, START};
    ///
    /// let mut plan = Plan::fresh(2)?;
    /// plan.mark(0, START)?;
    /// plan.mark(1, FINAL)?;
    /// plan.team(0, 3)?; // a ward
    /// plan.team(1, 12)?; // a clinic
    /// plan.join(Transition { from: 0, to: 1, low: 5, high: 20 })?;
    /// assert_eq!(plan.least_count_for(9)?.figure(), Figure::Number(1));
    /// assert_eq!(plan.least_count_for(20)?.figure(), Figure::Number(0));
    /// assert_eq!(plan.least_count_for(32), Err(Refusal::TeamNumber));
    /// # Ok::<(), Refusal>(())
    /// ```
    ///
    /// # Errors
    ///
    /// [`Refusal::TeamNumber`].
    pub fn least_count_for(&self, team: u32) -> Result<Quotation, Refusal> {
        self.count_for(archive::callplan_lent_least_count_for, team)
    }

    /// The greatest count for a class, the one that the team is in: a state counts where its own team is
    /// in that class.
    ///
    /// # Errors
    ///
    /// [`Refusal::TeamNumber`].
    pub fn greatest_count_for(&self, team: u32) -> Result<Quotation, Refusal> {
        self.count_for(archive::callplan_lent_greatest_count_for, team)
    }

    /// Puts the record of the four figures at the front of the buffer, and gives the number of its
    /// octets.
    ///
    /// # Errors
    ///
    /// [`Refusal::BufferLength`].
    pub fn record(&self, buffer: &mut [u8]) -> Result<usize, Refusal> {
        accepted(unsafe {
            archive::callplan_lent_record(
                self.counts.as_ptr(),
                self.counts.len(),
                self.states.as_ptr(),
                self.states.len(),
                self.fields.as_ptr(),
                self.fields.len(),
                buffer.as_mut_ptr(),
                buffer.len(),
            )
        })
    }

    /// The number of states.
    #[must_use]
    pub fn states(&self) -> usize {
        self.counts[0]
    }

    /// The number of transitions.
    #[must_use]
    pub fn transitions(&self) -> usize {
        self.counts[1]
    }

    /// The marks value of a state.
    #[must_use]
    pub fn marks(&self, state: usize) -> Option<u32> {
        (state < self.states()).then(|| self.states[state].into())
    }

    /// The team of a state.
    #[must_use]
    pub fn team_of(&self, state: usize) -> Option<u32> {
        (state < self.states()).then(|| self.states[MAX_STATES + state].into())
    }

    /// The transition with this number.
    #[must_use]
    pub fn transition(&self, number: usize) -> Option<Transition> {
        (number < self.transitions()).then(|| Transition {
            from: self.fields[number].into(),
            to: self.fields[MAX_TRANSITIONS + number].into(),
            low: self.fields[2 * MAX_TRANSITIONS + number].into(),
            high: self.fields[3 * MAX_TRANSITIONS + number].into(),
        })
    }

    fn quote(&self, quote: Quote) -> Quotation {
        let mut places = [0; MAX_STATES];
        let mut out = [0; 4];
        let answer = unsafe {
            quote(
                self.counts.as_ptr(),
                self.counts.len(),
                self.states.as_ptr(),
                self.states.len(),
                self.fields.as_ptr(),
                self.fields.len(),
                places.as_mut_ptr(),
                places.len(),
                out.as_mut_ptr(),
                out.len(),
            )
        };
        assert_eq!(answer, ACCEPTED, "a plan within the limits is quoted");
        Quotation::of(out, places)
    }

    fn count_for(&self, quote: CountFor, team: u32) -> Result<Quotation, Refusal> {
        let mut places = [0; MAX_STATES];
        let mut out = [0; 4];
        let answer = unsafe {
            quote(
                self.counts.as_ptr(),
                self.counts.len(),
                self.states.as_ptr(),
                self.states.len(),
                self.fields.as_ptr(),
                self.fields.len(),
                team,
                places.as_mut_ptr(),
                places.len(),
                out.as_mut_ptr(),
                out.len(),
            )
        };
        accepted(answer).map(|_| Quotation::of(out, places))
    }
}

impl Plan {
    /// The marks and the teams of the states, as far as their count goes.
    fn state_parts(&self) -> [&[u8]; 2] {
        [0, 1].map(|i| &self.states[i * MAX_STATES..][..self.states()])
    }

    /// The four fields of the transitions, as far as their count goes.
    fn parts(&self) -> [&[u16]; 4] {
        [0, 1, 2, 3].map(|i| &self.fields[i * MAX_TRANSITIONS..][..self.transitions()])
    }
}

impl PartialEq for Plan {
    fn eq(&self, other: &Plan) -> bool {
        self.state_parts() == other.state_parts() && self.parts() == other.parts()
    }
}

impl Eq for Plan {}

impl Hash for Plan {
    fn hash<H: Hasher>(&self, state: &mut H) {
        self.state_parts().hash(state);
        self.parts().hash(state);
    }
}

impl fmt::Debug for Plan {
    fn fmt(&self, f: &mut fmt::Formatter) -> fmt::Result {
        f.debug_struct("Plan")
            .field("states", &self.states())
            .field("transitions", &self.transitions())
            .finish_non_exhaustive()
    }
}

/// Reads an image and quotes its least delay, greatest delay, least count and greatest count.
///
/// # Errors
///
/// Those of [`Plan::from_image`].
pub fn quote(octets: &[u8]) -> Result<[Quotation; 4], Refusal> {
    check_version();
    let mut walks = [[0; MAX_STATES]; 4];
    let mut out = [[0; 4]; 4];
    // SAFETY: as of the calls of a plan.
    let answer = unsafe {
        archive::callplan_lent_quote(
            octets.as_ptr(),
            octets.len(),
            walks.as_flattened_mut().as_mut_ptr(),
            walks.as_flattened().len(),
            out.as_flattened_mut().as_mut_ptr(),
            out.as_flattened().len(),
        )
    };
    accepted(answer).map(|_| [0, 1, 2, 3].map(|i: usize| Quotation::of(out[i], walks[i])))
}

/// In a debug build: the archive is the one that this crate is for.
fn check_version() {
    debug_assert_eq!(
        version().number(),
        VERSION_NUMBER,
        "libcallplan.a is of another version than the crate"
    );
}

/// What an answer of the archive says: accepted, with a length from the calls that have one, or
/// refused.
fn accepted(answer: u32) -> Result<usize, Refusal> {
    match answer.checked_sub(ACCEPTED) {
        Some(length) => Ok(length as usize),
        None => Err(Refusal::of(answer)),
    }
}
