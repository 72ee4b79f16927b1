//! The proved library, called through its static archive.
//!
//! A plan crosses the boundary as three lent slices. `checks/header.py` compares the declarations
//! here with the library's source.

#[cfg(feature = "quotations")]
use crate::figure::{Asked, Figure};
use crate::plan::{Plan, State, Transition, MAX_STATES, MAX_TRANSITIONS};

/// Places of a plan in `counts`: the state count and the transition count.
pub const COUNTS: usize = 2;
/// Places of a plan in `states`: all marks values, then all teams.
pub const STATES: usize = 2 * MAX_STATES;
/// Places of a plan in `fields`: all from states, then all to states, lows and highs.
pub const FIELDS: usize = 4 * MAX_TRANSITIONS;

/// The answer where the slices of a list of calls are none: there is no list to look at.
pub const NO_CALLS: u32 = 254;
/// The answer where the three slices of a plan have too few places: there is no plan to look at.
pub const SHORT_SLICE: u32 = 255;
/// The answer of an accepted call. Write, export and record add the length. A refusal is below 254.
pub const ACCEPTED: u32 = 256;

/// Places of a quotation in `out`: the kind, the figure, k and j.
pub const OUT: usize = 4;
/// Places of the four walks in `walks`: one after another, each with a place for every state.
pub const WALKS: usize = 4 * MAX_STATES;

extern "C" {
    fn callplan_lent_version() -> u32;

    fn callplan_lent_fresh(
        n: usize,
        counts: *mut usize,
        counts_len: usize,
        states: *mut u8,
        states_len: usize,
        fields: *mut u16,
        fields_len: usize,
    ) -> u32;

    fn callplan_lent_generate(
        seed: u32,
        n: usize,
        m: usize,
        counts: *mut usize,
        counts_len: usize,
        states: *mut u8,
        states_len: usize,
        fields: *mut u16,
        fields_len: usize,
    ) -> u32;

    fn callplan_lent_from_image(
        octets: *const u8,
        octets_len: usize,
        counts: *mut usize,
        counts_len: usize,
        states: *mut u8,
        states_len: usize,
        fields: *mut u16,
        fields_len: usize,
    ) -> u32;

    fn callplan_lent_mark(
        counts: *mut usize,
        counts_len: usize,
        states: *mut u8,
        states_len: usize,
        fields: *mut u16,
        fields_len: usize,
        state: usize,
        value: u32,
    ) -> u32;

    fn callplan_lent_team(
        counts: *mut usize,
        counts_len: usize,
        states: *mut u8,
        states_len: usize,
        fields: *mut u16,
        fields_len: usize,
        state: usize,
        team: u32,
    ) -> u32;

    fn callplan_lent_join(
        counts: *mut usize,
        counts_len: usize,
        states: *mut u8,
        states_len: usize,
        fields: *mut u16,
        fields_len: usize,
        from: usize,
        to: usize,
        low: u32,
        high: u32,
    ) -> u32;

    fn callplan_lent_unjoin(
        counts: *mut usize,
        counts_len: usize,
        states: *mut u8,
        states_len: usize,
        fields: *mut u16,
        fields_len: usize,
        number: usize,
    ) -> u32;

    fn callplan_lent_read(
        counts: *mut usize,
        counts_len: usize,
        states: *mut u8,
        states_len: usize,
        fields: *mut u16,
        fields_len: usize,
        octets: *const u8,
        octets_len: usize,
    ) -> u32;

    fn callplan_lent_write(
        counts: *const usize,
        counts_len: usize,
        states: *const u8,
        states_len: usize,
        fields: *const u16,
        fields_len: usize,
        buffer: *mut u8,
        buffer_len: usize,
    ) -> u32;

    fn callplan_lent_import(
        counts: *mut usize,
        counts_len: usize,
        states: *mut u8,
        states_len: usize,
        fields: *mut u16,
        fields_len: usize,
        text: *const u8,
        text_len: usize,
    ) -> u32;

    fn callplan_lent_export(
        counts: *const usize,
        counts_len: usize,
        states: *const u8,
        states_len: usize,
        fields: *const u16,
        fields_len: usize,
        buffer: *mut u8,
        buffer_len: usize,
    ) -> u32;
}

#[cfg(feature = "quotations")]
extern "C" {
    fn callplan_lent_least_delay(
        counts: *const usize,
        counts_len: usize,
        states: *const u8,
        states_len: usize,
        fields: *const u16,
        fields_len: usize,
        walk: *mut u16,
        walk_len: usize,
        out: *mut u32,
        out_len: usize,
    ) -> u32;

    fn callplan_lent_greatest_delay(
        counts: *const usize,
        counts_len: usize,
        states: *const u8,
        states_len: usize,
        fields: *const u16,
        fields_len: usize,
        walk: *mut u16,
        walk_len: usize,
        out: *mut u32,
        out_len: usize,
    ) -> u32;

    fn callplan_lent_least_count(
        counts: *const usize,
        counts_len: usize,
        states: *const u8,
        states_len: usize,
        fields: *const u16,
        fields_len: usize,
        walk: *mut u16,
        walk_len: usize,
        out: *mut u32,
        out_len: usize,
    ) -> u32;

    fn callplan_lent_greatest_count(
        counts: *const usize,
        counts_len: usize,
        states: *const u8,
        states_len: usize,
        fields: *const u16,
        fields_len: usize,
        walk: *mut u16,
        walk_len: usize,
        out: *mut u32,
        out_len: usize,
    ) -> u32;

    fn callplan_lent_least_count_for(
        counts: *const usize,
        counts_len: usize,
        states: *const u8,
        states_len: usize,
        fields: *const u16,
        fields_len: usize,
        team: u32,
        walk: *mut u16,
        walk_len: usize,
        out: *mut u32,
        out_len: usize,
    ) -> u32;

    fn callplan_lent_greatest_count_for(
        counts: *const usize,
        counts_len: usize,
        states: *const u8,
        states_len: usize,
        fields: *const u16,
        fields_len: usize,
        team: u32,
        walk: *mut u16,
        walk_len: usize,
        out: *mut u32,
        out_len: usize,
    ) -> u32;

    fn callplan_lent_record(
        counts: *const usize,
        counts_len: usize,
        states: *const u8,
        states_len: usize,
        fields: *const u16,
        fields_len: usize,
        buffer: *mut u8,
        buffer_len: usize,
    ) -> u32;

    fn callplan_lent_quote(
        octets: *const u8,
        octets_len: usize,
        walks: *mut u16,
        walks_len: usize,
        out: *mut u32,
        out_len: usize,
    ) -> u32;

    fn callplan_lent_replay(
        n: usize,
        kinds: *const u8,
        kinds_len: usize,
        arguments: *const usize,
        arguments_len: usize,
        octets: *const u8,
        octets_len: usize,
        answers: *mut u32,
        answers_len: usize,
        counts: *mut usize,
        counts_len: usize,
        states: *mut u8,
        states_len: usize,
        fields: *mut u16,
        fields_len: usize,
        walks: *mut u16,
        walks_len: usize,
        out: *mut u32,
        out_len: usize,
    ) -> u32;
}

/// The slices that hold a plan for the library. They may be of any length: the library refuses
/// short ones, and leaves the places past those of a plan as they are.
#[derive(Clone, Debug, PartialEq, Eq)]
pub struct LentPlan {
    pub counts: Vec<usize>,
    pub states: Vec<u8>,
    pub fields: Vec<u16>,
}

// SAFETY, of each call: the pointers and lengths are those of slices that live through it, and
// those that it may write to are borrowed for it alone. The library asks nothing else of them.
impl LentPlan {
    /// Slices of exactly a plan's places, all zero.
    pub fn zeroed() -> LentPlan {
        LentPlan {
            counts: vec![0; COUNTS],
            states: vec![0; STATES],
            fields: vec![0; FIELDS],
        }
    }

    pub fn fresh(&mut self, n: usize) -> u32 {
        unsafe {
            callplan_lent_fresh(
                n,
                self.counts.as_mut_ptr(),
                self.counts.len(),
                self.states.as_mut_ptr(),
                self.states.len(),
                self.fields.as_mut_ptr(),
                self.fields.len(),
            )
        }
    }

    /// The plan that a seed makes, whatever the slices hold.
    pub fn generate(&mut self, seed: u32, n: usize, m: usize) -> u32 {
        unsafe {
            callplan_lent_generate(
                seed,
                n,
                m,
                self.counts.as_mut_ptr(),
                self.counts.len(),
                self.states.as_mut_ptr(),
                self.states.len(),
                self.fields.as_mut_ptr(),
                self.fields.len(),
            )
        }
    }

    /// The plan of an image, whatever the slices hold.
    pub fn make(&mut self, octets: &[u8]) -> u32 {
        unsafe {
            callplan_lent_from_image(
                octets.as_ptr(),
                octets.len(),
                self.counts.as_mut_ptr(),
                self.counts.len(),
                self.states.as_mut_ptr(),
                self.states.len(),
                self.fields.as_mut_ptr(),
                self.fields.len(),
            )
        }
    }

    pub fn mark(&mut self, state: usize, value: u32) -> u32 {
        unsafe {
            callplan_lent_mark(
                self.counts.as_mut_ptr(),
                self.counts.len(),
                self.states.as_mut_ptr(),
                self.states.len(),
                self.fields.as_mut_ptr(),
                self.fields.len(),
                state,
                value,
            )
        }
    }

    pub fn team(&mut self, state: usize, team: u32) -> u32 {
        unsafe {
            callplan_lent_team(
                self.counts.as_mut_ptr(),
                self.counts.len(),
                self.states.as_mut_ptr(),
                self.states.len(),
                self.fields.as_mut_ptr(),
                self.fields.len(),
                state,
                team,
            )
        }
    }

    pub fn join(&mut self, transition: Transition) -> u32 {
        unsafe {
            callplan_lent_join(
                self.counts.as_mut_ptr(),
                self.counts.len(),
                self.states.as_mut_ptr(),
                self.states.len(),
                self.fields.as_mut_ptr(),
                self.fields.len(),
                transition.from,
                transition.to,
                transition.low,
                transition.high,
            )
        }
    }

    pub fn unjoin(&mut self, number: usize) -> u32 {
        unsafe {
            callplan_lent_unjoin(
                self.counts.as_mut_ptr(),
                self.counts.len(),
                self.states.as_mut_ptr(),
                self.states.len(),
                self.fields.as_mut_ptr(),
                self.fields.len(),
                number,
            )
        }
    }

    pub fn read(&mut self, octets: &[u8]) -> u32 {
        unsafe {
            callplan_lent_read(
                self.counts.as_mut_ptr(),
                self.counts.len(),
                self.states.as_mut_ptr(),
                self.states.len(),
                self.fields.as_mut_ptr(),
                self.fields.len(),
                octets.as_ptr(),
                octets.len(),
            )
        }
    }

    pub fn write(&self, buffer: &mut [u8]) -> u32 {
        unsafe {
            callplan_lent_write(
                self.counts.as_ptr(),
                self.counts.len(),
                self.states.as_ptr(),
                self.states.len(),
                self.fields.as_ptr(),
                self.fields.len(),
                buffer.as_mut_ptr(),
                buffer.len(),
            )
        }
    }

    pub fn import(&mut self, text: &[u8]) -> u32 {
        unsafe {
            callplan_lent_import(
                self.counts.as_mut_ptr(),
                self.counts.len(),
                self.states.as_mut_ptr(),
                self.states.len(),
                self.fields.as_mut_ptr(),
                self.fields.len(),
                text.as_ptr(),
                text.len(),
            )
        }
    }

    pub fn export(&self, buffer: &mut [u8]) -> u32 {
        unsafe {
            callplan_lent_export(
                self.counts.as_ptr(),
                self.counts.len(),
                self.states.as_ptr(),
                self.states.len(),
                self.fields.as_ptr(),
                self.fields.len(),
                buffer.as_mut_ptr(),
                buffer.len(),
            )
        }
    }

    /// Puts a plan within the limits into the slices. The places past its counts stay.
    pub fn hold(&mut self, plan: &Plan) {
        self.counts[..COUNTS].copy_from_slice(&[plan.states.len(), plan.transitions.len()]);
        for (number, state) in plan.states.iter().enumerate() {
            self.states[number] = state.marks;
            self.states[MAX_STATES + number] = state.team;
        }
        for (number, transition) in plan.transitions.iter().enumerate() {
            self.fields[number] = transition.from as u16;
            self.fields[MAX_TRANSITIONS + number] = transition.to as u16;
            self.fields[2 * MAX_TRANSITIONS + number] = transition.low as u16;
            self.fields[3 * MAX_TRANSITIONS + number] = transition.high as u16;
        }
    }

    /// The plan that the slices hold, up to the counts. They must have a plan's places.
    ///
    /// A count above its limit has no places to stand for; the plan returned is then one over that
    /// limit, which breaks it just the same.
    pub fn plan(&self) -> Plan {
        let n = self.counts[0].min(MAX_STATES + 1);
        let m = self.counts[1].min(MAX_TRANSITIONS + 1);

        let mut states: Vec<State> = (0..n.min(MAX_STATES))
            .map(|number| State {
                marks: self.states[number],
                team: self.states[MAX_STATES + number],
            })
            .collect();
        states.resize(n, State::default());

        let mut transitions: Vec<Transition> = (0..m.min(MAX_TRANSITIONS))
            .map(|number| Transition {
                from: usize::from(self.fields[number]),
                to: usize::from(self.fields[MAX_TRANSITIONS + number]),
                low: u32::from(self.fields[2 * MAX_TRANSITIONS + number]),
                high: u32::from(self.fields[3 * MAX_TRANSITIONS + number]),
            })
            .collect();
        let blank = Transition {
            from: 0,
            to: 0,
            low: 0,
            high: 0,
        };
        transitions.resize(m, blank);

        Plan {
            states,
            transitions,
        }
    }
}

#[cfg(feature = "quotations")]
impl LentPlan {
    /// Quotes a figure, or a count for a class, the walk into `walk` and the rest of the answer into
    /// `out`.
    pub fn quote(&self, asked: impl Into<Asked>, walk: &mut [u16], out: &mut [u32]) -> u32 {
        let asked = asked.into();
        match asked.team {
            Some(team) => self.quote_class(asked.figure, team, walk, out),
            None => self.quote_figure(asked.figure, walk, out),
        }
    }

    fn quote_class(&self, figure: Figure, team: u32, walk: &mut [u16], out: &mut [u32]) -> u32 {
        let call = match figure {
            Figure::LeastCount => callplan_lent_least_count_for,
            Figure::GreatestCount => callplan_lent_greatest_count_for,
            _ => panic!("a delay is for no class"),
        };
        unsafe {
            call(
                self.counts.as_ptr(),
                self.counts.len(),
                self.states.as_ptr(),
                self.states.len(),
                self.fields.as_ptr(),
                self.fields.len(),
                team,
                walk.as_mut_ptr(),
                walk.len(),
                out.as_mut_ptr(),
                out.len(),
            )
        }
    }

    fn quote_figure(&self, figure: Figure, walk: &mut [u16], out: &mut [u32]) -> u32 {
        let call = match figure {
            Figure::LeastDelay => callplan_lent_least_delay,
            Figure::GreatestDelay => callplan_lent_greatest_delay,
            Figure::LeastCount => callplan_lent_least_count,
            Figure::GreatestCount => callplan_lent_greatest_count,
        };
        unsafe {
            call(
                self.counts.as_ptr(),
                self.counts.len(),
                self.states.as_ptr(),
                self.states.len(),
                self.fields.as_ptr(),
                self.fields.len(),
                walk.as_mut_ptr(),
                walk.len(),
                out.as_mut_ptr(),
                out.len(),
            )
        }
    }

    pub fn record(&self, buffer: &mut [u8]) -> u32 {
        unsafe {
            callplan_lent_record(
                self.counts.as_ptr(),
                self.counts.len(),
                self.states.as_ptr(),
                self.states.len(),
                self.fields.as_ptr(),
                self.fields.len(),
                buffer.as_mut_ptr(),
                buffer.len(),
            )
        }
    }
}

/// A list of calls, as it is lent: for each call a kind and four arguments, and the octets of the
/// reads and imports.
#[derive(Clone, Debug, Default, PartialEq, Eq)]
pub struct LentCalls {
    pub kinds: Vec<u8>,
    pub arguments: Vec<usize>,
    pub octets: Vec<u8>,
}

/// Makes a list of calls from a fresh plan of `n` states, stores the plan after it in `lent`, and
/// quotes its four figures as `quote` does. Each call has a place of `answers`.
#[cfg(feature = "quotations")]
pub fn replay(
    n: usize,
    calls: &LentCalls,
    answers: &mut [u32],
    lent: &mut LentPlan,
    walks: &mut [u16],
    out: &mut [u32],
) -> u32 {
    unsafe {
        callplan_lent_replay(
            n,
            calls.kinds.as_ptr(),
            calls.kinds.len(),
            calls.arguments.as_ptr(),
            calls.arguments.len(),
            calls.octets.as_ptr(),
            calls.octets.len(),
            answers.as_mut_ptr(),
            answers.len(),
            lent.counts.as_mut_ptr(),
            lent.counts.len(),
            lent.states.as_mut_ptr(),
            lent.states.len(),
            lent.fields.as_mut_ptr(),
            lent.fields.len(),
            walks.as_mut_ptr(),
            walks.len(),
            out.as_mut_ptr(),
            out.len(),
        )
    }
}

/// Reads an image and quotes its four figures, with walks and answers one after another: 512
/// places of `walks` and 4 of `out` for each.
#[cfg(feature = "quotations")]
pub fn quote(octets: &[u8], walks: &mut [u16], out: &mut [u32]) -> u32 {
    unsafe {
        callplan_lent_quote(
            octets.as_ptr(),
            octets.len(),
            walks.as_mut_ptr(),
            walks.len(),
            out.as_mut_ptr(),
            out.len(),
        )
    }
}

/// The version of the library.
pub fn version() -> u32 {
    // SAFETY: it takes nothing and touches nothing.
    unsafe { callplan_lent_version() }
}
