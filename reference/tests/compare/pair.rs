//! The two calculators side by side: each call is made on both, and what they did is compared.

use reference::aldebaran;
use reference::image::decode;
use reference::proved::{LentPlan, ACCEPTED, COUNTS, FIELDS, STATES};
use reference::{Plan, Refusal, Transition, MAX_STATES, MAX_TRANSITIONS};

use reference::rng::Rng;

/// A call with its arguments.
#[derive(Clone, Debug)]
pub enum Call {
    Fresh(usize),
    /// A plan made from a seed, with so many states and transitions.
    Generate(u32, usize, usize),
    /// A plan made from an image alone.
    FromImage(Vec<u8>),
    Mark(usize, u32),
    Team(usize, u32),
    Join(Transition),
    Unjoin(usize),
    Read(Vec<u8>),
    Import(Vec<u8>),
    /// With what the lent buffer holds before the call.
    Write(Vec<u8>),
    /// The same.
    Export(Vec<u8>),
}

impl Call {
    pub fn name(&self) -> &'static str {
        match self {
            Call::Fresh(_) => "fresh",
            Call::Generate(..) => "generate",
            Call::FromImage(_) => "from_image",
            Call::Mark(..) => "mark",
            Call::Team(..) => "team",
            Call::Join(_) => "join",
            Call::Unjoin(_) => "unjoin",
            Call::Read(_) => "read",
            Call::Import(_) => "import",
            Call::Write(_) => "write",
            Call::Export(_) => "export",
        }
    }
}

/// The reference's plan, and the slices that hold the same plan for the proved library.
#[derive(Clone)]
pub struct Pair {
    plan: Plan,
    lent: LentPlan,
}

impl Pair {
    /// No plan yet: slices with up to 3 places more than a plan's, all of them random.
    pub fn noise(rng: &mut Rng) -> Pair {
        let more = rng.below(4);
        let lent = LentPlan {
            counts: (0..COUNTS + more).map(|_| rng.next() as usize).collect(),
            states: rng.octets(STATES + more),
            fields: (0..FIELDS + more).map(|_| rng.next() as u16).collect(),
        };
        let plan = lent.plan();
        Pair { plan, lent }
    }

    /// A fresh plan of `n` states, with noise past the counts.
    pub fn fresh(rng: &mut Rng, n: usize) -> Pair {
        let mut pair = Pair::noise(rng);
        assert_eq!(pair.run(&Call::Fresh(n)), ACCEPTED);
        pair.fill_past_counts(rng);
        pair
    }

    pub fn plan(&self) -> &Plan {
        &self.plan
    }

    pub fn lent(&self) -> &LentPlan {
        &self.lent
    }

    pub fn image_length(&self) -> usize {
        reference::image::length(self.plan.states.len(), self.plan.transitions.len())
    }

    /// The length of the plan's text, or of no text in particular where it has none.
    pub fn text_length(&self) -> usize {
        if !self.plan.within_limits() {
            return 40;
        }
        aldebaran::encode(&self.plan).map_or(40, |text| text.len())
    }

    /// Alters the lent slices by hand. The reference then takes the plan that they hold.
    pub fn by_hand(&mut self, change: impl FnOnce(&mut LentPlan)) {
        change(&mut self.lent);
        self.plan = self.lent.plan();
    }

    /// Fills the places of the plan past the counts with noise, which is no part of the plan.
    pub fn fill_past_counts(&mut self, rng: &mut Rng) {
        let n = self.plan.states.len();
        let m = self.plan.transitions.len();
        // The marks values, the teams, and what is past both.
        let lent = self.lent.states.len();
        for place in (n..MAX_STATES).chain(MAX_STATES + n..lent) {
            self.lent.states[place] = rng.next() as u8;
        }
        for field in 0..4 {
            for number in m..MAX_TRANSITIONS {
                self.lent.fields[field * MAX_TRANSITIONS + number] = rng.next() as u16;
            }
        }
        assert!(self.plan == self.lent.plan());
    }

    /// Makes the call on both, compares the answers, the plans and every lent place, and returns
    /// the answer.
    pub fn run(&mut self, call: &Call) -> u32 {
        let before = self.lent.clone();
        let (expected, answer) = match call {
            Call::Fresh(n) => {
                let fresh = Plan::fresh(*n).map(|plan| self.plan = plan);
                (number(fresh), self.lent.fresh(*n))
            }
            Call::Generate(seed, n, m) => {
                let made = Plan::generate(*seed, *n, *m).map(|plan| self.plan = plan);
                (number(made), self.lent.generate(*seed, *n, *m))
            }
            Call::FromImage(octets) => {
                let made = decode(octets).map(|plan| self.plan = plan);
                (number(made), self.lent.make(octets))
            }
            Call::Mark(state, value) => (
                number(self.plan.mark(*state, *value)),
                self.lent.mark(*state, *value),
            ),
            Call::Team(state, team) => (
                number(self.plan.team(*state, *team)),
                self.lent.team(*state, *team),
            ),
            Call::Join(transition) => (
                number(self.plan.join(*transition)),
                self.lent.join(*transition),
            ),
            Call::Unjoin(place) => (number(self.plan.unjoin(*place)), self.lent.unjoin(*place)),
            Call::Read(octets) => {
                let lent = octets.clone();
                let answer = self.lent.read(&lent);
                assert!(lent == *octets, "the octets changed in {call:?}");
                (number(self.plan.read(octets)), answer)
            }
            Call::Import(text) => {
                let lent = text.clone();
                let answer = self.lent.import(&lent);
                assert!(lent == *text, "the text changed in {call:?}");
                (number(self.plan.import(text)), answer)
            }
            Call::Write(buffer) | Call::Export(buffer) => {
                let mut expected_buffer = buffer.clone();
                let mut lent_buffer = buffer.clone();
                let (expected, answer) = match call {
                    Call::Write(_) => (
                        self.plan.write(&mut expected_buffer),
                        self.lent.write(&mut lent_buffer),
                    ),
                    _ => (
                        self.plan.export(&mut expected_buffer),
                        self.lent.export(&mut lent_buffer),
                    ),
                };
                assert!(lent_buffer == expected_buffer, "buffers after {call:?}");
                assert!(self.lent == before, "the plan slices changed in {call:?}");
                let expected = match expected {
                    Ok(length) => ACCEPTED + length as u32,
                    Err(refusal) => refusal.number(),
                };
                (expected, answer)
            }
        };

        assert_eq!(answer, expected, "answers to {call:?}");
        if answer < ACCEPTED {
            assert!(self.lent == before, "a lent place changed in {call:?}");
        } else {
            assert!(self.lent.plan() == self.plan, "plans after {call:?}");
            let mut expected = before;
            if let Call::Fresh(_) | Call::Generate(..) | Call::FromImage(_) = call {
                expected.states[..STATES].fill(0);
                expected.fields[..FIELDS].fill(0);
            }
            expected.hold(&self.plan);
            assert!(self.lent == expected, "places past the plan after {call:?}");
        }
        answer
    }
}

/// What the library answers where the reference gives this result.
fn number(result: Result<(), Refusal>) -> u32 {
    match result {
        Ok(()) => ACCEPTED,
        Err(refusal) => refusal.number(),
    }
}
