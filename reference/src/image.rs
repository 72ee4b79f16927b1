//! The image of a plan, both ways. Versions 1 and 2 are read, and version 2 is written (document 02,
//! E4).

use crate::bits::{BitReader, BitWriter};
use crate::plan::{Plan, State, Transition, MAX_STATES, MAX_TRANSITIONS};
use crate::refusal::{require, Refusal};

const HEADER_OCTETS: usize = 4;
/// The version without teams: the last five bits of a state are spare, and zero.
const TEAMLESS: u32 = 1;
/// The version that is written: they are the state's team.
const VERSION: u32 = 2;

/// The length in octets of an image with `n` states and `m` transitions.
pub fn length(n: usize, m: usize) -> usize {
    HEADER_OCTETS + n + 5 * m
}

impl Plan {
    /// Replaces the whole plan by the one that the image holds.
    pub fn read(&mut self, octets: &[u8]) -> Result<(), Refusal> {
        self.require_limits()?;
        *self = decode(octets)?;
        Ok(())
    }

    /// Puts the image at the front of the buffer and returns its length. Later octets stay.
    pub fn write(&self, buffer: &mut [u8]) -> Result<usize, Refusal> {
        self.require_limits()?;
        let length = length(self.states.len(), self.transitions.len());
        require(buffer.len() >= length, Refusal::BufferTooShort)?;
        buffer[..length].copy_from_slice(&encode(self));
        Ok(length)
    }
}

/// The plan that an image holds, or the first ground for refusing it.
pub fn decode(octets: &[u8]) -> Result<Plan, Refusal> {
    decode_by(&mut BitReader::new(octets), octets.len())
}

/// How many bits are taken of an image until it is accepted or refused (document 02, E6).
pub fn bits_taken(octets: &[u8]) -> usize {
    let mut bits = BitReader::new(octets);
    let _ = decode_by(&mut bits, octets.len());
    bits.taken()
}

/// The plan in an image of so many octets, which the reader takes, or the first ground.
fn decode_by(bits: &mut BitReader, octets: usize) -> Result<Plan, Refusal> {
    require(octets >= HEADER_OCTETS, Refusal::ImageTooShort)?;

    let version = bits.take(4);
    let n = bits.take(10) as usize;
    let m = bits.take(12) as usize;
    let pad = bits.take(6);
    require([TEAMLESS, VERSION].contains(&version), Refusal::Version)?;
    require((1..=MAX_STATES).contains(&n), Refusal::StateCount)?;
    require(m <= MAX_TRANSITIONS, Refusal::TransitionCount)?;
    require(pad == 0, Refusal::SpareBit)?;
    require(octets >= length(n, m), Refusal::ImageTooShort)?;
    require(octets <= length(n, m), Refusal::ImageTooLong)?;

    let mut states = Vec::with_capacity(n);
    for _ in 0..n {
        let is_start = bits.take(1);
        let is_final = bits.take(1);
        let is_counted = bits.take(1);
        // In version 1 a team other than 0 is a spare bit that is set.
        let team = bits.take(5);
        require(version == VERSION || team == 0, Refusal::SpareBit)?;
        states.push(State {
            marks: (4 * is_start + 2 * is_final + is_counted) as u8,
            team: team as u8,
        });
    }

    let mut transitions = Vec::with_capacity(m);
    for _ in 0..m {
        let transition = Transition {
            from: bits.take(9) as usize,
            to: bits.take(9) as usize,
            low: bits.take(11),
            high: bits.take(11),
        };
        transition.require_limits(n)?;
        transitions.push(transition);
    }

    Ok(Plan {
        states,
        transitions,
    })
}

/// The image of a plan, which must be within the limits, of version 2.
pub fn encode(plan: &Plan) -> Vec<u8> {
    let n = plan.states.len();
    let m = plan.transitions.len();
    let mut bits = BitWriter::with_capacity(length(n, m));

    bits.put(4, VERSION);
    bits.put(10, n as u32);
    bits.put(12, m as u32);
    bits.put(6, 0);

    for state in &plan.states {
        let marks = u32::from(state.marks);
        bits.put(1, marks / 4);
        bits.put(1, marks / 2 % 2);
        bits.put(1, marks % 2);
        bits.put(5, u32::from(state.team));
    }

    for transition in &plan.transitions {
        bits.put(9, transition.from as u32);
        bits.put(9, transition.to as u32);
        bits.put(11, transition.low);
        bits.put(11, transition.high);
    }

    bits.finish()
}
