//! A second call plan calculator, written from documents 01 and 02 alone.
//!
//! It states the rules once more, in plain Rust: what a plan is, the calls on it, the image and the
//! Aldebaran text both ways, plans made from a seed, the four figures with the walks shown, the counts
//! for classes of teams, the record, and the refusals.
//! The tests compare it with the proved library.

pub mod aldebaran;
pub mod bits;
pub mod check;
pub mod class;
pub mod figure;
pub mod generate;
pub mod image;
pub mod kinds;
pub mod plan;
#[cfg(feature = "proved")]
pub mod proved;
pub mod quotation;
pub mod refusal;
pub mod rng;
pub mod rounds;
pub mod text;
pub mod walks;

pub use figure::{values, Asked, Figure, Quotation, Value, FIGURES};
pub use plan::{
    Duration, Plan, State, Transition, MAX_CLOSED_HIGH, MAX_DURATION, MAX_MARKS, MAX_STATES,
    MAX_TEAM, MAX_TRANSITIONS, OPEN_HIGH,
};
pub use refusal::Refusal;
