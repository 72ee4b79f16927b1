//! Compares the reference calculator with the proved library: answers, plans and buffers.

mod calls;
mod edges;
#[path = "../ends/mod.rs"]
mod ends;
mod generate;
mod generated;
mod images;
#[cfg(feature = "quotations")]
#[path = "../figures/library.rs"]
mod library;
#[cfg(feature = "quotations")]
mod lists;
mod pair;
#[cfg(feature = "quotations")]
mod quotations;
#[path = "../seeds/mod.rs"]
mod seeds;
mod taken;
mod tally;
mod text;
#[path = "../texts/mod.rs"]
mod texts;
#[path = "../vectors/mod.rs"]
mod vectors;
mod wrong;
