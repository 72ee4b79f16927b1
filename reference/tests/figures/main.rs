//! The four figures by every means at hand: the walks listed, rounds, the benchmark's baseline, and
//! with the feature `quotations` the proved library. They must agree, and every walk shown must be
//! one that document 01 asks for.

#[path = "../../benches/quote/baseline.rs"]
mod baseline;
mod bench;
#[path = "../../benches/quote/shapes.rs"]
mod bench_shapes;
mod full;
mod known;
#[cfg(feature = "quotations")]
mod lent;
#[cfg(feature = "quotations")]
mod library;
mod means;
#[cfg(feature = "program")]
mod program;
mod random;
mod shapes;
mod small;
#[path = "../vectors/mod.rs"]
mod vectors;
