//! The plans that the benchmark times, with the kinds that they are to have.

use reference::rng::{print, Case};
use reference::{values, Value};

use crate::bench_shapes::SHAPES;
use crate::means::compare;

const SEED: u64 = 0x0000_BE7C;

/// Whether the greatest delay and the greatest count of a shape's plans are ENDLESS. Otherwise they
/// are numbers.
fn are_endless(name: &str) -> [bool; 2] {
    match name {
        "random with loops" => [true, true],
        "acyclic, open rings" => [true, false],
        _ => [false, false],
    }
}

#[test]
fn the_benchmarks_plans() {
    print(&format!("the_benchmarks_plans: seed {SEED:#x}\n"));
    for (number, shape) in (0..).zip(&SHAPES) {
        let case = Case { seed: SEED, number };
        let mut rng = case.rng();
        for (n, m) in [(16, 40), (32, 128), (64, 256), (128, 512), (512, 2048)] {
            let plan = shape.draw(&mut rng, n, m);
            let values = values(&compare(&mut rng, &plan));
            print(&format!("  {} of {n} states: {values:?}\n", shape.name));
            for (is_endless, value) in are_endless(shape.name)
                .into_iter()
                .zip([values[1], values[3]])
            {
                let holds = match value {
                    Value::Endless => is_endless,
                    Value::Number(_) => !is_endless,
                    _ => false,
                };
                assert!(holds, "{} of {n} states: {value:?}", shape.name);
            }
        }
    }
}
