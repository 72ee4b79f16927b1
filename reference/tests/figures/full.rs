//! Plans of the largest size.

use reference::kinds::Kinds;
use reference::rng::Case;
use reference::{MAX_STATES, MAX_TRANSITIONS};

use crate::random::compare_shape;
use crate::shapes::SHAPES;

const SEED: u64 = 0x0000_F011;
const PLANS: u64 = 1056;

#[test]
fn full_plans() {
    let mut kinds = Kinds::default();
    for number in 0..PLANS {
        let case = Case { seed: SEED, number };
        let mut rng = case.rng();
        let shape = &SHAPES[number as usize % SHAPES.len()];
        compare_shape(
            &mut rng,
            shape,
            MAX_STATES,
            MAX_TRANSITIONS,
            &mut [&mut kinds],
        );
    }
    kinds.print(&format!(
        "full plans: seed {SEED:#x}, {PLANS} plans of {MAX_STATES} states and {MAX_TRANSITIONS} \
         transitions"
    ));
    kinds.assert_covers();
}
