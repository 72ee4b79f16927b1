//! Plans lent to the proved library, and the lines that its answers make.

use reference::image::encode;
use reference::proved::{self, LentPlan, ACCEPTED, COUNTS, FIELDS, OUT, STATES, WALKS};
use reference::quotation::RECORD_OCTETS;
use reference::rng::Rng;
use reference::{text, Figure, Plan, Value, FIGURES, MAX_STATES};

use crate::known::{answered_returns, known, open_reached, p10, ring, P1_LINES};
use crate::library;
use crate::vectors::P1;

/// Slices that hold the plan, with up to 2 places more than a plan's and noise past its counts.
pub fn lend(rng: &mut Rng, plan: &Plan) -> LentPlan {
    let more = rng.below(3);
    let mut lent = LentPlan {
        counts: (0..COUNTS + more).map(|_| rng.next() as usize).collect(),
        states: rng.octets(STATES + more),
        fields: (0..FIELDS + more).map(|_| rng.next() as u16).collect(),
    };
    lent.hold(plan);
    lent
}

/// Quotes the plan's image, and makes one of the other calls. The counts for the class of the team are
/// those of the plan.
pub fn compare_some(rng: &mut Rng, lent: &LentPlan, plan: &Plan, values: &[Value; 4], team: u32) {
    library::quote_image(rng, &encode(plan), Ok((plan, values)));
    let places = plan.states.len();
    match rng.below(FIGURES.len() + 3) {
        0 => {
            library::record(rng, lent, plan, RECORD_OCTETS);
        }
        choice @ 1..=4 => {
            let figure = FIGURES[choice - 1];
            let value = values[figure as usize];
            library::quote(rng, lent, plan, figure, places, Ok(value));
        }
        choice => {
            let figure = FIGURES[choice - 3];
            let value = values[figure as usize];
            let asked = figure.for_class_of(team);
            library::quote(rng, lent, plan, asked, places, Ok(value));
        }
    }
}

/// The lines that the library's answers make.
fn lines(octets: &[u8], values: [Value; 4]) -> String {
    let (mut walks, mut out) = ([0; WALKS], [0; 4 * OUT]);
    assert_eq!(proved::quote(octets, &mut walks, &mut out), ACCEPTED);
    let line = |figure: Figure| {
        let place = figure as usize;
        let (walk, out) = (&walks[MAX_STATES * place..], &out[OUT * place..]);
        text::line(figure, &library::shown(values[place], walk, out))
    };
    FIGURES.map(line).concat()
}

#[test]
fn the_librarys_lines() {
    assert_eq!(lines(&P1, known()[0].2), P1_LINES);
    // These show the whole chain, since there is no other route.
    let octets = encode(&p10());
    let delay = Value::Number(1_045_506);
    let values = [delay, delay, Value::Number(0), Value::Number(0)];
    assert_eq!(lines(&octets, values), text::quote(&octets));
    // And here no other walk takes the open transition.
    let octets = encode(&open_reached());
    let one = Value::Number(1);
    let values = [Value::Number(2), Value::Endless, one, one];
    assert_eq!(lines(&octets, values), text::quote(&octets));
    // The routes that end where they began: of one transition, and of as many as there can be.
    let octets = encode(&answered_returns());
    let values = [3, 4, 2, 2].map(Value::Number);
    assert_eq!(lines(&octets, values), text::quote(&octets));
    let octets = encode(&ring(2046));
    let values = [1_047_552, 1_047_552, 513, 513].map(Value::Number);
    assert_eq!(lines(&octets, values), text::quote(&octets));
}
