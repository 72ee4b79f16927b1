//! The calls of the proved library that quote, held to the values that the second calculator
//! found. Every lent place is compared.

use reference::check::check;
use reference::image::encode;
use reference::proved::{self, LentPlan, ACCEPTED, OUT, WALKS};
use reference::quotation::RECORD_OCTETS;
use reference::rng::Rng;
use reference::{Asked, Plan, Quotation, Refusal, Value, FIGURES, MAX_STATES};

/// Makes every call that quotes on the plan that the slices hold: buffers of n - 1, n or n + 1
/// places, and of 10, 11 or 12 octets.
pub fn compare(rng: &mut Rng, lent: &LentPlan, plan: &Plan, values: &[Value; 4]) {
    for figure in FIGURES {
        let n = plan.states.len();
        let places = n - 1 + rng.below(3);
        let expected = match places >= n {
            true => Ok(values[figure as usize]),
            false => Err(Refusal::BufferTooShort),
        };
        quote(rng, lent, plan, figure, places, expected);
    }
    let octets = RECORD_OCTETS - 1 + rng.below(3);
    record(rng, lent, plan, octets);
    quote_image(rng, &encode(plan), Ok((plan, values)));
}

/// One quotation into a buffer of so many places, with the value or the refusal that is expected.
pub fn quote(
    rng: &mut Rng,
    lent: &LentPlan,
    plan: &Plan,
    asked: impl Into<Asked>,
    places: usize,
    expected: Result<Value, Refusal>,
) {
    let asked = asked.into();
    let name = asked.name();
    let lent_before = lent.clone();
    let mut walk = vec![rng.next() as u16; places];
    let mut out = vec![rng.next() as u32; OUT + rng.below(3)];
    let (mut expected_walk, mut expected_out) = (walk.clone(), out.clone());

    // Too few places for the answer: the plan's refusal, the team's, or 11.
    let short = match expected {
        Err(refusal) => refusal,
        Ok(_) => Refusal::BufferTooShort,
    };
    let answer = lent.quote(asked, &mut walk, &mut out[..rng.below(OUT)]);
    assert_eq!(answer, short.number(), "{name}: a short answer");
    assert!(walk == expected_walk && out == expected_out, "a refusal");

    let answer = lent.quote(asked, &mut walk, &mut out);
    match expected {
        Err(refusal) => assert_eq!(answer, refusal.number(), "{name}, {places} places"),
        Ok(value) => {
            assert_eq!(answer, ACCEPTED, "{name} of {plan:?}");
            let k = assert_shown(plan, asked, value, &walk, &out);
            expected_walk[..k].copy_from_slice(&walk[..k]);
            expected_out[..OUT].copy_from_slice(&out[..OUT]);
        }
    }
    assert!(walk == expected_walk, "a place past the walk changed");
    assert!(out == expected_out, "a place past the answer changed");
    assert!(*lent == lent_before, "the plan slices changed");
}

/// The record into a buffer of so many octets, and its answer.
pub fn record(rng: &mut Rng, lent: &LentPlan, plan: &Plan, octets: usize) -> u32 {
    let lent_before = lent.clone();
    let mut buffer = rng.octets(octets);
    let mut expected_buffer = buffer.clone();
    let expected = match plan.record(&mut expected_buffer) {
        Ok(length) => ACCEPTED + length as u32,
        Err(refusal) => refusal.number(),
    };
    assert_eq!(lent.record(&mut buffer), expected, "the record of {plan:?}");
    assert_eq!(buffer, expected_buffer, "the record of {plan:?}");
    assert!(*lent == lent_before, "the plan slices changed");
    expected
}

/// All four figures of an image, or the refusal that is expected.
pub fn quote_image(rng: &mut Rng, octets: &[u8], expected: Result<(&Plan, &[Value; 4]), Refusal>) {
    let lent_octets = octets.to_vec();
    let mut walks = vec![rng.next() as u16; WALKS + rng.below(3)];
    let mut out = vec![rng.next() as u32; 4 * OUT + rng.below(3)];
    let (mut expected_walks, mut expected_out) = (walks.clone(), out.clone());

    let answer = proved::quote(&lent_octets, &mut walks, &mut out);
    match expected {
        Err(refusal) => assert_eq!(answer, refusal.number(), "{octets:02X?}"),
        Ok((plan, values)) => {
            assert_eq!(answer, ACCEPTED, "{octets:02X?}");
            assert_four(
                plan,
                values,
                &walks,
                &out,
                &mut expected_walks,
                &mut expected_out,
            );
        }
    }
    assert!(walks == expected_walks, "a place beside the walks changed");
    assert!(out == expected_out, "a place past the answers changed");
    assert!(lent_octets == octets, "the octets changed");
}

/// Asserts four figures with their walks, one after another. The places before then get what may
/// stand there afterwards.
pub fn assert_four(
    plan: &Plan,
    values: &[Value; 4],
    walks: &[u16],
    out: &[u32],
    expected_walks: &mut [u16],
    expected_out: &mut [u32],
) {
    for (place, figure) in FIGURES.into_iter().enumerate() {
        let walk = &walks[MAX_STATES * place..][..MAX_STATES];
        let out = &out[OUT * place..][..OUT];
        let k = assert_shown(plan, figure.into(), values[place], walk, out);
        expected_walks[MAX_STATES * place..][..k].copy_from_slice(&walk[..k]);
        expected_out[OUT * place..][..OUT].copy_from_slice(out);
    }
}

/// All four figures of an image into too few places, for the walks, for the answers or for both:
/// the image's refusal, or 11. Returns the answer.
pub fn quote_image_short(rng: &mut Rng, octets: &[u8], refusal: Option<Refusal>) -> u32 {
    let few_walks = rng.pick(&[0, 1, MAX_STATES, WALKS - 1, WALKS]);
    let few_out = match few_walks < WALKS {
        true => rng.pick(&[0, OUT, 4 * OUT - 1, 4 * OUT, 4 * OUT + 1]),
        false => rng.below(4 * OUT),
    };
    let mut walks = vec![rng.next() as u16; few_walks];
    let mut out = vec![rng.next() as u32; few_out];
    let (walks_before, out_before) = (walks.clone(), out.clone());
    let answer = proved::quote(octets, &mut walks, &mut out);
    let expected = refusal.unwrap_or(Refusal::BufferTooShort).number();
    assert_eq!(answer, expected, "{few_walks} {few_out} {octets:02X?}");
    assert!(walks == walks_before && out == out_before, "a refusal");
    answer
}

/// Asserts the kind and the figure as numbers, and a walk as document 01 asks. Returns k.
fn assert_shown(plan: &Plan, asked: Asked, value: Value, walk: &[u16], out: &[u32]) -> usize {
    let name = asked.name();
    assert_eq!(
        out[..2],
        [value.kind(), value.figure()],
        "{name} of {plan:?}"
    );
    let shown = shown(value, walk, out);
    assert_eq!(
        check(plan, asked, &shown),
        Ok(()),
        "{name}: {shown:?} of {plan:?}"
    );
    shown.walk.len()
}

/// What stands in the slices of an accepted quotation of a value.
pub fn shown(value: Value, walk: &[u16], out: &[u32]) -> Quotation {
    let walk = &walk[..out[2] as usize];
    Quotation {
        value,
        walk: walk.iter().map(|&number| usize::from(number)).collect(),
        j: out[3] as usize,
    }
}
