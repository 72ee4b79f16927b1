//! Import and export: texts at the edges, every change of an octet, random and damaged texts, buffers
//! of every length, and the ways there and back.

use reference::aldebaran::{decode, encode};
use reference::proved::ACCEPTED;
use reference::rng::{Case, Rng};
use reference::{Plan, Refusal, MAX_STATES, MAX_TRANSITIONS};

use crate::edges::p1;
use crate::ends;
use crate::generate;
use crate::pair::{Call, Pair};
use crate::tally::Tally;
use crate::texts::{edges, P1_TEXT};

const SEED: u64 = 0x0001_7E87;
const TEXTS: u64 = 60_000;
const PLANS: u64 = 4_000;

fn import(pair: &mut Pair, text: &[u8]) -> u32 {
    pair.run(&Call::Import(text.to_vec()))
}

/// Imports the text on both. An accepted one must be exported as it was.
fn import_and_back(pair: &mut Pair, text: &[u8]) -> u32 {
    let answer = import(pair, text);
    if answer == ACCEPTED {
        let mut buffer = vec![0xAA; text.len() + 2];
        let exported = pair.run(&Call::Export(buffer.clone()));
        assert_eq!(exported, ACCEPTED + text.len() as u32);
        assert_eq!(pair.plan().export(&mut buffer), Ok(text.len()));
        assert!(buffer[..text.len()] == *text && buffer[text.len()..] == [0xAA; 2]);
    }
    answer
}

/// The same, counted.
fn import_and_count(pair: &mut Pair, text: &[u8], tally: &mut Tally) {
    let n = pair.plan().states.len();
    let answer = import_and_back(pair, text);
    tally.add_call(&Call::Import(text.to_vec()), n, answer);
}

#[test]
fn texts_at_the_edges() {
    let mut rng = Rng::of_test("texts_at_the_edges", SEED);
    let good = p1(&mut rng);
    for (text, answer) in edges() {
        let shown = String::from_utf8_lossy(&text[..text.len().min(120)]);
        let answered = import_and_back(&mut good.clone(), &text);
        assert_eq!(answered, answer, "{shown:?}");
    }
}

/// Texts with one or two wrong lines, each wrong in every way.
#[test]
fn wrong_lines() {
    let mut rng = Rng::of_test("wrong_lines", SEED);
    for (plan, number) in ends::plans() {
        let text = encode(&plan).expect("it has one start");
        let mut pair = p1(&mut rng);
        let answer = import_and_back(&mut pair, text.as_bytes());
        assert_eq!(answer, number.unwrap_or(ACCEPTED), "{text}");
        // The initial state comes before.
        let text = text.replacen("des (0", "des (4", 1);
        assert_eq!(import(&mut pair, text.as_bytes()), 7, "{text}");
    }
}

/// Every octet of a small text in the place of every other, each one away, and every octet put in
/// at every place.
#[test]
fn every_change_of_an_octet() {
    let mut rng = Rng::of_test("every_change_of_an_octet", SEED);
    let mut pair = Pair::fresh(&mut rng, 3);
    let text = b"des (2, 3, 12)\n(0, \"5..20\", 1)\n(1, \"0..2047\", 11)\n(10, \"9..9\", 0)\n";
    assert_eq!(import_and_back(&mut pair, text), ACCEPTED);
    let mut tally = Tally::default();
    let mut try_text = |text: &[u8]| import_and_count(&mut pair, text, &mut tally);
    for place in 0..=text.len() {
        let (before, after) = text.split_at(place);
        for octet in 0..=255 {
            try_text(&[before, &[octet], after].concat());
            if let Some(after) = after.get(1..) {
                try_text(&[before, &[octet], after].concat());
            }
        }
        if let Some(after) = after.get(1..) {
            try_text(&[before, after].concat());
        }
        try_text(before);
        try_text(after);
    }
    tally.print("every change of an octet of a text");
}

#[test]
fn random_texts() {
    let mut tally = Tally::default();
    let mut pair = Pair::fresh(&mut Rng::of_test("random_texts", SEED), 3);
    for number in 0..TEXTS {
        let case = Case { seed: SEED, number };
        let mut rng = case.rng();
        let text = generate::text(&mut rng);
        if rng.one_in(50) {
            // The same text over an old plan altered by hand.
            let mut altered = pair.clone();
            generate::alter(&mut rng, &mut altered);
            import_and_count(&mut altered, &text, &mut tally);
        }
        import_and_count(&mut pair, &text, &mut tally);
    }
    tally.print(&format!(
        "texts: {TEXTS}, and some again over an altered plan"
    ));
    tally.assert_covers(&["import"]);
}

/// Exported text imports as the plan stripped of its final and counted marks and its teams, over a plan
/// with teams.
#[test]
fn random_plans_there_and_back() {
    let mut rng = Rng::of_test("random_plans_there_and_back", SEED);
    let mut pair = Pair::fresh(&mut rng, 3);
    for number in 0..PLANS {
        let case = Case { seed: SEED, number };
        let mut rng = case.rng();
        let plan = generate::plan_to_export(&mut rng);
        let text = encode(&plan).expect("it has one start");
        pair.by_hand(|lent| lent.hold(&plan));
        let length = text.len();
        for (lent, answer) in [
            (0, Refusal::BufferTooShort.number()),
            (length - 1, Refusal::BufferTooShort.number()),
            (length, ACCEPTED + length as u32),
            (length + 1 + rng.below(40), ACCEPTED + length as u32),
        ] {
            let buffer = rng.octets(lent);
            assert_eq!(pair.run(&Call::Export(buffer)), answer, "{plan:?}");
        }
        let mut other = Pair::fresh(&mut rng, 1);
        let old = generate::plan(&mut rng, 30, 3);
        other.by_hand(|lent| lent.hold(&old));
        assert_eq!(import_and_back(&mut other, text.as_bytes()), ACCEPTED);
        assert!(*other.plan() == plan.stripped(), "{plan:?}");
        assert!(other.plan().teams().iter().all(|&team| team == 0));
        assert_eq!(decode(text.as_bytes()), Ok(plan.stripped()));
    }
}

/// The largest texts, at both ends of every number.
#[test]
fn full_plans() {
    let mut rng = Rng::of_test("full_plans", SEED);
    let mut pair = Pair::fresh(&mut rng, 3);
    for (state, seconds) in [(0, 0), (MAX_STATES - 1, 2047)] {
        let mut plan = Plan::fresh(MAX_STATES).unwrap();
        plan.mark(state, 7).unwrap();
        let mut step = generate::plan(&mut rng, 1, 1).transitions[0];
        (step.from, step.to, step.low, step.high) = (state, state, seconds, seconds);
        plan.transitions = vec![step; MAX_TRANSITIONS];
        let text = encode(&plan).unwrap();
        assert_eq!(import_and_back(&mut pair, text.as_bytes()), ACCEPTED);
        assert!(*pair.plan() == plan.stripped());
    }
}

/// Buffers of every length, to two octets more than the text.
#[test]
fn every_length_of_a_buffer() {
    let mut rng = Rng::of_test("every_length_of_a_buffer", SEED);
    let mut other = generate::plan(&mut rng, 40, 30);
    other.states.iter_mut().for_each(|state| state.marks %= 4);
    other.states[39].marks += 4;
    let mut pairs = [p1(&mut rng), Pair::fresh(&mut rng, 1)];
    pairs[1].by_hand(|lent| lent.hold(&other));
    for pair in &mut pairs {
        let length = pair.text_length();
        for lent in 0..length + 3 {
            let answer = match lent < length {
                true => Refusal::BufferTooShort.number(),
                false => ACCEPTED + length as u32,
            };
            let buffer = rng.octets(lent);
            assert_eq!(pair.run(&Call::Export(buffer)), answer, "{lent}");
        }
    }
}

/// No start, one or more, at each state; then a buffer that would be too short.
#[test]
fn the_number_of_starts() {
    let mut rng = Rng::of_test("the_number_of_starts", SEED);
    for marks in 0..16 {
        let mut pair = p1(&mut rng);
        for state in 0..4 {
            let value = 4 * (marks >> state & 1) + rng.below(4) as u32;
            assert_eq!(pair.run(&Call::Mark(state, value)), ACCEPTED);
        }
        let has_one = marks.count_ones() == 1;
        let length = P1_TEXT.len();
        for (lent, answer) in [
            (0, 11),
            (length - 1, 11),
            (length, ACCEPTED + length as u32),
            (200, ACCEPTED + length as u32),
        ] {
            let answer = if has_one { answer } else { 14 };
            let buffer = rng.octets(lent);
            assert_eq!(pair.run(&Call::Export(buffer)), answer, "{marks:04b}");
        }
    }
}
