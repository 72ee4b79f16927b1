//! Random plans, images, texts and calls: good ones, and ones that are wrong in every way of the table.

use reference::image::{encode, length};
use reference::proved::LentPlan;
use reference::rng::Rng;
use reference::{Plan, State, Transition, MAX_STATES, MAX_TRANSITIONS};

use crate::pair::{Call, Pair};
use crate::texts::Numerals;
use crate::wrong::WAYS;

/// A number of states and a number of transitions, mostly small, sometimes at the limits.
fn size(rng: &mut Rng) -> (usize, usize) {
    match rng.below(200) {
        0 => (MAX_STATES, MAX_TRANSITIONS),
        1 => (rng.between(511, 512), rng.between(2046, 2048)),
        2..=5 => (rng.between(1, MAX_STATES), rng.below(200)),
        6..=25 => (rng.between(1, 40), rng.below(60)),
        _ => (rng.between(1, 8), rng.below(11)),
    }
}

/// A number of seconds, often at an edge: about one high in eight is 2,047, which is open, and one 2,046.
fn duration(rng: &mut Rng) -> u32 {
    match rng.below(4) {
        0 => rng.pick(&[0, 1, 2046, 2047]),
        _ => rng.below(2048) as u32,
    }
}

/// A transition that keeps the limits of a plan of `n` states.
fn transition(rng: &mut Rng, n: usize) -> Transition {
    let one = duration(rng);
    let other = if rng.one_in(5) { one } else { duration(rng) };
    Transition {
        from: rng.below(n),
        to: rng.below(n),
        low: one.min(other),
        high: one.max(other),
    }
}

/// A plan within the limits.
pub fn plan(rng: &mut Rng, n: usize, m: usize) -> Plan {
    let states = (0..n).map(|_| State {
        marks: rng.below(8) as u8,
        team: team(rng) as u8,
    });
    let states = states.collect();
    Plan {
        states,
        transitions: (0..m).map(|_| transition(rng, n)).collect(),
    }
}

/// A team, often at the edge of a class.
pub fn team(rng: &mut Rng) -> u32 {
    match rng.below(3) {
        0 => rng.pick(&[0, 1, 9, 10, 19, 20, 29, 30, 31]),
        1 => 0,
        _ => rng.below(32) as u32,
    }
}

/// A team number that is mostly one, else just above 31, or so wide that it is a team in fewer bits.
pub fn about_team(rng: &mut Rng) -> u32 {
    match rng.below(12) {
        0 => rng.pick(&[32, 33, 63, 64, 255]),
        1 => rng.pick(&[256, 259, 1 << 16, 1 << 31]) + team(rng),
        2 => u32::MAX,
        _ => team(rng),
    }
}

/// An image of any kind: good, made of noise, damaged, truncated or over-long.
pub fn image(rng: &mut Rng) -> Vec<u8> {
    match rng.below(12) {
        0 => noise(rng),
        1..=2 => random_body(rng),
        3..=5 => good_image(rng),
        6 => {
            let mut octets = good_image(rng);
            truncate(rng, &mut octets);
            octets
        }
        7 => {
            let mut octets = good_image(rng);
            extend(rng, &mut octets);
            octets
        }
        _ => {
            let mut octets = good_image(rng);
            for _ in 0..rng.between(1, 3) {
                damage(rng, &mut octets);
            }
            octets
        }
    }
}

/// An image of version 2, or of version 1, whose spare bits are zero.
pub fn good_image(rng: &mut Rng) -> Vec<u8> {
    let (n, m) = size(rng);
    let mut octets = encode(&plan(rng, n, m));
    if rng.one_in(2) {
        make_version_1(&mut octets);
    }
    octets
}

/// Makes an image of version 2 one of version 1: the same plan without teams.
pub fn make_version_1(octets: &mut [u8]) {
    put(octets, 0, 4, 1);
    for state in 0..get(octets, 4, 10) {
        put(octets, spare_at(state), 5, 0);
    }
}

/// Random octets, the version often made 1 or 2.
fn noise(rng: &mut Rng) -> Vec<u8> {
    let length = rng.below(40);
    let mut octets = rng.octets(length);
    if length > 0 && rng.one_in(2) {
        octets[0] = rng.pick(&[0x10, 0x20]) | (octets[0] % 16);
    }
    octets
}

/// A good header of either version over a random body of the right length, most of whose fields are then
/// put right. In version 2 the five bits of a state are a team, whatever they are.
fn random_body(rng: &mut Rng) -> Vec<u8> {
    let n = rng.between(1, 12);
    let m = rng.below(12);
    let mut octets = encode(&Plan::fresh(n).unwrap());
    put(&mut octets, 0, 4, rng.pick(&[1, 2]));
    put(&mut octets, 14, 12, m);
    octets.truncate(4);
    octets.extend(rng.octets(n + 5 * m));
    let kept = rng.pick(&[1, 4, 16, 64]);
    for state in 0..n {
        if !rng.one_in(kept) {
            put(&mut octets, spare_at(state), 5, 0);
        }
    }
    for number in 0..m {
        if !rng.one_in(kept) {
            put_transition(&mut octets, n, number, transition(rng, n));
        }
    }
    octets
}

fn truncate(rng: &mut Rng, octets: &mut Vec<u8>) {
    let cut = match rng.below(3) {
        0 => 1,
        1 => rng.between(1, 5),
        _ => rng.between(1, octets.len().max(1)),
    };
    octets.truncate(octets.len().saturating_sub(cut));
}

fn extend(rng: &mut Rng, octets: &mut Vec<u8>) {
    let more = rng.pick(&[1, 1, 2, 4, 5, 6, 40]);
    octets.extend(if rng.one_in(2) {
        vec![0; more]
    } else {
        rng.octets(more)
    });
}

/// Damages an image in one random way. It may have been damaged before.
fn damage(rng: &mut Rng, octets: &mut Vec<u8>) {
    if octets.len() < 4 {
        return extend(rng, octets);
    }
    let n = get(octets, 4, 10);
    let m = get(octets, 14, 12);
    let whole = octets.len() >= length(n, m);
    match rng.below(12) {
        0 => {
            let bit = rng.below(8 * octets.len());
            octets[bit / 8] ^= 0x80 >> (bit % 8);
        }
        1 => {
            let place = rng.below(octets.len());
            octets[place] = rng.next() as u8;
        }
        2 => {
            let version = match rng.below(3) {
                0 => rng.below(16),
                // The other version: teams become spare bits that are set, and the reverse.
                _ => 3 - get(octets, 0, 4).clamp(1, 2),
            };
            put(octets, 0, 4, version);
        }
        3 => {
            let count = rng.pick(&[0, 1, 511, 512, 513, 1023, n + 1, n.max(1) - 1]);
            put(octets, 4, 10, count);
        }
        4 => {
            let count = rng.pick(&[0, 2047, 2048, 2049, 4095, m + 1, m.max(1) - 1]);
            put(octets, 14, 12, count);
        }
        5 => put(octets, 26, 6, 1 << rng.below(6)),
        6 if whole && n > 0 => {
            let state = rng.below(n);
            put(octets, spare_at(state) + rng.below(5), 1, 1);
        }
        7..=9 if whole && m > 0 => {
            let at = transition_at(n, rng.below(m));
            let [from, to, durations] = rng.pick(&WAYS);
            for (end, is_wrong) in [(at, from), (at + 9, to)] {
                if is_wrong {
                    put(octets, end, 9, rng.pick(&[n, n + 1, 511]));
                }
            }
            if durations {
                let high = get(octets, at + 29, 11);
                put(octets, at + 18, 11, rng.pick(&[high + 1, 2047]));
            }
        }
        10 => truncate(rng, octets),
        _ => extend(rng, octets),
    }
}

/// A plan within the limits that has exactly one start.
pub fn plan_to_export(rng: &mut Rng) -> Plan {
    let (n, m) = size(rng);
    let mut plan = plan(rng, n, m);
    for state in &mut plan.states {
        state.marks %= 4;
    }
    plan.states[rng.below(n)].marks += 4;
    plan
}

/// A text of any kind: good, with numbers past their limits, damaged or made of noise.
pub fn text(rng: &mut Rng) -> Vec<u8> {
    let mut numerals = numerals(&plan_to_export(rng));
    match rng.below(10) {
        0 => scraps(rng),
        1..=3 => numerals.text().into_bytes(),
        4..=6 => {
            for _ in 0..rng.between(1, 2) {
                match rng.below(3) {
                    0 => spoil_line(rng, &mut numerals),
                    _ => alter_numeral(rng, &mut numerals),
                }
            }
            numerals.text().into_bytes()
        }
        _ => {
            if rng.one_in(3) {
                alter_numeral(rng, &mut numerals);
            }
            let mut text = numerals.text().into_bytes();
            for _ in 0..rng.between(1, 3) {
                damage_text(rng, &mut text);
            }
            text
        }
    }
}

/// The numerals of a plan's text. Its first start is the initial state.
fn numerals(plan: &Plan) -> Numerals {
    let initial = plan.states.iter().position(|state| state.marks >= 4);
    let line = |t: &Transition| {
        let [low, high] = [t.low, t.high].map(|seconds| seconds.to_string());
        [t.from.to_string(), low, high, t.to.to_string()]
    };
    Numerals {
        initial: initial.unwrap_or(0).to_string(),
        count: plan.transitions.len().to_string(),
        states: plan.states.len().to_string(),
        lines: plan.transitions.iter().map(line).collect(),
    }
}

/// Changes one numeral, mostly to one about its limit, or makes the lines too many.
fn alter_numeral(rng: &mut Rng, numerals: &mut Numerals) {
    let n = numerals.states.parse().unwrap_or(1).min(MAX_STATES + 1);
    let m = numerals.lines.len();
    let place = rng.below(10);
    if place == 9 && rng.one_in(20) {
        let line = ["0", "0", "0", "0"].map(String::from);
        numerals.lines.resize(rng.between(2049, 2051), line);
        numerals.count = numerals.lines.len().to_string();
        return;
    }
    let bound = match place {
        0 | 3 | 4 => n,
        1 => m + 1,
        2 => MAX_STATES + 1,
        _ => 2048,
    };
    let numeral = match rng.below(8) {
        0 => long_numeral(rng),
        1 => format!("0{}", rng.below(20)),
        2 => String::new(),
        _ => about(rng, bound).to_string(),
    };
    let line = match m {
        0 => None,
        _ => numerals.lines.get_mut(rng.below(m)),
    };
    match (place, line) {
        (0, _) => numerals.initial = numeral,
        (1, _) => numerals.count = numeral,
        (2, _) => numerals.states = numeral,
        (3, Some(line)) => line[0] = numeral,
        (4, Some(line)) => line[3] = numeral,
        (5 | 6, Some(line)) => line[1] = numeral,
        (_, Some(line)) => line[2] = numeral,
        (_, None) => {}
    }
}

/// Makes a line wrong in its from, in its to, in its durations, or in several of these.
fn spoil_line(rng: &mut Rng, numerals: &mut Numerals) {
    let n = numerals.states.parse().unwrap_or(1).min(MAX_STATES + 1);
    let number = rng.below(numerals.lines.len().max(1));
    let Some([from, low, high, to]) = numerals.lines.get_mut(number) else {
        return;
    };
    let wrong = rng.pick(&WAYS);
    for (end, is_wrong) in [(from, wrong[0]), (to, wrong[1])] {
        match rng.below(4) {
            _ if !is_wrong => {}
            0 => *end = long_numeral(rng),
            _ => *end = past(rng, n).to_string(),
        }
    }
    if wrong[2] {
        [*low, *high] = wrong_durations(rng).map(|seconds| seconds.to_string());
    }
}

/// A numeral of up to 400 digits that a word does not hold, or just holds.
fn long_numeral(rng: &mut Rng) -> String {
    let power: u128 = 1 << rng.pick(&[16, 32, 63, 64, 127]);
    match rng.below(3) {
        0 => (power + rng.below(600) as u128).to_string(),
        1 => (power - 1).to_string(),
        _ => {
            let more = (0..rng.below(400)).map(|_| rng.pick(b"0123456789") as char);
            "1".chars().chain(more).collect()
        }
    }
}

/// Some of the octets and words that texts are made of, in any order.
fn scraps(rng: &mut Rng) -> Vec<u8> {
    let words = [
        "des (", ", ", ")\n", "(", ", \"", "..", "\", ", "0", "1", "12", "2047", "\n", " ", "\r",
    ];
    let scraps = (0..rng.below(20)).map(|_| rng.pick(&words));
    scraps.collect::<String>().into_bytes()
}

/// Damages a text in one random way.
fn damage_text(rng: &mut Rng, text: &mut Vec<u8>) {
    let place = rng.below(text.len() + 1);
    let octet = match rng.below(4) {
        0 => rng.next() as u8,
        _ => rng.pick(b" ,.()\"\n\r0123456789-des"),
    };
    match rng.below(8) {
        0..=1 => text.insert(place, octet),
        2..=3 if place < text.len() => text[place] = octet,
        4..=5 if place < text.len() => {
            text.remove(place);
        }
        6 => {
            // A line twice, or away.
            let lines = text.split_inclusive(|&octet| octet == b'\n');
            let mut lines: Vec<&[u8]> = lines.collect();
            let number = rng.below(lines.len().max(1));
            match lines.get(number) {
                Some(&line) if rng.one_in(2) => lines.insert(number, line),
                Some(_) => {
                    lines.remove(number);
                }
                None => {}
            }
            *text = lines.concat();
        }
        _ => text.truncate(place),
    }
}

fn spare_at(state: usize) -> usize {
    8 * (4 + state) + 3
}

pub fn transition_at(n: usize, number: usize) -> usize {
    8 * (4 + n) + 40 * number
}

fn put_transition(octets: &mut [u8], n: usize, number: usize, transition: Transition) {
    let at = transition_at(n, number);
    put(octets, at, 9, transition.from);
    put(octets, at + 9, 9, transition.to);
    put(octets, at + 18, 11, transition.low as usize);
    put(octets, at + 29, 11, transition.high as usize);
}

/// The field of `width` bits at bit position `at`.
pub fn get(octets: &[u8], at: usize, width: usize) -> usize {
    (at..at + width).fold(0, |value, bit| {
        2 * value + usize::from(octets[bit / 8] >> (7 - bit % 8) & 1)
    })
}

/// Puts the lowest `width` bits of `value` at bit position `at`.
pub fn put(octets: &mut [u8], at: usize, width: usize, value: usize) {
    for place in 0..width {
        let bit = at + place;
        let mask = 0x80 >> (bit % 8);
        if value >> (width - 1 - place) & 1 == 1 {
            octets[bit / 8] |= mask;
        } else {
            octets[bit / 8] &= !mask;
        }
    }
}

/// A number that is mostly below `bound`, else just not below it, or so wide that a cut to fewer
/// bits would bring it below.
fn about(rng: &mut Rng, bound: usize) -> usize {
    match rng.below(16) {
        0 => bound,
        1 => bound + 1 + rng.below(3),
        2 => (1 << rng.pick(&[8, 9, 16, 32, 63])) + rng.below(bound.max(1)),
        3 => usize::MAX,
        _ if bound == 0 => 0,
        4 => bound - 1,
        _ => rng.below(bound),
    }
}

/// A number that is not below `bound`, which is small. Some are below it in fewer bits.
fn past(rng: &mut Rng, bound: usize) -> usize {
    match rng.below(4) {
        0 => bound,
        1 => bound + 1 + rng.below(3),
        2 => (1 << rng.pick(&[16, 32, 63])) + rng.below(bound.max(1)),
        _ => usize::MAX,
    }
}

/// A low above its high, or a high above 2,047.
fn wrong_durations(rng: &mut Rng) -> [usize; 2] {
    let seconds = rng.below(2048);
    match rng.below(2) {
        0 => [seconds + 1, seconds],
        _ => [seconds, past(rng, 2048)],
    }
}

fn about_32(rng: &mut Rng, bound: usize) -> u32 {
    about(rng, bound).min(u32::MAX as usize) as u32
}

/// A random call, whose arguments are mostly good ones for the plan.
pub fn call(rng: &mut Rng, pair: &Pair) -> Call {
    let n = pair.plan().states.len();
    let m = pair.plan().transitions.len();
    match rng.below(43) {
        0 => Call::Fresh(rng.pick(&[0, 1, 2, 5, 511, 512, 513, 1024, usize::MAX])),
        42 => generated(rng),
        1..=8 => Call::Mark(about(rng, n), about_32(rng, 8)),
        9..=19 => Call::Join(join(rng, n)),
        20..=24 => Call::Unjoin(about(rng, m)),
        25..=28 => Call::Read(image(rng)),
        29..=30 => Call::Import(text(rng)),
        36..=41 => Call::Team(about(rng, n), about_team(rng)),
        31..=33 => Call::Write(buffer(rng, pair.image_length())),
        _ => Call::Export(buffer(rng, pair.text_length())),
    }
}

/// A plan made from a seed, mostly a small one, or counts that are refused, one of them or both.
pub fn generated(rng: &mut Rng) -> Call {
    let (mut n, mut m) = size(rng);
    let wrong = rng.below(8);
    if [0, 2].contains(&wrong) {
        let above = past(rng, MAX_STATES + 1);
        n = rng.pick(&[0, above]);
    }
    if [1, 2].contains(&wrong) {
        m = past(rng, MAX_TRANSITIONS + 1);
    }
    Call::Generate(seed(rng), n, m)
}

/// A seed of 32 bits, often at an edge.
pub fn seed(rng: &mut Rng) -> u32 {
    match rng.below(4) {
        0 => rng.pick(&[0, 1, 0x61C8_8647, 1 << 31, u32::MAX - 1, u32::MAX]),
        _ => rng.next() as u32,
    }
}

fn join(rng: &mut Rng, n: usize) -> Transition {
    let mut transition = transition(rng, n.max(1));
    if rng.one_in(8) {
        let [from, to, durations] = rng.pick(&WAYS);
        if from {
            transition.from = past(rng, n);
        }
        if to {
            transition.to = past(rng, n);
        }
        if durations {
            let seconds = wrong_durations(rng).map(|seconds| seconds.min(u32::MAX as usize) as u32);
            [transition.low, transition.high] = seconds;
        }
        return transition;
    }
    if rng.one_in(4) {
        transition.from = about(rng, n);
    }
    if rng.one_in(4) {
        transition.to = about(rng, n);
    }
    if rng.one_in(4) {
        transition.low = about_32(rng, 2048);
    }
    if rng.one_in(4) {
        transition.high = about_32(rng, 2048);
    }
    transition
}

/// A lent buffer for an image or a text of the given length.
fn buffer(rng: &mut Rng, length: usize) -> Vec<u8> {
    let lent = match rng.below(6) {
        0 => length,
        1 => length - 1,
        2 => length + 1,
        3 => rng.below(length),
        4 => 0,
        _ => length + rng.below(30),
    };
    rng.octets(lent)
}

/// Alters one lent place or count of the plan by hand, mostly so that it breaks a limit.
pub fn alter(rng: &mut Rng, pair: &mut Pair) {
    let n = pair.plan().states.len();
    let m = pair.plan().transitions.len();
    // Within the counts, or else at the first place past them.
    let state = about(rng, n).min(n).min(MAX_STATES - 1);
    let number = about(rng, m).min(m).min(MAX_TRANSITIONS - 1);
    let limit = rng.pick(&[1, MAX_STATES + 1, MAX_TRANSITIONS + 1]);
    let count = about(rng, limit);
    let mark = rng.pick(&[7, 8, 9, 255]);
    let team = rng.pick(&[31, 32, 33, 255]);
    let end = rng.pick(&[0, n - 1, n, n + 1, 512, u16::MAX as usize]) as u16;
    let seconds = rng.pick(&[0, 1, 2047, 2048, u16::MAX]);
    let at = |field: usize| field * MAX_TRANSITIONS + number;
    let change: &dyn Fn(&mut LentPlan) = match rng.below(8) {
        0 => &|lent| lent.counts[0] = count,
        1 => &|lent| lent.counts[1] = count,
        2 => &|lent| lent.states[state] = mark,
        7 => &|lent| lent.states[MAX_STATES + state] = team,
        3 => &|lent| lent.fields[at(0)] = end,
        4 => &|lent| lent.fields[at(1)] = end,
        5 => &|lent| lent.fields[at(2)] = seconds,
        _ => &|lent| lent.fields[at(3)] = seconds,
    };
    pair.by_hand(change);
}
