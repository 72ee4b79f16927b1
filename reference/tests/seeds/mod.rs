//! The vectors of E7: the facts that are proved in `crates/vectors/proofs/Vectors.antt`, parsed, so
//! that no number of them is written a second time. A fact is a line of its own:
//!
//! ```text
//! words_S : tabulate 15 (draw S) ≡ W ∷ W ∷ .. ∷ []
//! plan_S_N_M : adler32 (image (generated_graph S N M)) ≡ C
//! ```

use std::collections::BTreeMap;
use std::fs::read_to_string;

const FILE: &str = "../crates/vectors/proofs/Vectors.antt";
/// How many words a fact about words has: words 56 to 70.
pub const WORDS: usize = 15;
/// The seeds whose words must be there, and the sizes of which a plan must be there.
const SEEDS: [u32; 4] = [0, 1, 305_419_896, 4_294_967_295];
const STATES: [usize; 3] = [1, 2, 512];
const TRANSITIONS: [usize; 3] = [0, 1, 2048];

/// A plan that is made from a seed: the seed, n and m.
pub type Made = (u32, usize, usize);

/// The words of each seed, and the checksum of each plan's image.
#[derive(Debug, Default, PartialEq)]
pub struct Vectors {
    pub words: BTreeMap<u32, Vec<u64>>,
    pub plans: BTreeMap<Made, u32>,
}

/// The vectors of the file, every one that must be there among them.
pub fn vectors() -> Vectors {
    let path = format!("{}/{FILE}", env!("CARGO_MANIFEST_DIR"));
    let text = read_to_string(&path).unwrap_or_else(|error| panic!("{FILE}: {error}"));
    let vectors = parse(&text).unwrap_or_else(|wrong| panic!("{FILE}: {wrong}"));
    if let Some(missing) = missing(&vectors) {
        panic!("{FILE}: no {missing}");
    }
    vectors
}

/// The facts in a text. A line that begins as one has to be one.
pub fn parse(text: &str) -> Result<Vectors, String> {
    let mut vectors = Vectors::default();
    for line in text.lines() {
        let line = line.trim().trim_start_matches("pub ");
        let Some((name, fact)) = line.split_once(" : ") else {
            continue;
        };
        let is_new = if let Some(seed) = name.strip_prefix("words_") {
            let words = words(seed, fact).ok_or(format!("not of the form: {line}"))?;
            vectors.words.insert(words.0, words.1).is_none()
        } else if let Some(made) = name.strip_prefix("plan_") {
            let plan = plan(made, fact).ok_or(format!("not of the form: {line}"))?;
            vectors.plans.insert(plan.0, plan.1).is_none()
        } else {
            true
        };
        if !is_new {
            return Err(format!("twice: {line}"));
        }
    }
    Ok(vectors)
}

/// The seed and the words of a fact about words.
fn words(seed: &str, fact: &str) -> Option<(u32, Vec<u64>)> {
    let listed = fact.strip_prefix(&format!("tabulate {WORDS} (draw {seed}) ≡ "))?;
    let words = listed.strip_suffix(" ∷ []")?.split(" ∷ ");
    let words: Vec<u64> = words.map(|word| word.parse().ok()).collect::<Option<_>>()?;
    (words.len() == WORDS).then_some((seed.parse().ok()?, words))
}

/// The seed, the counts and the checksum of a fact about a plan.
fn plan(made: &str, fact: &str) -> Option<(Made, u32)> {
    let [seed, n, m]: [&str; 3] = made.split('_').collect::<Vec<_>>().try_into().ok()?;
    let left = format!("adler32 (image (generated_graph {seed} {n} {m})) ≡ ");
    let sum = fact.strip_prefix(&left)?.parse().ok()?;
    Some(((seed.parse().ok()?, n.parse().ok()?, m.parse().ok()?), sum))
}

/// A vector that must be there and is not, by its name.
pub fn missing(vectors: &Vectors) -> Option<String> {
    let mut seeds = SEEDS.into_iter();
    if let Some(seed) = seeds.find(|seed| !vectors.words.contains_key(seed)) {
        return Some(format!("words_{seed}"));
    }
    let mut sizes = STATES
        .into_iter()
        .flat_map(|n| TRANSITIONS.map(|m| (n, m)).into_iter());
    let has = |size| vectors.plans.keys().any(|&(_, n, m)| (n, m) == size);
    let (n, m) = sizes.find(|&size| !has(size))?;
    Some(format!("plan of {n} states and {m} transitions"))
}

/// The checksum of RFC 1950: the sum of the octets and 1, and the sum of these sums, both modulo
/// 65,521.
pub fn adler32(octets: &[u8]) -> u32 {
    let (mut one, mut other) = (1, 0);
    for &octet in octets {
        one = (one + u32::from(octet)) % 65_521;
        other = (other + one) % 65_521;
    }
    other * 65_536 + one
}
