//! The program `quote`, from standard input to standard output.

use std::env;
use std::io::Write;
use std::path::{Path, PathBuf};
use std::process::{Command, Stdio};

use reference::check::check;
use reference::image::{decode, encode};
use reference::rng::{print, Case};
use reference::{rounds, text, Plan, FIGURES, MAX_STATES, MAX_TRANSITIONS};

use crate::known::{answered_returns, chain, known, open_reached, p10, ring, P1_LINES};
use crate::shapes::SHAPES;
use crate::vectors::{P1, P1_WRITTEN};

const SEED: u64 = 0x0000_90CE;
const PLANS: u64 = 288;

/// The program, where `rt ci` builds it or `RT_QUOTE` says.
fn program() -> PathBuf {
    let here = Path::new(env!("CARGO_MANIFEST_DIR"));
    match env::var_os("RT_QUOTE") {
        Some(path) => here.join(path),
        None => here.join("../target/bin/quote"),
    }
}

/// What the program prints for the octets.
fn printed(octets: &[u8]) -> String {
    let mut child = Command::new(program())
        .stdin(Stdio::piped())
        .stdout(Stdio::piped())
        .spawn()
        .expect("`rt check quote` at the root of the repository builds the program");
    let mut input = child.stdin.take().expect("it was asked for");
    // The program may stop reading where the input is longer than any image.
    let _ = input.write_all(octets);
    drop(input);
    let output = child.wait_with_output().expect("the program ends");
    String::from_utf8(output.stdout).expect("the program prints text")
}

/// Asserts that the program prints four lines as document 01 has them, right ones.
fn assert_quoted(plan: &Plan) {
    let printed = printed(&encode(plan));
    let lines: Vec<&str> = printed.split_inclusive('\n').collect();
    assert_eq!(lines.len(), FIGURES.len(), "{printed:?}");
    for (figure, line) in FIGURES.into_iter().zip(lines) {
        let shown = text::parse(figure, line);
        let shown = shown.unwrap_or_else(|| panic!("{line:?} of {plan:?}"));
        assert_eq!(shown.value, rounds::quote(plan, figure).value, "{plan:?}");
        assert_eq!(check(plan, figure, &shown), Ok(()), "{line:?} of {plan:?}");
    }
}

#[test]
fn the_program_quotes_known_plans() {
    assert_eq!(printed(&P1), P1_LINES);
    // The teams of an image change no line.
    for team in 0..32 {
        let mut octets = P1_WRITTEN;
        for state in 0..4 {
            octets[4 + state] += (team + 7 * state as u8) % 32;
        }
        assert_eq!(printed(&octets), P1_LINES);
    }
    for (_, plan, _) in known() {
        assert_quoted(&plan);
    }
    assert_quoted(&chain(2047));
    assert_quoted(&ring(2047));
    // Of these there is one walk to show.
    for plan in [p10(), open_reached(), answered_returns(), ring(2046)] {
        let octets = encode(&plan);
        assert_eq!(printed(&octets), text::quote(&octets));
    }
}

#[test]
fn the_program_quotes_random_plans() {
    print(&format!("the program: seed {SEED:#x}, {PLANS} plans\n"));
    for number in 0..PLANS {
        let case = Case { seed: SEED, number };
        let mut rng = case.rng();
        let shape = &SHAPES[number as usize % SHAPES.len()];
        let n = rng.pick(&[8, 20, 100, MAX_STATES]);
        assert_quoted(&shape.draw(&mut rng, n, 4 * n));
    }
}

#[test]
fn the_program_refuses() {
    let step = p10().transitions[0];
    let full = encode(&Plan::of(vec![0; MAX_STATES], vec![step; MAX_TRANSITIONS]));
    let mut inputs: Vec<Vec<u8>> = (0..P1.len()).map(|length| P1[..length].to_vec()).collect();
    for more in [1, 2, 5, 100_000] {
        inputs.push([&P1[..], &vec![0; more]].concat());
        inputs.push([&full[..], &vec![0; more]].concat());
    }
    inputs.push(full[..full.len() - 1].to_vec());
    // A version of 0, of 3 and of 15.
    for version in [0x00, 0x30, 0xF0] {
        inputs.push([&[version], &P1[1..]].concat());
    }
    // A spare bit of version 1.
    inputs.push([&P1[..4], &[0x81], &P1[5..]].concat());
    // Of both versions: 513 states, no states, 2,049 transitions, a pad bit, a bad from, a bad to, both,
    // and a low above its high.
    for image in [P1, P1_WRITTEN] {
        let [version, ..] = image;
        inputs.push([&[version + 8, 0x04, 0x00, 0x00], &[0; 513][..]].concat());
        inputs.push(vec![version, 0x00, 0x00, 0x00]);
        inputs.push([&[version, 0x06, 0x00, 0x40], &[0; 1 + 5 * 2049][..]].concat());
        inputs.push([&image[..3], &[0x01], &image[4..]].concat());
        inputs.push([&image[..8], &[0x02], &image[9..]].concat());
        inputs.push([&image[..9], &[0x01], &image[10..]].concat());
        inputs.push([&image[..8], &[0x02, 0x01], &image[10..]].concat());
        inputs.push([&image[..12], &[0x00], &image[13..]].concat());
    }
    let mut numbers: Vec<u32> = Vec::new();
    for octets in inputs {
        let refusal = decode(&octets).expect_err("none of them is an image");
        let line = format!("refused {}\n", refusal.number());
        assert_eq!(printed(&octets), line, "{} octets", octets.len());
        numbers.push(refusal.number());
    }
    numbers.sort_unstable();
    numbers.dedup();
    assert_eq!(numbers, [1, 2, 3, 4, 5, 6, 8, 16, 17]);
}
