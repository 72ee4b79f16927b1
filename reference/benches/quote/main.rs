//! Times quoting: image octets in, the four figures with their walks out, by the proved library
//! and by the baseline. Then the same with the two counts for a class of teams in place of the four
//! figures.
//!
//! It prints times, their ratio and their growth, and asserts nothing about them. Without the
//! feature `quotations` it prints the baseline alone.

mod baseline;
mod shapes;

use std::hint::black_box;
use std::time::Instant;

use reference::image::encode;
#[cfg(feature = "quotations")]
use reference::proved::{self, LentPlan, ACCEPTED, OUT, WALKS};
use reference::rng::Case;
use reference::MAX_STATES;
#[cfg(feature = "quotations")]
use reference::{Figure, Plan};

use shapes::{LOOPS_SEED, SHAPES};

const SEED: u64 = 0x0000_BE7C;
/// The sizes: a ward's, a hospital's, and the largest.
const SIZES: [(usize, usize); 3] = [(16, 40), (64, 256), (512, 2048)];
const ROUNDS: usize = 101;
const CALLS: u32 = 20;
/// A team of the class that is quoted, the clinics: ten states in each 32.
const TEAM: u32 = 15;

/// The times of one call in microseconds, those of the quickest rounds.
struct Times {
    proved: Option<f64>,
    baseline: f64,
}

fn main() {
    println!("Quoting from an image: microseconds by call, in the quickest of {ROUNDS} rounds of");
    println!("{CALLS} calls, by turns, transitions in random order (seed {SEED:#x}). The chain is");
    println!("filled up with further transitions between its neighbours, the layers with further");
    println!(
        "ones from each to the next. Open rings are those to the final state: the greatest delay"
    );
    println!("is ENDLESS, the greatest count a number. Where calls begin answered, starts are final: one in");
    println!("a ring that is the one route, or many. The plan with loops is the one that seed {LOOPS_SEED} makes,");
    println!("with counted states and teams. Growth is from the second size to the third.");
    assert_same_plans();
    print_table(time_proved, time_baseline);
    println!();
    println!("The least and the greatest count for a class, team {TEAM}: the proved library makes a plan");
    println!("of the image and quotes each, the baseline reads the image and finds both.");
    print_table(time_proved_class, time_baseline_class);
}

/// Times both on every shape and size, and prints the table.
fn print_table(proved: fn(&[u8]) -> Option<f64>, baseline: fn(&[u8]) -> f64) {
    print!("{:23}", "");
    for (n, m) in SIZES {
        print!(" {:>24}", format!("{n} states, {m}"));
    }
    println!();
    print!("{:23}", "");
    for _ in SIZES {
        print!(" {:>8} {:>8} {:>6}", "proved", "baseline", "ratio");
    }
    println!(" {:>7} {:>7}", "growth", "(base)");
    for (number, shape) in (0..).zip(&SHAPES) {
        let case = Case { seed: SEED, number };
        let mut rng = case.rng();
        let times = SIZES.map(|(n, m)| {
            let octets = encode(&shape.draw(&mut rng, n, m));
            time(&octets, proved, baseline)
        });
        print!("{:23}", shape.name);
        for size in &times {
            print!(
                " {} {} {}",
                column(size.proved, 8),
                column(Some(size.baseline), 8),
                column(size.ratio(), 6)
            );
        }
        let growth = |of: fn(&Times) -> Option<f64>| Some(of(&times[2])? / of(&times[1])?);
        println!(
            " {} {}",
            column(growth(|times| times.proved), 7),
            column(growth(|times| Some(times.baseline)), 7),
        );
    }
}

/// The library makes the same plans with loops from their seed.
#[cfg(feature = "quotations")]
fn assert_same_plans() {
    for (n, m) in SIZES {
        let mut lent = LentPlan::zeroed();
        assert_eq!(lent.generate(LOOPS_SEED, n, m), ACCEPTED);
        assert!(Ok(lent.plan()) == Plan::generate(LOOPS_SEED, n, m));
    }
}

#[cfg(not(feature = "quotations"))]
fn assert_same_plans() {}

impl Times {
    fn ratio(&self) -> Option<f64> {
        Some(self.proved? / self.baseline)
    }
}

/// A number in a column of the given width, or a dash where there is none.
fn column(number: Option<f64>, width: usize) -> String {
    match number {
        Some(number) => format!("{number:width$.2}"),
        None => format!("{:>width$}", "-"),
    }
}

/// Times both on an image, by turns.
fn time(octets: &[u8], proved: fn(&[u8]) -> Option<f64>, baseline: fn(&[u8]) -> f64) -> Times {
    let rounds: Vec<Times> = (0..ROUNDS)
        .map(|_| Times {
            proved: proved(octets),
            baseline: baseline(octets),
        })
        .collect();
    let baseline = rounds.iter().map(|times| times.baseline);
    Times {
        proved: rounds
            .iter()
            .filter_map(|times| times.proved)
            .reduce(f64::min),
        baseline: baseline.fold(f64::MAX, f64::min),
    }
}

#[cfg(feature = "quotations")]
fn time_proved(octets: &[u8]) -> Option<f64> {
    let (mut walks, mut out) = ([0; WALKS], [0; 4 * OUT]);
    Some(microseconds(|| {
        let answer = proved::quote(black_box(octets), &mut walks, &mut out);
        assert_eq!(answer, ACCEPTED);
        black_box((&walks, &out));
    }))
}

#[cfg(feature = "quotations")]
fn time_proved_class(octets: &[u8]) -> Option<f64> {
    let mut lent = LentPlan::zeroed();
    let (mut walk, mut out) = ([0; MAX_STATES], [0; OUT]);
    Some(microseconds(|| {
        assert_eq!(lent.make(black_box(octets)), ACCEPTED);
        for figure in [Figure::LeastCount, Figure::GreatestCount] {
            let asked = figure.for_class_of(black_box(TEAM));
            assert_eq!(lent.quote(asked, &mut walk, &mut out), ACCEPTED);
            black_box((&walk, &out));
        }
    }))
}

#[cfg(not(feature = "quotations"))]
fn time_proved(_: &[u8]) -> Option<f64> {
    None
}

#[cfg(not(feature = "quotations"))]
fn time_proved_class(_: &[u8]) -> Option<f64> {
    None
}

fn time_baseline(octets: &[u8]) -> f64 {
    let (mut walks, mut answers) = ([[0; MAX_STATES]; 4], [[0; 4]; 4]);
    microseconds(|| {
        let answer = baseline::quote(black_box(octets), &mut walks, &mut answers);
        assert_eq!(answer, Ok(()));
        black_box((&walks, &answers));
    })
}

fn time_baseline_class(octets: &[u8]) -> f64 {
    let (mut walks, mut answers) = ([[0; MAX_STATES]; 2], [[0; 4]; 2]);
    microseconds(|| {
        let answer =
            baseline::quote_class(black_box(octets), black_box(TEAM), &mut walks, &mut answers);
        assert_eq!(answer, Ok(()));
        black_box((&walks, &answers));
    })
}

/// The time of one call, taken over `CALLS` of them.
fn microseconds(mut call: impl FnMut()) -> f64 {
    let begin = Instant::now();
    for _ in 0..CALLS {
        call();
    }
    begin.elapsed().as_secs_f64() * 1e6 / f64::from(CALLS)
}
