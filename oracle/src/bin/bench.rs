//! Times the box under test beside the oracle, in one run: loads of a large image, and runs of the card.
//!
//! `bench [--rounds N]`

use oracle::boxes::OracleBox;
use oracle::generate::large_image;
use oracle::machine::{End, Strike};
use oracle::text::card;
use oracle::trial::{Edition, Press, Tested};
use oracle::words::fields;
use std::hint::black_box;
use std::time::{Duration, Instant};

const LOADS: usize = 30;
const RUNS: usize = 10_000;
/// Each side of a round is the best of so many times, taken in turn: what else the machine does meanwhile only ever adds.
const TRIES: usize = 15;

/// The time of `LOADS` loads of one image.
fn time_loads<P: Press>(image: &[u32]) -> Duration {
    let mut press = P::make(Edition::StageMastheads);
    let start = Instant::now();
    for _ in 0..LOADS {
        assert_eq!(press.load(black_box(image)), Ok(()));
    }
    start.elapsed()
}

/// The time of `RUNS` runs of the card, each of which halts.
fn time_runs<P: Press>(image: &[u32]) -> Duration {
    let mut press = P::make(Edition::StageMastheads);
    assert_eq!(press.load(image), Ok(()));
    let mut strip = [Strike::default(); 2];
    let mut sheet = [0; 2];
    let start = Instant::now();
    for number in 0..RUNS {
        let job = [number as u32, 9];
        let answer = press.run(black_box(&job), 6, &mut strip, &mut sheet);
        assert!(matches!(answer, Ok(report) if report.end == End::Halted));
        black_box((&strip, &sheet));
    }
    start.elapsed()
}

/// Smallest, middle and largest.
fn spread(mut values: Vec<f64>) -> (f64, f64, f64) {
    values.sort_by(f64::total_cmp);
    (values[0], values[values.len() / 2], values[values.len() - 1])
}

/// One round: the best time of each side.
fn round(tested: &impl Fn() -> Duration, oracle: &impl Fn() -> Duration) -> (f64, f64) {
    let mut best = (f64::INFINITY, f64::INFINITY);
    for _ in 0..TRIES {
        best.0 = best.0.min(tested().as_secs_f64());
        best.1 = best.1.min(oracle().as_secs_f64());
    }
    best
}

/// Prints what each side took, and the ratios of the rounds.
fn measure(what: &str, rounds: usize, times: usize, tested: impl Fn() -> Duration, oracle: impl Fn() -> Duration) {
    // One round that does not count warms both up.
    round(&tested, &oracle);
    let mut each: [Vec<f64>; 2] = [Vec::new(), Vec::new()];
    let mut ratios = Vec::new();
    for _ in 0..rounds {
        let (one, other) = round(&tested, &oracle);
        each[0].push(one / times as f64 * 1e6);
        each[1].push(other / times as f64 * 1e6);
        ratios.push(one / other);
    }
    println!("{what}, {rounds} rounds of {times}");
    let [tested_each, oracle_each] = each;
    for (name, values) in [(Tested::NAME, tested_each), (OracleBox::NAME, oracle_each)] {
        let (low, middle, high) = spread(values);
        println!("  {name:<9} microseconds each: min {low:.3}, median {middle:.3}, max {high:.3}");
    }
    let (low, middle, high) = spread(ratios);
    println!("  ratio {} / {}: min {low:.3}, median {middle:.3}, max {high:.3}", Tested::NAME, OracleBox::NAME);
}

fn rounds() -> Option<usize> {
    let given: Vec<String> = std::env::args().skip(1).collect();
    match given.as_slice() {
        [] => Some(15),
        [name, value] if name == "--rounds" => value.parse().ok().filter(|&rounds| rounds > 0),
        _ => None,
    }
}

fn main() {
    let Some(rounds) = rounds() else {
        eprintln!("usage: bench [--rounds N]");
        std::process::exit(2);
    };
    let large = large_image();
    let names = large.iter().filter(|&&word| fields(word).0 == 0x22).count();
    println!("the large image has {} words, {names} of kind 22", large.len());
    measure("loads of the large image", rounds, LOADS, || time_loads::<Tested>(&large), || time_loads::<OracleBox>(&large));
    let card = card();
    measure("runs of the card", rounds, RUNS, || time_runs::<Tested>(&card), || time_runs::<OracleBox>(&card));
}
