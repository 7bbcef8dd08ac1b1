//! One row of the table: both sides timed in turn.

use std::time::{Duration, Instant};

/// How often each side is timed.
const ROUNDS: usize = 31;

/// About how long each timing takes.
const ROUND: Duration = Duration::from_millis(1);

/// Times both and prints the row: the median time of each side, and the median of the rounds' ratios
/// ours/base. The base is the Rust, or what else ours is held against.
pub fn row(label: &str, base: impl FnMut(), ours: impl FnMut()) {
    print(label, rounds(base, ours), |base, ours| ours / base);
}

/// The same with the median of the rounds' differences: the nanoseconds that ours takes more than the base.
pub fn more(label: &str, base: impl FnMut(), ours: impl FnMut()) {
    print(label, rounds(base, ours), |base, ours| ours - base);
}

/// A row of ratios with the gigabytes a second of each side, where a call goes through so many bytes.
pub fn rates(label: &str, bytes: usize, base: impl FnMut(), ours: impl FnMut()) {
    let rounds = rounds(base, ours);
    let [base, ours] = medians(&rounds).map(|time| bytes as f64 / time);
    print_with(label, rounds, |base, ours| ours / base, &format!(" {base:>10.2} {ours:>10.2}"));
}

fn rounds(mut base: impl FnMut(), mut ours: impl FnMut()) -> Vec<(f64, f64)> {
    let (base_turns, our_turns) = (turns(&mut base), turns(&mut ours));
    (0..ROUNDS).map(|_| (time(base_turns, &mut base), time(our_turns, &mut ours))).collect()
}

fn print(label: &str, rounds: Vec<(f64, f64)>, held: fn(f64, f64) -> f64) {
    print_with(label, rounds, held, "");
}

fn print_with(label: &str, rounds: Vec<(f64, f64)>, held: fn(f64, f64) -> f64, more: &str) {
    let [base, ours] = medians(&rounds);
    let held = median(rounds.iter().map(|&(base, ours)| held(base, ours)));
    println!("{label:34} {base:>10.1} {ours:>10.1} {held:>6.2}{more}");
}

/// The median time of each side.
fn medians(rounds: &[(f64, f64)]) -> [f64; 2] {
    [median(rounds.iter().map(|round| round.0)), median(rounds.iter().map(|round| round.1))]
}

/// A row of ratios with the time of a part of ours left out, which is timed by itself.
pub fn row_without(label: &str, mut rust: impl FnMut(), mut ours: impl FnMut(), mut part: impl FnMut()) {
    let counts = (turns(&mut rust), turns(&mut ours), turns(&mut part));
    let rounds = (0..ROUNDS).map(|_| {
        let rust = time(counts.0, &mut rust);
        (rust, time(counts.1, &mut ours) - time(counts.2, &mut part))
    });
    print(label, rounds.collect(), |rust, ours| ours / rust);
}

/// Times ours alone, where there is nothing to compare with.
pub fn alone(label: &str, mut ours: impl FnMut()) {
    let turns = turns(&mut ours);
    let ours = median((0..ROUNDS).map(|_| time(turns, &mut ours)));
    println!("{label:34} {:>10} {ours:>10.1}", "");
}

/// How many calls take about one round.
fn turns(call: &mut impl FnMut()) -> u32 {
    let mut turns = 1;
    while time(turns, call) * f64::from(turns) < ROUND.as_nanos() as f64 {
        turns *= 2;
    }
    turns
}

/// Nanoseconds of one of so many calls.
fn time(turns: u32, call: &mut impl FnMut()) -> f64 {
    let start = Instant::now();
    for _ in 0..turns {
        call();
    }
    start.elapsed().as_nanos() as f64 / f64::from(turns)
}

fn median(numbers: impl Iterator<Item = f64>) -> f64 {
    let mut numbers: Vec<f64> = numbers.collect();
    numbers.sort_by(f64::total_cmp);
    numbers[numbers.len() / 2]
}
