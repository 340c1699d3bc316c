//! Two sides timed in turns, and the row that says how they stand.

use std::time::{Duration, Instant};

const RUNS: usize = 25;
const RUN: Duration = Duration::from_millis(6);

/// How long one piece of work takes.
pub fn time<T>(work: impl FnOnce() -> T) -> Duration {
    let start = Instant::now();
    std::hint::black_box(work());
    start.elapsed()
}

/// One run: rounds until it is long enough, in nanoseconds a unit.
/// A round gives its own time, so that what it sets up is left out.
fn run(units: usize, round: &mut impl FnMut() -> Duration) -> f64 {
    let (mut total, mut rounds) = (Duration::ZERO, 0);
    while total < RUN {
        total += round();
        rounds += 1;
    }
    total.as_nanos() as f64 / (rounds * units) as f64
}

fn quantile(values: &[f64], part: f64) -> f64 {
    let mut sorted = values.to_vec();
    sorted.sort_by(f64::total_cmp);
    sorted[((sorted.len() - 1) as f64 * part).round() as usize]
}

/// What a time is shown as.
#[derive(Clone, Copy)]
pub enum Unit {
    NsRequest,
    NsByte,
    Megabytes,
}

impl Unit {
    fn show(self, ns: f64) -> String {
        match self {
            Unit::NsRequest => format!("{ns:.1} ns/request"),
            Unit::NsByte => format!("{ns:.2} ns/byte"),
            Unit::Megabytes => format!("{:.0} MB/s", 1_000.0 / ns),
        }
    }
}

/// The head of the table.
pub fn head() {
    println!("| what | proved | against | | ratio | spread |");
    println!("|---|--:|---|--:|--:|--:|");
}

/// Times both sides in turns and prints their row.
pub fn row(
    what: &str,
    against: &str,
    (unit, units): (Unit, usize),
    mut ours: impl FnMut() -> Duration,
    mut theirs: impl FnMut() -> Duration,
) {
    let pairs: Vec<(f64, f64)> =
        (0..RUNS).map(|_| (run(units, &mut ours), run(units, &mut theirs))).collect();
    let (a, b): (Vec<f64>, Vec<f64>) = pairs.iter().copied().unzip();
    // Neighbours in time share the noise, so ratios are taken pair by pair.
    let ratios: Vec<f64> = pairs.iter().map(|(a, b)| a / b).collect();
    let (a, b) = (unit.show(quantile(&a, 0.5)), unit.show(quantile(&b, 0.5)));
    let [low, middle, high] = [0.25, 0.5, 0.75].map(|part| quantile(&ratios, part));
    println!("| {what} | {a} | {against} | {b} | {middle:.2} | {low:.2} to {high:.2} |");
}
