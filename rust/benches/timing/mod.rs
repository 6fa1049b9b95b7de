//! Times of several sides that do the same work in one process.

use std::time::Instant;

pub const REPETITIONS: usize = 101;

/// A side: makes a number of calls.
pub type Side<'a> = Box<dyn FnMut(u32) + 'a>;

/// The ns for a call over a number of calls.
pub fn time(calls: u32, side: &mut Side) -> f64 {
    let start = Instant::now();
    side(calls);
    start.elapsed().as_nanos() as f64 / f64::from(calls)
}

/// The ns for a call of each side in each repetition, in which it makes the
/// given number of calls; the sides begin by turns.
pub fn measure(sides: &mut [(u32, Side)]) -> Vec<Vec<f64>> {
    let mut ns = vec![Vec::new(); sides.len()];
    for repetition in 0..REPETITIONS {
        for turn in 0..sides.len() {
            let place = (repetition + turn) % sides.len();
            let (calls, side) = &mut sides[place];
            ns[place].push(time(*calls, side));
        }
    }
    ns
}

/// The given percentile.
pub fn percentile(figures: &[f64], percent: usize) -> f64 {
    let mut figures = figures.to_vec();
    figures.sort_unstable_by(f64::total_cmp);
    figures[(figures.len() - 1) * percent / 100]
}

/// The 10th, 50th and 90th percentile of the ratios of two sides.
pub fn ratios(one: &[f64], other: &[f64]) -> [f64; 3] {
    let ratios: Vec<f64> = one.iter().zip(other).map(|(a, b)| a / b).collect();
    [10, 50, 90].map(|percent| percentile(&ratios, percent))
}

/// The ratios of two sides, as they are printed.
pub fn shown(one: &[f64], other: &[f64]) -> String {
    let [tenth, median, ninetieth] = ratios(one, other);
    format!("{median:>7.3} ({tenth:.3} to {ninetieth:.3})")
}

pub fn goal(what: &str, ratio: f64, most: f64) {
    let met = if ratio <= most { "met" } else { "not met" };
    println!("goal: {what}: {ratio:.2}, {met}");
}
