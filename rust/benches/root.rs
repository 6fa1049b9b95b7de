//! Times the root of the proved library beside `u64::isqrt` of Rust in one
//! process, each a call through an address, one root after the other, and counts
//! the rounds of the library's search.
//!
//! `cargo bench --offline --bench root`

#[path = "../tests/cases/mod.rs"]
mod cases;
#[path = "../tests/root_search/mod.rs"]
mod root_search;
mod timing;

use root_search::{
    densities_in_hydrogen_class, densities_of_natural_gases, density_of_k1, integer_root,
    one_by_one, radicand, search, Root,
};
use std::hint::black_box;
use timing::{goal, percentile, ratios, Side, REPETITIONS};

/// Roots that a side takes in a repetition, 2 to 5 ms.
const CALLS: u32 = 100_000;

extern "C" fn isqrt(n: u64) -> u64 {
    n.isqrt()
}

fn main() {
    println!("ns for a root: medians of {REPETITIONS} repetitions for each side; ratio: median, and 10th to 90th of 100");
    println!(
        "{:<32} {:>6} {:>8} {:>8}   library / u64::isqrt",
        "argument", "rounds", "library", "isqrt"
    );
    let k1 = row("K1", &[density_of_k1()]);
    let natural = row("natural gases in turn", &densities_of_natural_gases());
    let hydrogen = row("hydrogen class in turn", &densities_in_hydrogen_class());
    goal("root of K1 no slower than u64::isqrt", k1, 1.0);
    goal("roots of natural gases no slower", natural, 1.0);
    goal("roots in the hydrogen class no slower", hydrogen, 1.0);
}

/// Measures both sides on relative densities, prints the figures, and answers the
/// ratio.
fn row(name: &str, densities: &[u64]) -> f64 {
    let numbers: Vec<u64> = densities.iter().map(|d| radicand(*d)).collect();
    let rounds: usize = numbers.iter().map(|n| search(*n).0).sum();
    let mean = rounds as f64 / numbers.len() as f64;
    let mut sides = [integer_root as Root, isqrt as Root].map(|root| (CALLS, side(root, &numbers)));
    let ns = timing::measure(&mut sides);
    let [library, isqrt] = [0, 1].map(|side| percentile(&ns[side], 50));
    let shown = timing::shown(&ns[0], &ns[1]);
    println!("{name:<32} {mean:>6.2} {library:>8.2} {isqrt:>8.2}   {shown}");
    ratios(&ns[0], &ns[1])[1]
}

/// The roots of the numbers over and over.
fn side(root: Root, numbers: &[u64]) -> Side<'_> {
    let (root, numbers) = (black_box(root), black_box(numbers));
    Box::new(move |calls| one_by_one(root, numbers, calls))
}
