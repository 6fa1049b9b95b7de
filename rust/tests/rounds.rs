//! Counts the rounds of the search for the root (W-203 of document 02), one
//! candidate at a time: each is the root just where its round is the last, and
//! there are at most 40. Prints the most rounds of each kind of argument and where
//! they occur.
//!
//! `cargo test --offline --release --test rounds`

mod cases;
mod extremes;
mod plain;
mod records;
mod root_search;

use records::Class;
use root_search::{
    densities_in_hydrogen_class, densities_of_natural_gases, density_of_k1, first_candidate,
    integer_root, radicand, search, try_candidate,
};

/// Rounds that a search may take, by W-203.
const ALLOWED: usize = 40;

/// The most rounds of any number, and of relative densities from 0.062 to 3.9, as
/// they are proved.
const MOST: usize = 28;
const MOST_OF_DENSITIES: usize = 6;
const DENSITIES: std::ops::RangeInclusive<u64> = 6_200_000..=390_000_000;

fn main() {
    let of_classes = Class::BOTH.map(|class| {
        let [least, greatest] = extremes::of_class(class);
        println!(
            "least and greatest d of an accepted record{}: {least}, {greatest}",
            class.name()
        );
        [least, greatest]
    });
    println!(
        "{:<50} {:>7} {:>6} {:>5}   first at n",
        "arguments n", "number", "mean", "most"
    );
    let across = DENSITIES.step_by(1_919).chain([*DENSITIES.end()]).collect();
    let of_densities = [
        ("d of K1", vec![density_of_k1()]),
        ("d of natural gases", densities_of_natural_gases()),
        ("d in the hydrogen class", densities_in_hydrogen_class()),
        (
            "least and greatest d of an accepted record",
            of_classes.concat(),
        ),
        ("d from 0.062 to 3.9", across),
        (
            "d from 0.062 to 0.12",
            (6_200_000..=12_000_000).step_by(100).collect(),
        ),
    ];
    let last = u64::MAX - 1_000..=u64::MAX;
    let others = [
        ("0 to 1,000", (0..=1_000).collect()),
        ("powers of two, one less and one more", powers_of_two()),
        (
            "squares, one less, one more, and before the next",
            squares(),
        ),
        ("where another first candidate begins", borders()),
        ("the last 1,001 below 2^64", last.collect()),
        ("numbers of 1 to 64 bits", of_every_length()),
    ];
    let of_densities =
        of_densities.map(|(name, densities)| (name, densities.into_iter().map(radicand).collect()));
    let [of_gases, of_others] = [greatest_of(&of_densities), greatest_of(&others)];
    assert_eq!(of_gases.0, MOST_OF_DENSITIES, "proved, and met");
    assert_eq!(of_others.0, MOST, "proved, and met by 0");
    let (rounds, n) = of_gases.max(of_others);
    println!("the most rounds: {rounds}, first at {n}; {ALLOWED} are allowed");
}

/// Counts the rounds of each kind of number, and answers the most, with the first
/// number that takes so many.
fn greatest_of(kinds: &[(&str, Vec<u64>)]) -> (usize, u64) {
    let most = kinds.iter().map(|(name, numbers)| kind(name, numbers));
    let first = most.max_by_key(|(rounds, n)| (*rounds, !n));
    first.expect("there are kinds")
}

/// Counts the rounds of each number, prints a line, and answers the most, with the
/// first number that takes so many.
fn kind(name: &str, numbers: &[u64]) -> (usize, u64) {
    let counts: Vec<_> = numbers.iter().map(|n| (counted(*n), *n)).collect();
    let sum: usize = counts.iter().map(|(rounds, _)| rounds).sum();
    let first = counts
        .iter()
        .copied()
        .rev()
        .max_by_key(|(rounds, _)| *rounds);
    let (rounds, n) = first.expect("there are numbers");
    let mean = sum as f64 / numbers.len() as f64;
    println!(
        "{name:<50} {:>7} {mean:>6.2} {rounds:>5}   {n}",
        numbers.len()
    );
    (rounds, n)
}

/// The rounds of the search for the root of n, counted here; the whole search
/// tells the same candidates.
fn counted(n: u64) -> usize {
    let mut candidates = Vec::new();
    let mut next = Some(first_candidate(n));
    while let Some(c) = next {
        candidates.push(c);
        assert!(
            candidates.len() <= ALLOWED,
            "{n}: more than {ALLOWED} rounds"
        );
        next = try_candidate(n, c);
        assert_eq!(
            next.is_none(),
            is_root(c, n),
            "{n}: {c} was tried, then {next:?}"
        );
    }
    let (rounds, tried) = search(n);
    assert_eq!(tried[..rounds], candidates, "{n}");
    assert!(tried[rounds..].iter().all(|c| *c == 0), "{n}: {tried:?}");
    assert_eq!(integer_root(n), n.isqrt());
    candidates.len()
}

/// Whether c² ≤ n < (c + 1)².
fn is_root(c: u32, n: u64) -> bool {
    let square = |c: u128| c * c;
    let [c, n] = [u128::from(c), u128::from(n)];
    square(c) <= n && n < square(c + 1)
}

fn powers_of_two() -> Vec<u64> {
    let powers = (0..64).map(|k| 1u64 << k);
    powers.flat_map(|n| [n - 1, n, n + 1]).collect()
}

/// Of 1 to 1,000, of roots spread over 32 bits, and of the last root.
fn squares() -> Vec<u64> {
    let last = u64::from(u32::MAX);
    let spread = (1_001..last).step_by(42_947);
    let roots = (1..=1_000).chain(spread).chain([last]);
    let around = |r: u64| [r * r - 1, r * r, r * r + 1, r * r + 2 * r];
    roots.flat_map(around).collect()
}

fn borders() -> Vec<u64> {
    let around = |n: u64| n - 1_000..=n + 1_000;
    let borders = [200_000_000_000_000_000, 6_000_000_000_000_000_000];
    borders.into_iter().flat_map(around).collect()
}

fn of_every_length() -> Vec<u64> {
    let spread = |i: u64| i.wrapping_mul(0x9E37_79B9_7F4A_7C15) >> (i % 64);
    (1..=400_000).map(spread).collect()
}
