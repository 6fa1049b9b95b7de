//! The search for the integer root, from the archive that `tools/build try_root`
//! writes, and relative densities whose roots it is asked for.

// Each program that includes this module uses a part of it.
#![allow(dead_code)]

use crate::cases::{hydrogen_and, methane_and, record, K1};
use std::hint::black_box;

/// Places in which a search tells its candidates.
pub const PLACES: usize = 40;

mod archive {
    #[link(name = "try_root", kind = "static")]
    extern "C" {
        pub fn try_root_first_candidate(n: u64) -> u32;
        pub fn try_root_round(n: u64, c: u32, next: *mut u32) -> bool;
        pub fn try_root_search(n: u64, tried: *mut [u32; super::PLACES]) -> u64;
        pub fn try_root_integer_root(n: u64) -> u64;
    }
}

/// The first candidate for the root of n.
pub fn first_candidate(n: u64) -> u32 {
    // SAFETY: numbers alone are passed.
    unsafe { archive::try_root_first_candidate(n) }
}

/// One round, which tries c: the next candidate, or none after the last round.
pub fn try_candidate(n: u64, c: u32) -> Option<u32> {
    let mut next = 0;
    // SAFETY: `next` is ours.
    let last = unsafe { archive::try_root_round(n, c, &mut next) };
    (!last).then_some(next)
}

/// The whole search: its rounds, and what it tells of the candidates.
pub fn search(n: u64) -> (usize, [u32; PLACES]) {
    let mut tried = [u32::MAX; PLACES];
    // SAFETY: `tried` is ours.
    let rounds = unsafe { archive::try_root_search(n, &mut tried) };
    (rounds as usize, tried)
}

/// A function that takes the root of a number.
pub type Root = extern "C" fn(u64) -> u64;

/// Takes the roots of numbers over and over, one after the other: each waits for
/// the one before, of which all bits above 32 are 0.
#[inline(never)]
pub fn one_by_one(root: Root, numbers: &[u64], calls: u32) {
    let mut last = 0;
    for n in numbers.iter().cycle().take(calls as usize) {
        last = root(n + (last >> 32));
    }
    black_box(last);
}

/// The root of n, as the library calculates it.
pub extern "C" fn integer_root(n: u64) -> u64 {
    // SAFETY: a number alone is passed.
    unsafe { archive::try_root_integer_root(n) }
}

/// What the root is taken of, for a relative density in 10^-8.
pub fn radicand(d: u64) -> u64 {
    d * 10_000_000_000
}

/// The relative density of a record, or none where it is refused.
pub fn density(combustion: u8, metering: u8, entries: &[(u8, u32)]) -> Option<u64> {
    let properties = loonstool::properties_of(&record(combustion, metering, entries));
    properties.ok().map(|p| p.d)
}

pub fn density_of_k1() -> u64 {
    density_at_15(&K1)
}

/// Those of methane, ethane, nitrogen and carbon dioxide in whole percents, up to
/// the limits of each, at 15/15.
pub fn densities_of_natural_gases() -> Vec<u64> {
    let percents = |most: u32| (0..=most).map(|percent| percent * 10_000);
    let mut densities = Vec::new();
    for ethane in percents(15) {
        for nitrogen in percents(30) {
            for dioxide in percents(15) {
                if ethane + nitrogen + dioxide > 500_000 {
                    continue; // methane too low
                }
                let others = [(2, ethane), (52, nitrogen), (54, dioxide)];
                densities.push(density_at_15(&methane_and(&present(&others))));
            }
        }
    }
    densities
}

/// Those of hydrogen with methane, nitrogen and carbon dioxide in steps of 0.2
/// percent, up to the limits of the hydrogen class, at 15/15.
pub fn densities_in_hydrogen_class() -> Vec<u64> {
    let steps = || (0..=25).map(|step| step * 2_000);
    let mut densities = Vec::new();
    for methane in steps() {
        for nitrogen in steps() {
            for dioxide in steps() {
                if methane + nitrogen + dioxide > 100_000 {
                    continue; // outside the class
                }
                let others = [(1, methane), (52, nitrogen), (54, dioxide)];
                densities.push(density_at_15(&hydrogen_and(&present(&others))));
            }
        }
    }
    densities
}

/// The entries that have a fraction.
fn present(entries: &[(u8, u32)]) -> Vec<(u8, u32)> {
    let present = entries.iter().filter(|(_, fraction)| *fraction > 0);
    present.copied().collect()
}

/// The relative density of an accepted record at 15/15.
fn density_at_15(entries: &[(u8, u32)]) -> u64 {
    density(15, 15, entries).expect("the gas is within the limits")
}
