//! The least and the greatest relative density of an accepted record of a class.
//!
//! At one pair of temperatures M and S are linear in the fractions, and d is as
//! M / (1 - (S / 10^10)²). Compositions with d up to some t are those with
//! M + t (S / 10^10)² up to t, a convex set, whether S is above 0 or below; and
//! those that the limits of a class permit are one too. So a d that no small step
//! within the class lowers is the least of all; and where d is greatest, M + λ S
//! is greatest for some λ, which has the sign of S. A step of 1 ppm from one class
//! never leads to an accepted record of the other.

use crate::cases::{HYDROGEN, METHANE, PAIRS};
use crate::plain::conditions::Conditions;
use crate::plain::table::{MASS, TABLE};
use crate::records::{Class, SUM};
use crate::root_search::density;

type Pair = (u8, u8);

type Entries = Vec<(u8, u32)>;

/// The least and the greatest. At no pair a step lowers the one or raises the
/// other.
pub fn of_class(class: Class) -> [u64; 2] {
    let least = PAIRS.map(|pair| {
        let entries = lightest(class);
        let d = accepted(pair, &entries);
        let lower = steps(pair, &entries).find(|other| *other < d);
        assert_eq!(lower, None, "{pair:?}: a step from {d}");
        d
    });
    let greatest = PAIRS.map(|pair| {
        let heaviest = heaviest_at(pair, class)
            .into_iter()
            .max_by_key(|entries| accepted(pair, entries));
        let entries = heaviest.expect("there are compositions");
        let d = accepted(pair, &entries);
        let higher = steps(pair, &entries).find(|other| *other > d);
        assert_eq!(higher, None, "{pair:?}: a step from {d}");
        d
    });
    let least = least.into_iter().min();
    let greatest = greatest.into_iter().max();
    [least, greatest].map(|d| d.expect("there are pairs"))
}

/// The composition with the least d: the least sum of hydrogen alone, or of
/// methane with the two light lines, hydrogen and helium, at their limits.
fn lightest(class: Class) -> Entries {
    match class {
        Class::Other => vec![(METHANE, 899_900), (HYDROGEN, 50_000), (49, 50_000)],
        Class::Hydrogen => vec![(HYDROGEN, 999_900)],
    }
}

fn accepted((combustion, metering): Pair, entries: &[(u8, u32)]) -> u64 {
    density(combustion, metering, entries).expect("the record is accepted")
}

/// The densities of the accepted records a step away: 1 ppm from one line to
/// another, 1 ppm more or less.
fn steps((combustion, metering): Pair, entries: &[(u8, u32)]) -> impl Iterator<Item = u64> {
    // Line 0 stands for none: a ppm less, or more.
    let mut fractions = [0; 56];
    fractions[0] = 1;
    for (line, fraction) in entries {
        fractions[usize::from(*line)] = *fraction;
    }
    let exchanges = (0..56).flat_map(|from| (0..56).map(move |to| (from, to)));
    exchanges.filter_map(move |(from, to)| {
        let mut moved = fractions;
        moved[from] = u32::checked_sub(moved[from], 1)?;
        moved[to] += 1;
        density(combustion, metering, &present(&moved))
    })
}

/// The compositions of a class with the greatest M + λ S, for every λ.
fn heaviest_at((combustion, metering): Pair, class: Class) -> Vec<Entries> {
    let factor = Conditions::of(combustion, metering)
        .expect("the pair is permitted")
        .factor;
    let columns = TABLE.map(|row| [f64::from(row[MASS]), f64::from(row[factor])]);
    // Between two λ at which two lines weigh the same, or a line nothing, the order of the lines is one.
    let weighed = [&columns[..], &[[0.0; 2]]].concat();
    let pairs = weighed
        .iter()
        .flat_map(|a| weighed.iter().map(move |b| (a, b)));
    let even = pairs.map(|(a, b)| (a[0] - b[0]) / (b[1] - a[1]));
    let mut changes: Vec<f64> = even.filter(|l| l.is_finite()).collect();
    changes.sort_by(f64::total_cmp);
    changes.dedup();
    let [first, last] = [changes[0], changes[changes.len() - 1]];
    let bounds = [vec![first - 1.0], changes, vec![last + 1.0]].concat();
    let between = bounds.windows(2).map(|l| (l[0] + l[1]) / 2.0);
    between
        .map(|l| heaviest(class, &columns.map(|[m, s]| m + l * s)))
        .collect()
}

/// The composition of a class with the greatest sum of fraction times weight. What
/// weighs less than nothing is taken up to the least sum alone.
fn heaviest(class: Class, weights: &[f64; 55]) -> Entries {
    let weight = |line: &u8| weights[usize::from(*line) - 1];
    let mut lines: Vec<u8> = (1..=55).collect();
    lines.sort_by(|a, b| weight(b).total_cmp(&weight(a)));
    let mut fractions = [0; 56];
    let mut total = class.least();
    fractions[usize::from(class.main_line())] = total;
    for line in lines {
        let sum = if weight(&line) > 0.0 { SUM.1 } else { SUM.0 };
        let room = sum.saturating_sub(total);
        let more = match line == class.main_line() {
            true => room,
            false => room.min(class.limit(line)),
        };
        fractions[usize::from(line)] += more;
        total += more;
    }
    present(&fractions)
}

/// The entries of the lines that have a fraction.
fn present(fractions: &[u32; 56]) -> Entries {
    let lines = (1..=55).map(|line| (line, fractions[usize::from(line)]));
    lines.filter(|(_, fraction)| *fraction > 0).collect()
}
