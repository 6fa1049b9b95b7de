//! Gases and records with document 01's answers, for the tests, the benchmarks and `examples/expected.rs`.

// Each program that includes this module uses a part of it.
#![allow(dead_code)]

pub const METHANE: u8 = 1;
pub const HYDROGEN: u8 = 41;
pub const WATER: u8 = 42;

/// Line numbers and fractions of K1, the gas of annex D.
#[rustfmt::skip]
pub const K1: [(u8, u32); 8] =
    [(1, 924_700), (2, 35_000), (3, 9_800), (4, 2_200), (5, 3_400), (6, 600), (52, 17_500), (54, 6_800)];

/// Z, Hs, Hi, rho, d and W of K1 at 15/15.
#[rustfmt::skip]
pub const K1_PROPERTIES: [u64; 6] = [997_709_976, 38_959_473, 35_144_879, 74_087_496, 60_459_367, 50_105_024];

/// The permitted pairs, combustion and metering in °C.
pub const PAIRS: [(u8, u8); 6] = [(15, 15), (0, 0), (15, 0), (25, 0), (20, 20), (25, 20)];

/// The record of K2.
pub const K2: [u8; 13] = [
    0x47, 0x43, 0x52, 0x01, 0x00, 0x0F, 0x0F, 0x01, 0x01, 0x40, 0x42, 0x0F, 0x00,
];

/// A record with the given pair and entries, unchecked.
pub fn record(combustion: u8, metering: u8, entries: &[(u8, u32)]) -> Vec<u8> {
    let mut bytes = b"GCR\x01\x00".to_vec();
    bytes.extend([combustion, metering, entries.len() as u8]);
    for (line, fraction) in entries {
        bytes.push(*line);
        bytes.extend(fraction.to_le_bytes());
    }
    bytes
}

/// A line up to 1,000,000, and other lines with their fractions.
fn filled_by(line: u8, others: &[(u8, u32)]) -> Vec<(u8, u32)> {
    let rest: u32 = others.iter().map(|(_, fraction)| fraction).sum();
    let mut entries = [&[(line, 1_000_000 - rest)], others].concat();
    entries.sort_unstable();
    entries
}

/// Methane up to 1,000,000, and other lines with their fractions.
pub fn methane_and(others: &[(u8, u32)]) -> Vec<(u8, u32)> {
    filled_by(METHANE, others)
}

/// Hydrogen up to 1,000,000, and other lines with their fractions.
pub fn hydrogen_and(others: &[(u8, u32)]) -> Vec<(u8, u32)> {
    filled_by(HYDROGEN, others)
}

/// Every line: water 200, the others but one 500 each.
fn every_line_filled_by(line: u8) -> Vec<(u8, u32)> {
    let others: Vec<_> = (1..=55)
        .filter(|other| *other != line)
        .map(|other| (other, if other == WATER { 200 } else { 500 }))
        .collect();
    filled_by(line, &others)
}

/// Every line: water 200, the others but methane 500 each.
pub fn every_line() -> Vec<(u8, u32)> {
    every_line_filled_by(METHANE)
}

/// Every line: water 200, the others but hydrogen 500 each.
pub fn every_line_in_class() -> Vec<(u8, u32)> {
    every_line_filled_by(HYDROGEN)
}

/// A gas: a title, the pair of temperatures in °C, the entries, and the number that refuses its record, 0 where it is accepted.
pub struct Gas {
    pub title: String,
    pub pair: (u8, u8),
    pub entries: Vec<(u8, u32)>,
    pub number: u8,
}

impl Gas {
    fn new(title: &str, pair: (u8, u8), entries: Vec<(u8, u32)>, number: u8) -> Self {
        let title = title.to_string();
        Self {
            title,
            pair,
            entries,
            number,
        }
    }

    pub fn record(&self) -> Vec<u8> {
        record(self.pair.0, self.pair.1, &self.entries)
    }
}

/// The cases K1 to K8.
pub fn of_paper() -> Vec<Gas> {
    let gas = |title, number, entries| Gas::new(title, (15, 15), entries, number);
    let methane = |title, number, fraction| gas(title, number, vec![(1, fraction)]);
    let and = |title, number, others: &[_]| gas(title, number, methane_and(others));
    let inert = |ethane| [(2, ethane), (52, 300_000), (54, 150_000)];
    vec![
        gas("K1", 0, K1.to_vec()),
        methane("K2", 0, 1_000_000),
        methane("K3, 999,900", 0, 999_900),
        methane("K3, 1,000,100", 0, 1_000_100),
        methane("K3, 999,899", 9, 999_899),
        methane("K3, 1,000,101", 9, 1_000_101),
        and("K4, 300,000", 0, &[(52, 300_000)]),
        and("K4, 300,001", 11, &[(52, 300_001)]),
        and("K5, methane 500,000", 0, &inert(50_000)),
        and("K5, methane 499,999", 10, &inert(50_001)),
        and("K6, water 200", 0, &[(42, 200)]),
        and("K6, water 201", 12, &[(42, 201)]),
        and("K7", 0, &[(55, 50_000)]),
        Gas::new("K8, 25/15", (25, 15), methane_and(&[]), 4),
        and("K8, line 1 twice", 7, &[(1, 500_000)]),
    ]
}

/// The gases of `limit_cases` in crates/records/specs/Cases.antt: 10, 11 and 12, each beside 9 and beside those after it, and 9 alone.
pub fn on_limits() -> Vec<Gas> {
    let gas = |title, number, entries: &[_]| Gas::new(title, (15, 15), entries.to_vec(), number);
    let mut nitrogen_high = K1;
    nitrogen_high[6].1 = 400_000;
    let others = (3..=11).map(|line| (line, if line == 3 { 1 } else { 50_000 }));
    let filled: Vec<_> = [(1, u32::MAX), (2, 150_000)]
        .into_iter()
        .chain(others)
        .chain([(52, 300_000), (54, 150_000)])
        .collect();
    let full: Vec<_> = (1..=55).map(|line| (line, u32::MAX)).collect();
    let at_limits = [
        (1, 500_000),
        (2, 150_000),
        (42, 200),
        (52, 300_000),
        (54, 150_000),
    ];
    vec![
        gas("nitrogen 400,000", 11, &nitrogen_high),
        gas("methane 499,999 alone", 10, &[(1, 499_999)]),
        gas("no methane", 10, &[(2, 1_000_000)]),
        gas(
            "9, 10, 11 and 12",
            10,
            &[(1, 499_999), (42, 201), (52, 400_000)],
        ),
        gas("11 and 12", 11, &[(1, 949_798), (42, 201), (55, 50_001)]),
        gas(
            "9, 11 and 12",
            11,
            &[(1, 600_000), (42, 201), (52, 400_000)],
        ),
        gas("2^32 - 1 of every line", 11, &full),
        gas("9 and 12", 12, &[(1, 999_900), (42, 201)]),
        gas("9 with five lines on their limits", 9, &at_limits),
        gas("methane 2^32 - 1", 9, &[(1, u32::MAX)]),
        gas("2^32 + 1,000,000 in all", 9, &filled),
    ]
}

/// The gases of `class_cases` in crates/records/specs/Cases.antt: the limits of the hydrogen class, and its numbers beside one another.
#[rustfmt::skip]
pub fn in_class() -> Vec<Gas> {
    let title = |of: &str| format!("hydrogen class, {of}");
    let gas = |of: &str, number, entries: &[_]| Gas::new(&title(of), (15, 15), entries.to_vec(), number);
    let alone = |number, fraction| gas(&format!("hydrogen {fraction} alone"), number, &[(41, fraction)]);
    vec![
        gas("three lines on their limits", 0, &[(1, 50_000), (41, 900_000), (52, 50_000)]),
        gas("methane 50,001", 11, &[(1, 50_001), (41, 900_000), (52, 49_999)]),
        gas("hydrogen 899,999", 10, &[(1, 50_000), (41, 899_999), (52, 50_001)]),
        alone(0, 1_000_000),
        alone(0, 999_900),
        alone(0, 1_000_100),
        alone(9, 999_899),
        alone(9, 1_000_101),
        alone(9, 900_000),
        gas("water 200", 0, &[(41, 999_800), (42, 200)]),
        gas("water 201", 12, &[(41, 999_799), (42, 201)]),
        gas("11 and 12", 11, &[(41, 949_798), (42, 201), (52, 50_001)]),
        gas("9 and 12", 12, &[(41, 999_900), (42, 201)]),
        gas("methane 100,000", 11, &[(1, 100_000), (41, 900_000)]),
        gas("methane 500,000", 11, &[(1, 500_000), (41, 900_000)]),
        alone(9, u32::MAX),
    ]
}

/// A gas with its title, its name in crates/properties/specs/Cases.antt, its pair and its entries.
type Named = (&'static str, &'static str, (u8, u8), Vec<(u8, u32)>);

fn gases_of(named: impl IntoIterator<Item = Named>) -> Vec<(&'static str, Gas)> {
    named
        .into_iter()
        .map(|(title, name, pair, entries)| {
            let title = format!("{title} {}/{}", pair.0, pair.1);
            (name, Gas::new(&title, pair, entries, 0))
        })
        .collect()
}

fn annex_d(pair: (u8, u8)) -> Named {
    ("annex D", "annex_d", pair, K1.to_vec())
}

fn hydrogen_50000(pair: (u8, u8)) -> Named {
    let entries = methane_and(&[(41, 50_000)]);
    ("hydrogen 50,000", "hydrogen_50000", pair, entries)
}

fn hydrogen_1000000(pair: (u8, u8)) -> Named {
    ("hydrogen", "hydrogen_1000000", pair, hydrogen_and(&[]))
}

/// Hydrogen with methane and nitrogen, all three on their limits.
fn hydrogen_900000() -> Named {
    let entries = hydrogen_and(&[(1, 50_000), (52, 50_000)]);
    ("hydrogen 900,000", "hydrogen_900000", (15, 15), entries)
}

fn half_below_zero() -> Named {
    let entries = HALF_BELOW_ZERO.to_vec();
    ("half below zero", "half_below_zero", (15, 15), entries)
}

/// Methane and hydrogen: at 15 °C S/10 is -4,784,506.5, and rounded away from 0 it gives another Z.
pub const HALF_BELOW_ZERO: [(u8, u32); 2] = [(1, 313), (41, 999_687)];

fn all_lines_in_class() -> Named {
    let title = "hydrogen, every line";
    (
        title,
        "hydrogen_every_line",
        (25, 20),
        every_line_in_class(),
    )
}

/// The least methane with ten heavy lines.
fn heavy() -> Named {
    let others: Vec<_> = (8..=17).map(|line| (line, 50_000)).collect();
    ("heavy", "heavy", (0, 0), methane_and(&others))
}

fn all_lines() -> Named {
    ("every line", "every_line", (25, 20), every_line())
}

/// The gases of `gases` in crates/properties/specs/Cases.antt, each with its name there.
pub fn further() -> Vec<(&'static str, Gas)> {
    let at_half = methane_and(&[(4, 14_351), (16, 41_306)]);
    let below_half = methane_and(&[(16, 9_403)]);
    let [least, greatest] = [999_900, 1_000_100].map(|fraction| vec![(41, fraction)]);
    let outside = [
        annex_d((0, 0)),
        annex_d((15, 0)),
        annex_d((25, 0)),
        annex_d((20, 20)),
        annex_d((25, 20)),
        hydrogen_50000((15, 15)),
        hydrogen_50000((25, 0)),
        heavy(),
        ("at a half", "at_half", (25, 0), at_half),
        ("below a half", "below_half", (15, 15), below_half),
        all_lines(),
    ];
    let hydrogen = PAIRS.map(hydrogen_1000000);
    let in_class = [
        ("hydrogen 999,900", "hydrogen_999900", (15, 15), least),
        ("hydrogen 1,000,100", "hydrogen_1000100", (15, 15), greatest),
        hydrogen_900000(),
        half_below_zero(),
        all_lines_in_class(),
    ];
    gases_of(outside.into_iter().chain(hydrogen).chain(in_class))
}

/// Methane, ethane and nitrogen: at 15 °C the superior calorific value per kilogram, unrounded, ends in .5.
pub const HALF_GAS: [(u8, u32); 3] = [(1, 905_709), (2, 60_753), (52, 33_538)];

/// The gases of `per_kilogram_gases` in crates/properties/specs/Cases.antt, each with its name there.
#[rustfmt::skip]
pub fn by_mass() -> Vec<(&'static str, Gas)> {
    let methane = [(25, 0), (20, 20), (15, 15), (0, 0)].map(|pair| ("methane", "methane", pair, methane_and(&[])));
    let annex_d = PAIRS.map(annex_d);
    let half = ("half a unit", "half_gas", (15, 15), HALF_GAS.to_vec());
    let others = [hydrogen_50000((15, 15)), heavy(), all_lines(), half];
    let hydrogen = [(25, 0), (20, 20), (15, 15), (0, 0)].map(hydrogen_1000000);
    let in_class = [hydrogen_900000(), all_lines_in_class()];
    gases_of(methane.into_iter().chain(annex_d).chain(others).chain(hydrogen).chain(in_class))
}

/// Every record with its title and the number that refuses it, 0 where it is accepted: the gases, K2 at another pair, and bytes that are
/// no record, among them one for each number that no gas has.
pub fn records() -> Vec<(String, Vec<u8>, u8)> {
    let changed = |at: usize, byte| {
        let mut bytes = K2;
        bytes[at] = byte;
        bytes.to_vec()
    };
    let many = |count| [&K2[..7], &[count], &[1; 1275]].concat();
    let beside = |first, second| record(15, 15, &[(1, first), (2, second)]);
    let others = [
        ("K2 25/20", record(25, 20, &methane_and(&[])), 0),
        ("no bytes", vec![], 1),
        ("7 bytes", K2[..7].to_vec(), 1),
        ("mark GCS", changed(2, b'S'), 2),
        ("bytes of 170", vec![170; 13], 2),
        ("version 2", changed(3, 2), 3),
        ("version 257", changed(4, 1), 3),
        ("no entry", record(15, 15, &[]), 5),
        ("255 entries", many(255), 5),
        ("8 bytes", K2[..8].to_vec(), 6),
        ("a byte short", K2[..12].to_vec(), 6),
        ("a byte more", [&K2[..], &[0]].concat(), 6),
        ("55 entries and more bytes", many(55), 6),
        ("fraction 0", record(15, 15, &[(1, 0)]), 8),
        ("fraction 0 last", beside(1_000_000, 0), 8),
    ];
    let gases = further().into_iter().map(|(_, gas)| gas);
    gases
        .chain(of_paper())
        .chain(on_limits())
        .chain(in_class())
        .map(|gas| (gas.title.clone(), gas.record(), gas.number))
        .chain(others.map(|(title, bytes, number)| (title.to_string(), bytes, number)))
        .collect()
}
