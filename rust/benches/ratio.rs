//! Times the properties of a record in one process: of the proved library, of
//! the plain version in Rust, and of c/doubles.c; its values per kilogram, of the
//! first two; and those of the library beside one another on a record outside the
//! hydrogen class and on one in it with as many lines.
//!
//! `cargo bench --offline --bench ratio`

#[path = "../tests/cases/mod.rs"]
mod cases;
#[path = "../tests/plain/mod.rs"]
mod plain;
#[path = "../tests/root_search/mod.rs"]
mod root_search;
mod timing;

use cases::{every_line, every_line_in_class, hydrogen_and, methane_and, record, K1};
use loonstool::{PerKilogram, Properties, Refusal};
use root_search::{integer_root, one_by_one, radicand, search};
use std::hint::black_box;
use std::time::{Duration, Instant};
use timing::{goal, percentile, ratios, Side, REPETITIONS};

/// The time each side runs in one repetition.
const SLICE: Duration = Duration::from_millis(2);

const WARM_UP: Duration = Duration::from_millis(200);

/// A call under test.
type Call = &'static dyn Fn(&[u8]);

/// Library, plain Rust and C. Each is one call, whose six numbers are used one by one: the archive's functions are not inlined, and plain
/// Rust is called through a pointer that the compiler does not know.
const SIDES: [Call; 3] = [
    &|record| used(loonstool::properties_of(record).map_err(Refusal::number)),
    &|record| used(through(plain::properties_of)(record)),
    &|record| {
        in_doubles(record)
            .iter()
            .flatten()
            .for_each(|n| _ = black_box(*n))
    },
];

/// The same for the values per kilogram, library and plain Rust.
const PER_KILOGRAM: [Call; 2] = [
    &|record| used_values(loonstool::per_kilogram(record).map_err(Refusal::number)),
    &|record| used_values(through(plain::per_kilogram)(record)),
];

fn used(answer: Result<Properties, u8>) {
    match answer {
        Ok(p) => plain::six(&p).iter().for_each(|n| _ = black_box(*n)),
        Err(number) => _ = black_box(number),
    }
}

fn used_values(answer: Result<PerKilogram, u8>) {
    match answer {
        Ok(values) => _ = (black_box(values.superior), black_box(values.inferior)),
        Err(number) => _ = black_box(number),
    }
}

fn through<T>(side: fn(&[u8]) -> T) -> fn(&[u8]) -> T {
    black_box(side)
}

extern "C" {
    fn doubles_take_table(numbers: *const [[i32; 12]; 55]);
    fn doubles_properties_of(bytes: *const u8, length: usize, six: *mut [f64; 6]) -> i32;
}

fn in_doubles(record: &[u8]) -> Option<[f64; 6]> {
    let mut six = [0.0; 6];
    // SAFETY: the slice is valid for its length, and `six` is ours.
    let accepted = unsafe { doubles_properties_of(record.as_ptr(), record.len(), &mut six) };
    (accepted != 0).then_some(six)
}

fn main() {
    // SAFETY: the table is whole, and no other thread runs.
    unsafe { doubles_take_table(&plain::table::TABLE) };
    println!(
        "ns for a record: medians of {REPETITIONS} repetitions of about {} ms for each side; ratios: medians, and 10th to 90th of 100",
        SLICE.as_millis()
    );
    println!(
        "{:<32} {:>6} {:>8} {:>8} {:>8}   {:<26} library / C doubles",
        "record", "answer", "library", "Rust", "C", "library / plain Rust"
    );
    let measured = measured();
    let [k1, all, ..] = measured.each_ref().map(|(name, record)| row(name, record));
    for (name, record) in &measured[..2] {
        row_per_kilogram(name, record);
    }
    println!(
        "{:<39} {:>8} {:>8}   {:<26} rounds of the root",
        "library, in the hydrogen class / not", "in it", "not", "in it / not"
    );
    let [annex_d, all_lines, .., methane, hydrogen, hydrogen_8, hydrogen_55] = &measured;
    let of_classes = [
        ("one line", row_of_classes(hydrogen, methane)),
        ("8 lines", row_of_classes(hydrogen_8, annex_d)),
        ("55 lines", row_of_classes(hydrogen_55, all_lines)),
    ];
    goal("K1 no slower than plain Rust, 0.03 for noise", k1, 1.03);
    goal("55 lines at most 1.25 times plain Rust", all, 1.25);
    let longer = "in the hydrogen class at most two rounds longer, 0.03 for noise";
    for (lines, rounds) in of_classes {
        goal(&format!("{lines} {longer}"), rounds, 2.0);
    }
}

/// The fractions that K1 has beside methane, for other lines than hydrogen.
#[rustfmt::skip]
const BESIDE_HYDROGEN: [(u8, u32); 7] =
    [(1, 35_000), (2, 9_800), (3, 2_200), (4, 3_400), (5, 600), (52, 17_500), (54, 6_800)];

/// A record with its name.
type Named = (&'static str, Vec<u8>);

fn measured() -> [Named; 8] {
    let annex_d = record(15, 15, &K1);
    let mut mark_differs = annex_d.clone();
    mark_differs[0] ^= 1;
    let mut wet = K1.to_vec();
    wet[0].1 -= 201;
    wet.insert(6, (42, 201));
    let hydrogen_8 = hydrogen_and(&BESIDE_HYDROGEN);
    [
        ("K1, 8 lines", annex_d),
        ("all 55 lines", record(15, 15, &every_line())),
        ("refused early, mark differs", mark_differs),
        ("refused late, K1 with water 201", record(15, 15, &wet)),
        ("methane alone", record(15, 15, &methane_and(&[]))),
        ("hydrogen alone", record(15, 15, &hydrogen_and(&[]))),
        ("hydrogen, 8 lines", record(15, 15, &hydrogen_8)),
        ("hydrogen, 55 lines", record(15, 15, &every_line_in_class())),
    ]
}

/// Measures the library on two records by turns, prints the figures, and answers how much longer the first takes than 1.03 times the
/// second, in rounds of the search for its root.
fn row_of_classes((name, in_class): &Named, (other, outside): &Named) -> f64 {
    let mut sides = [in_class, outside].map(|record| on(record, SIDES[0]));
    let ns = timing::measure(&mut sides);
    let [first, second] = [0, 1].map(|side| percentile(&ns[side], 50));
    let [(rounds, root), (other_rounds, _)] = [in_class, outside].map(|record| root_of(record));
    let round = root / rounds as f64;
    println!(
        "{:<39} {first:>8.2} {second:>8.2}   {}   {rounds} and {other_rounds}, each {round:.1} ns",
        format!("{name} / {other}"),
        timing::shown(&ns[0], &ns[1]),
    );
    (first - 1.03 * second) / round
}

/// The rounds of the search for the root of a record's relative density, and the ns that it takes.
fn root_of(record: &[u8]) -> (usize, f64) {
    let properties = loonstool::properties_of(record).expect("the record is accepted");
    let n = radicand(properties.d);
    let mut roots: Side = Box::new(move |calls| one_by_one(integer_root, black_box(&[n]), calls));
    let calls = calls_in_slice(&mut roots);
    let ns = timing::measure(&mut [(calls, roots)]);
    (search(n).0, percentile(&ns[0], 50))
}

/// Measures a record on each side that gives its answer, prints the figures, and answers the ratio of the library to plain Rust. C, which
/// refuses little, is measured on accepted records alone.
fn row(name: &str, record: &[u8]) -> f64 {
    let plain = plain::properties_of(record);
    let library = loonstool::properties_of(record);
    assert_eq!(library.map_err(Refusal::number), plain);
    let (answer, sides) = match plain {
        Ok(six) => {
            assert_near(&six, in_doubles(record).expect("C accepts the record"));
            (String::from("six"), &SIDES[..])
        }
        Err(number) => (number.to_string(), &SIDES[..2]),
    };
    print_row(name, &answer, &measure(record, sides))
}

/// The same for the values per kilogram of an accepted record.
fn row_per_kilogram(name: &str, record: &[u8]) {
    let library = loonstool::per_kilogram(record).map_err(Refusal::number);
    assert_eq!(library, plain::per_kilogram(record));
    let ns = measure(record, &PER_KILOGRAM);
    print_row(&format!("{name}, per kilogram"), "two", &ns);
}

/// Prints the figures of the sides, and answers the ratio of the first to the second.
fn print_row(name: &str, answer: &str, ns: &[Vec<f64>]) -> f64 {
    print!("{name:<32} {answer:>6}");
    for side in 0..SIDES.len() {
        match ns.get(side) {
            Some(ns) => print!(" {:>8.2}", percentile(ns, 50)),
            None => print!(" {:>8}", "-"),
        }
    }
    for other in &ns[1..] {
        print!("   {}", timing::shown(&ns[0], other));
    }
    println!();
    ratios(&ns[0], &ns[1])[1]
}

/// C gives the same six to a few parts in a million.
fn assert_near(six: &Properties, doubles: [f64; 6]) {
    let units = [1e-9, 1e-6, 1e-6, 1e-8, 1e-8, 1e-6];
    for ((whole, unit), double) in plain::six(six).into_iter().zip(units).zip(doubles) {
        let scaled = whole as f64 * unit;
        assert!((double / scaled - 1.0).abs() < 3e-6, "{double}, {scaled}");
    }
}

/// The ns for a record of each call in each repetition.
fn measure(record: &[u8], calls: &[Call]) -> Vec<Vec<f64>> {
    let mut sides: Vec<_> = calls.iter().map(|call| on(record, *call)).collect();
    timing::measure(&mut sides)
}

/// A call made on a record, as often as takes about one slice.
fn on(record: &[u8], call: Call) -> (u32, Side<'_>) {
    let mut side: Side = Box::new(move |calls| {
        let call = black_box(call);
        for _ in 0..calls {
            call(black_box(record));
        }
    });
    (calls_in_slice(&mut side), side)
}

/// Warms up, and gives the number of calls that take about one slice.
fn calls_in_slice(side: &mut Side) -> u32 {
    const CALLS: u32 = 1_000;
    let start = Instant::now();
    let mut least = f64::INFINITY;
    while start.elapsed() < WARM_UP {
        least = least.min(timing::time(CALLS, side));
    }
    (SLICE.as_nanos() as f64 / least) as u32 + 1
}
