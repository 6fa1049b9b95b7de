//! Prints, by the plain version, what `try_meter` of crates/ reads and prints, and the rows of `gases` and `per_kilogram_gases` in
//! crates/properties/specs/Cases.antt. tools/try_library compares them with the files.
//!
//! `cargo run --offline --release --example expected -- try_meter/stdout`

#[path = "../tests/calls/mod.rs"]
mod calls;
#[path = "../tests/cases/mod.rs"]
mod cases;
#[path = "../tests/plain/mod.rs"]
mod plain;

use cases::Gas;
use std::io::Write;

fn main() {
    let asked = std::env::args().nth(1).unwrap_or_default();
    let lists = calls::lists().into_iter();
    let bytes: Vec<u8> = match asked.as_str() {
        "try_meter/stdin" => lists.flat_map(|list| calls::input(&list)).collect(),
        "try_meter/stdout" => String::from_iter(lists.map(|list| calls::printed(&list))).into(),
        "gases" => rows(cases::further(), six).into(),
        "kilograms" => rows(cases::by_mass(), per).into(),
        _ => panic!("expected: not a file of crates/ that this prints: '{asked}'"),
    };
    let written = std::io::stdout().write_all(&bytes);
    written.expect("standard output takes it");
}

/// The rows of a list of gases with what is answered to their records.
fn rows(gases: Vec<(&str, Gas)>, answer: fn(&[u8]) -> String) -> String {
    let mut text = String::new();
    for (name, gas) in gases {
        let before = if text.is_empty() { "" } else { "∷ " };
        let (combustion, metering) = gas.pair;
        let answer = answer(&gas.record());
        text += &format!("    {before}({name} {combustion} {metering}, {answer})\n");
    }
    text
}

fn six(record: &[u8]) -> String {
    let six = plain::properties_of(record).expect("an accepted gas");
    format!("six{}", plain::six(&six).map(|n| format!(" {n}")).concat())
}

fn per(record: &[u8]) -> String {
    let values = plain::per_kilogram(record).expect("an accepted gas");
    format!("per {} {}", values.superior, values.inferior)
}
