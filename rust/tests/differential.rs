//! Compares the proved library with the plain implementation on many records.
//!
//! `cargo test --offline --release --test differential -- --records N --seed S`
//!
//! S is a whole number, or `random` for one from the clock. The seed is
//! printed, with the command that repeats the run.

mod cases;
mod comparison;
mod plain;
mod records;

use cases::PAIRS;
use comparison::{place, same, Answers, Comparison, Run};
use loonstool::{Analysis, PerKilogram, Properties, Refusal};
use plain::properties::within_half;
use records::{case, hex, Class, Draft, Limits, Random, WriterCall};
use std::process::ExitCode;

const RECORDS: Comparison = Comparison {
    test: "differential",
    counted: "records",
    default: 1_000_000,
};

/// The orders of reader, properties and values per kilogram, and of the writer.
const OF_RECORD: [u8; 12] = [1, 2, 3, 4, 5, 6, 7, 8, 10, 11, 12, 9];
const OF_WRITER: [u8; 10] = [19, 4, 5, 7, 8, 10, 11, 12, 9, 20];

/// The places of the calls in the counts.
const PROPERTIES_OF: usize = 0;
const PER_KILOGRAM: usize = 1;
const READ: usize = 2;
const WRITE: usize = 3;

fn main() -> ExitCode {
    RECORDS.main(compare_all)
}

fn compare_all(run: &Run) -> Result<Vec<String>, String> {
    let mut random = Random::new(run.seed);
    let mut counts = Counts::none();
    for number in 1..=run.size {
        let (record, call) = case(&mut random);
        compare_record(&record, &mut counts)
            .and_then(|()| compare_call(&call, &mut counts))
            .map_err(|difference| format!("record {number}: {difference}"))?;
        run.progress(number);
    }
    counts.print();
    run.print_due_of_limits();
    run.print_due(
        "of each refusal of each call, of 10 to 12 where the sum is outside its range too, of each pair, of each line, and of records at two metering temperatures",
    );
    Ok(counts.failures(run))
}

/// How often each answer, pair, line and limit occurred.
struct Counts {
    answers: Answers<4>,
    /// Of the accepted records of each class.
    accepted: [Accepted; 2],
    /// Accepted records whose values per kilogram were compared with those at another metering temperature.
    at_other: u64,
    limits: Limits,
}

/// How often each pair and line occurred in accepted records.
struct Accepted {
    pairs: [u64; 6],
    lines: [u64; 56],
}

impl Counts {
    fn none() -> Self {
        Self {
            answers: Answers::none([
                ("properties_of", &OF_RECORD),
                ("per_kilogram", &OF_RECORD),
                ("read", &OF_RECORD),
                ("write", &OF_WRITER),
            ]),
            accepted: [Accepted::none(), Accepted::none()],
            at_other: 0,
            limits: Limits::none(),
        }
    }

    /// Books the lines and the pair of an accepted record.
    fn book(&mut self, analysis: &Analysis) {
        let class = draft_of(analysis).class();
        self.accepted[class as usize].book(analysis);
    }

    fn print(&self) {
        self.answers.print();
        println!("(write: one call for each record, and one for each accepted record read)");
        for (class, accepted) in Class::BOTH.into_iter().zip(&self.accepted) {
            accepted.print(class);
        }
        println!(
            "values per kilogram the same at two metering temperatures: {} records",
            self.at_other
        );
        for (of, counts) in self.limits.outside() {
            let counts = counts
                .iter()
                .map(|(number, count)| format!("{count} by {number}"));
            println!(
                "{of} refused where the sum is outside its range too: {}",
                counts.collect::<Vec<_>>().join(", ")
            );
        }
        let (name, count) = self.limits.least();
        println!("least of the limits, met and passed by one: {name}, {count} times");
    }

    /// What occurs less often than due, and what a call cannot give.
    fn failures(&self, run: &Run) -> Vec<String> {
        let due = run.due();
        let mut failures = self.answers.failures(due);
        for (class, accepted) in Class::BOTH.into_iter().zip(&self.accepted) {
            failures.extend(accepted.failures(class, due));
        }
        if self.at_other < due {
            failures.push(format!(
                "two metering temperatures only {} times",
                self.at_other
            ));
        }
        for (of, counts) in self.limits.outside() {
            for (number, count) in counts {
                if count < due {
                    failures.push(format!(
                        "{of} refused by {number} beside the sum only {count} times"
                    ));
                }
            }
        }
        let (name, count) = self.limits.least();
        if count < run.due_of_limits() {
            failures.push(format!("{name} only {count} times"));
        }
        let count = self.limits.methane_low_in_class();
        if count > 0 {
            failures.push(format!("10 refuses {count} times in the hydrogen class"));
        }
        failures
    }
}

impl Accepted {
    fn none() -> Self {
        Self {
            pairs: [0; 6],
            lines: [0; 56],
        }
    }

    fn book(&mut self, analysis: &Analysis) {
        let pair = (analysis.combustion, analysis.metering);
        for (count, permitted) in self.pairs.iter_mut().zip(PAIRS) {
            *count += u64::from(pair == permitted);
        }
        for line in &analysis.lines[..analysis.count] {
            self.lines[usize::from(*line)] += 1;
        }
    }

    /// The line that occurs least, and how often.
    fn least_line(&self) -> (usize, u64) {
        let lines = self.lines.iter().copied().enumerate().skip(1);
        lines.min_by_key(|(_, count)| *count).unwrap_or_default()
    }

    fn print(&self, class: Class) {
        let number: u64 = self.pairs.iter().sum();
        println!("{number} accepted records{}, by pair:", class.name());
        for ((combustion, metering), count) in PAIRS.iter().zip(self.pairs) {
            println!("{:>8} {count:>13}", format!("{combustion}/{metering}"));
        }
        let (line, count) = self.least_line();
        println!("least of the 55 lines in them: line {line}, {count} times");
    }

    /// What occurs less often than due.
    fn failures(&self, class: Class, due: u64) -> Vec<String> {
        let pairs = PAIRS.iter().zip(self.pairs);
        let pairs = pairs.map(|((combustion, metering), count)| {
            (format!("pair {combustion}/{metering}"), count)
        });
        let (line, count) = self.least_line();
        pairs
            .chain([(format!("line {line}"), count)])
            .filter(|(_, count)| *count < due)
            .map(|(what, count)| format!("{what}{} only {count} times", class.name()))
            .collect()
    }
}

fn compare_record(record: &[u8], counts: &mut Counts) -> Result<(), String> {
    compare_properties(record, counts)?;
    compare_per_kilogram(record, counts)?;

    let expected = plain::read(record);
    let proved = loonstool::read(record).map_err(Refusal::number);
    same(&expected, &proved, || shown("read", record))?;
    counts.answers.book(READ, &expected);

    counts.limits.book_record(record, place(&expected));
    if let Ok(analysis) = expected {
        counts.book(&analysis);
        write_back(record, &analysis, counts)?;
    }
    Ok(())
}

fn shown(what: &str, record: &[u8]) -> String {
    format!("{what}\nrecord: {}", hex(record))
}

/// Compares the properties, also with their floors and ceilings.
fn compare_properties(record: &[u8], counts: &mut Counts) -> Result<(), String> {
    let expected = plain::properties_of(record);
    let proved = loonstool::properties_of(record).map_err(Refusal::number);
    same(&expected, &proved, || shown("properties_of", record))?;
    counts.answers.book(PROPERTIES_OF, &expected);
    if expected.is_ok_and(|properties| !within_bounds(&properties)) {
        return Err(shown("properties_of, past a floor or a ceiling", record));
    }
    Ok(())
}

/// Compares the values per kilogram, also with their ceilings, with the unrounded ones, and with those of the record at another metering
/// temperature.
fn compare_per_kilogram(record: &[u8], counts: &mut Counts) -> Result<(), String> {
    let proved = |record: &[u8]| loonstool::per_kilogram(record).map_err(Refusal::number);
    let expected = plain::per_kilogram(record);
    same(&expected, &proved(record), || shown("per_kilogram", record))?;
    counts.answers.book(PER_KILOGRAM, &expected);
    let Ok(values) = expected else {
        return Ok(());
    };
    let PerKilogram { superior, inferior } = PerKilogram::CEILINGS;
    if values.superior > superior || values.inferior > inferior {
        return Err(shown("per_kilogram, past a ceiling", record));
    }
    if within_half(&values, record) != Ok(true) {
        return Err(shown("per_kilogram, off by more than half", record));
    }
    if let Some(other) = at_other_metering(record) {
        let what = || shown("per_kilogram at another metering temperature", record);
        same(&expected, &proved(&other), what)?;
        counts.at_other += 1;
    }
    Ok(())
}

/// An accepted record with another metering temperature, where a permitted pair has one.
fn at_other_metering(record: &[u8]) -> Option<Vec<u8>> {
    let mut other = record.to_vec();
    let (combustion, metering) = (record[5], record[6]);
    let mut pairs = PAIRS.into_iter();
    let pair = pairs.find(|pair| pair.0 == combustion && pair.1 != metering);
    (_, other[6]) = pair?;
    Some(other)
}

/// Whether no property is below its floor or above its ceiling.
fn within_bounds(properties: &Properties) -> bool {
    let of_three = [&Properties::FLOORS, &Properties::CEILINGS, properties];
    let [floors, ceilings, six] = of_three.map(plain::six);
    (0..6).all(|i| (floors[i]..=ceilings[i]).contains(&six[i]))
}

/// What was read, as a draft.
fn draft_of(read: &Analysis) -> Draft {
    Draft {
        combustion: read.combustion,
        metering: read.metering,
        lines: read.lines[..read.count].to_vec(),
        fractions: read.fractions[..read.count].to_vec(),
    }
}

/// Writes what was read and compares the bytes with the record.
fn write_back(record: &[u8], read: &Analysis, counts: &mut Counts) -> Result<(), String> {
    let call = WriterCall {
        draft: draft_of(read),
        buffer: record.iter().map(|byte| !byte).collect(),
    };
    let written = compare_call(&call, counts)?;
    let what = || shown("write after read", record);
    same(&Bytes(record), &Bytes(&written), what)
}

/// Compares the writers and gives the buffer as it is after the call.
fn compare_call(call: &WriterCall, counts: &mut Counts) -> Result<Vec<u8>, String> {
    let shown = || show_call(call);
    let draft = &call.draft;

    let mut expected_bytes = call.buffer.clone();
    let expected = plain::write(
        draft.combustion,
        draft.metering,
        &draft.lines,
        &draft.fractions,
        &mut expected_bytes,
    );
    let mut bytes = call.buffer.clone();
    let proved = loonstool::write(
        draft.combustion,
        draft.metering,
        &draft.lines,
        &draft.fractions,
        &mut bytes,
    );
    let proved = proved.map_err(Refusal::number);
    same(&expected, &proved, shown)?;
    same(&Bytes(&expected_bytes), &Bytes(&bytes), shown)?;
    let filled = expected.unwrap_or(0);
    let untouched = Bytes(&call.buffer[filled..]);
    same(&untouched, &Bytes(&bytes[filled..]), shown)?;
    counts.answers.book(WRITE, &expected);
    counts.limits.book_call(call, place(&expected));
    Ok(bytes)
}

fn show_call(call: &WriterCall) -> String {
    let draft = &call.draft;
    format!(
        "write\npair: {}/{}\nlines: {:?}\nfractions: {:?}\nbuffer before: {}\nas a record: {}",
        draft.combustion,
        draft.metering,
        draft.lines,
        draft.fractions,
        hex(&call.buffer),
        hex(&draft.record())
    )
}

/// Bytes shown in hexadecimal.
#[derive(PartialEq)]
struct Bytes<'a>(&'a [u8]);

impl std::fmt::Debug for Bytes<'_> {
    fn fmt(&self, f: &mut std::fmt::Formatter<'_>) -> std::fmt::Result {
        f.write_str(&hex(self.0))
    }
}
