//! A comparison on much random input, as a program of its own: its arguments,
//! how often each answer came, and what it prints.

// Each program that includes this module uses a part of it.
#![allow(dead_code)]

use std::fmt::Debug;
use std::io::IsTerminal;
use std::process::ExitCode;
use std::time::Instant;

const DEFAULT_SEED: u64 = 6976;

/// How often each answer of each call is due in a run of the default size.
const DUE: u64 = 1_000;

/// How many numbers a call may give; 0 says that it is accepted.
const NUMBERS: usize = 24;

/// A comparison: the test's name, what it counts, and how many it makes where
/// no argument says so.
pub struct Comparison {
    pub test: &'static str,
    pub counted: &'static str,
    pub default: u64,
}

/// A run of a comparison.
pub struct Run<'a> {
    of: &'a Comparison,
    pub size: u64,
    pub seed: u64,
}

impl Comparison {
    /// Runs what compares, which gives what occurred less often than due, or the
    /// first difference.
    pub fn main(&self, compare: fn(&Run) -> Result<Vec<String>, String>) -> ExitCode {
        match self.given() {
            Ok(run) => run.report(compare),
            Err(message) => {
                println!("{message}");
                ExitCode::from(2)
            }
        }
    }

    /// The run that the command line asks for. Other arguments are passed over,
    /// and named: cargo hands the words of `cargo test WORD` to every test.
    fn given(&self) -> Result<Run<'_>, String> {
        let mut run = Run {
            of: self,
            size: self.default,
            seed: DEFAULT_SEED,
        };
        let mut given = std::env::args().skip(1);
        while let Some(name) = given.next() {
            match name.strip_prefix("--") {
                Some("seed") => run.seed = seed(&name, given.next())?,
                Some(option) if option == self.counted => run.size = number(&name, given.next())?,
                _ => println!("passed over: {name}"),
            }
        }
        Ok(run)
    }
}

/// A whole number, or what is wrong with it.
fn number(name: &str, value: Option<String>) -> Result<u64, String> {
    let value = value.unwrap_or_default();
    value
        .parse()
        .map_err(|_| format!("{name} wants a whole number, not '{value}'"))
}

/// A seed, or `random` for one from the clock.
fn seed(name: &str, value: Option<String>) -> Result<u64, String> {
    if value.as_deref() != Some("random") {
        return number(name, value);
    }
    let now = std::time::SystemTime::now().duration_since(std::time::UNIX_EPOCH);
    Ok(now.map_or(0, |since| since.as_nanos() as u64))
}

impl Run<'_> {
    fn command(&self) -> String {
        format!(
            "cargo test --offline --release --test {} -- --{} {} --seed {}",
            self.of.test, self.of.counted, self.size, self.seed
        )
    }

    fn report(&self, compare: fn(&Run) -> Result<Vec<String>, String>) -> ExitCode {
        println!("{} {}, seed {}", self.of.counted, self.size, self.seed);
        println!("repeat with: {}", self.command());
        let start = Instant::now();
        let failures = compare(self)
            .unwrap_or_else(|difference| vec![format!("{difference}\nseed: {}", self.seed)]);
        println!("time {:.2} s", start.elapsed().as_secs_f64());
        if failures.is_empty() {
            println!("no difference");
            return ExitCode::SUCCESS;
        }
        for failure in failures {
            println!("{failure}");
        }
        println!("failed; repeat with: {}", self.command());
        ExitCode::FAILURE
    }

    /// Says on a terminal how many are made, at each 100,000.
    pub fn progress(&self, made: u64) {
        if made.is_multiple_of(100_000) && std::io::stderr().is_terminal() {
            eprintln!("{made} {}", self.of.counted);
        }
    }

    /// How often each answer of each call is due.
    pub fn due(&self) -> u64 {
        let scaled = u128::from(DUE) * u128::from(self.size) / u128::from(self.of.default);
        scaled.clamp(1, u128::from(DUE)) as u64
    }

    /// How often each limit is due, met and passed by one.
    pub fn due_of_limits(&self) -> u64 {
        self.due().div_ceil(10)
    }

    /// Prints what is due of each limit.
    pub fn print_due_of_limits(&self) {
        println!("due at least, of each limit: {}", self.due_of_limits());
    }

    /// Prints what is due at least.
    pub fn print_due(&self, what: &str) {
        println!("due at least, {what}: {}", self.due());
        if self.due() < DUE {
            let Comparison {
                counted, default, ..
            } = self.of;
            println!("({DUE} are due in {default} {counted}; this run has fewer)");
        }
    }
}

/// How often each of some calls gave each answer; place 0 is accepted.
pub struct Answers<const CALLS: usize> {
    /// The name of each call, and the numbers of its order.
    calls: [(&'static str, &'static [u8]); CALLS],
    counts: [[u64; NUMBERS]; CALLS],
}

impl<const CALLS: usize> Answers<CALLS> {
    pub fn none(calls: [(&'static str, &'static [u8]); CALLS]) -> Self {
        Self {
            calls,
            counts: [[0; NUMBERS]; CALLS],
        }
    }

    /// Books the answer of a call.
    pub fn book<T>(&mut self, call: usize, answer: &Result<T, u8>) {
        self.counts[call][place(answer)] += 1;
    }

    pub fn print(&self) {
        let row = |first: &str, cells: [String; CALLS]| {
            let cells: String = cells.iter().map(|cell| format!(" {cell:>13}")).collect();
            println!("{first:>8}{cells}");
        };
        row("answer", self.calls.map(|(name, _)| name.to_string()));
        for number in 0..NUMBERS {
            let counts = self.counts.map(|counts| counts[number]);
            let name = match number {
                0 => String::from("accepted"),
                _ => number.to_string(),
            };
            if counts != [0; CALLS] {
                row(&name, counts.map(|count| count.to_string()));
            }
        }
    }

    /// What occurs less often than due, and what a call cannot give.
    pub fn failures(&self, due: u64) -> Vec<String> {
        let mut failures = Vec::new();
        for ((name, order), counts) in self.calls.iter().zip(self.counts) {
            for (number, count) in (0..).zip(counts) {
                let can_be = number == 0 || order.contains(&number);
                if can_be && count < due {
                    failures.push(format!("{name} gave {number} only {count} times"));
                }
                if !can_be && count > 0 {
                    failures.push(format!("{name} gave {number}, which is not in its order"));
                }
            }
        }
        failures
    }
}

/// The place of an answer in counts.
pub fn place<T>(answer: &Result<T, u8>) -> usize {
    answer
        .as_ref()
        .err()
        .map_or(0, |number| usize::from(*number))
}

/// Where the answers of the plain version and of the proved library differ, the call and both answers.
pub fn same<T: PartialEq + Debug>(
    expected: &T,
    proved: &T,
    call: impl Fn() -> String,
) -> Result<(), String> {
    alike(["plain", "proved"], expected, proved, call)
}

/// Where two named values differ, the call and both.
pub fn alike<T: PartialEq + Debug>(
    names: [&str; 2],
    first: &T,
    second: &T,
    call: impl Fn() -> String,
) -> Result<(), String> {
    if first == second {
        return Ok(());
    }
    let call = call();
    let [one, other] = names;
    Err(format!(
        "difference in {call}\n{one}: {first:?}\n{other}: {second:?}"
    ))
}
