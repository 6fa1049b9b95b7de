//! Times 10,000,000 metering calls of the proved meter, an executable, against
//! the same work with a plain meter, each in its own process. The proved meter
//! is changed in place by a method that takes `&mut self`, and the compiler
//! inlines it into the loop. So is the plain one; and once each of its calls is a
//! call of its own, as from another library.
//!
//! `cargo bench --offline --bench program`

#[path = "../tests/plain/mod.rs"]
mod plain;

use loonstool::Totals;
use plain::Meter;
use std::process::Command;
use std::time::Instant;

/// The executable, relative to the package folder.
const PROVED: &str = "../target/bin/time_meter";

/// The proved program and the plain meters.
const SIDES: usize = 1 + PLAIN.len();

const RUNS: usize = 7;
const STREAMS: usize = 16;
const CALLS: u64 = 10_000_000;

/// The calls, on a meter with its analyses.
type Work = fn(&mut Meter);

/// The plain meters: what each is, the argument on which this program does the
/// work itself, and the work.
const PLAIN: [(&str, &str, Work); 2] = [
    ("plain, inlined", "--inlined", inlined),
    ("plain, a call", "--by-call", by_call),
];

fn main() {
    let asked = std::env::args().nth(1).unwrap_or_default();
    match PLAIN.iter().find(|(_, argument, _)| *argument == asked) {
        Some((_, _, work)) => {
            let mut meter = analysed();
            work(&mut meter);
            print!("{}", readings(&meter));
        }
        None => compare(),
    }
}

/// The record of a stream's analysis: methane alone, at 15/15 for even streams
/// and at 0/0 for odd ones.
fn analysis_of(stream: usize) -> [u8; 13] {
    let temperature = if stream.is_multiple_of(2) { 15 } else { 0 };
    let mut record = [0; 13];
    plain::write(temperature, temperature, &[1], &[1_000_000], &mut record)
        .expect("methane alone is accepted");
    record
}

/// A meter with an analysis on each stream.
fn analysed() -> Meter {
    let mut meter = Meter::fresh();
    for stream in 0..STREAMS {
        let answer = meter.analysis(stream, &analysis_of(stream));
        answer.expect("the analysis is accepted");
    }
    meter
}

/// The streams and the volumes of the calls, by the loop of the proved program.
fn calls() -> impl Iterator<Item = (usize, u64)> {
    (0..CALLS).map(|i| ((i % STREAMS as u64) as usize, i % 1_000))
}

/// The calls, whose answers this program drops as the proved one does.
fn inlined(meter: &mut Meter) {
    for (stream, volume) in calls() {
        let _ = meter.metering(stream, volume);
    }
}

/// The same where each is a call of its own.
fn by_call(meter: &mut Meter) {
    for (stream, volume) in calls() {
        let _ = meter.metering_by_call(stream, volume);
    }
}

/// A line for each stream with its number, its volume, of the superior and of
/// the inferior energy MJ, rest and mean, and of the mass kg and rest.
fn readings(meter: &Meter) -> String {
    let mut text = String::new();
    for stream in 0..STREAMS {
        let Totals {
            volume,
            superior_mj,
            superior_rest,
            inferior_mj,
            inferior_rest,
            mass_kg,
            mass_rest,
        } = meter.totals(stream).expect("the stream exists");
        let mean = meter.mean(stream).expect("the volume is above 0");
        let mean_inferior = meter.mean_inferior(stream).expect("the volume is above 0");
        text += &format!("{stream} {volume} {superior_mj} {superior_rest} {mean} ");
        text += &format!("{inferior_mj} {inferior_rest} {mean_inferior} ");
        text += &format!("{mass_kg} {mass_rest}\n");
    }
    text
}

/// Runs the sides in turn, each time another first, and prints their times.
fn compare() {
    let this = std::env::current_exe().expect("the path of this program");
    let mut seconds = [const { Vec::new() }; SIDES];
    let mut expected = None;
    for turn in 0..SIDES * RUNS {
        let side = (turn + turn / SIDES) % SIDES;
        let (taken, text) = match side {
            0 => timed(&mut Command::new(PROVED)),
            _ => timed(Command::new(&this).arg(PLAIN[side - 1].1)),
        };
        seconds[side].push(taken);
        assert_eq!(expected.get_or_insert_with(|| text.clone()), &text);
    }
    println!("{CALLS} metering calls, {RUNS} runs of each side, same text printed");
    let [proved, plain @ ..] = seconds;
    let proved = report("proved", proved);
    for ((name, ..), seconds) in PLAIN.into_iter().zip(plain) {
        let ratio = proved / report(name, seconds);
        println!("    ratio proved/plain {ratio:.3}");
    }
}

/// Runs a command and gives its seconds and what it printed.
fn timed(command: &mut Command) -> (f64, Vec<u8>) {
    let start = Instant::now();
    let output = command.output().expect("the program runs");
    let seconds = start.elapsed().as_secs_f64();
    assert!(output.status.success(), "{command:?}: {}", output.status);
    (seconds, output.stdout)
}

/// Prints the median and the spread of a side in ms; gives the median.
fn report(name: &str, mut seconds: Vec<f64>) -> f64 {
    seconds.sort_unstable_by(f64::total_cmp);
    let median = seconds[seconds.len() / 2];
    println!(
        "{name:<15} median {:.2} ms, {:.2} to {:.2} ms, {:.2} ns for a call",
        median * 1e3,
        seconds[0] * 1e3,
        seconds[seconds.len() - 1] * 1e3,
        median * 1e9 / CALLS as f64
    );
    median
}
