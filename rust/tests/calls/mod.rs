//! Calls of the meter and what meters answer to them; lists of calls as crates/try_meter reads them, and what it prints for them.

// Each program that includes this module uses a part of it.
#![allow(dead_code)]

use crate::cases::{hydrogen_and, methane_and, record, K1, K2};
use crate::plain::{Meter, Tally};
use loonstool::{Counts, Refusal, Totals};

/// A call in the words of crates/try_meter/src/main.rt: `a` is an analysis, `m` a metering call, `f` fills a stream, and `r` reads one;
/// and `d`, which that program does not have, meters a day file.
#[derive(Debug, Clone)]
pub struct Call {
    pub kind: u8,
    pub stream: usize,
    /// dm³.
    pub volume: u64,
    pub title: &'static str,
    pub record: Vec<u8>,
    pub file: Vec<u8>,
    /// dm³, one for each block of the file.
    pub volumes: Vec<u64>,
}

pub fn call(kind: u8, stream: usize, volume: u64) -> Call {
    Call {
        kind,
        stream,
        volume,
        title: "",
        record: Vec::new(),
        file: Vec::new(),
        volumes: Vec::new(),
    }
}

pub fn analysis(stream: usize, title: &'static str, record: &[u8]) -> Call {
    Call {
        title,
        record: record.to_vec(),
        ..call(b'a', stream, 0)
    }
}

pub fn day(stream: usize, file: Vec<u8>, volumes: Vec<u64>) -> Call {
    Call {
        file,
        volumes,
        ..call(b'd', stream, 0)
    }
}

/// What a meter answers to a call.
#[derive(Debug, Clone, Copy, PartialEq)]
pub enum Answer {
    /// To an analysis or a metering call.
    Changed(Result<(), u8>),
    /// To a day file.
    Metered(Result<Counts, u8>),
    Read(Reading),
}

impl Answer {
    /// Whether it accepts a call that changes the meter.
    pub fn accepts(&self) -> bool {
        matches!(self, Self::Changed(Ok(())) | Self::Metered(Ok(_)))
    }

    /// The number by which it refuses a call that changes the meter.
    pub fn refusal(&self) -> Option<u8> {
        match self {
            Self::Changed(answer) => answer.err(),
            Self::Metered(answer) => answer.err(),
            Self::Read(_) => None,
        }
    }
}

/// The three answers to a reading.
#[derive(Debug, Clone, Copy, PartialEq)]
pub struct Reading {
    pub totals: Result<Totals, u8>,
    pub mean: Result<u64, u8>,
    pub mean_inferior: Result<u64, u8>,
}

/// What takes the calls `a`, `m`, `d` and `r`.
pub trait TakesCalls {
    fn answer(&mut self, call: &Call) -> Answer;
}

macro_rules! takes_calls {
    ($($plain:ty),*) => {
        $(impl TakesCalls for $plain {
            fn answer(&mut self, call: &Call) -> Answer {
                let k = call.stream;
                match call.kind {
                    b'a' => Answer::Changed(self.analysis(k, &call.record)),
                    b'm' => Answer::Changed(self.metering(k, call.volume)),
                    b'd' => Answer::Metered(self.day(k, &call.file, &call.volumes)),
                    _ => Answer::Read(Reading {
                        totals: self.totals(k),
                        mean: self.mean(k),
                        mean_inferior: self.mean_inferior(k),
                    }),
                }
            }
        })*
    };
}

takes_calls!(Meter, Tally);

impl TakesCalls for loonstool::Meter {
    fn answer(&mut self, call: &Call) -> Answer {
        let k = call.stream;
        match call.kind {
            b'a' => Answer::Changed(self.analysis(k, &call.record).map_err(Refusal::number)),
            b'm' => Answer::Changed(self.metering(k, call.volume).map_err(Refusal::number)),
            b'd' => {
                let answer = self.day(k, &call.file, &call.volumes);
                Answer::Metered(answer.map_err(Refusal::number))
            }
            _ => Answer::Read(Reading {
                totals: self.totals(k).map_err(Refusal::number),
                mean: self.mean(k).map_err(Refusal::number),
                mean_inferior: self.mean_inferior(k).map_err(Refusal::number),
            }),
        }
    }
}

/// Lists of calls, each from a fresh meter: K9; each of 13 to 18, some where a later condition of the order holds too; 9, and 11 where 9
/// holds too; the carry from the rest to the whole MJ, of the superior energy and then of the inferior one, and from the rest to the
/// whole kg; two gases on one stream; a stream that is full; and K1 and hydrogen on one stream, with 11 in the hydrogen class and 10 one
/// below it.
#[rustfmt::skip]
pub fn lists() -> Vec<Vec<Call>> {
    let (m, r) = (|k, volume| call(b'm', k, volume), |k| call(b'r', k, 0));
    let k2 = |k| analysis(k, " K2", &K2);
    let at_0 = |k| analysis(k, " 0/0", &record(0, 0, &methane_and(&[])));
    let little = |k| analysis(k, " 0/0, methane 999,899", &record(0, 0, &[(1, 999_899)]));
    let nitrogen = |k| analysis(k, " nitrogen 300,000", &record(15, 15, &methane_and(&[(52, 300_000)])));
    let above = |k| analysis(k, " nitrogen 400,000", &record(15, 15, &[(1, 924_700), (52, 400_000)]));
    let k1 = |k| analysis(k, " K1", &record(15, 15, &K1));
    let hydrogen = |k| analysis(k, " hydrogen", &record(15, 15, &hydrogen_and(&[])));
    let methane_above = |k| analysis(k, " methane 50,001 with hydrogen", &record(15, 15, &hydrogen_and(&[(1, 50_001)])));
    let below = |k| analysis(k, " hydrogen 899,999", &record(15, 15, &hydrogen_and(&[(1, 50_000), (52, 50_001)])));
    vec![
        vec![m(0, 1_000), k2(0), m(0, 1_000), r(0)],
        vec![analysis(16, " no record", &[]), m(16, 10_000_001), r(usize::MAX)],
        vec![m(15, u64::MAX), m(15, 10_000_000), k2(15), m(15, 10_000_001), m(15, 0), r(15), m(15, 10_000_000), r(15), r(14)],
        vec![k2(3), at_0(3), little(3), above(3), at_0(4), m(3, 27), m(4, 27), r(3), r(4)],
        vec![k2(7), m(7, 26), r(7), nitrogen(7), m(7, 1), r(7), m(7, 4), r(7), m(7, 1_176), r(7), m(7, 1), r(7)],
        vec![k2(9), call(b'f', 9, 0), r(9), m(9, 10_000_000), m(9, 9_999_999), m(9, 1), m(9, 10_000_001), m(9, 0), r(9)],
        vec![k1(12), m(12, 600), hydrogen(12), m(12, 400), r(12), methane_above(12), below(12), m(12, 24), r(12)],
    ]
}

/// The bytes of a list, with the call of a fresh meter, `n`, before them.
pub fn input(list: &[Call]) -> Vec<u8> {
    let mut bytes = Vec::new();
    for call in [&call(b'n', 0, 0)].into_iter().chain(list) {
        bytes.push(call.kind);
        bytes.extend((call.title.len() as u16).to_le_bytes());
        bytes.extend((call.record.len() as u16).to_le_bytes());
        bytes.extend((call.stream as u64).to_le_bytes());
        bytes.extend(call.volume.to_le_bytes());
        bytes.extend([call.title.as_bytes(), &call.record].concat());
    }
    bytes
}

/// What a fresh meter answers to a list. The tally answers the same, and no energy is further than 2 mJ per dm³ from the exact one, no
/// mass further than 2 × 10^-11 kg per dm³, no mean further than 3 J/m³.
pub fn printed(list: &[Call]) -> String {
    let (mut meter, mut tally) = (Meter::fresh(), Tally::fresh());
    let mut text = String::new();
    for call in list {
        let (k, title, volume) = (call.stream, call.title, call.volume);
        let mut answer = |call| {
            let answer = meter.answer(call);
            assert_eq!(answer, tally.answer(call));
            answer
        };
        if call.kind == b'f' {
            let part = self::call(b'm', k, 10_000_000);
            (0..99_999).for_each(|_| _ = answer(&part));
            continue;
        }
        text += &match answer(call) {
            Answer::Read(reading) => {
                assert!(tally.is_near(k), "stream {k}: too far from exact");
                lines_of(k, &reading)
            }
            Answer::Changed(given) if call.kind == b'm' => {
                format!("metering {k} {volume}: {}\n", verdict(given))
            }
            Answer::Changed(given) => format!("analysis {k}{title}: {}\n", verdict(given)),
            Answer::Metered(_) => panic!("the program takes no day file"),
        };
    }
    text
}

/// A line for each answer to a reading of a stream.
fn lines_of(k: usize, reading: &Reading) -> String {
    let mean = |mean: u64| format!("{mean} J/m3");
    [
        ("totals", reading.totals.map(text_of)),
        ("mean", reading.mean.map(mean)),
        ("mean inferior", reading.mean_inferior.map(mean)),
    ]
    .map(|(call, answer)| {
        let answer = answer.unwrap_or_else(|number| verdict(Err(number)));
        format!("{call} {k}: {answer}\n")
    })
    .concat()
}

fn text_of(totals: Totals) -> String {
    let energy = |name, whole, rest| format!(", {name} {whole} MJ {rest} mJ");
    format!("{} dm3", totals.volume)
        + &energy("superior", totals.superior_mj, totals.superior_rest)
        + &energy("inferior", totals.inferior_mj, totals.inferior_rest)
        + &format!(", mass {} kg {} e-11 kg", totals.mass_kg, totals.mass_rest)
}

/// The words for a call that is accepted or refused.
fn verdict(answer: Result<(), u8>) -> String {
    match answer {
        Ok(()) => String::from("accepted"),
        Err(number) => format!("refused {number}"),
    }
}
