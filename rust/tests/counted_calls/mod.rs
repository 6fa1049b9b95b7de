//! How often each call of the meter gave each answer.

// Each program that includes this module uses a part of it.
#![allow(dead_code)]

use crate::calls::{Answer, Call};
use crate::comparison::Answers;

/// The numbers of each order, that of both means the same, with 13 first; and the places of the calls in the counts.
pub const OF_ANALYSIS: &[u8] = &[13, 1, 2, 3, 4, 5, 6, 7, 8, 10, 11, 12, 9, 14];
pub const OF_METERING: &[u8] = &[13, 15, 16, 17];
const OF_TOTALS: &[u8] = &[13];
const OF_MEAN: &[u8] = &[13, 18];
pub const OF_DAY: &[u8] = &[13, 21, 23, 19];
const ANALYSIS: usize = 0;
const METERING: usize = 1;
const TOTALS: usize = 2;
const MEAN: usize = 3;
const MEAN_INFERIOR: usize = 4;
const DAY: usize = 5;

/// No answers yet; 13 is among the numbers where calls may name a stream above 15.
pub fn none_counted(above_15: bool) -> Answers<6> {
    let numbers = |order: &'static [u8]| if above_15 { order } else { &order[1..] };
    Answers::none([
        ("analysis", numbers(OF_ANALYSIS)),
        ("metering", numbers(OF_METERING)),
        ("totals", numbers(OF_TOTALS)),
        ("mean", numbers(OF_MEAN)),
        ("mean inferior", numbers(OF_MEAN)),
        ("day file", numbers(OF_DAY)),
    ])
}

/// One more answer of a call; that of a reading is one of totals and one of each mean.
pub fn count(answers: &mut Answers<6>, call: &Call, answer: &Answer) {
    match answer {
        Answer::Read(reading) => {
            answers.book(TOTALS, &reading.totals);
            answers.book(MEAN, &reading.mean);
            answers.book(MEAN_INFERIOR, &reading.mean_inferior);
        }
        Answer::Changed(given) if call.kind == b'm' => answers.book(METERING, given),
        Answer::Changed(given) => answers.book(ANALYSIS, given),
        Answer::Metered(given) => answers.book(DAY, given),
    }
}
