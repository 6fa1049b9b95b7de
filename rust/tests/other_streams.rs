//! Makes two lists of calls, each on a fresh meter, that are alike in the calls that name a stream and free in the rest. After each of
//! these calls its answer and the words of the stream's row are, in both lists, those of these calls made alone on a third meter; so they
//! are the same in both.
//!
//! `cargo test --offline --release --test other_streams -- --pairs N --seed S`
//!
//! S is a whole number, or `random` for one from the clock. The seed is printed, with the command that repeats the run. A call on another
//! stream leaves the stream's row; one on a stream above 15 is refused by 13 and leaves every word.

mod calls;
mod cases;
mod comparison;
mod counted_calls;
mod plain;
mod random_calls;
mod records;

use calls::{call, Answer, Call, Reading, TakesCalls};
use comparison::{alike, Answers, Comparison, Run};
use counted_calls::{count, none_counted};
use loonstool::{Meter, STREAMS};
use random_calls::{aim, filling, random_call, room, shown};
use records::Random;
use std::process::ExitCode;

const PAIRS: Comparison = Comparison {
    test: "other_streams",
    counted: "pairs",
    default: 20_000,
};

/// The most random calls on the stream.
const LENGTH: u64 = 60;

/// Before one of so many of them, and before the last, a list has calls on other streams, as many at most as the second number says. Among
/// the calls that fill the stream they are fewer.
const RUNS: u64 = 3;
const RUN: u64 = 8;
const RUNS_WHILE_FILLING: u64 = 1_000;

/// In one pair of so many, calls fill the stream; in another, the first list begins with calls that fill another stream.
const FILLED: u64 = 100;

/// What is compared, in words.
const ALONE_AND_LISTED: [&str; 2] = ["alone", "in the list"];
const BEFORE_AND_AFTER: [&str; 2] = ["before", "after"];
const DUE_AND_GIVEN: [&str; 2] = ["due", "given"];

fn main() -> ExitCode {
    PAIRS.main(compare_all)
}

fn compare_all(run: &Run) -> Result<Vec<String>, String> {
    let mut random = Random::new(run.seed);
    let mut counts = Counts::none();
    while counts.pairs < run.size {
        compare_pair(&mut random, &mut counts)
            .map_err(|difference| format!("pair {}: {difference}", counts.pairs))?;
        counts.pairs += 1;
        run.progress(counts.pairs);
    }
    counts.print();
    run.print_due("of each answer of each call on the stream, and of each count below them");
    Ok(counts.failures(run))
}

/// Makes two lists that are alike in the calls on a stream, and compares its answers and words after each of these.
fn compare_pair(random: &mut Random, counts: &mut Counts) -> Result<(), String> {
    let k = random.index(STREAMS);
    let mut pair = Pair {
        alone: Meter::new(),
        lists: [(); 2].map(|()| List::of(random, k)),
    };
    match counts.pairs % FILLED {
        0 => {
            for call in filling(random, k) {
                pair.take(&call, RUNS_WHILE_FILLING, random, counts)?;
            }
        }
        1 => pair.lists[0].fill(random)?,
        _ => {}
    }
    for _ in 0..1 + random.below(LENGTH) {
        let mut call = random_call(random, &[k]);
        aim(random, &mut call, room(pair.alone.totals(k)));
        pair.take(&call, RUNS, random, counts)?;
    }
    let last = random_call(random, &[k]);
    pair.take(&last, 1, random, counts)?;
    let [first, second] = &pair.lists;
    counts.apart += u64::from(first.meter != second.meter);
    Ok(())
}

/// Two lists that are alike in the calls on a stream, and these calls alone.
struct Pair {
    alone: Meter,
    lists: [List; 2],
}

impl Pair {
    /// A call on the stream, in each list after calls on other streams, one time of so many.
    fn take(
        &mut self,
        call: &Call,
        seldom: u64,
        random: &mut Random,
        counts: &mut Counts,
    ) -> Result<(), String> {
        let k = call.stream;
        let expected = self.alone.answer(call);
        count(&mut counts.answers, call, &expected);
        for list in &mut self.lists {
            if random.below(seldom) == 0 {
                list.run(random, call, counts)?;
            }
            let what = || format!("{} after calls on other streams", shown(call));
            alike(ALONE_AND_LISTED, &expected, &list.meter.answer(call), what)?;
            alike(
                ALONE_AND_LISTED,
                &self.alone.words()[k],
                &list.meter.words()[k],
                what,
            )?;
        }
        Ok(())
    }
}

/// One of the lists.
struct List {
    k: usize,
    meter: Meter,
    /// The streams that its other calls name.
    others: [usize; 8],
}

impl List {
    /// Its other calls name four streams of the meter at most, the next one among them, and four above 15, of which two are k but for a
    /// bit.
    fn of(random: &mut Random, k: usize) -> Self {
        let other = |random: &mut Random| (k + 1 + random.index(STREAMS - 1)) % STREAMS;
        let above = |random: &mut Random| k + (STREAMS << random.below(60));
        Self {
            k,
            meter: Meter::new(),
            others: [
                (k + 1) % STREAMS,
                other(random),
                other(random),
                other(random),
                above(random),
                above(random),
                STREAMS,
                usize::MAX,
            ],
        }
    }

    /// Calls that fill another stream, and one that finds it full.
    fn fill(&mut self, random: &mut Random) -> Result<(), String> {
        let stream = self.others[0];
        for call in filling(random, stream) {
            self.other(&call)?;
        }
        let rest = room(self.meter.totals(stream)).unwrap_or_default();
        self.other(&call(b'm', stream, rest))?;
        let (full, _) = self.other(&call(b'm', stream, 1))?;
        let what = || format!("metering {stream} 1 on a full stream");
        alike(DUE_AND_GIVEN, &Answer::Changed(Err(17)), &full, what)
    }

    /// Calls on other streams: random ones, and the stream's own made to another.
    fn run(&mut self, random: &mut Random, own: &Call, counts: &mut Counts) -> Result<(), String> {
        for _ in 0..1 + random.below(RUN) {
            let call = match random.below(2) {
                0 => random_call(random, &self.others),
                _ => Call {
                    stream: *random.one_of(&self.others),
                    ..own.clone()
                },
            };
            let (_, changed) = self.other(&call)?;
            counts.changed += u64::from(changed);
            counts.above += u64::from(call.stream >= STREAMS);
        }
        Ok(())
    }

    /// A call on another stream leaves the stream's words, one above 15 every word. Gives its answer, and whether it changed a word.
    fn other(&mut self, call: &Call) -> Result<(Answer, bool), String> {
        let before = *self.meter.words();
        let answer = self.meter.answer(call);
        let (after, what) = (self.meter.words(), || shown(call));
        alike(BEFORE_AND_AFTER, &before[self.k], &after[self.k], what)?;
        if call.stream >= STREAMS {
            alike(DUE_AND_GIVEN, &refused_by_13(call), &answer, what)?;
            alike(BEFORE_AND_AFTER, &before, after, what)?;
        }
        Ok((answer, before != *after))
    }
}

fn refused_by_13(call: &Call) -> Answer {
    match call.kind {
        b'a' | b'm' => Answer::Changed(Err(13)),
        b'd' => Answer::Metered(Err(13)),
        _ => Answer::Read(Reading {
            totals: Err(13),
            mean: Err(13),
            mean_inferior: Err(13),
        }),
    }
}

/// How often what occurred.
struct Counts {
    pairs: u64,
    /// What the calls on the stream gave.
    answers: Answers<6>,
    /// Pairs that left different meters.
    apart: u64,
    /// Calls among those on the stream that changed another stream.
    changed: u64,
    /// Calls among them that named a stream above 15.
    above: u64,
}

impl Counts {
    fn none() -> Self {
        Self {
            pairs: 0,
            answers: none_counted(false),
            apart: 0,
            changed: 0,
            above: 0,
        }
    }

    fn print(&self) {
        let Self {
            pairs,
            apart,
            changed,
            above,
            ..
        } = self;
        self.answers.print();
        println!("{pairs} pairs of lists, {apart} left different meters; other streams changed {changed} times; {above} calls above 15");
    }

    /// What occurs less often than due, and what a call cannot give.
    fn failures(&self, run: &Run) -> Vec<String> {
        let mut failures = self.answers.failures(run.due());
        for (what, count) in [
            ("meters that differ", self.apart),
            ("another stream changed", self.changed),
            ("a call above 15", self.above),
        ] {
            if count < run.due() {
                failures.push(format!("{what} only {count} times"));
            }
        }
        failures
    }
}
