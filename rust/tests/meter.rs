//! Compares the proved meter, changed in place, with the plain meter on random lists of calls, each from a fresh meter.
//!
//! `cargo test --offline --release --test meter -- --calls N --seed S`
//!
//! S is a whole number, or `random` for one from the clock. The seed is printed, with the command that repeats the run. After every call
//! the answers are the same, and so are the words: those before the call, but for the row of the stream that an accepted call names, which
//! is that of the plain meter. After every list all streams are compared. Some lists begin with calls that fill a stream; they are not
//! among the N. On a sample of the lists the plain tally answers too, and what it has booked is near the exact energies, mass and means.

mod calls;
mod cases;
mod comparison;
mod counted_calls;
mod plain;
mod random_calls;
mod records;

use calls::{call, Answer, Call, TakesCalls};
use comparison::{same, Answers, Comparison, Run};
use counted_calls::{count, none_counted};
use loonstool::STREAMS;
use plain::day_file::blocks;
use plain::meter::GREATEST_TOTAL;
use plain::words::{hold_a_meter, row_of, words_of};
use plain::{Meter, Tally};
use random_calls::{aim, filling, random_call, room, shown};
use records::{Class, Random};
use std::process::ExitCode;

const CALLS: Comparison = Comparison {
    test: "meter",
    counted: "calls",
    default: 2_000_000,
};

/// The most random calls of a list.
const LENGTH: u64 = 400;

/// One list of so many begins with calls that fill a stream.
const FILLED: u64 = 50;

/// One list of so many is compared with the tally.
const SAMPLED: u64 = 30;

/// After one call of so many the words are saved and restored.
const RESTORED: u64 = 64;

/// The registers whose rest is carried to the whole.
const REGISTERS: [&str; 3] = ["superior energy", "inferior energy", "mass"];

fn main() -> ExitCode {
    CALLS.main(compare_all)
}

fn compare_all(run: &Run) -> Result<Vec<String>, String> {
    let mut random = Random::new(run.seed);
    let mut counts = Counts::none();
    while counts.calls < run.size {
        compare_list(&mut random, run, &mut counts)
            .map_err(|difference| format!("list {}: {difference}", counts.lists))?;
        counts.lists += 1;
    }
    counts.print();
    run.print_due_of_limits();
    run.print_due(
        "of each answer of each call, of words restored, of the carries of each register, and of both classes",
    );
    Ok(counts.failures(run))
}

/// Compares a list, and books what occurs in it.
fn compare_list(random: &mut Random, run: &Run, counts: &mut Counts) -> Result<(), String> {
    let streams = random_streams(random);
    let mut meters = Meters::fresh(counts.lists.is_multiple_of(SAMPLED));
    counts.sampled += u64::from(meters.tally.is_some());
    if counts.lists.is_multiple_of(FILLED) {
        meters.fill(random, streams[0], counts)?;
        counts.filled += 1;
    }
    let length = (1 + random.below(LENGTH)).min(run.size - counts.calls);
    for _ in 0..length {
        let mut call = random_call(random, &streams);
        let room = meters.room(call.stream);
        aim(random, &mut call, room);
        meters.compare(&call, counts)?;
        if random.below(RESTORED) == 0 {
            meters.restore()?;
            counts.restored += 1;
        }
        counts.calls += 1;
        run.progress(counts.calls);
    }
    counts.mixed += meters.mixed();
    meters.compare_whole()
}

/// The streams that the calls of a list name, some more often than others.
fn random_streams(random: &mut Random) -> [usize; 9] {
    let [a, b, c, d] = [(); 4].map(|()| random.index(STREAMS));
    [a, a, a, b, b, c, d, STREAMS, usize::MAX]
}

/// How often what occurred.
struct Counts {
    answers: Answers<6>,
    lists: u64,
    /// Lists that began with a stream that calls filled.
    filled: u64,
    /// Lists compared with the tally.
    sampled: u64,
    /// Random calls.
    calls: u64,
    /// Calls that filled a stream.
    filling: u64,
    restored: u64,
    /// Metering calls that brought a volume total to the greatest.
    met: u64,
    /// Metering calls that would have brought it one above.
    passed: u64,
    /// Calls that carried from the rest to the whole, of each register.
    carries: [u64; 3],
    /// Analyses of each class that were accepted, by themselves or in a day file.
    analyses: [u64; 2],
    /// Streams on which a list has accepted analyses of both classes.
    mixed: u64,
}

impl Counts {
    fn none() -> Self {
        Self {
            answers: none_counted(true),
            lists: 0,
            filled: 0,
            sampled: 0,
            calls: 0,
            filling: 0,
            restored: 0,
            met: 0,
            passed: 0,
            carries: [0; 3],
            analyses: [0; 2],
            mixed: 0,
        }
    }

    /// Books the carries of a call, by the rests of its stream before and after it: a rest that carries falls.
    fn book_carries(&mut self, before: [u64; 3], after: [u64; 3]) {
        for (count, (before, after)) in self.carries.iter_mut().zip(before.into_iter().zip(after)) {
            *count += u64::from(after < before);
        }
    }

    /// Books a call's answer, and whether a metering call went to the limit of a stream with the given room.
    fn book(&mut self, call: &Call, room: Option<u64>, answer: &Answer) {
        count(&mut self.answers, call, answer);
        if call.kind == b'm' {
            let meets = call.volume > 0 && room == Some(call.volume);
            self.met += u64::from(meets && *answer == Answer::Changed(Ok(())));
            let passes = room.is_some_and(|room| call.volume == room + 1);
            self.passed += u64::from(passes && *answer == Answer::Changed(Err(17)));
        }
    }

    fn print(&self) {
        self.answers.print();
        println!("(a reading is a call of totals and one of each mean; calls that fill a stream are among those of metering, those of a day file are not)");
        println!(
            "{} random calls in {} lists; words restored {} times",
            self.calls, self.lists, self.restored
        );
        println!(
            "{} lists with a stream filled by calls alone, {} of them; total {GREATEST_TOTAL} met {} times, passed by one {} times",
            self.filled, self.filling, self.met, self.passed
        );
        println!(
            "{} lists with the tally: energies within 2 mJ per dm3 of the exact ones, mass within 2e-11 kg per dm3, means within 3 J/m3",
            self.sampled
        );
        for (name, carries) in REGISTERS.iter().zip(self.carries) {
            println!("{name}: rest carried to the whole {carries} times");
        }
        let [outside, in_class] = self.analyses;
        println!("accepted analyses, those in day files too: {outside} outside the hydrogen class, {in_class} in it");
        println!("both classes on one stream of a list: {} times", self.mixed);
    }

    /// What occurs less often than due, and what a call cannot give.
    fn failures(&self, run: &Run) -> Vec<String> {
        let mut failures = self.answers.failures(run.due());
        let carries = REGISTERS.into_iter().zip(self.carries);
        for (what, count, due) in [
            ("words restored", self.restored, run.due()),
            ("list with the tally", self.sampled, run.due_of_limits()),
            ("greatest total met", self.met, run.due_of_limits()),
            ("greatest total passed", self.passed, run.due_of_limits()),
            (
                "analysis in the hydrogen class",
                self.analyses[1],
                run.due(),
            ),
            ("both classes on one stream", self.mixed, run.due()),
        ]
        .into_iter()
        .chain(carries.map(|(name, count)| (name, count, run.due())))
        {
            if count < due {
                failures.push(format!("{what} only {count} times"));
            }
        }
        failures
    }
}

/// The meters, to which the same calls are made.
struct Meters {
    proved: loonstool::Meter,
    plain: Meter,
    tally: Option<Tally>,
    /// Whether an analysis of each class was accepted, for each stream.
    classes: [[bool; 2]; STREAMS],
}

impl Meters {
    fn fresh(with_tally: bool) -> Self {
        Self {
            proved: loonstool::Meter::new(),
            plain: Meter::fresh(),
            tally: with_tally.then(Tally::fresh),
            classes: [[false; 2]; STREAMS],
        }
    }

    /// What a stream takes until its volume total is the greatest, dm³.
    fn room(&self, stream: usize) -> Option<u64> {
        room(self.plain.totals(stream))
    }

    /// The rests of a stream.
    fn rests(&self, stream: usize) -> [u64; 3] {
        let totals = self.plain.totals(stream).ok();
        totals.map_or([0; 3], |t| [t.superior_rest, t.inferior_rest, t.mass_rest])
    }

    /// Fills a stream but for one call.
    fn fill(&mut self, random: &mut Random, k: usize, counts: &mut Counts) -> Result<(), String> {
        for call in filling(random, k) {
            self.compare(&call, counts)?;
            counts.filling += u64::from(call.kind == b'm');
        }
        Ok(())
    }

    /// What all answer to a call.
    fn answer(&mut self, call: &Call) -> Result<Answer, String> {
        let (expected, proved) = (self.plain.answer(call), self.proved.answer(call));
        same(&expected, &proved, || shown(call))?;
        if let Some(tally) = &mut self.tally {
            let what = || format!("{}, with the tally", shown(call));
            same(&tally.answer(call), &proved, what)?;
        }
        Ok(expected)
    }

    /// Makes a call, and compares answers and words.
    fn compare(&mut self, call: &Call, counts: &mut Counts) -> Result<(), String> {
        let (before, room) = (*self.proved.words(), self.room(call.stream));
        let rests = self.rests(call.stream);
        let answer = self.answer(call)?;
        counts.book(call, room, &answer);
        counts.book_carries(rests, self.rests(call.stream));
        let mut words = before;
        if answer.accepts() {
            self.book_classes(call, counts);
            words[call.stream] = row_of(&self.plain.streams[call.stream]);
        }
        let what = || format!("{}\nwords before: {before:?}", shown(call));
        same(&words, self.proved.words(), what)
    }

    /// Books the analyses that an accepted call has put in force: those with the stream's pair.
    fn book_classes(&mut self, call: &Call, counts: &mut Counts) {
        let pair = self.plain.streams[call.stream].in_force.map(|gas| gas.pair);
        let records = match call.kind {
            b'a' => vec![&call.record[..]],
            b'd' => blocks(&call.file).unwrap_or_default(),
            _ => vec![],
        };
        for record in records {
            let read = plain::read(record).ok();
            if read.is_some_and(|read| pair == Some((read.combustion, read.metering))) {
                let class = Class::of_record(record) as usize;
                counts.analyses[class] += 1;
                self.classes[call.stream][class] = true;
            }
        }
    }

    /// The streams on which analyses of both classes were accepted.
    fn mixed(&self) -> u64 {
        let mixed = self.classes.iter().filter(|classes| **classes == [true; 2]);
        mixed.count() as u64
    }

    /// Goes on with a meter of the same words.
    fn restore(&mut self) -> Result<(), String> {
        let words = *self.proved.words();
        let restored = loonstool::Meter::from_words(words);
        self.proved = restored.map_err(|no| format!("{no}: {words:?}"))?;
        Ok(())
    }

    /// Compares every stream: words, totals and means, and energies, mass and means with the exact ones.
    fn compare_whole(&mut self) -> Result<(), String> {
        let words = words_of(&self.plain);
        same(&words, self.proved.words(), || String::from("all words"))?;
        let what = || format!("the check of {words:?}");
        let restored = loonstool::Meter::from_words(words);
        same(&hold_a_meter(&words), &restored.is_ok(), what)?;
        same(&Ok(&self.proved), &restored.as_ref(), what)?;
        for k in 0..=STREAMS {
            self.answer(&call(b'r', k, 0))?;
            let is_near = self.tally.as_ref().is_none_or(|tally| tally.is_near(k));
            let what = || format!("stream {k}: whether energies, mass and means are near exact");
            same(&true, &is_near, what)?;
        }
        Ok(())
    }
}
