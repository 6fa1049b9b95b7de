//! Compares the proved walk over a day file, and the metering of one, with the plain version on random day files, whole and damaged.
//!
//! `cargo test --offline --release --test day_file -- --files N --seed S`
//!
//! S is a whole number, or `random` for one from the clock. The seed is printed, with the command that repeats the run. At many offsets of
//! each file the answers are the same, and a block that is handed back is the same part of the caller's file, by its addresses. Then the
//! file is metered, on meters as earlier files and calls that fill streams left them: answers and words are those of the plain meter, and
//! those of the single calls made one by one on a copy of the proved meter.

mod calls;
mod cases;
mod comparison;
mod counted_calls;
mod plain;
mod random_calls;
mod records;

use calls::{call, day, Answer, Call, TakesCalls};
use cases::K2;
use comparison::{alike, same, Answers, Comparison, Run};
use counted_calls::{OF_ANALYSIS, OF_DAY, OF_METERING};
use loonstool::{Meter, Next, Refusal, Words, FIRST_BLOCK, STREAMS};
use plain::day_file::{
    block_at, blocks, file_of, head, metered, next_offset, starts, HEAD, LENGTH,
};
use plain::words::words_of;
use random_calls::day::{random_blocks, random_day, LONGEST};
use random_calls::{aim, filling, room, shown};
use records::{hex, Random};
use std::process::ExitCode;

const FILES: Comparison = Comparison {
    test: "day_file",
    counted: "files",
    default: 200_000,
};

/// One file of so many begins on meters as calls left them; beside one of so many a whole file is walked over.
const ANEW: u64 = 8;
const WHOLE: u64 = 8;

/// One of so many short files is compared at every offset.
const EVERY_OFFSET: u64 = 16;
const SHORT: usize = 1_000;

/// The streams that calls name, some more often than others, and those that calls have filled.
const NAMED: [usize; 9] = [0, 0, 0, 1, 1, 2, 15, STREAMS, usize::MAX];
const FILLED: [usize; 4] = [0, 1, 2, 15];

/// The order of the walk, and the places of the calls in the counts.
const OF_WALK: &[u8] = &[21, 22, 23];
const WALK: usize = 0;
const DAY: usize = 1;
const ANALYSIS: usize = 2;
const METERING: usize = 3;

/// What is counted of the walk at an offset, of the conditions under which a file is not metered, of files that are metered or have
/// another number of blocks than volumes, and of the limits, met and passed by one.
const WALKED: [&str; 4] = [
    "walk: a block",
    "walk: the end",
    "walk: 21 where 22 holds too",
    "walk: 21 where 23 holds too",
];
const TOGETHER: [&str; 6] = [
    "metering: 13 where 21 holds too",
    "metering: 13 where 23 holds too",
    "metering: 13 where 19 holds too",
    "metering: 21 where 23 holds too",
    "metering: 21 where 19 holds too",
    "metering: 23 where 19 holds too",
];
const METERED: [&str; 7] = [
    "no blocks, accepted",
    "one volume too few",
    "one volume too many",
    "an empty block",
    "a refused record between accepted ones",
    "a refused volume between accepted ones",
    "a volume accepted before the stream is full",
];
const LIMITS: [&str; 11] = [
    "a file of 5 bytes, at its end",
    "a file of 4 bytes",
    "offset 5",
    "offset 4",
    "an offset at the end",
    "an offset one past the end",
    "a block that ends with the file",
    "a block whose last byte is missing",
    "a length of 0 at the end",
    "one byte of a length",
    "a block of 65,535 bytes",
];

/// What is compared, in words.
const DUE_AND_GIVEN: [&str; 2] = ["due", "given"];
const BEFORE_AND_AFTER: [&str; 2] = ["before", "after"];
const SINGLY_AND_WHOLE: [&str; 2] = ["single calls", "the file"];

fn main() -> ExitCode {
    FILES.main(compare_all)
}

fn compare_all(run: &Run) -> Result<Vec<String>, String> {
    let mut random = Random::new(run.seed);
    let mut counts = Counts::none();
    compare_heads(&mut counts)?;
    for blocks in long_files() {
        compare_whole(&blocks, &mut counts)?;
    }
    let left = [
        Meters::fresh(),
        Meters::filled(&mut random)?,
        Meters::filled(&mut random)?,
    ];
    let mut meters = left[0].clone();
    for number in 1..=run.size {
        if random.below(ANEW) == 0 {
            meters = random.one_of(&left).clone();
        }
        compare_file(&mut random, &mut meters, &mut counts)
            .map_err(|difference| format!("file {number}: {difference}"))?;
        run.progress(number);
    }
    counts.print();
    run.print_due_of_limits();
    run.print_due("of each answer of each call, and of each of the other counts");
    Ok(counts.failures(run))
}

/// Compares a random file, walked over and metered.
fn compare_file(
    random: &mut Random,
    meters: &mut Meters,
    counts: &mut Counts,
) -> Result<(), String> {
    let mut day = random_day(random, &NAMED);
    let room = room(meters.plain.totals(day.stream));
    aim(random, &mut day, room);
    let right = with_right_head(&day.file);
    for offset in offsets(random, &right) {
        compare_offset(&day.file, &right, offset, counts)?;
    }
    if random.below(WHOLE) == 0 {
        compare_whole(&random_blocks(random), counts)?;
    }
    meters.compare(&day, &right, counts)
}

/// A file with each byte of its head set to each value: the right one alone is accepted.
fn compare_heads(counts: &mut Counts) -> Result<(), String> {
    let right = file_of(&[K2]);
    for at in 0..HEAD {
        for byte in 0..=u8::MAX {
            let mut file = right.clone();
            file[at] = byte;
            let accepted = loonstool::next_offset(&file, FIRST_BLOCK).is_ok();
            let what = || format!("byte {at} set to {byte}");
            alike(DUE_AND_GIVEN, &(byte == right[at]), &accepted, what)?;
            for offset in 0..=file.len() + 1 {
                compare_offset(&file, &right, offset, counts)?;
            }
        }
    }
    Ok(())
}

/// Blocks of long files: K2 every minute of a day; lengths up to the greatest, with those where a byte of the length changes.
fn long_files() -> [Vec<Vec<u8>>; 2] {
    let lengths = [0, 1, 254, 255, 256, 257, 65_279, 65_280, LONGEST];
    [
        vec![K2.to_vec(); 1_440],
        lengths.map(|length| vec![170; length]).to_vec(),
    ]
}

/// The file made of blocks is walked back to them, and metered.
fn compare_whole(blocks: &[Vec<u8>], counts: &mut Counts) -> Result<(), String> {
    let file = file_of(blocks);
    let mut walked = Vec::new();
    let mut offset = FIRST_BLOCK;
    while let Ok(Next::Offset(next)) = loonstool::next_offset(&file, offset) {
        walked.extend(loonstool::block_at(&file, offset));
        offset = next;
    }
    let due: Vec<&[u8]> = blocks.iter().map(Vec::as_slice).collect();
    alike(DUE_AND_GIVEN, &due, &walked, || {
        String::from("the walk over a whole file")
    })?;
    counts.whole += 1;
    let volumes = (0..).take(blocks.len()).collect();
    Meters::fresh().compare(&day(0, file.clone(), volumes), &file, counts)
}

/// A file with the right mark and version, by which it shows what holds beside 21.
fn with_right_head(file: &[u8]) -> Vec<u8> {
    let mut file = file.to_vec();
    if let Some(place) = file.first_chunk_mut() {
        *place = head();
    }
    file
}

/// Offsets at and around those where blocks start, in the head, in the midst, around the end, and far past it; now and then all.
fn offsets(random: &mut Random, file: &[u8]) -> Vec<usize> {
    let end = file.len();
    if end < SHORT && random.below(EVERY_OFFSET) == 0 {
        return (0..=end + 2).collect();
    }
    let mut offsets: Vec<usize> = (0..HEAD).chain(end.saturating_sub(2)..=end + 2).collect();
    for start in starts(file) {
        offsets.extend([start - 1, start, start + 1, start + LENGTH]);
        offsets.extend([start + (1 << 16), start + (1 << 32)]);
    }
    offsets.extend((0..4).map(|_| random.index(end + 1)));
    offsets.extend([1 << 63, usize::MAX - end, usize::MAX - 1, usize::MAX]);
    offsets.sort_unstable();
    offsets.dedup();
    offsets
}

/// Compares both calls of the walk at an offset.
fn compare_offset(
    file: &[u8],
    right: &[u8],
    offset: usize,
    counts: &mut Counts,
) -> Result<(), String> {
    let what = || format!("offset {offset}\nfile: {}", hex(file));
    let expected = next_offset(file, offset);
    let proved = loonstool::next_offset(file, offset).map_err(Refusal::number);
    same(&expected, &proved, what)?;
    let place = |block: Option<&[u8]>| block.map(<[u8]>::as_ptr_range);
    let block = place(block_at(file, offset));
    same(&block, &place(loonstool::block_at(file, offset)), what)?;
    counts.answers.book(WALK, &expected);
    let beside = |number| expected == Err(21) && next_offset(right, offset) == Err(number);
    counts.walked.book([
        block.is_some(),
        expected == Ok(Next::End),
        beside(22),
        beside(23),
    ]);
    counts.limits.book(limits(file, offset, &expected));
    Ok(())
}

/// Which of the limits is met, or passed by one, at an offset with its answer.
fn limits(file: &[u8], offset: usize, answer: &Result<Next, u8>) -> [bool; LIMITS.len()] {
    let end = file.len();
    let rest = file.get(offset..).unwrap_or_default();
    let length = rest
        .first_chunk()
        .map(|length| usize::from(u16::from_le_bytes(*length)));
    let (outside, cut) = (*answer == Err(22), *answer == Err(23));
    let next = match answer {
        Ok(Next::Offset(next)) => Some(*next),
        _ => None,
    };
    [
        end == HEAD && *answer == Ok(Next::End),
        *file == head()[..HEAD - 1] && offset == HEAD,
        offset == HEAD && answer.is_ok(),
        offset == HEAD - 1 && outside,
        offset == end && *answer == Ok(Next::End),
        offset == end + 1 && outside,
        next == Some(end),
        cut && length.is_some_and(|length| rest.len() + 1 == LENGTH + length),
        next.is_some() && rest == [0, 0],
        cut && rest.len() == 1,
        next.is_some() && length == Some(LONGEST),
    ]
}

/// Whether each condition under which a file is not metered holds, in the order of `OF_DAY`.
fn conditions(day: &Call, right: &[u8]) -> [bool; 4] {
    let starts = starts(right);
    let stop = starts[starts.len() - 1];
    [
        day.stream >= STREAMS,
        !day.file.starts_with(&head()),
        next_offset(right, stop) == Err(23),
        starts.len() != day.volumes.len() + 1,
    ]
}

/// The meters on which files are metered.
#[derive(Clone)]
struct Meters {
    proved: Meter,
    plain: plain::Meter,
}

impl Meters {
    fn fresh() -> Self {
        Self {
            proved: Meter::new(),
            plain: plain::Meter::fresh(),
        }
    }

    /// With streams that calls have filled but for one call.
    fn filled(random: &mut Random) -> Result<Self, String> {
        let mut meters = Self::fresh();
        for call in FILLED.into_iter().flat_map(|k| filling(random, k)) {
            meters.answer(&call)?;
        }
        Ok(meters)
    }

    /// What both answer to a call.
    fn answer(&mut self, call: &Call) -> Result<Answer, String> {
        let (expected, proved) = (self.plain.answer(call), self.proved.answer(call));
        same(&expected, &proved, || shown(call))?;
        Ok(proved)
    }

    /// Meters a file, and compares answers and words, also with those of the single calls.
    fn compare(&mut self, day: &Call, right: &[u8], counts: &mut Counts) -> Result<(), String> {
        let what = || shown(day);
        let before = self.proved.clone();
        let answer = self.answer(day)?;
        let words: &Words = self.proved.words();
        same(&words_of(&self.plain), words, what)?;

        let conditions = conditions(day, right);
        let first = conditions.iter().position(|holds| *holds);
        let due = first.map(|first| OF_DAY[first]);
        alike(DUE_AND_GIVEN, &due, &answer.refusal(), what)?;
        if due.is_some() {
            alike(BEFORE_AND_AFTER, before.words(), words, what)?;
        }

        let mut singly = Singly::on(before);
        alike(SINGLY_AND_WHOLE, &singly.answer(day), &answer, what)?;
        alike(SINGLY_AND_WHOLE, singly.meter.words(), words, what)?;
        self.answer(&call(b'r', day.stream, 0))?;

        counts.book(day, &answer, &singly);
        counts.book_together(conditions);
        Ok(())
    }
}

/// The single calls of a file made one by one on a meter, and their answers.
struct Singly {
    meter: Meter,
    analyses: Vec<Result<(), u8>>,
    meterings: Vec<Result<(), u8>>,
}

impl Singly {
    fn on(meter: Meter) -> Self {
        Self {
            meter,
            analyses: Vec::new(),
            meterings: Vec::new(),
        }
    }

    fn answer(&mut self, day: &Call) -> Answer {
        let k = day.stream;
        let answer = metered(k, &day.file, &day.volumes, |block, volume| {
            let analysis = self.meter.analysis(k, block).map_err(Refusal::number);
            let metering = self.meter.metering(k, volume).map_err(Refusal::number);
            self.analyses.push(analysis);
            self.meterings.push(metering);
            [analysis, metering]
        });
        Answer::Metered(answer)
    }

    /// Whether a volume above 0 was accepted, and after it one found the stream full.
    fn filled(&self, volumes: &[u64]) -> bool {
        let mut answers = self.meterings.iter().zip(volumes);
        answers.any(|(answer, volume)| answer.is_ok() && *volume > 0)
            && answers.any(|(answer, _)| *answer == Err(17))
    }
}

/// Whether a call was refused after an accepted one and before another.
fn refused_between(answers: &[Result<(), u8>]) -> bool {
    let first = answers.iter().position(Result::is_ok);
    let last = answers.iter().rposition(Result::is_ok);
    first
        .zip(last)
        .is_some_and(|(first, last)| answers[first..last].iter().any(Result::is_err))
}

/// How often each of some things occurred, by their names.
struct Occurred<const N: usize> {
    names: [&'static str; N],
    counts: [u64; N],
}

impl<const N: usize> Occurred<N> {
    fn none(names: [&'static str; N]) -> Self {
        let counts = [0; N];
        Self { names, counts }
    }

    fn book(&mut self, occur: [bool; N]) {
        for (count, occurs) in self.counts.iter_mut().zip(occur) {
            *count += u64::from(occurs);
        }
    }

    fn print(&self) {
        for (name, count) in self.names.iter().zip(self.counts) {
            println!("{name}: {count} times");
        }
    }

    /// What occurs less often than due.
    fn failures(&self, due: u64) -> impl Iterator<Item = String> + '_ {
        let counts = self.names.iter().zip(self.counts);
        let seldom = counts.filter(move |(_, count)| *count < due);
        seldom.map(|(name, count)| format!("{name} only {count} times"))
    }
}

/// How often what occurred.
struct Counts {
    answers: Answers<4>,
    walked: Occurred<{ WALKED.len() }>,
    together: Occurred<{ TOGETHER.len() }>,
    metered: Occurred<{ METERED.len() }>,
    limits: Occurred<{ LIMITS.len() }>,
    /// Whole files walked back to their blocks.
    whole: u64,
}

impl Counts {
    fn none() -> Self {
        Self {
            answers: Answers::none([
                ("walk", OF_WALK),
                ("day file", OF_DAY),
                ("its analyses", &OF_ANALYSIS[1..]),
                ("its volumes", &OF_METERING[1..]),
            ]),
            walked: Occurred::none(WALKED),
            together: Occurred::none(TOGETHER),
            metered: Occurred::none(METERED),
            limits: Occurred::none(LIMITS),
            whole: 0,
        }
    }

    /// Books a file that was metered, or refused.
    fn book(&mut self, day: &Call, answer: &Answer, singly: &Singly) {
        if let Answer::Metered(answer) = answer {
            self.answers.book(DAY, answer);
        }
        let calls = singly.analyses.iter().zip(&singly.meterings);
        for (analysis, metering) in calls {
            self.answers.book(ANALYSIS, analysis);
            self.answers.book(METERING, metering);
        }
        let (blocks, volumes) = (blocks(&day.file).unwrap_or_default(), &day.volumes);
        let accepted = answer.accepts();
        let differ = answer.refusal() == Some(19);
        self.metered.book([
            accepted && blocks.is_empty(),
            differ && volumes.len() + 1 == blocks.len(),
            differ && volumes.len() == blocks.len() + 1,
            accepted && blocks.iter().any(|block| block.is_empty()),
            refused_between(&singly.analyses),
            refused_between(&singly.meterings),
            singly.filled(volumes),
        ]);
    }

    /// Books which conditions hold beside the first that holds.
    fn book_together(&mut self, [stream, file, block, lists]: [bool; 4]) {
        let beside_file = !stream && file;
        let beside_block = !stream && !file && block;
        self.together.book([
            stream && file,
            stream && block,
            stream && lists,
            beside_file && block,
            beside_file && lists,
            beside_block && lists,
        ]);
    }

    fn print(&self) {
        self.answers.print();
        println!("(walk: one call for each offset; a call beside it hands back the block)");
        self.walked.print();
        self.together.print();
        self.metered.print();
        println!("whole files walked back to their blocks: {}", self.whole);
        println!("limits, met and passed by one:");
        self.limits.print();
    }

    /// What occurs less often than due, and what a call cannot give.
    fn failures(&self, run: &Run) -> Vec<String> {
        let due = run.due();
        let mut failures = self.answers.failures(due);
        failures.extend(self.walked.failures(due));
        failures.extend(self.together.failures(due));
        failures.extend(self.metered.failures(due));
        failures.extend(self.limits.failures(run.due_of_limits()));
        if self.whole < due {
            failures.push(format!("whole files only {} times", self.whole));
        }
        failures
    }
}
