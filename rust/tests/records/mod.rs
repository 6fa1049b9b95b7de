//! Makes analysis records and writer calls for tests, some of the hydrogen class:
//! accepted ones, ones on and one past each limit, damaged ones, and ones that
//! break several conditions at once.

// Each test that includes this module uses a part of it.
#![allow(dead_code, unused_imports)]

mod class;
mod limits;
mod random;

pub use class::Class;
pub use limits::Limits;
pub use random::Random;

use crate::cases::{HYDROGEN, PAIRS, WATER};
use std::fmt::Write as _;

const LINES: u8 = 55;

/// Least and greatest permitted sum in ppm.
pub const SUM: (u32, u32) = (999_900, 1_000_100);

/// A pair and two lists, permitted or not.
#[derive(Debug, Clone, Default)]
pub struct Draft {
    pub combustion: u8,
    pub metering: u8,
    pub lines: Vec<u8>,
    pub fractions: Vec<u32>,
}

/// A call of the writer: lists, and the buffer as it is before the call.
#[derive(Debug, Clone, Default)]
pub struct WriterCall {
    pub draft: Draft,
    pub buffer: Vec<u8>,
}

impl Draft {
    /// A draft with the main line of a class and the given others, in rising order.
    fn gas(class: Class, pair: (u8, u8), fraction: u32, mut others: Vec<(u8, u32)>) -> Self {
        others.push((class.main_line(), fraction));
        others.sort_unstable();
        let (lines, fractions) = others.into_iter().unzip();
        Self {
            combustion: pair.0,
            metering: pair.1,
            lines,
            fractions,
        }
    }

    /// The record's bytes; the count is the low byte of the list's length.
    pub fn record(&self) -> Vec<u8> {
        let mut bytes = Vec::with_capacity(8 + 5 * self.lines.len());
        bytes.extend(b"GCR\x01\x00");
        bytes.extend([self.combustion, self.metering, self.lines.len() as u8]);
        for (line, fraction) in self.lines.iter().zip(&self.fractions) {
            bytes.push(*line);
            bytes.extend(fraction.to_le_bytes());
        }
        bytes
    }

    /// The class of the record, where its lines are permitted.
    pub fn class(&self) -> Class {
        Class::of(
            self.lines
                .iter()
                .copied()
                .zip(self.fractions.iter().copied()),
        )
    }

    fn sum(&self) -> u64 {
        self.fractions.iter().map(|x| u64::from(*x)).sum()
    }

    /// Changes the main line of a class, where there is one, so that the sum is
    /// `sum` if that line can make it so.
    fn balance(&mut self, class: Class, sum: u32) {
        if let Some(at) = self.place_of(class.main_line()) {
            let others = self.sum() - u64::from(self.fractions[at]);
            let fraction = u64::from(sum).saturating_sub(others);
            self.fractions[at] = fraction as u32;
        }
    }

    fn place_of(&self, line: u8) -> Option<usize> {
        self.lines.iter().position(|other| *other == line)
    }

    /// Puts a line in its place with the given fraction.
    fn put(&mut self, line: u8, fraction: u32) {
        match self.lines.binary_search(&line) {
            Ok(at) => self.fractions[at] = fraction,
            Err(at) => {
                self.lines.insert(at, line);
                self.fractions.insert(at, fraction);
            }
        }
    }
}

/// One record, and one call of the writer made from the same or another draft.
pub fn case(random: &mut Random) -> (Vec<u8>, WriterCall) {
    let draft = draft(random);
    let record = match random.below(20) {
        0 => noise(random),
        1..=6 => damaged(random, draft.record()),
        _ => draft.record(),
    };
    (record, writer_call(random, draft))
}

/// A draft with no, one or more conditions broken.
fn draft(random: &mut Random) -> Draft {
    let class = match random.below(4) {
        0 => Class::Hydrogen,
        _ => Class::Other,
    };
    let mut draft = match random.below(9) {
        0 => on_sum(random, class),
        1 => on_least(random, class),
        2 | 3 => on_limit(random, class),
        _ => accepted(random, class),
    };
    let breaks = match random.below(16) {
        0..=7 => 0,
        8..=11 => 1,
        12..=14 => 2,
        _ => 3,
    };
    for _ in 0..breaks {
        break_one(random, class, &mut draft);
    }
    draft
}

fn pair(random: &mut Random) -> (u8, u8) {
    *random.one_of(&PAIRS)
}

/// A permitted sum, often on a limit.
fn permitted_sum(random: &mut Random) -> u32 {
    match random.below(4) {
        0 => SUM.0,
        1 => SUM.1,
        2 => 1_000_000,
        _ => random.between(SUM.0, SUM.1),
    }
}

/// Lines other than the main one of a class in random order.
fn other_lines(random: &mut Random, class: Class) -> Vec<u8> {
    let mut lines: Vec<u8> = class.other_lines().collect();
    random.shuffle(&mut lines);
    lines
}

/// How many lines other than the main one: few, any number, or all.
fn other_count(random: &mut Random) -> usize {
    match random.below(8) {
        0 => 0,
        1..=4 => random.index(12),
        5 | 6 => random.index(55),
        _ => 54,
    }
}

/// A draft that breaks no condition.
fn accepted(random: &mut Random, class: Class) -> Draft {
    let sum = permitted_sum(random);
    let count = other_count(random);
    let mut room = sum - class.least() - count as u32;
    let mut others = Vec::new();
    for line in other_lines(random, class).into_iter().take(count) {
        let most = (class.limit(line) - 1).min(room);
        let more = match random.below(8) {
            0 => 0,
            1 => most,
            2 | 3 => random.between(0, most),
            _ => random.between(0, most.min(5_000)),
        };
        room -= more;
        others.push((line, 1 + more));
    }
    Draft::gas(class, pair(random), class.least() + room, others)
}

/// The sum on a limit or one past it, by the main line.
fn on_sum(random: &mut Random, class: Class) -> Draft {
    let mut draft = accepted(random, class);
    let sums = [SUM.0 - 1, SUM.0, SUM.1, SUM.1 + 1];
    draft.balance(class, *random.one_of(&sums));
    draft
}

/// The main line on its least or one below it, other lines filled to their
/// limits.
fn on_least(random: &mut Random, class: Class) -> Draft {
    let fraction = class.least() - random.below(2) as u32;
    let mut rest = permitted_sum(random) - fraction;
    let mut others = Vec::new();
    for line in other_lines(random, class) {
        let fraction = class.limit(line).min(rest);
        if fraction > 0 {
            others.push((line, fraction));
        }
        rest -= fraction;
    }
    Draft::gas(class, pair(random), fraction, others)
}

/// One line other than the main one on its limit or one past it, with no or few
/// other lines.
fn on_limit(random: &mut Random, class: Class) -> Draft {
    let lines = other_lines(random, class);
    let line = match random.below(6) {
        0 => *random.one_of(&[2, WATER, 52, 54]),
        _ => lines[0],
    };
    let fraction = class.limit(line) + random.below(2) as u32;
    let count = random.index(4);
    let mut others: Vec<(u8, u32)> = lines[1..=count]
        .iter()
        .filter(|other| **other != line)
        .map(|other| (*other, random.between(1, 200)))
        .collect();
    others.push((line, fraction));
    let mut draft = Draft::gas(class, pair(random), 0, others);
    draft.balance(class, permitted_sum(random));
    draft
}

/// Changes a draft so that it probably breaks one condition more.
fn break_one(random: &mut Random, class: Class, draft: &mut Draft) {
    match random.below(14) {
        0 => break_pair(random, draft),
        1 => break_count(random, draft),
        2 | 3 => break_line(random, draft),
        4 => break_order(random, draft),
        5 => put_zero(random, class, draft),
        6 => break_sum(random, class, draft),
        7 => lower_main(random, class, draft),
        8 => {
            let lines = other_lines(random, class);
            pass_limit(random, class, draft, lines[0]);
        }
        9 | 10 => pass_limit(random, class, draft, WATER),
        11 => put_hydrogen(random, draft),
        _ => put_huge(random, draft),
    }
}

/// Sets a pair that is seldom permitted: one of known temperatures, one
/// temperature changed by 1, or any.
fn break_pair(random: &mut Random, draft: &mut Draft) {
    const KNOWN: [u8; 4] = [0, 15, 20, 25];
    match random.below(4) {
        0 | 1 => {
            draft.combustion = *random.one_of(&KNOWN);
            draft.metering = *random.one_of(&KNOWN);
        }
        2 => draft.metering = draft.metering.wrapping_add(1),
        _ => {
            draft.combustion = random.byte();
            draft.metering = random.byte();
        }
    }
}

/// Sets the number of entries to 0, 56 or another above 55.
fn break_count(random: &mut Random, draft: &mut Draft) {
    let count = match random.below(4) {
        0 => 0,
        1 => 56,
        _ => 56 + random.index(200),
    };
    while draft.lines.len() < count {
        draft.lines.push(1 + draft.lines.len() as u8 % LINES);
        draft.fractions.push(random.between(1, 200));
    }
    draft.lines.truncate(count);
    draft.fractions.truncate(count);
}

/// Sets one line number to 0, 1, 55, 56 or any.
fn break_line(random: &mut Random, draft: &mut Draft) {
    if draft.lines.is_empty() {
        return;
    }
    let at = random.index(draft.lines.len());
    draft.lines[at] = match random.below(4) {
        0 => *random.one_of(&[0, 1, 55, 56]),
        1 => 0,
        2 => 56,
        _ => random.byte(),
    };
}

/// Repeats a line number or exchanges two neighbours.
fn break_order(random: &mut Random, draft: &mut Draft) {
    if draft.lines.len() < 2 {
        return;
    }
    let at = 1 + random.index(draft.lines.len() - 1);
    match random.below(3) {
        0 => draft.lines[at] = draft.lines[at - 1],
        1 => draft.lines.swap(at, at - 1),
        _ => {
            draft.lines.swap(at, at - 1);
            draft.fractions.swap(at, at - 1);
        }
    }
}

/// Sets a fraction to 0, most often with the sum kept.
fn put_zero(random: &mut Random, class: Class, draft: &mut Draft) {
    if draft.lines.is_empty() {
        return;
    }
    let at = random.index(draft.fractions.len());
    draft.fractions[at] = 0;
    if at > 0 && random.below(4) > 0 {
        draft.balance(class, 1_000_000);
    }
}

/// Puts the sum just or far outside its range.
fn break_sum(random: &mut Random, class: Class, draft: &mut Draft) {
    let sum = match random.below(4) {
        0 => SUM.0 - 1,
        1 => SUM.1 + 1,
        2 => random.between(0, 2_000_000),
        _ => random.word() as u32,
    };
    draft.balance(class, sum);
}

/// Takes the main line below its least or out, with the sum kept where another
/// line can take the difference.
fn lower_main(random: &mut Random, class: Class, draft: &mut Draft) {
    let Some(at) = draft.place_of(class.main_line()) else {
        return;
    };
    let before = draft.fractions[at];
    let after = match random.below(4) {
        0 => class.least() - 1,
        1 => random.between(1, class.least() - 1),
        2 => 1,
        _ => 0,
    };
    let difference = before.saturating_sub(after);
    let other = random.index(draft.lines.len());
    draft.fractions[other] = draft.fractions[other].wrapping_add(difference);
    draft.fractions[at] = after;
    if after == 0 {
        draft.lines.remove(at);
        draft.fractions.remove(at);
    }
}

/// Puts a line other than the main one past its limit, most often with the sum
/// kept.
fn pass_limit(random: &mut Random, class: Class, draft: &mut Draft, line: u8) {
    let past = class.limit(line) + 1 + random.small();
    draft.put(line, past);
    if random.below(4) > 0 {
        draft.balance(class, 1_000_000);
    }
}

/// Puts hydrogen on its least in the hydrogen class or one below it, with the sum
/// kept by methane or not.
fn put_hydrogen(random: &mut Random, draft: &mut Draft) {
    let fraction = Class::Hydrogen.least() - random.below(2) as u32;
    draft.put(HYDROGEN, fraction);
    if random.below(2) == 0 {
        draft.balance(Class::Other, 1_000_000);
    }
}

/// Puts fractions near 2^32, or two whose sum passes 2^32 by what the sum was
/// before.
fn put_huge(random: &mut Random, draft: &mut Draft) {
    if draft.lines.is_empty() {
        return;
    }
    let at = random.index(draft.fractions.len());
    let other = random.index(draft.fractions.len());
    match random.below(3) {
        0 => draft.fractions[at] = u32::MAX - random.small(),
        1 => {
            let taken = random.between(1, 1_000_000);
            draft.fractions[at] = draft.fractions[at].wrapping_sub(taken);
            draft.fractions[other] = draft.fractions[other].wrapping_add(taken);
        }
        _ => {
            for place in [at, other] {
                draft.fractions[place] = draft.fractions[place].wrapping_add(1 << 31);
            }
        }
    }
}

/// A record with bytes changed, taken or added.
fn damaged(random: &mut Random, mut record: Vec<u8>) -> Vec<u8> {
    let times = 1 + random.below(8) / 6;
    for _ in 0..times {
        damage_one(random, &mut record);
    }
    record
}

fn damage_one(random: &mut Random, record: &mut Vec<u8>) {
    match random.below(12) {
        0 | 1 => record.truncate(random.index(8)),
        2 | 3 => change(random, record, 0, 3),
        4 => change(random, record, 3, 4),
        5 => change(random, record, 4, 5),
        6 => change(random, record, 5, 7),
        7 => set_count(random, record),
        8 | 9 => change_length(random, record),
        10 => change(random, record, 0, usize::MAX),
        _ => {
            for _ in 0..random.index(8) {
                change(random, record, 8, usize::MAX);
            }
        }
    }
}

/// Gives one byte of `from..to`, as far as the record has it, another value.
fn change(random: &mut Random, record: &mut [u8], from: usize, to: usize) {
    let to = to.min(record.len());
    if from < to {
        let at = from + random.index(to - from);
        record[at] = match random.below(3) {
            0 => record[at] ^ (1 << random.below(8)),
            1 => record[at].wrapping_add(1),
            _ => random.byte(),
        };
    }
}

/// Sets the entry count alone: 0, 1, 55, 56, one more or less, or any.
fn set_count(random: &mut Random, record: &mut [u8]) {
    let other = random.byte();
    if let Some(count) = record.get_mut(7) {
        *count = match random.below(4) {
            0 => *random.one_of(&[0, 1, 55, 56]),
            1 => count.wrapping_add(1),
            2 => count.wrapping_sub(1),
            _ => other,
        };
    }
}

/// Takes up to 11 bytes, or adds up to 11 or some hundreds.
fn change_length(random: &mut Random, record: &mut Vec<u8>) {
    match random.below(5) {
        0 | 1 => {
            let less = 1 + random.index(11);
            record.truncate(record.len().saturating_sub(less));
        }
        2 | 3 => {
            let more = 1 + random.index(11);
            random.extend(record, more);
        }
        _ => {
            let more = random.index(600);
            random.extend(record, more);
        }
    }
}

/// Random bytes, alone, after a right header, or with a right length too.
fn noise(random: &mut Random) -> Vec<u8> {
    let mut record = Vec::new();
    if random.below(4) > 0 {
        let (combustion, metering) = pair(random);
        record.extend(b"GCR\x01\x00");
        record.extend([combustion, metering]);
        if random.below(2) == 0 {
            let count = 1 + random.index(55);
            record.push(count as u8);
            random.extend(&mut record, 5 * count);
            return record;
        }
    }
    let length = random.index(300);
    random.extend(&mut record, length);
    record
}

/// A call of the writer with a draft's lists or with lists of other lengths.
fn writer_call(random: &mut Random, mut draft: Draft) -> WriterCall {
    match random.below(16) {
        0 => unequal(random, &mut draft),
        1 => lengthen(random, &mut draft, 256),
        _ => {}
    }
    let length = 8 + 5 * draft.lines.len();
    let length = match random.below(8) {
        0 => length - 1,
        1 => random.index(length),
        2 => 0,
        3 => length + 1 + random.index(9),
        4 => length + random.index(400),
        _ => length,
    };
    let mut buffer = Vec::with_capacity(length);
    random.extend(&mut buffer, length);
    WriterCall { draft, buffer }
}

/// Makes one list shorter or longer than the other.
fn unequal(random: &mut Random, draft: &mut Draft) {
    let more = *random.one_of(&[1, 1, 2, 255, 256]);
    match random.below(4) {
        0 => draft.lines.truncate(draft.lines.len().saturating_sub(more)),
        1 => {
            let length = draft.fractions.len().saturating_sub(more);
            draft.fractions.truncate(length);
        }
        2 => random.extend(&mut draft.lines, more),
        _ => {
            let length = draft.fractions.len() + more;
            draft.fractions.resize(length, 1);
        }
    }
}

/// Adds entries to both lists: `least` of them or some more.
fn lengthen(random: &mut Random, draft: &mut Draft, least: usize) {
    let more = match random.below(2) {
        0 => least,
        _ => least + random.index(300),
    };
    random.extend(&mut draft.lines, more);
    let length = draft.fractions.len() + more;
    draft.fractions.resize(length, 1);
}

/// The entries of a record that is long enough for its header.
fn entries(record: &[u8]) -> impl Iterator<Item = (u8, u32)> + '_ {
    let (entries, _) = record[8..].as_chunks::<5>();
    entries
        .iter()
        .map(|[line, fraction @ ..]| (*line, u32::from_le_bytes(*fraction)))
}

/// Bytes in hexadecimal, after their count.
pub fn hex(bytes: &[u8]) -> String {
    let mut text = format!("({} bytes)", bytes.len());
    for byte in bytes {
        let _ = write!(text, " {byte:02X}");
    }
    text
}
