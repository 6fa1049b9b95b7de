//! How often the limits were met and passed by one.

use super::{entries, Class, WriterCall, SUM};
use crate::cases::{HYDROGEN, METHANE, WATER};

/// A limit counts as met where the call is accepted, or goes on to a later
/// condition, and as passed where its own number refuses the call.
pub struct Limits {
    of_classes: [OfClass; 2],
    /// Records with hydrogen one below its least in the hydrogen class, refused by 10 and by 11.
    below_class: [u64; 2],
    /// Records of the hydrogen class, and calls of the writer with one, that 10 refuses.
    methane_low_in_class: u64,
    /// What `OF_RECORD` and `OF_WRITER` name.
    of_record: [u64; 4],
    of_writer: [u64; 4],
}

/// What is counted in a class.
struct OfClass {
    /// The sums of `SUMS`.
    sums: [u64; 4],
    /// For each line its limit and one past it; that of the main line is its least.
    lines: [[u64; 2]; 56],
    /// Records, and calls of the writer, that 10, 11 and 12 refuse where the sum is outside its range too.
    outside: [[u64; 3]; 2],
}

/// The places of records and of calls of the writer in `outside`, and their names.
const RECORDS: usize = 0;
const CALLS: usize = 1;
const OUTSIDE: [&str; 2] = ["records", "calls of the writer"];

/// The sums on and one past their limits, with their numbers; 0 is accepted.
const SUMS: [(u64, usize); 4] = [
    (SUM.0 as u64 - 1, 9),
    (SUM.0 as u64, 0),
    (SUM.1 as u64, 0),
    (SUM.1 as u64 + 1, 9),
];

const OF_RECORD: [&str; 4] = [
    "a record of 8 bytes",
    "a record of 7 bytes",
    "a record of 55 entries",
    "a record of 56 entries",
];

const OF_WRITER: [&str; 4] = [
    "lists of 55 entries",
    "lists of 56 entries",
    "a buffer as long as the record",
    "a buffer a byte shorter",
];

impl Limits {
    pub fn none() -> Self {
        Self {
            of_classes: [OfClass::none(), OfClass::none()],
            below_class: [0; 2],
            methane_low_in_class: 0,
            of_record: [0; 4],
            of_writer: [0; 4],
        }
    }

    /// Books a record and the number of its answer, 0 where it is accepted.
    pub fn book_record(&mut self, record: &[u8], number: usize) {
        let given = record.get(7).copied();
        let met = [
            record.len() == 8 && number > 1,
            record.len() == 7 && number == 1,
            given == Some(55) && number == 0,
            given == Some(56) && number == 5,
        ];
        count(&mut self.of_record, met);
        if number == 0 || number > 8 {
            let entries: Vec<_> = entries(record).collect();
            self.book_entries(&entries, number);
        }
    }

    /// Books a call of the writer and the number of its answer.
    pub fn book_call(&mut self, call: &WriterCall, number: usize) {
        let entries = call.draft.lines.len();
        let length = 8 + 5 * entries;
        let met = [
            entries == 55 && number == 0,
            entries == 56 && number == 5,
            call.buffer.len() == length && number == 0,
            call.buffer.len() + 1 == length && number == 20,
        ];
        count(&mut self.of_writer, met);
        self.book_sum(CALLS, call.draft.class(), call.draft.sum(), number);
    }

    /// Books the entries of a record that none of 1 to 8 refuses.
    fn book_entries(&mut self, entries: &[(u8, u32)], number: usize) {
        let class = Class::of(entries.iter().copied());
        let counts = &mut self.of_classes[class as usize];
        for (line, fraction) in entries {
            let (on, past, own) = limit_of(class, *line);
            let [met, passed] = &mut counts.lines[usize::from(*line)];
            *met += u64::from(*fraction == on && number == 0);
            *passed += u64::from(*fraction == past && number == own);
        }
        let sum = entries
            .iter()
            .map(|(_, fraction)| u64::from(*fraction))
            .sum();
        for (count, (limit, own)) in counts.sums.iter_mut().zip(SUMS) {
            *count += u64::from(sum == limit && number == own);
        }
        self.book_sum(RECORDS, class, sum, number);
        if entries.contains(&(HYDROGEN, Class::Hydrogen.least() - 1)) {
            self.book_below_class(entries, number);
        }
    }

    /// Books the sum of a record or of a call of the writer.
    fn book_sum(&mut self, of: usize, class: Class, sum: u64, number: usize) {
        let range = u64::from(SUM.0)..=u64::from(SUM.1);
        if (10..=12).contains(&number) && !range.contains(&sum) {
            self.of_classes[class as usize].outside[of][number - 10] += 1;
        }
        self.methane_low_in_class += u64::from(class == Class::Hydrogen && number == 10);
    }

    /// Books a record with hydrogen one below its least in the hydrogen class: 10 refuses it where methane is low, otherwise 11.
    fn book_below_class(&mut self, entries: &[(u8, u32)], number: usize) {
        let least = Class::Other.least();
        let enough = |(line, fraction): &(u8, u32)| *line == METHANE && *fraction >= least;
        let own = if entries.iter().any(enough) { 11 } else { 10 };
        self.below_class[own - 10] += u64::from(number == own);
    }

    /// How often which of 10, 11 and 12 refuse where the sum is outside its range too, of records and of calls of the writer; 10 does not
    /// in the hydrogen class.
    pub fn outside(&self) -> Vec<(String, Vec<(usize, u64)>)> {
        let mut outside = Vec::new();
        for (class, counts) in Class::BOTH.into_iter().zip(&self.of_classes) {
            for (of, counts) in OUTSIDE.iter().zip(counts.outside) {
                let numbers = (10..).zip(counts);
                let can_be = numbers.skip(usize::from(class == Class::Hydrogen));
                outside.push((format!("{of}{}", class.name()), can_be.collect()));
            }
        }
        outside
    }

    /// How often 10 refuses in the hydrogen class, where it cannot.
    pub fn methane_low_in_class(&self) -> u64 {
        self.methane_low_in_class
    }

    /// What occurs least, and how often.
    pub fn least(&self) -> (String, u64) {
        let classes = Class::BOTH.into_iter().zip(&self.of_classes);
        let of_classes = classes.flat_map(|(class, counts)| counts.named(class));
        let below_class = [10, 11].into_iter().zip(self.below_class);
        let below_class = below_class.map(|(number, count)| {
            (
                format!("hydrogen one below the hydrogen class, refused by {number}"),
                count,
            )
        });
        let of_record = OF_RECORD.into_iter().zip(self.of_record);
        let of_writer = OF_WRITER.into_iter().zip(self.of_writer);
        let counts = of_record
            .chain(of_writer)
            .map(|(name, count)| (name.to_string(), count));
        of_classes
            .chain(below_class)
            .chain(counts)
            .min_by_key(|(_, count)| *count)
            .unwrap_or_default()
    }
}

impl OfClass {
    fn none() -> Self {
        Self {
            sums: [0; 4],
            lines: [[0; 2]; 56],
            outside: [[0; 3]; 2],
        }
    }

    /// The sums and the lines, each with its name. What is one below the least of the hydrogen class is not in it.
    fn named(&self, class: Class) -> impl Iterator<Item = (String, u64)> {
        let sums = SUMS.iter().zip(self.sums);
        let mut named: Vec<_> = sums
            .map(|((sum, _), count)| (format!("sum {sum}"), count))
            .collect();
        for line in 1..=55 {
            let [met, passed] = self.lines[usize::from(line)];
            named.push((format!("line {line} on its limit"), met));
            if (class, line) != (Class::Hydrogen, HYDROGEN) {
                named.push((format!("line {line} one past its limit"), passed));
            }
        }
        let of_class = move |(what, count)| (what + class.name(), count);
        named.into_iter().map(of_class)
    }
}

/// The limit of a line, one past it, and the number of what is past it.
fn limit_of(class: Class, line: u8) -> (u32, u32, usize) {
    let (least, limit) = (class.least(), class.limit(line));
    match line {
        _ if line == class.main_line() => (least, least - 1, 10),
        WATER => (limit, limit + 1, 12),
        _ => (limit, limit + 1, 11),
    }
}

fn count(counts: &mut [u64; 4], met: [bool; 4]) {
    for (count, met) in counts.iter_mut().zip(met) {
        *count += u64::from(met);
    }
}
