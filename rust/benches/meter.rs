//! Times the library's meter against the plain meter in one process, both
//! changed in place, each side one call through an address: the archive's
//! functions are called so, and those of the plain meter here too. A metering
//! call takes some ns, and where the loop around it stands in memory moves that
//! by 15 percent either way, so one loop makes the calls of both sides.
//!
//! A day file is one call of the library; the plain meter takes its records and
//! volumes by single calls.
//!
//! `cargo bench --offline --bench meter`

#[path = "../tests/cases/mod.rs"]
mod cases;
#[path = "../tests/plain/mod.rs"]
mod plain;
mod timing;

use cases::{every_line, record, K1};
use loonstool::{Counts, Meter, Next, Words, FIRST_BLOCK, STREAMS};
use plain::day_file;
use plain::words::words_of;
use std::ffi::c_void;
use std::hint::black_box;
use timing::{goal, percentile, ratios, Side, REPETITIONS};

/// Calls of a side in a repetition, about 1 to 5 ms.
const METERING_CALLS: u32 = 500_000;
const ANALYSIS_CALLS: u32 = 20_000;
const BLOCKS_METERED: u32 = 10 * BLOCKS;
const BLOCKS_WALKED: u32 = 200 * BLOCKS;

/// The metering calls that are repeated: each stream in turn, volumes below
/// 1,000 dm³.
const LIST: u64 = 2_000;

/// The blocks of a day file, one a minute.
const BLOCKS: u32 = 1_440;

fn main() {
    println!("ns for a call, changed in place: medians of {REPETITIONS} repetitions for each side; ratio: median, and 10th to 90th of 100");
    println!(
        "{:<32} {:>8} {:>8}   library / plain Rust",
        "call", "library", "Rust"
    );
    let metering = metering();
    let [k1, all] = [("K1", K1.to_vec()), ("55 lines", every_line())]
        .map(|(name, entries)| analysis(name, &record(15, 15, &entries)));
    let file = day_of_k1();
    let day = day(&file);
    walk(&file);
    goal("metering at most 1.1 times plain Rust", metering, 1.1);
    goal("analysis of K1 at most 1.1 times plain Rust", k1, 1.1);
    goal(
        "analysis of 55 lines at most 1.1 times plain Rust",
        all,
        1.1,
    );
    goal(
        "day file at most 1.1 times single calls on plain Rust",
        day,
        1.1,
    );
}

/// Prints the figures of both sides, and answers the ratio.
fn print_row(name: &str, ns: &[Vec<f64>]) -> f64 {
    let [library, plain] = [0, 1].map(|side| percentile(&ns[side], 50));
    let shown = timing::shown(&ns[0], &ns[1]);
    println!("{name:<32} {library:>8.2} {plain:>8.2}   {shown}");
    ratios(&ns[0], &ns[1])[1]
}

/// A meter of each side.
struct Meters {
    library: loonstool::Meter,
    plain: plain::Meter,
}

impl Meters {
    /// With K1 in force on each stream.
    fn analysed() -> Self {
        let mut meters = Self {
            library: loonstool::Meter::new(),
            plain: plain::Meter::fresh(),
        };
        let k1 = record(15, 15, &K1);
        for stream in 0..STREAMS {
            let accepted = meters.library.analysis(stream, &k1);
            accepted.expect("K1 is accepted");
            let accepted = meters.plain.analysis(stream, &k1);
            accepted.expect("K1 is accepted");
        }
        meters
    }

    /// Prints the figures of both sides, whose meters are now the same, and
    /// answers the ratio.
    fn row(&self, name: &str, ns: &[Vec<f64>]) -> f64 {
        assert_eq!(self.library.words(), &words_of(&self.plain));
        print_row(name, ns)
    }
}

/// A metering call of either side: a meter, a stream and a volume, and the number
/// of its refusal, 0 for none.
type Metering = unsafe extern "C" fn(*mut c_void, usize, u64) -> u8;

extern "C" {
    fn loonstool_meter_metering(words: *mut c_void, stream: usize, volume: u64) -> u8;
}

/// That of the plain meter.
///
/// # Safety
/// The pointer is to a plain meter that nothing else borrows.
unsafe extern "C" fn plain_metering(meter: *mut c_void, stream: usize, volume: u64) -> u8 {
    let meter = unsafe { &mut *meter.cast::<plain::Meter>() };
    meter.metering(stream, volume).err().unwrap_or(0)
}

/// Makes calls of a side, those of the list over and over.
///
/// # Safety
/// The meter is one of that side, and nothing else borrows it.
#[inline(never)]
unsafe fn repeat(call: Metering, meter: *mut c_void, list: &[(usize, u64)], calls: u32) {
    for (stream, volume) in list.iter().cycle().take(calls as usize) {
        let number = unsafe { call(meter, *stream, *volume) };
        assert_eq!(number, 0, "the volume is accepted");
    }
}

#[inline(never)]
fn analysis_called(meter: &mut plain::Meter, stream: usize, bytes: &[u8]) -> Result<(), u8> {
    meter.analysis(stream, bytes)
}

fn metering() -> f64 {
    let list: Vec<_> = (0..LIST)
        .map(|i| (i as usize % STREAMS, i % 1_000))
        .collect();
    let mut meters = Meters::analysed();
    let mut words: Words = *meters.library.words();
    let library: *mut c_void = (&raw mut words).cast();
    let plain: *mut c_void = (&raw mut meters.plain).cast();
    let side = |call: Metering, meter: *mut c_void| -> Side {
        let (call, list) = (black_box(call), black_box(&list));
        // SAFETY: the words hold a meter, and both meters are touched by these calls alone until the times are taken.
        Box::new(move |calls| unsafe { repeat(call, meter, list, calls) })
    };
    let of_library = side(loonstool_meter_metering, library);
    let of_plain = side(plain_metering, plain);
    let mut sides = [of_library, of_plain].map(|side| (METERING_CALLS, side));
    let ns = timing::measure(&mut sides);
    drop(sides);
    meters.library = Meter::from_words(words).expect("the words hold a meter");
    meters.row("metering", &ns)
}

fn analysis(name: &str, record: &[u8]) -> f64 {
    let mut meters = Meters::analysed();
    let Meters { library, plain } = &mut meters;
    let called: fn(&mut plain::Meter, usize, &[u8]) -> Result<(), u8> = black_box(analysis_called);
    let of_library: Side = Box::new(|calls| {
        for _ in 0..calls {
            let accepted = library.analysis(black_box(3), black_box(record));
            accepted.expect("the record is accepted");
        }
    });
    let of_plain: Side = Box::new(|calls| {
        for _ in 0..calls {
            let accepted = called(plain, black_box(3), black_box(record));
            accepted.expect("the record is accepted");
        }
    });
    let mut sides = [of_library, of_plain].map(|side| (ANALYSIS_CALLS, side));
    let ns = timing::measure(&mut sides);
    drop(sides);
    meters.row(&format!("analysis, {name}"), &ns)
}

/// A day file of records like K1, with a little more nitrogen in place of methane.
fn day_of_k1() -> Vec<u8> {
    let like_k1 = |minute: u32| {
        let mut entries = K1;
        entries[0].1 -= minute;
        entries[6].1 += minute;
        record(15, 15, &entries)
    };
    day_file::file_of(&(0..BLOCKS).map(like_k1).collect::<Vec<_>>())
}

/// The file on each side, for each block, with volumes below 1,000 dm³.
fn day(file: &[u8]) -> f64 {
    let blocks = day_file::blocks(file).expect("the file is whole");
    let volumes: Vec<_> = (0..u64::from(BLOCKS)).map(|i| i % 1_000).collect();
    let all = Counts {
        analyses: BLOCKS.into(),
        volumes: BLOCKS.into(),
    };
    let mut meters = Meters::analysed();
    let Meters { library, plain } = &mut meters;
    let analysis: fn(&mut plain::Meter, usize, &[u8]) -> Result<(), u8> =
        black_box(analysis_called);
    let metering: fn(&mut plain::Meter, usize, u64) -> Result<(), u8> =
        black_box(plain::Meter::metering_by_call);
    let of_library: Side = Box::new(|calls| {
        for _ in 0..calls / BLOCKS {
            let counts = library.day(black_box(3), black_box(file), black_box(&volumes));
            assert_eq!(counts, Ok(all));
        }
    });
    let of_plain: Side = Box::new(|calls| {
        for _ in 0..calls / BLOCKS {
            for (block, volume) in black_box(&blocks).iter().zip(black_box(&volumes)) {
                let accepted = analysis(plain, black_box(3), block);
                accepted.expect("the record is accepted");
                let accepted = metering(plain, black_box(3), *volume);
                accepted.expect("the volume is accepted");
            }
        }
    });
    let mut sides = [of_library, of_plain].map(|side| (BLOCKS_METERED, side));
    let ns = timing::measure(&mut sides);
    drop(sides);
    meters.row("day file, for each block", &ns)
}

/// The walk over the file, for each block: the next offset, and the bytes.
fn walk(file: &[u8]) {
    let next: fn(&[u8], usize) -> Result<Next, u8> = black_box(day_file::next_offset);
    let block: fn(&[u8], usize) -> Option<&[u8]> = black_box(day_file::block_at);
    let of_library: Side =
        Box::new(|calls| walk_over(file, calls, loonstool::next_offset, loonstool::block_at));
    let of_plain: Side = Box::new(|calls| walk_over(file, calls, next, block));
    let mut sides = [of_library, of_plain].map(|side| (BLOCKS_WALKED, side));
    print_row("walk, for each block", &timing::measure(&mut sides));
}

/// Walks over a file by two calls for each block, until so many blocks are seen.
fn walk_over<E>(
    file: &[u8],
    blocks: u32,
    next_offset: impl Fn(&[u8], usize) -> Result<Next, E>,
    block_at: impl Fn(&[u8], usize) -> Option<&[u8]>,
) {
    for _ in 0..blocks / BLOCKS {
        let (file, mut offset) = (black_box(file), FIRST_BLOCK);
        while let Ok(Next::Offset(next)) = next_offset(file, offset) {
            black_box(block_at(file, offset));
            offset = next;
        }
        assert_eq!(offset, file.len());
    }
}
