//! Gas metering for analysers by ISO 6976:1995: safe functions over the proved static library (see `include/loonstool.h` in the
//! repository, which also has the format of an analysis record and its limits). The library is for x86-64; what it asks of a program
//! without an operating system (SSE switched on, `memcpy` and `memset`, 128 bytes below the stack pointer) the header says.
//!
//! Gases of two classes are accepted. In the hydrogen class hydrogen (line 41) is at 900,000 ppm or more, water at most 200, and every line
//! but these two at most 50,000. Outside it methane is at least 500,000, nitrogen at most 300,000, ethane and carbon dioxide 150,000 each,
//! water 200, and every other line but methane 50,000. In both the fractions sum to 999,900 to 1,000,100.
//!
//! A [`Meter`] adds up volume, superior energy, inferior energy and mass of sixteen streams, each of which takes gases of both classes:
//!
//! ```
//! use loonstool::{Meter, Refusal};
//!
//! // Methane alone, at 15/15.
//! let record = [0x47, 0x43, 0x52, 1, 0, 15, 15, 1, 1, 0x40, 0x42, 0x0F, 0];
//! let mut meter = Meter::new();
//! assert_eq!(meter.metering(0, 1_000), Err(Refusal::NO_ANALYSIS));
//! meter.analysis(0, &record)?;
//! meter.metering(0, 1_000)?;
//!
//! let totals = meter.totals(0)?;
//! assert_eq!(totals.volume, 1_000); // dm³
//! assert_eq!((totals.superior_mj, totals.superior_rest), (37, 781_616_000)); // MJ and mJ
//! assert_eq!((totals.inferior_mj, totals.inferior_rest), (34, 15_574_000));
//! assert_eq!((totals.mass_kg, totals.mass_rest), (0, 67_985_382_000)); // kg and 10^-11 kg
//! assert_eq!(meter.mean(0)?, 37_781_616); // J/m³
//! assert_eq!(meter.mean_inferior(0)?, 34_015_574);
//! # Ok::<(), Refusal>(())
//! ```
//!
//! [`properties_of`] gives the six properties of a record and [`per_kilogram`] its calorific values per kilogram; [`read`] and
//! [`write()`] take it apart and put it together:
//!
//! ```
//! let lines = [1];
//! let fractions = [1_000_000];
//! let mut buffer = [0; loonstool::record_bytes(1)];
//! let filled = loonstool::write(15, 15, &lines, &fractions, &mut buffer)?;
//! let properties = loonstool::properties_of(&buffer[..filled])?;
//! assert_eq!((properties.z, properties.hs), (998_001_910, 37_781_616));
//! assert_eq!(loonstool::per_kilogram(&buffer[..filled])?.superior, 5_557_315); // 10 J/kg
//!
//! // Hydrogen alone.
//! let filled = loonstool::write(15, 15, &[41], &fractions, &mut buffer)?;
//! assert_eq!(loonstool::properties_of(&buffer[..filled])?.hs, 12_102_221);
//! # Ok::<(), loonstool::Refusal>(())
//! ```
//!
//! A day's analyses come in one file: the mark `GDF`, the version, 1, in two bytes, and blocks, each a length in two bytes and that many
//! bytes, least significant byte first. [`Meter::day`] meters it whole; [`next_offset`] and [`block_at`] walk over its blocks, whatever
//! they hold:
//!
//! ```
//! use loonstool::{block_at, next_offset, Counts, Meter, Next, Refusal, FIRST_BLOCK};
//!
//! // Methane alone, at 15/15.
//! let record = [0x47, 0x43, 0x52, 1, 0, 15, 15, 1, 1, 0x40, 0x42, 0x0F, 0];
//! let file = [&b"GDF\x01\x00"[..], &[13, 0], &record, &[2, 0], &[0x47, 0x43]].concat();
//! let mut offset = FIRST_BLOCK;
//! let mut blocks = Vec::new();
//! while let Next::Offset(next) = next_offset(&file, offset)? {
//!     blocks.extend(block_at(&file, offset));
//!     offset = next;
//! }
//! assert_eq!(blocks, [&record[..], &[0x47, 0x43]]);
//!
//! let mut meter = Meter::new();
//! let counts = meter.day(0, &file, &[600, 400])?;
//! assert_eq!(counts, Counts { analyses: 1, volumes: 2 }); // the second record is refused, the first stays in force
//! assert_eq!(meter.totals(0)?.volume, 1_000);
//! assert_eq!(meter.day(0, &file, &[600]), Err(Refusal::LISTS_DIFFER));
//! assert_eq!(next_offset(&file, 4), Err(Refusal::OFFSET_OUTSIDE));
//! # Ok::<(), Refusal>(())
//! ```
//!
//! The exported functions take whatever bytes and numbers they are given. What they require of a caller is that pointers are valid
//! for their lengths, aligned, and that what is filled or changed overlaps nothing else. Rust's slices and `&mut` have all of that. Four
//! of them also require words that hold a meter; a [`Meter`] has no others. So there is nothing left to test.
#![no_std]
#![warn(missing_docs)]

mod day_file;
mod meter;
mod refusal;

use core::mem::{offset_of, size_of, MaybeUninit};

pub use day_file::{block_at, next_offset, Next, FIRST_BLOCK};
pub use meter::{Counts, Meter, NotAMeter, Totals, Words, STREAMS, STREAM_WORDS};
pub use refusal::Refusal;

/// The lines of the component table, and the most entries that a record has.
pub const LINES: usize = 55;

/// The bytes of a record with `entries` entries.
#[must_use]
pub const fn record_bytes(entries: usize) -> usize {
    8 + 5 * entries
}

/// The six properties.
#[derive(Debug, Clone, Copy, PartialEq, Eq)]
#[repr(C)]
pub struct Properties {
    /// Compression factor, unit 10^-9.
    pub z: u64,
    /// Superior calorific value, unit J/m³.
    pub hs: u64,
    /// Inferior calorific value, unit J/m³.
    pub hi: u64,
    /// Density, unit 10^-8 kg/m³.
    pub rho: u64,
    /// Relative density, unit 10^-8.
    pub d: u64,
    /// Wobbe index, unit J/m³.
    pub w: u64,
}

// The library fills six numbers of 64 bits in document 01's order.
const _: () = {
    assert!(size_of::<Properties>() == 48);
    assert!(offset_of!(Properties, z) == 0 && offset_of!(Properties, hs) == 8);
    assert!(offset_of!(Properties, hi) == 16 && offset_of!(Properties, rho) == 24);
    assert!(offset_of!(Properties, d) == 32 && offset_of!(Properties, w) == 40);
};

impl Properties {
    /// The ceilings, which no property passes.
    pub const CEILINGS: Properties = Properties {
        z: 1_000_000_000,
        hs: 250_000_000,
        hi: 250_000_000,
        rho: 510_000_000,
        d: 390_000_000,
        w: 470_000_000,
    };

    /// What no property of an accepted record is below.
    pub const FLOORS: Properties = Properties {
        z: 724_000_000,
        hs: 9_030_000,
        hi: 9_030_000,
        rho: 7_540_000,
        d: 6_250_000,
        w: 3_880_000,
    };
}

/// The calorific values of a gas per kilogram. Of a record's two temperatures only the combustion one matters.
#[derive(Debug, Clone, Copy, PartialEq, Eq)]
#[repr(C)]
pub struct PerKilogram {
    /// Superior calorific value, unit 10 J/kg.
    pub superior: u64,
    /// Inferior calorific value, unit 10 J/kg.
    pub inferior: u64,
}

// The library fills two numbers of 64 bits, in the header's order.
const _: () = {
    assert!(size_of::<PerKilogram>() == 16);
    assert!(offset_of!(PerKilogram, superior) == 0 && offset_of!(PerKilogram, inferior) == 8);
};

impl PerKilogram {
    /// The ceilings, which no value passes.
    pub const CEILINGS: PerKilogram = PerKilogram {
        superior: 15_000_000,
        inferior: 15_000_000,
    };
}

/// What a record says: the pair of temperatures in °C, and `count` entries. Past the entries stands 0.
#[derive(Debug, Clone, Copy, PartialEq, Eq)]
pub struct Analysis {
    /// Combustion temperature.
    pub combustion: u8,
    /// Metering temperature.
    pub metering: u8,
    /// The number of entries, at most [`LINES`].
    pub count: usize,
    /// Line numbers, ascending.
    pub lines: [u8; LINES],
    /// Mole fractions, ppm.
    pub fractions: [u32; LINES],
}

extern "sysv64" {
    fn loonstool_properties_of(bytes: *const u8, length: usize, properties: *mut Properties) -> u8;

    fn loonstool_per_kilogram(bytes: *const u8, length: usize, values: *mut PerKilogram) -> u8;

    fn loonstool_read(
        bytes: *const u8,
        length: usize,
        combustion: *mut u8,
        metering: *mut u8,
        count: *mut usize,
        lines: *mut [u8; LINES],
        fractions: *mut [u32; LINES],
    ) -> u8;

    fn loonstool_write(
        combustion: u8,
        metering: u8,
        lines: *const u8,
        line_count: usize,
        fractions: *const u32,
        fraction_count: usize,
        buffer: *mut u8,
        buffer_length: usize,
    ) -> u8;
}

/// The properties of a record. Refused by 1 to 8, 10 to 12 and 9, tried in that order.
#[inline]
pub fn properties_of(bytes: &[u8]) -> Result<Properties, Refusal> {
    let mut properties = MaybeUninit::uninit();
    // SAFETY: the slice is valid for its length, and `properties` is ours.
    let number =
        unsafe { loonstool_properties_of(bytes.as_ptr(), bytes.len(), properties.as_mut_ptr()) };
    Refusal::unless_accepted(number)?;
    // SAFETY: an accepted call fills all six.
    Ok(unsafe { properties.assume_init() })
}

/// The calorific values of a record per kilogram. Refused by 1 to 8, 10 to 12 and 9, tried in that order.
#[inline]
pub fn per_kilogram(bytes: &[u8]) -> Result<PerKilogram, Refusal> {
    let mut values = MaybeUninit::uninit();
    // SAFETY: the slice is valid for its length, and `values` is ours.
    let number =
        unsafe { loonstool_per_kilogram(bytes.as_ptr(), bytes.len(), values.as_mut_ptr()) };
    Refusal::unless_accepted(number)?;
    // SAFETY: an accepted call fills both.
    Ok(unsafe { values.assume_init() })
}

/// Reads a record. Refused by 1 to 8, 10 to 12 and 9, tried in that order.
#[inline]
pub fn read(bytes: &[u8]) -> Result<Analysis, Refusal> {
    let mut analysis = Analysis {
        combustion: 0,
        metering: 0,
        count: 0,
        lines: [0; LINES],
        fractions: [0; LINES],
    };
    // SAFETY: the slice is valid for its length; the fields are ours, apart from each other, of the sizes that are filled.
    let number = unsafe {
        loonstool_read(
            bytes.as_ptr(),
            bytes.len(),
            &mut analysis.combustion,
            &mut analysis.metering,
            &mut analysis.count,
            &mut analysis.lines,
            &mut analysis.fractions,
        )
    };
    Refusal::unless_accepted(number)?;
    Ok(analysis)
}

/// Writes a record into the first [`record_bytes`] bytes of a buffer and no others, and answers how many they are. Refused by 19, 4,
/// 5, 7, 8, 10 to 12, 9 and 20, tried in that order; a refusal leaves the buffer as it was.
#[inline]
pub fn write(
    combustion: u8,
    metering: u8,
    lines: &[u8],
    fractions: &[u32],
    buffer: &mut [u8],
) -> Result<usize, Refusal> {
    // SAFETY: the slices are valid for their lengths, and `buffer`, borrowed mutably, overlaps neither list.
    let number = unsafe {
        loonstool_write(
            combustion,
            metering,
            lines.as_ptr(),
            lines.len(),
            fractions.as_ptr(),
            fractions.len(),
            buffer.as_mut_ptr(),
            buffer.len(),
        )
    };
    Refusal::unless_accepted(number)?;
    Ok(record_bytes(lines.len()))
}
