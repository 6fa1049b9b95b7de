//! The meter of sixteen streams.
use crate::Refusal;
use core::fmt;
use core::mem::{offset_of, size_of, MaybeUninit};

/// The streams of a meter, numbered from 0.
pub const STREAMS: usize = 16;

/// The words in which a meter keeps a stream.
pub const STREAM_WORDS: usize = 16;

/// The words of a meter, to be saved and restored whole. What each of them is belongs to the library.
pub type Words = [[u64; STREAM_WORDS]; STREAMS];

/// What a stream has added up.
#[derive(Debug, Clone, Copy, PartialEq, Eq)]
#[repr(C)]
pub struct Totals {
    /// Volume, dm³, at most 999,999,999,999.
    pub volume: u64,
    /// Superior energy, whole MJ.
    pub superior_mj: u64,
    /// Superior energy past the whole MJ, mJ, below 10^9.
    pub superior_rest: u64,
    /// Inferior energy, whole MJ. It is never above the superior one.
    pub inferior_mj: u64,
    /// Inferior energy past the whole MJ, mJ, below 10^9.
    pub inferior_rest: u64,
    /// Mass, whole kg.
    pub mass_kg: u64,
    /// Mass past the whole kg, unit 10^-11 kg, below 10^11.
    pub mass_rest: u64,
}

/// How many of a day file's analyses and how many of its volumes were accepted.
#[derive(Debug, Clone, Copy, PartialEq, Eq)]
#[repr(C)]
pub struct Counts {
    /// Accepted analyses.
    pub analyses: u64,
    /// Accepted volumes.
    pub volumes: u64,
}

// The library fills seven numbers of 64 bits, and two, in the header's order.
const _: () = {
    assert!(size_of::<Totals>() == 56);
    assert!(offset_of!(Totals, volume) == 0);
    assert!(offset_of!(Totals, superior_mj) == 8 && offset_of!(Totals, superior_rest) == 16);
    assert!(offset_of!(Totals, inferior_mj) == 24 && offset_of!(Totals, inferior_rest) == 32);
    assert!(offset_of!(Totals, mass_kg) == 40 && offset_of!(Totals, mass_rest) == 48);
    assert!(size_of::<Counts>() == 16);
    assert!(offset_of!(Counts, analyses) == 0 && offset_of!(Counts, volumes) == 8);
};

/// Words that hold no meter.
#[derive(Debug, Clone, Copy, PartialEq, Eq)]
pub struct NotAMeter;

impl fmt::Display for NotAMeter {
    fn fmt(&self, f: &mut fmt::Formatter<'_>) -> fmt::Result {
        f.write_str("the words hold no meter")
    }
}

impl core::error::Error for NotAMeter {}

extern "sysv64" {
    fn loonstool_meter_fresh(m: *mut Words);

    fn loonstool_meter_check(m: *const Words) -> bool;

    fn loonstool_meter_analysis(
        m: *mut Words,
        stream: usize,
        bytes: *const u8,
        length: usize,
    ) -> u8;

    fn loonstool_meter_metering(m: *mut Words, stream: usize, volume: u64) -> u8;

    fn loonstool_meter_totals(m: *const Words, stream: usize, totals: *mut Totals) -> u8;

    fn loonstool_meter_mean(m: *const Words, stream: usize, mean: *mut u64) -> u8;

    fn loonstool_meter_mean_inferior(m: *const Words, stream: usize, mean: *mut u64) -> u8;

    fn loonstool_meter_day(
        m: *mut Words,
        stream: usize,
        file: *const u8,
        length: usize,
        volumes: *const u64,
        count: usize,
        counts: *mut Counts,
    ) -> u8;
}

/// A function of the library that answers a mean of a stream.
type Mean = unsafe extern "sysv64" fn(*const Words, usize, *mut u64) -> u8;

/// A meter of sixteen streams, 0 to 15, which its calls change in place. A stream takes an analysis, meters volumes, takes a day file of
/// analyses with a volume for each, and answers its totals and its mean calorific values. A refused call leaves all of the meter as it
/// was, an accepted one every other stream.
/// From [`new`](Self::new) on, what a stream answers and holds depends on the calls that named it, on what they asked and on their order,
/// and on no other call.
///
/// # Power cuts
///
/// A caller whose meter has to outlast a power cut saves its [`words`](Meter::words), all of them, and restores the meter by
/// [`from_words`](Meter::from_words). A call borrows the meter mutably, so `words` are those before a call or those after it, never
/// those of a call that is half made. But the power may fail between two stores: of saving, or of a call where the meter itself lies
/// in memory that keeps its contents. The words left then may be those of another meter, with a volume and without its energies.
/// `from_words` refuses words that hold no meter; it cannot refuse those that hold a wrong one. So a caller keeps two copies, each with
/// a counter and a checksum, saves over the older one, and after a restart takes the newer one whose checksum is right. `c/keep.c` in
/// the repository does that.
///
/// ```
/// # let record = [0x47, 0x43, 0x52, 1, 0, 15, 15, 1, 1, 0x40, 0x42, 0x0F, 0];
/// use loonstool::{Meter, NotAMeter, Words, STREAMS, STREAM_WORDS};
///
/// let mut meter = Meter::new();
/// meter.analysis(3, &record)?;
/// meter.metering(3, 1_000)?;
/// let saved: Words = *meter.words();
///
/// let restored = Meter::from_words(saved)?;
/// assert_eq!(restored, meter);
/// assert_eq!(restored.totals(3)?.volume, 1_000);
///
/// let damaged = [[u64::MAX; STREAM_WORDS]; STREAMS];
/// assert_eq!(Meter::from_words(damaged), Err(NotAMeter));
/// # Ok::<(), Box<dyn std::error::Error>>(())
/// ```
#[derive(Debug, Clone, PartialEq, Eq)]
pub struct Meter {
    // They hold a meter, which `metering`, `day` and both means of the library require: they were filled by `fresh` or accepted by `check`,
    // and changed by `analysis`, `metering` and `day` alone. No function lends them to be changed.
    words: Words,
}

impl Meter {
    /// A meter whose streams have no analysis, and volume, both energies and mass 0.
    #[must_use]
    #[inline]
    pub fn new() -> Self {
        let mut words = MaybeUninit::uninit();
        // SAFETY: `words` is ours.
        unsafe { loonstool_meter_fresh(words.as_mut_ptr()) };
        // SAFETY: the call fills every word.
        let words = unsafe { words.assume_init() };
        Self { words }
    }

    /// The meter that words hold: words as [`words`](Self::words) gave them are accepted. Others are accepted where what is tested holds
    /// of them, as it does of every meter: each stream has words of 0 alone, or a permitted pair, properties from
    /// [`FLOORS`](crate::Properties::FLOORS) to [`CEILINGS`](crate::Properties::CEILINGS) with Hi not above Hs, rho at most 5 units from d
    /// times the density of air at the metering temperature, and the Wobbe index that of Hs and d, a volume of at most 999,999,999,999 dm³,
    /// of each energy a rest below 10^9 mJ and of the mass one below a kg, of each an amount that the volume can have at Hs, Hi or rho
    /// between floor and ceiling, and an inferior energy not above the superior one.
    #[inline]
    pub fn from_words(words: Words) -> Result<Self, NotAMeter> {
        // SAFETY: `words` is ours; the call takes whatever words they are.
        match unsafe { loonstool_meter_check(&words) } {
            true => Ok(Self { words }),
            false => Err(NotAMeter),
        }
    }

    /// The words, to be saved. Another version of the library takes them where [`STREAMS`] and [`STREAM_WORDS`] are the same.
    #[must_use]
    #[inline]
    pub const fn words(&self) -> &Words {
        &self.words
    }

    /// Puts the properties of a record in force on a stream. The first record that is accepted fixes the stream's pair of temperatures.
    /// Refused by 13, 1 to 8, 10 to 12, 9 and 14, tried in that order; the earlier analysis then stays in force.
    #[inline]
    pub fn analysis(&mut self, stream: usize, bytes: &[u8]) -> Result<(), Refusal> {
        // SAFETY: the words are borrowed mutably, the slice is valid for its length, and they do not overlap.
        let number = unsafe {
            loonstool_meter_analysis(&mut self.words, stream, bytes.as_ptr(), bytes.len())
        };
        Refusal::unless_accepted(number)
    }

    /// Adds a volume in dm³ to a stream, and its energies and its mass without rounding: the volume times Hs of the analysis in force to
    /// the superior energy, the volume times Hi to the inferior one, and the volume times rho to the mass. Refused by 13, 15, 16 and 17,
    /// tried in that order.
    #[inline]
    pub fn metering(&mut self, stream: usize, volume: u64) -> Result<(), Refusal> {
        // SAFETY: the words are borrowed mutably, and hold a meter, as the field says.
        let number = unsafe { loonstool_meter_metering(&mut self.words, stream, volume) };
        Refusal::unless_accepted(number)
    }

    /// Meters a day file on a stream, from a list of volumes in dm³, one for each block: block after block, first an
    /// [`analysis`](Self::analysis) with the block's bytes as record, then a [`metering`](Self::metering) of the block's volume. A record
    /// or a volume that these refuse changes nothing and stops nothing; the answer is how many of each were accepted. Refused by 13, 21, 23
    /// (some block of the file is cut short) and 19 (there are not as many volumes as blocks), tried in that order, all before anything is
    /// booked.
    #[inline]
    pub fn day(&mut self, stream: usize, file: &[u8], volumes: &[u64]) -> Result<Counts, Refusal> {
        let mut counts = MaybeUninit::uninit();
        // SAFETY: the words are borrowed mutably, and hold a meter, as the field says; the slices are valid for their lengths, `counts` is
        // ours, and what is filled or changed overlaps nothing else.
        let number = unsafe {
            loonstool_meter_day(
                &mut self.words,
                stream,
                file.as_ptr(),
                file.len(),
                volumes.as_ptr(),
                volumes.len(),
                counts.as_mut_ptr(),
            )
        };
        Refusal::unless_accepted(number)?;
        // SAFETY: an accepted call fills both.
        Ok(unsafe { counts.assume_init() })
    }

    /// The volume, both energies and the mass of a stream. Refused by 13.
    #[inline]
    pub fn totals(&self, stream: usize) -> Result<Totals, Refusal> {
        let mut totals = MaybeUninit::uninit();
        // SAFETY: the words are borrowed, and `totals` is ours.
        let number = unsafe { loonstool_meter_totals(&self.words, stream, totals.as_mut_ptr()) };
        Refusal::unless_accepted(number)?;
        // SAFETY: an accepted call fills all seven.
        Ok(unsafe { totals.assume_init() })
    }

    /// The mean superior calorific value of a stream in J/m³: its superior energy by its volume, to the nearest whole number, halves
    /// upward. Refused by 13 and 18, tried in that order.
    #[inline]
    pub fn mean(&self, stream: usize) -> Result<u64, Refusal> {
        self.mean_by(loonstool_meter_mean, stream)
    }

    /// The mean inferior calorific value of a stream in J/m³: the same of its inferior energy, and refused by the same numbers.
    #[inline]
    pub fn mean_inferior(&self, stream: usize) -> Result<u64, Refusal> {
        self.mean_by(loonstool_meter_mean_inferior, stream)
    }

    /// A mean of a stream, by one of the two functions of the library.
    #[inline]
    fn mean_by(&self, function: Mean, stream: usize) -> Result<u64, Refusal> {
        let mut mean = MaybeUninit::uninit();
        // SAFETY: the words are borrowed, and hold a meter, as the field says; `mean` is ours.
        let number = unsafe { function(&self.words, stream, mean.as_mut_ptr()) };
        Refusal::unless_accepted(number)?;
        // SAFETY: an accepted call fills it.
        Ok(unsafe { mean.assume_init() })
    }
}

impl Default for Meter {
    fn default() -> Self {
        Self::new()
    }
}
