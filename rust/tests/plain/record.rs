//! The analysis record: checks, reader and writer.

use super::conditions::Conditions;
use super::table::LINES;
use loonstool::Analysis;

const HEADER: usize = 8;
const ENTRY: usize = 5;
const MARK: [u8; 3] = *b"GCR";
const VERSION: u16 = 1;

const METHANE: u8 = 1;
const ETHANE: u8 = 2;
const HYDROGEN: u8 = 41;
const WATER: u8 = 42;
const NITROGEN: u8 = 52;
const CARBON_DIOXIDE: u8 = 54;

/// The least fraction of hydrogen in the hydrogen class.
const LEAST_OF_CLASS: u32 = 900_000;

/// The greatest fraction of a line that has no limit of its own: in the hydrogen
/// class of each line other than hydrogen and water.
const OF_OTHERS: u32 = 50_000;

/// A record that met every condition.
pub struct Checked<'a> {
    combustion: u8,
    metering: u8,
    pub conditions: Conditions,
    entries: &'a [[u8; ENTRY]],
}

impl Checked<'_> {
    /// Line number and fraction of each entry.
    pub fn entries(&self) -> impl ExactSizeIterator<Item = (u8, u32)> + '_ {
        self.entries.iter().map(entry)
    }
}

/// Checks a record: conditions 1 to 8, then 10 to 12, then 9.
pub fn check(record: &[u8]) -> Result<Checked<'_>, u8> {
    let (header, body) = record.split_first_chunk::<HEADER>().ok_or(1)?;
    let [m0, m1, m2, v0, v1, combustion, metering, count] = *header;
    if [m0, m1, m2] != MARK {
        return Err(2);
    }
    if u16::from_le_bytes([v0, v1]) != VERSION {
        return Err(3);
    }
    let conditions = Conditions::of(combustion, metering).ok_or(4)?;
    let count = usize::from(count);
    check_count(count)?;
    let (entries, rest) = body.as_chunks::<ENTRY>();
    if entries.len() != count || !rest.is_empty() {
        return Err(6);
    }
    check_entries(entries.iter().map(entry))?;
    Ok(Checked {
        combustion,
        metering,
        conditions,
        entries,
    })
}

/// Reads a record.
pub fn read(record: &[u8]) -> Result<Analysis, u8> {
    let checked = check(record)?;
    let mut analysis = Analysis {
        combustion: checked.combustion,
        metering: checked.metering,
        count: checked.entries.len(),
        lines: [0; LINES],
        fractions: [0; LINES],
    };
    for (i, (line, fraction)) in checked.entries().enumerate() {
        analysis.lines[i] = line;
        analysis.fractions[i] = fraction;
    }
    Ok(analysis)
}

/// Writes a record at the start of `out` and gives its length.
pub fn write(
    combustion: u8,
    metering: u8,
    lines: &[u8],
    fractions: &[u32],
    out: &mut [u8],
) -> Result<usize, u8> {
    let count = lines.len();
    if count != fractions.len() {
        return Err(19);
    }
    Conditions::of(combustion, metering).ok_or(4)?;
    check_count(count)?;
    let entries = || lines.iter().copied().zip(fractions.iter().copied());
    check_entries(entries())?;
    let length = HEADER + ENTRY * count;
    let (header, body) = out.get_mut(..length).ok_or(20)?.split_at_mut(HEADER);
    header[..3].copy_from_slice(&MARK);
    header[3..5].copy_from_slice(&VERSION.to_le_bytes());
    header[5..].copy_from_slice(&[combustion, metering, count as u8]);
    for (place, (line, fraction)) in body.chunks_exact_mut(ENTRY).zip(entries()) {
        place[0] = line;
        place[1..].copy_from_slice(&fraction.to_le_bytes());
    }
    Ok(length)
}

fn entry(bytes: &[u8; ENTRY]) -> (u8, u32) {
    let [line, fraction @ ..] = *bytes;
    (line, u32::from_le_bytes(fraction))
}

fn check_count(count: usize) -> Result<(), u8> {
    if (1..=LINES).contains(&count) {
        Ok(())
    } else {
        Err(5)
    }
}

/// Checks line numbers and fractions: conditions 7 and 8, then 10 to 12, then
/// 9. A line number that breaks 7 refuses at once; the later conditions hold
/// over all entries, and so does what decides between the limits of 10 and 11:
/// whether the record is of the hydrogen class.
fn check_entries(entries: impl Iterator<Item = (u8, u32)>) -> Result<(), u8> {
    let mut before = 0;
    let mut zero = false;
    let mut sum = 0_u64;
    let mut methane = 0;
    let mut hydrogen = 0;
    let mut water = 0;
    let mut above = false;
    let mut above_in_class = false;
    for (line, fraction) in entries {
        if line <= before || usize::from(line) > LINES {
            return Err(7);
        }
        before = line;
        zero |= fraction == 0;
        sum += u64::from(fraction);
        match line {
            METHANE => methane = fraction,
            HYDROGEN => hydrogen = fraction,
            WATER => water = fraction,
            _ => {
                above |= fraction > limit(line);
                above_in_class |= fraction > OF_OTHERS;
            }
        }
    }
    if zero {
        return Err(8);
    }
    if hydrogen < LEAST_OF_CLASS {
        if methane < 500_000 {
            return Err(10);
        }
        if above || hydrogen > OF_OTHERS {
            return Err(11);
        }
    } else if above_in_class || methane > OF_OTHERS {
        return Err(11);
    }
    if water > 200 {
        return Err(12);
    }
    if !(999_900..=1_000_100).contains(&sum) {
        return Err(9);
    }
    Ok(())
}

/// The greatest fraction of a line other than methane and water outside the
/// hydrogen class.
fn limit(line: u8) -> u32 {
    match line {
        NITROGEN => 300_000,
        ETHANE | CARBON_DIOXIDE => 150_000,
        _ => OF_OTHERS,
    }
}
