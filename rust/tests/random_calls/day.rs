//! Makes the metering of day files: of whole ones, and of ones damaged in one
//! or more ways.

use super::random_volume;
use crate::calls::{day, Call};
use crate::cases::PAIRS;
use crate::plain::day_file::{file_of, starts, HEAD, LENGTH};
use crate::records::{self, Random};

/// The most bytes that a block has.
pub const LONGEST: usize = 65_535;

/// The metering of a day file on one of the given streams.
pub fn random_day(random: &mut Random, streams: &[usize]) -> Call {
    let blocks = random_blocks(random);
    let volumes = random_volumes(random, blocks.len());
    let mut file = file_of(&blocks);
    let starts = starts(&file);
    let damages = match random.below(8) {
        0..=3 => 0,
        4..=6 => 1,
        _ => 2,
    };
    for _ in 0..damages {
        damage(random, &mut file, &starts);
    }
    day(*random.one_of(streams), file, volumes)
}

/// Up to six blocks, or, in one of 32 files, up to 60.
pub fn random_blocks(random: &mut Random) -> Vec<Vec<u8>> {
    let most = if random.below(32) == 0 { 60 } else { 6 };
    let pair = match random.below(4) {
        0 => *random.one_of(&PAIRS),
        _ => PAIRS[0],
    };
    let number = random.index(most + 1);
    (0..number).map(|_| random_block(random, pair)).collect()
}

/// A record, accepted or not, most often with the given pair; or any bytes, often none, seldom as many as a block has.
fn random_block(random: &mut Random, pair: (u8, u8)) -> Vec<u8> {
    let length = match random.below(1_024) {
        0..=63 => 0,
        64..=95 => random.index(20),
        96..=103 => 254 + random.index(5),
        104 => LONGEST - random.index(2),
        _ => return record(random, pair),
    };
    let mut block = Vec::new();
    random.extend(&mut block, length);
    block
}

fn record(random: &mut Random, (combustion, metering): (u8, u8)) -> Vec<u8> {
    let mut record = records::case(random).0;
    if random.below(8) > 0 {
        if let Some(place) = record.get_mut(5..7) {
            place.copy_from_slice(&[combustion, metering]);
        }
    }
    record
}

/// A volume for each block; now and then one fewer, one more, or any number.
fn random_volumes(random: &mut Random, blocks: usize) -> Vec<u64> {
    let number = match random.below(16) {
        0 => blocks.saturating_sub(1),
        1 => blocks + 1,
        2 => random.index(10),
        _ => blocks,
    };
    (0..number).map(|_| random_volume(random)).collect()
}

/// Damages a file, whose blocks started at the given places.
fn damage(random: &mut Random, file: &mut Vec<u8>, starts: &[usize]) {
    let length = file.len();
    let start = *random.one_of(starts);
    match random.below(10) {
        0 => file.truncate(random.index(HEAD + 1)),
        1 => change(random, file, HEAD),
        2 => change(random, file, length),
        3 => file.truncate(random.index(length + 1)),
        4 => file.truncate(length.saturating_sub(1 + random.index(4))),
        // within a length or at its end
        5 => file.truncate(start + 1 + random.index(LENGTH)),
        6 => {
            let more = 1 + random.index(20);
            random.extend(file, more);
        }
        7 | 8 => set_length(random, file, start),
        _ => {
            file.truncate(HEAD);
            let more = random.index(200);
            random.extend(file, more);
        }
    }
}

/// Gives one of the first bytes another value.
fn change(random: &mut Random, file: &mut [u8], first: usize) {
    let length = file.len().min(first);
    if length > 0 {
        let at = random.index(length);
        file[at] = match random.below(3) {
            0 => file[at] ^ (1 << random.below(8)),
            1 => file[at].wrapping_add(1),
            _ => random.byte(),
        };
    }
}

/// Sets the length of a block: one more or less, all that is left or one more, the same with its bytes exchanged, or any.
fn set_length(random: &mut Random, file: &mut [u8], start: usize) {
    let rest = file.get_mut(start..).unwrap_or_default();
    let Some((place, rest)) = rest.split_first_chunk_mut::<LENGTH>() else {
        return;
    };
    let length = u16::from_le_bytes(*place);
    let left = u16::try_from(rest.len()).unwrap_or(u16::MAX);
    let length = match random.below(8) {
        0 => length.wrapping_add(1),
        1 => length.wrapping_sub(1),
        2 | 3 => left,
        4 | 5 => left.saturating_add(1),
        6 => length.swap_bytes(),
        _ => random.word() as u16,
    };
    *place = length.to_le_bytes();
}
