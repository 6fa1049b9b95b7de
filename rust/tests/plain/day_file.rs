//! The day file: a mark and a version, then blocks, each a length and so many
//! bytes.

use loonstool::{Counts, Next};
use std::iter::successors;

const MARK: [u8; 3] = *b"GDF";
const VERSION: u16 = 1;

/// The bytes before the first block, and those of a block's length.
pub const HEAD: usize = 5;
pub const LENGTH: usize = 2;

/// The offset after the block at an offset.
pub fn next_offset(file: &[u8], offset: usize) -> Result<Next, u8> {
    let block = look(file, offset)?;
    Ok(block.map_or(Next::End, |block| {
        Next::Offset(offset + LENGTH + block.len())
    }))
}

/// The bytes of the block at an offset, as a part of the file.
pub fn block_at(file: &[u8], offset: usize) -> Option<&[u8]> {
    look(file, offset).ok().flatten()
}

/// All blocks of a file.
pub fn blocks(file: &[u8]) -> Result<Vec<&[u8]>, u8> {
    let mut blocks = Vec::new();
    let mut offset = HEAD;
    while let Some(block) = look(file, offset)? {
        blocks.push(block);
        offset += LENGTH + block.len();
    }
    Ok(blocks)
}

/// Where the blocks of a file start, and where the walk over it stops: at its
/// end, or at a block that is cut short.
pub fn starts(file: &[u8]) -> Vec<usize> {
    let next = |at: &usize| match next_offset(file, *at) {
        Ok(Next::Offset(next)) => Some(next),
        _ => None,
    };
    successors(Some(HEAD), next).collect()
}

/// A file of blocks, none longer than 65,535 bytes.
pub fn file_of<B: AsRef<[u8]>>(blocks: &[B]) -> Vec<u8> {
    let mut file = head().to_vec();
    for block in blocks.iter().map(B::as_ref) {
        let length = u16::try_from(block.len()).expect("its length has 16 bits");
        file.extend(length.to_le_bytes());
        file.extend(block);
    }
    file
}

/// Meters a file on a stream by what makes the two calls of a block, first the
/// analysis: tries 13, 21, 23 and 19, and counts the calls that are accepted.
pub fn metered(
    stream: usize,
    file: &[u8],
    volumes: &[u64],
    mut calls: impl FnMut(&[u8], u64) -> [Result<(), u8>; 2],
) -> Result<Counts, u8> {
    if stream > 15 {
        return Err(13);
    }
    let blocks = blocks(file)?;
    if blocks.len() != volumes.len() {
        return Err(19);
    }
    let mut counts = Counts {
        analyses: 0,
        volumes: 0,
    };
    for (block, volume) in blocks.into_iter().zip(volumes) {
        let [analysis, metering] = calls(block, *volume);
        counts.analyses += u64::from(analysis.is_ok());
        counts.volumes += u64::from(metering.is_ok());
    }
    Ok(counts)
}

/// Mark and version.
pub fn head() -> [u8; HEAD] {
    let [m0, m1, m2] = MARK;
    let [v0, v1] = VERSION.to_le_bytes();
    [m0, m1, m2, v0, v1]
}

/// The block at an offset, none at the file's end: tries 21, 22 and 23.
fn look(file: &[u8], offset: usize) -> Result<Option<&[u8]>, u8> {
    if !file.starts_with(&head()) {
        return Err(21);
    }
    if offset < HEAD {
        return Err(22);
    }
    let rest = file.get(offset..).ok_or(22)?;
    if rest.is_empty() {
        return Ok(None);
    }
    let (length, rest) = rest.split_first_chunk::<LENGTH>().ok_or(23)?;
    let length = usize::from(u16::from_le_bytes(*length));
    rest.get(..length).map(Some).ok_or(23)
}
