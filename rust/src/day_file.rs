//! The blocks of a day file.
use crate::Refusal;
use core::mem::{offset_of, size_of};
use core::slice;

/// The offset of a day file's first block.
pub const FIRST_BLOCK: usize = 5;

/// What the library answers in place of an offset at the file's end.
const DAY_END: usize = 0;

/// What follows at an offset of a day file.
#[derive(Debug, Clone, Copy, PartialEq, Eq)]
pub enum Next {
    /// A block, and this is the offset after it: that of the next block, or the file's length.
    Offset(usize),
    /// No block: the offset is the file's length.
    End,
}

/// Bytes, by address and number.
#[repr(C)]
struct Block {
    bytes: *const u8,
    length: usize,
}

// The library has a pointer and a number of 64 bits, in the header's order.
const _: () = {
    assert!(size_of::<Block>() == 16);
    assert!(offset_of!(Block, bytes) == 0 && offset_of!(Block, length) == 8);
};

extern "sysv64" {
    fn loonstool_day_next(file: *const u8, length: usize, offset: usize, next: *mut usize) -> u8;

    fn loonstool_day_block(
        file: *const u8,
        length: usize,
        offset: usize,
        block: *mut Block,
    ) -> bool;
}

/// The offset after the block at an offset of a day file, whatever the block holds; the first block is at [`FIRST_BLOCK`]. Refused by 21,
/// 22 and 23, tried in that order.
#[inline]
pub fn next_offset(file: &[u8], offset: usize) -> Result<Next, Refusal> {
    let mut next = DAY_END;
    // SAFETY: the slice is valid for its length, and `next` is ours.
    let number = unsafe { loonstool_day_next(file.as_ptr(), file.len(), offset, &mut next) };
    Refusal::unless_accepted(number)?;
    Ok(match next {
        DAY_END => Next::End,
        next => Next::Offset(next),
    })
}

/// The bytes of the block at an offset of a day file, without those of its length: a part of the file, and no copy. There is one where
/// [`next_offset`] gives the offset after it.
#[must_use]
#[inline]
pub fn block_at(file: &[u8], offset: usize) -> Option<&[u8]> {
    let mut block = Block {
        bytes: file.as_ptr(),
        length: file.len(),
    };
    // SAFETY: the slice is valid for its length, and `block`, which holds it, is ours.
    let found = unsafe { loonstool_day_block(file.as_ptr(), file.len(), offset, &mut block) };
    // SAFETY: the block that is found is a part of the slice.
    found.then(|| unsafe { slice::from_raw_parts(block.bytes, block.length) })
}
