//! Frames by number: each number has a content of its own.
use loop_record::Frame;
use loop_store::ReadFrame;
use std::alloc::{AllocError, Global};

/// The frame of a number, with this many bytes: byte i is the number + i.
pub(crate) fn frame(alloc: Global, size: usize, number: u64) -> Result<Frame, AllocError> {
    let n = number % 256;
    let mut bytes = vec![in alloc; 0; size]?;
    let mut next = n as u8;
    for byte in bytes.iter_mut() {
        *byte = next;
        next = next.wrapping_add(1);
    }
    Ok(Frame {
        sequence: n as u32,
        flags: 0x2000,
        timestamp: n * 40_000,
        bytes,
    })
}

// Whether these are the 12 bytes of the frame of a number.
fn are_of(bytes: &[u8], number: u64) -> bool {
    let mut next = (number % 256) as u8;
    for byte in bytes {
        if *byte != next {
            return false;
        }
        next = next.wrapping_add(1);
    }
    bytes.len() == 12
}

/// Whether a frame that was read is the one of its number, with its head and all its bytes.
pub(crate) fn is_whole(read: &ReadFrame) -> bool {
    let n = read.head.number % 256;
    read.head.sequence == n as u32
        && read.head.flags == 0x2000
        && read.head.timestamp == n * 40_000
        && are_of(&read.bytes, n)
}

/// Whether a frame is the one of a number, with this many bytes.
pub(crate) fn is_frame(
    alloc: Global,
    found: &Frame,
    size: usize,
    number: u64,
) -> Result<bool, AllocError> {
    let given = frame(alloc, size, number)?;
    Ok(
        found.sequence == given.sequence
            && found.flags == given.flags
            && found.timestamp == given.timestamp
            && found.bytes.as_slice() == given.bytes.as_slice(),
    )
}
