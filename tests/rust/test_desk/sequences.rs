//! The sequence that a desk tells of its store: that of the block that goes when room is needed.

use crate::common::*;
use loop_desk::Desk;
use loop_disk::Disk;
use loop_record::Frame;
use std::alloc::Global;
use std::process::Abort;

// The sequences of frames that are stored one after another. They go round at 2^32.
const GIVEN: [u32; 7] = [7, 9, 4_294_967_294, u32::MAX, 0, 3, 5];

// Submits a frame with this sequence.
fn submits<D: Disk + Drop>(rt: &impl Abort, alloc: Global, desk: &mut Desk<D>, sequence: u32) {
    let frame = Frame {
        sequence,
        flags: 0,
        timestamp: 40_000,
        bytes: vec![in alloc; 0u8; 12].expect(rt, "memory for a frame"),
    };
    assert!(rt; desk.submit(frame).is_ok());
}

// After each frame of the table: whether a segment is free, and the first sequence of the block that goes.
const SPACES: [(bool, Option<u32>); 7] = [
    (true, None),
    (true, None),
    (true, Some(7)),
    (true, Some(7)),
    (false, Some(7)),
    (false, Some(7)),
    (false, Some(4_294_967_294)),
];

#[test]
fn a_desk_tells_the_sequence_of_the_block_that_goes(rt: HostRuntime) {
    let alloc = rt.alloc();
    let store = opened(&rt, alloc, fresh(&rt, alloc));
    let mut desk = desk_for(&rt, alloc, store);
    for (sequence, (free, oldest)) in GIVEN.iter().zip(SPACES.iter()) {
        submits(&rt, alloc, &mut desk, *sequence);
        assert!(rt; desk.flush().is_ok());
        let space = desk.space();
        assert_eq!(rt; (space.free, space.oldest), (*free, *oldest), "{sequence:?}");
    }
}
