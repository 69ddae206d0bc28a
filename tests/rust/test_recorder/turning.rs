//! Which of two stores of a camera takes the next block: by the sequences of their frames, whatever their times.

use crate::common::*;
use loop_desk::Desk;
use loop_disk::MemDisk;
use loop_pipeline::{Back, Brought, Noting, Reports, Seat, Visits};
use loop_record::Frame;
use loop_recorder::FrameInfo;
use loop_store::StoreFault;
use rtrb::{Consumer, RingBuffer};
use std::alloc::Global;
use std::process::Abort;
use std::sync::Wait;

// Notes nothing.
#[derive(Drop)]
struct Silent;

impl Noting for Silent {
    ghost NOTED = { ? };

    const NOTED: bool = false;
}

impl Visits for Silent {
    ghost asks = { ? };

    const VISITED: bool = false;
}

impl Reports for Silent {
    fn flushes_again<R: Wait>(&self, _rt: &R, _fault: StoreFault) -> bool {
        false
    }
}

// Brings a frame: the number under which the desk accepted it, or why it didn't. None: none was brought.
fn bring<R: Wait>(
    rt: &R,
    back: &mut Back<MemDisk, Silent>,
    anyway: bool,
) -> Option<Result<u64, StoreFault>> {
    match back.bring(false, anyway) {
        Brought::Nothing | Brought::NoRoom => None,
        Brought::Submitted(number) => {
            let accepted = number.what();
            number.tell_brought(rt, &Silent, back);
            Some(Ok(accepted))
        }
        Brought::GivenUp(fault, frame) => {
            frame.tell_given_up(rt, &Silent, back);
            Some(Err(fault))
        }
    }
}

// The frame of a sequence that goes round, and of a time.
fn frame_of(rt: &impl Abort, alloc: Global, sequence: u32, timestamp: u64) -> Frame {
    let stamp = FrameInfo {
        sequence,
        flags: 0,
        timestamp,
    };
    frame(alloc, stamp, 12).expect(rt, "memory for a frame")
}

// A desk whose store is full: six frames from a sequence on, and from a time on.
fn full_desk(rt: &impl Abort, alloc: Global, first: u32, since: u64) -> Desk<MemDisk> {
    let disk = MemDisk::new(alloc, SMALL_BYTES).expect(rt, "memory for a disk");
    let mut desk = desk_of(rt, alloc, store_on(rt, alloc, disk), limits(8, 1_000_000));
    for n in 0..6u32 {
        let given = frame_of(rt, alloc, first.wrapping_add(n), since + u64::from(n));
        assert!(rt; desk.submit(given).is_ok(), "{n:?}");
        assert!(rt; desk.flush().is_ok(), "{n:?}");
    }
    desk
}

// A back with two full desks, by their first sequences, where the first one has the later times; before a frame.
fn back_of_two(
    rt: &impl Abort,
    alloc: Global,
    first: u32,
    second: u32,
    end: u32,
    from: Consumer<Frame>,
) -> Back<MemDisk, Silent> {
    let desk = full_desk(rt, alloc, first, 5_000_000);
    let Ok(mut back) = Back::new(alloc, 2, Seat::alone(desk), from, end) else {
        panic!(rt; "memory for a back")
    };
    let joined = full_desk(rt, alloc, second, 1_000);
    assert!(rt; back.join(Seat::alone(joined)).is_ok());
    back
}

// Which of the two takes the next block.
fn next_of(rt: &impl Abort, alloc: Global, first: u32, second: u32, end: u32) -> Option<usize> {
    let Ok((_, from)) = RingBuffer::new(alloc, 1) else {
        panic!(rt; "memory for a ring")
    };
    back_of_two(rt, alloc, first, second, end, from)
        .desks()
        .next_desk()
}

#[test]
fn the_oldest_block_goes_by_its_sequence(rt: HostRuntime) {
    let alloc = rt.alloc();
    let last = u32::MAX;
    let rows = [
        // The first sequences of both stores, one past the newest, and whose block goes.
        (100, 200, 206, 0),
        (200, 100, 206, 1),
        // They go round at 2^32.
        (last - 10, 5, 11, 0),
        (5, last - 10, 11, 1),
        (last - 2, last - 30, 3, 1),
        (0, last, 10, 1),
        (last, 0, 10, 0),
        // What comes after the end is the oldest: it was counted once round.
        (100, 200, 150, 1),
        (200, 100, 150, 0),
        (1, 2, last, 0),
    ];
    for (first, second, end, place) in rows {
        assert_eq!(rt;
            next_of(&rt, alloc, first, second, end),
            Some(place),
            "{first:?} {second:?} {end:?}"
        );
    }
}

#[test]
fn a_frame_that_is_brought_is_the_newest(rt: HostRuntime) {
    let alloc = rt.alloc();
    let Ok((mut to, from)) = RingBuffer::new(alloc, 1) else {
        panic!(rt; "memory for a ring")
    };
    let mut back = back_of_two(&rt, alloc, 100, 200, 150, from);
    assert_eq!(rt; back.desks().next_desk(), Some(1));
    let given = frame_of(&rt, alloc, 300, 9);
    assert!(rt; to.push(given).is_ok());
    assert!(rt; bring(&rt, &mut back, true) == Some(Ok(6)));
    assert_eq!(rt; back.desks().next_desk(), Some(0));
}

#[test]
fn each_frame_is_brought_by_the_choice_of_its_moment(rt: HostRuntime) {
    let alloc = rt.alloc();
    let Ok((mut to, from)) = RingBuffer::new(alloc, 2) else {
        panic!(rt; "memory for a ring")
    };
    let mut back = back_of_two(&rt, alloc, 100, 200, 150, from);
    let stamp = FrameInfo {
        sequence: 300,
        flags: 0,
        timestamp: 9,
    };
    let short = frame(alloc, stamp, 11).expect(&rt, "memory for a frame");
    assert!(rt; to.push(short).is_ok());
    assert!(rt; to.push(frame_of(&rt, alloc, 301, 10)).is_ok());
    // One past the newest is 150: the second store has the oldest block.
    assert!(rt; bring(&rt, &mut back, false) == Some(Err(StoreFault::WrongSize)));
    assert_eq!(rt; back.desks().active(), 1);
    // Then it is 301, and the first one has it.
    assert!(rt; bring(&rt, &mut back, false) == Some(Ok(6)));
    assert_eq!(rt; back.desks().active(), 0);
    assert_eq!(rt; back.desks().status(0).pending, 1);
    assert_eq!(rt; back.desks().status(1).pending, 0);
}
