//! Which blocks may go before a camera's other stores are open, and which frames wait for these.

use loop_disk::MemDisk;
use loop_record::{Frame, Geometry, PixelFormat};
use loop_station_camera::{free_frames, going_blocks};
use loop_station_shared::{Elsewhere, Member, Stored};
use loop_store::{Store, format};
use std::alloc::Global;
use std::process::Abort;
use std::sync::Wait;

// Four segments of two slots, in 4,960 bytes.
const SMALL: Geometry = Geometry {
    width: 4,
    height: 2,
    format: PixelFormat::Ym12,
    rate_num: 25,
    rate_den: 1,
    segments: 4,
    slots: 2,
};

// A store of frames with the sequences from one number on.
fn filled(rt: &impl Abort, alloc: Global, first: u32, count: u32) -> Store<MemDisk> {
    let disk = MemDisk::new(alloc, 4_960).expect(rt, "memory for a disk");
    let Ok(mut store) = format(alloc, disk, SMALL) else {
        panic!(rt; "the disk isn't formatted")
    };
    for n in 0..count {
        let frame = Frame {
            sequence: first.wrapping_add(n),
            flags: 0,
            timestamp: u64::from(n) * 40_000,
            bytes: vec![in alloc; 0u8; 12].expect(rt, "memory for a frame"),
        };
        let group = vec![in alloc; frame].expect(rt, "memory for a group");
        assert!(rt; store.append(&group).is_ok(), "{n:?}");
    }
    store
}

// The sequences of the first frames of a store's blocks that may go.
fn going(rt: &impl Abort, alloc: Global, store: &Store<MemDisk>) -> Vec<u32> {
    let clips = store.clips(alloc).expect(rt, "memory for clips");
    going_blocks(alloc, store, &clips)
}

// What is known of a store that is open.
fn member(
    rt: &impl Abort,
    alloc: Global,
    store: &Store<MemDisk>,
    elsewhere: Elsewhere,
) -> Member {
    Member {
        number: Some(0),
        file: None,
        geometry: SMALL,
        next: store.next(),
        held: store.held(),
        began: store.next(),
        room: free_frames(store),
        firsts: going(rt, alloc, store),
        elsewhere,
        clips: Vec::new(alloc),
    }
}

#[test]
fn free_frames_are_those_of_free_segments_and_the_newest_block(rt: HostRuntime) {
    let alloc = rt.alloc();
    for (count, free) in &[(0, 8), (1, 7), (2, 6), (7, 1), (8, 0), (9, 1), (10, 0)] {
        let store = filled(&rt, alloc, 7, *count);
        assert_eq!(rt; free_frames(&store), *free, "{count:?}");
    }
}

#[test]
fn the_newest_block_and_locked_ones_do_not_go(rt: HostRuntime) {
    let alloc = rt.alloc();
    let mut store = filled(&rt, alloc, u32::MAX - 2, 11);
    assert_eq!(rt; going(&rt, alloc, &store).as_slice(), [1, 3, 5].as_slice());
    assert!(rt; store.lock(7, 7, 0).is_ok());
    assert_eq!(rt; going(&rt, alloc, &store).as_slice(), [1, 5].as_slice());
    assert!(rt; store.lock(4, 5, 0).is_ok());
    assert_eq!(rt; going(&rt, alloc, &store).as_slice(), [5].as_slice());
    assert!(rt; going(&rt, alloc, &filled(&rt, alloc, 0, 2)).is_empty());
}

// How many frames are taken, of `from` on, before one waits.
fn taken(rt: &impl Wait, stored: &Stored, from: u64) -> u64 {
    for n in from..100 {
        if stored.holds_back(rt, n, false) {
            return n - from;
        }
    }
    100
}

#[test]
fn frames_wait_where_a_block_may_not_be_the_oldest(rt: HostRuntime) {
    let alloc = rt.alloc();
    // A store has one free frame, and blocks from 104, 106 and 108 on that may go.
    let store = filled(&rt, alloc, 100, 11);
    let newest = 110;
    let from = |oldest| Elsewhere::From { newest, oldest };
    let cases = [
        (Elsewhere::Roomy, 1),
        (from(100), 1),
        (from(104), 1),
        (from(105), 3),
        (from(108), 5),
        (from(109), 7),
        // It is older than all: the count has gone round.
        (from(111), 1),
        (Elsewhere::Nothing, 7),
    ];
    for (elsewhere, room) in &cases {
        let stored = Stored::new(alloc);
        stored.begin(&rt, member(&rt, alloc, &store, *elsewhere), 2, true);
        stored.count_from(&rt, 20);
        assert_eq!(rt; taken(&rt, &stored, 20), *room);
        stored.all_open(&rt);
        assert_eq!(rt; taken(&rt, &stored, 20), 100);
    }
}

#[test]
fn a_store_that_joins_makes_room(rt: HostRuntime) {
    let alloc = rt.alloc();
    let first = filled(&rt, alloc, 100, 11);
    let joined = filled(&rt, alloc, 92, 8);
    let stored = Stored::new(alloc);
    let rest = |oldest| Elsewhere::From { newest: 110, oldest };
    stored.begin(&rt, member(&rt, alloc, &first, rest(92)), 3, true);
    stored.count_from(&rt, 0);
    assert_eq!(rt; taken(&rt, &stored, 0), 1);
    // Two are taken though there is no room, since memory is full: they are told, and take none of the joined one.
    assert!(rt; !stored.holds_back(&rt, 1, true));
    assert!(rt; !stored.holds_back(&rt, 2, true));
    stored.announce(&rt, member(&rt, alloc, &joined, rest(96)));
    assert_eq!(rt; stored.join(&rt, 2), Some(1));
    assert_eq!(rt; taken(&rt, &stored, 3), 4);
    assert_eq!(rt; stored.take_forced(&rt), 2);
}
