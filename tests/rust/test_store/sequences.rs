//! The sequence of each held frame, from memory: after an append, after an opening, and where the count goes round.

use crate::common::*;
use loop_disk::{Disk, MemDisk};
use loop_store::{Store, format};
use std::alloc::Global;
use std::process::Abort;

// The sequences of frames as their source gave them, one after another: they skip some, go round at 2^32 and begin
// anew.
const GIVEN: [u32; 7] = [7, 9, 4_294_967_294, u32::MAX, 0, 3, 0];

// Stores a frame with this sequence as the next one.
fn stores<D: Disk + Drop>(rt: &impl Abort, alloc: Global, store: &mut Store<D>, sequence: u32) {
    let number = store.next();
    let mut next = frame(alloc, 12, number, 0).expect(rt, "memory for a frame");
    next.sequence = sequence;
    let frames = vec![in alloc; next].expect(rt, "memory for a group");
    assert_eq!(rt; append(rt, store, &frames), Ok(number));
}

// Checks what a store says of the first numbers, where those below `gone` aren't held any more.
fn says<D: Disk + Drop>(rt: &impl Abort, store: &Store<D>, gone: u64) {
    let mut number = 0;
    for sequence in &GIVEN {
        let held = gone <= number && number < store.next();
        let expected = if held { Some(*sequence) } else { None };
        assert_eq!(rt; store.sequence(number), expected, "{number:?}");
        number += 1;
    }
    assert_eq!(rt; store.sequence(u64::MAX), None);
}

fn opened(rt: &impl Abort, alloc: Global, disk: MemDisk) -> Store<MemDisk> {
    match Store::open(alloc, disk) {
        Ok(store) => store,
        Err(_) => panic!(rt; "the disk isn't opened"),
    }
}

#[test]
fn a_store_tells_the_sequence_of_each_held_frame(rt: HostRuntime) {
    let alloc = rt.alloc();
    let disk = MemDisk::new(alloc, 4360).expect(&rt, "memory for a disk");
    let Ok(mut store) = format(alloc, disk, SMALL) else {
        panic!(&rt; "the disk isn't formatted")
    };
    for sequence in &GIVEN {
        // The block of numbers 0 and 1 goes for number 6.
        says(&rt, &store, 0);
        stores(&rt, alloc, &mut store, *sequence);
    }
    says(&rt, &store, 2);
    says(&rt, &opened(&rt, alloc, store.into_disk()), 2);
}
