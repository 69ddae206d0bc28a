//! Buffers are queued, filled and dequeued, call by call: with ample memory, and with every growth refused once the
//! buffers are there.

use crate::common::Call::*;
use crate::common::Said::{Buffer, Byte, Count, Done, Flags, Frame, Is, Refused};
use crate::common::{Call, Said, Small, runs, supplied_many};
use loop_pages::PageLedger;
use loop_plane::MmapPlane;
use loop_vb2::Reason;
use std::alloc::Allocator;
use std::process::Abort;
use std::test::Fail;
use test_alloc::Budget;

// Three buffers, one of which is enough to start. Frames come in the order in which they ended, and those that wait
// when streaming is turned off are lost.
const ENDS: [(Call, Said); 33] = [
    (StreamOff, Done),
    (Dequeue, Refused(Reason::NotStreaming, 22)),
    (Queue(0), Done),
    (Queue(1), Done),
    (Queue(2), Done),
    (Queue(2), Refused(Reason::BadState, 22)),
    (StreamOn, Done),
    (Started, Is(true)),
    (NextActive, Buffer(Some(0))),
    (Complete(2), Done),
    (Complete(0), Done),
    (Complete(0), Refused(Reason::NotActive, 22)),
    (NextActive, Buffer(Some(1))),
    (Query(2), Flags(0x2004)),
    (CopyPlane(2), Refused(Reason::BadState, 22)),
    (Dequeue, Frame(2, 0x2000, 1)),
    (CopyPlane(2), Byte(102)),
    (Dequeue, Frame(0, 0x2000, 1)),
    (CopyPlane(0), Byte(100)),
    (Dequeue, Refused(Reason::NothingDone, 11)),
    (TakeFresh, Is(true)),
    (Complete(1), Done),
    (StreamOff, Done),
    (Query(1), Flags(0x2000)),
    (StreamOn, Done),
    (Dequeue, Refused(Reason::NothingDone, 11)),
    (Started, Is(false)),
    (TakeFresh, Is(false)),
    (Queue(1), Done),
    (TakeFresh, Is(true)),
    (CopyPlane(1), Refused(Reason::BadState, 22)),
    (Complete(0), Refused(Reason::NotActive, 22)),
    (Query(40), Refused(Reason::BadIndex, 22)),
];

// Two buffers, both of which the device needs to start. One is given up, and then the device fails.
const FAILURES: [(Call, Said); 27] = [
    (Grants(1), Count(2)),
    (Grants(40), Count(32)),
    (Queue(1), Done),
    (StreamOn, Done),
    (Started, Is(false)),
    (NextActive, Buffer(None)),
    (Query(1), Flags(0x2002)),
    (Queue(0), Done),
    (Started, Is(true)),
    (TakeFresh, Is(true)),
    (TakeFresh, Is(false)),
    (NextActive, Buffer(Some(1))),
    (Fail(1), Done),
    (Query(1), Flags(0x2044)),
    (Dequeue, Frame(1, 0x2040, 0)),
    (CopyPlane(1), Refused(Reason::PlaneTooShort, 22)),
    (Map(1), Done),
    (Map(1), Refused(Reason::Mapped, 16)),
    (Query(1), Flags(0x2001)),
    (Unmap(1), Done),
    (Unmap(1), Refused(Reason::NotMapped, 22)),
    (Fatal, Done),
    (Dequeue, Refused(Reason::FatalError, 5)),
    (Queue(1), Refused(Reason::FatalError, 5)),
    (StreamOff, Done),
    (StreamOn, Done),
    (Dequeue, Refused(Reason::NothingDone, 11)),
];

// A queue of mapped memory: three buffers, of which it needs one to start, or two, of which it needs both.
fn small<A: Allocator + Copy>(rt: &impl Abort, alloc: A, third: bool) -> Small<MmapPlane<A>, A> {
    let Ok((ledger, seat)) = PageLedger::new(alloc, 3) else {
        panic!(rt; "a ledger")
    };
    let (needed, count) = if third { (1, 3) } else { (2, 2) };
    let mut supply = Vec::new(alloc);
    supplied_many(rt, alloc, &ledger, seat, count, &mut supply);
    Small::new(rt, alloc, needed, count, supply)
}

// Runs both tables, over planes of one allocator. The queue's calls take no memory.
fn run_both<A: Allocator + Copy>(
    rt: &impl Abort,
    three: &mut Small<MmapPlane<A>, A>,
    two: &mut Small<MmapPlane<A>, A>,
) {
    runs(rt, three, &ENDS);
    runs(rt, two, &FAILURES);
}

#[test]
fn frames_come_in_the_order_of_their_ends(rt: HostRuntime) -> Result<(), Fail> {
    let mut three = small(&rt, rt.alloc(), true);
    let mut two = small(&rt, rt.alloc(), false);
    run_both(&rt, &mut three, &mut two);
    Ok(())
}

#[test]
fn with_all_memory_refused_the_replies_are_the_same(rt: HostRuntime) -> Result<(), Fail> {
    let budget = Budget::new(rt.alloc());
    let mut three = small(&rt, &budget, true);
    let mut two = small(&rt, &budget, false);
    budget.allow(0);
    run_both(&rt, &mut three, &mut two);
    Ok(())
}
