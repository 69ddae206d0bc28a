//! A frame on its way through a queue of boxes, as a crate above the queue would write it. What is in a box of any kind
//! of plane is named by a quote of the box's impl.

use loop_plane::PlaneMemory;
use loop_vb2::{PlaneSet, Queue, Stamp};

/// Completes a buffer with a frame, dequeues it, and reads its first plane. `bytes` is one whole frame. Returns true
/// where `out` has the first bytes of the frame. Returns false where a call was refused, or where another buffer was
/// dequeued first.
pub fn read_back(
    queue: &mut Queue,
    index: u32,
    stamp: Stamp,
    bytes: &[u8],
    out: &mut [u8],
) -> bool {
    let Ok(()) = queue.complete(index, stamp, bytes) else {
        return false;
    };
    let Ok(frame) = queue.dequeue() else {
        return false;
    };
    if frame.index != index {
        return false;
    }
    match queue.copy_plane(index, 0, 0, out) {
        Ok(()) => true,
        Err(_) => false,
    }
}

use crate::common::page;
use loop_pages::PageLedger;
use loop_plane::{Memory, MmapPlane};
use loop_record::PixelFormat;
use std::test::Fail;

#[test]
fn a_frame_passes_through_a_queue_of_boxes(rt: HostRuntime) -> Result<(), Fail> {
    let alloc = rt.alloc();
    let (ledger, seat) = PageLedger::new(alloc, 1)?;
    let (hold, _) = page(&rt, alloc, &ledger, seat);
    let Ok(plane) = MmapPlane::new(alloc, hold) else {
        panic!(rt; "memory for a plane")
    };
    let plane: Box<dyn PlaneMemory + Send> = Box::new(alloc, plane)?;
    let mut supply = Vec::new(alloc);
    supply.push(PlaneSet::one(plane))?;
    let mut queue = Queue::new(alloc, PixelFormat::Grey, 8, 8, 1);
    let stamp = Stamp {
        sequence: 0,
        timestamp: 40,
    };
    let mut out = [0; 64];
    assert!(rt; queue.request(1, Memory::Mmap, supply).is_ok());
    assert!(rt; !read_back(&mut queue, 0, stamp, &[7; 64], &mut out));
    assert!(rt; queue.queue(0, Memory::Mmap, None).is_ok());
    assert!(rt; queue.stream_on().is_ok());
    assert!(rt; read_back(&mut queue, 0, stamp, &[7; 64], &mut out));
    assert!(rt; out == [7; 64]);
    Ok(())
}
