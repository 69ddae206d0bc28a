//! A source that answers by a list, and the frame that is dequeued.

use bitflags::Flags;
use loop_capture::{FrameSource, Next};
use loop_plane::{Memory, PlaneMemory};
use loop_vb2::Queue;
use std::alloc::Allocator;
use std::mem;

/// Returns what its list has, then `End`. Byte i of each `out` is the number of the call.
#[derive(Drop)]
pub(crate) struct Listed {
    pub answers: [Next; 5],
    pub calls: u8,
}

impl FrameSource for Listed {
    ghost next_gives = { ? };

    ghost lends = { ? };

    fn next(&mut self, out: &mut [u8]) -> Next {
        let call = self.calls;
        self.calls = self.calls.saturating_add(1);
        out.fill(call);
        self.answers
            .get(call as usize)
            .copied()
            .unwrap_or(Next::End)
    }

    fn lent(&self) -> &[u8] {
        &[]
    }
}

/// Lends frames of one byte, those of its row, and then ends. A zero is a frame that can't be had. `next` returns no
/// frame.
#[derive(Drop)]
pub(crate) struct Lender {
    pub row: [u8; 3],
    pub calls: usize,
    pub frame: [u8; 1],
}

impl FrameSource for Lender {
    ghost next_gives = { ? };

    ghost lends = { ? };

    fn next(&mut self, _out: &mut [u8]) -> Next {
        Next::Bad
    }

    fn make_ready(&mut self, size: usize) -> Option<Next> {
        let Some(byte) = self.row.get(self.calls).copied() else {
            return Some(Next::End);
        };
        self.calls = self.calls.saturating_add(1);
        self.frame = [byte];
        Some(if byte > 0 && size == 1 {
            Next::More
        } else {
            Next::Bad
        })
    }

    fn lent(&self) -> &[u8] {
        &self.frame
    }
}

/// Gives the rows of frames that all have the byte `next`, which rises by one a frame.
#[derive(Drop)]
pub(crate) struct Giver {
    pub next: u8,
    pub row: Vec<u8>,
}

impl FrameSource for Giver {
    ghost next_gives = { ? };

    ghost lends = { ? };

    fn next(&mut self, _out: &mut [u8]) -> Next {
        Next::Bad
    }

    fn make_ready(&mut self, _size: usize) -> Option<Next> {
        self.row.fill(self.next);
        self.next = self.next.saturating_add(1);
        Some(Next::More)
    }

    fn lent(&self) -> &[u8] {
        &self.row
    }

    fn give_row(&mut self) -> Option<Vec<u8>> {
        let none = Vec::new(*self.row.allocator());
        Some(mem::replace(&mut self.row, none))
    }

    fn return_row(&mut self, row: Vec<u8>) {
        self.row = row;
    }
}

/// What is dequeued: index, sequence, timestamp, flags, and the first byte of its first plane.
pub(crate) type Frame = (u32, u32, u64, u32, u8);

/// Dequeues a frame, and queues its buffer again.
pub(crate) fn round<P: PlaneMemory, A: Allocator + Copy>(queue: &mut Queue<P, A>) -> Option<Frame> {
    let frame = queue.dequeue().ok()?;
    let mut byte = [0];
    let read = queue.copy_plane(frame.index, 0, 0, &mut byte).is_ok();
    queue.queue(frame.index, Memory::Mmap, None).ok()?;
    Some((
        frame.index,
        frame.sequence,
        frame.timestamp,
        frame.flags.bits(),
        if read { byte[0] } else { 0xFF },
    ))
}
