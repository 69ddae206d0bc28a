//! Replies, as text.
use crate::frame::is_whole;
use crate::plane::AnyPlane;
use bitflags::Flags;
use loop_desk::{Flushed, LaneFault};
use loop_ioctl::{IoctlReply, QueueReply};
use loop_lane::LaneReply;
use loop_record::Span;
use loop_store::{ReadFrame, StoreFault};
use loop_vb2::{Errno, Refused};
use std::io::{self, Write};

/// The refusal of a store or a desk.
pub(crate) fn fault(out: &mut Vec<u8>, fault: StoreFault) -> io::Result<()> {
    write!(out, "{fault:?}")
}

/// The refusal of a queue.
pub(crate) fn errno(out: &mut Vec<u8>, errno: Errno) -> io::Result<()> {
    let reason = errno.reason;
    let number = errno.number;
    write!(out, "{reason:?} {number}")
}

/// A number after its name.
pub(crate) fn named(out: &mut Vec<u8>, name: &str, number: u64) -> io::Result<()> {
    write!(out, "{name} {number}")
}

// Prints how many sets of planes an answer has.
fn sets(out: &mut Vec<u8>, count: usize, how: &str) -> io::Result<()> {
    if count == 0 {
        return Ok(());
    }
    write!(out, ", {count} {how}")
}

// The refusal of an ioctl, with the sets of planes that come back.
fn refused(out: &mut Vec<u8>, refused: &Refused<AnyPlane>) -> io::Result<()> {
    errno(out, refused.errno)?;
    let planes = usize::from(refused.planes.is_some());
    sets(out, planes.saturating_add(refused.supply.len()), "back")
}

// The answer to an ioctl.
fn ioctl(out: &mut Vec<u8>, reply: &IoctlReply<AnyPlane>) -> io::Result<()> {
    match reply {
        IoctlReply::Done => out.write_all(b"done"),
        IoctlReply::Granted(granted) => {
            named(out, "buffers", u64::from(granted.count))?;
            sets(out, granted.left.len(), "left")
        }
        IoctlReply::Info(info) => {
            let flags = info.flags.bits();
            write!(out, "flags {flags:x}")
        }
        IoctlReply::Dequeued(frame) => {
            let flags = frame.flags.bits();
            named(out, "buffer", u64::from(frame.index))?;
            write!(out, ", flags {flags:x}")?;
            sets(out, usize::from(frame.planes.is_some()), "out")
        }
    }
}

/// The reply of a queue.
pub(crate) fn queue(out: &mut Vec<u8>, reply: &QueueReply<AnyPlane>) -> io::Result<()> {
    match reply {
        QueueReply::Ioctl(Ok(reply)) => ioctl(out, reply),
        QueueReply::Ioctl(Err(refusal)) => refused(out, refusal),
        QueueReply::Ended(Ok(())) => out.write_all(b"done"),
        QueueReply::Ended(Err(refusal)) => errno(out, *refusal),
        QueueReply::Fatal => out.write_all(b"done"),
    }
}

// The refusal of a lane.
fn lane_fault(out: &mut Vec<u8>, refusal: LaneFault) -> io::Result<()> {
    match refusal {
        LaneFault::Store(refusal) => fault(out, refusal),
        LaneFault::Queue(refusal) => errno(out, refusal),
    }
}

/// The outcome of a flush.
pub(crate) fn flushed(out: &mut Vec<u8>, done: &Result<Flushed, StoreFault>) -> io::Result<()> {
    match done {
        Ok(done) => {
            named(out, "from", done.first)?;
            named(out, ":", u64::from(done.stored))?;
            named(out, " stored,", u64::from(done.left))?;
            out.write_all(b" left")
        }
        Err(refusal) => fault(out, *refusal),
    }
}

/// A frame that was read: its number, where it is whole.
pub(crate) fn read(out: &mut Vec<u8>, done: &Result<ReadFrame, StoreFault>) -> io::Result<()> {
    match done {
        Ok(read) if is_whole(read) => named(out, "frame", read.head.number),
        Ok(_) => out.write_all(b"another frame"),
        Err(refusal) => fault(out, *refusal),
    }
}

/// A number that was given.
pub(crate) fn number(
    out: &mut Vec<u8>,
    name: &str,
    done: Result<u64, StoreFault>,
) -> io::Result<()> {
    match done {
        Ok(number) => named(out, name, number),
        Err(refusal) => fault(out, refusal),
    }
}

// The first and the last number of a run.
fn run(out: &mut Vec<u8>, run: Span) -> io::Result<()> {
    let (from, to) = (run.from, run.to);
    write!(out, " {from}..{to}")
}

/// Runs of numbers, or that there is none.
pub(crate) fn runs(out: &mut Vec<u8>, runs: &[Span]) -> io::Result<()> {
    out.write_all(if runs.is_empty() { b"none" } else { b"runs" })?;
    for each in runs {
        run(out, *each)?;
    }
    Ok(())
}

/// A clip that was locked.
pub(crate) fn locked(out: &mut Vec<u8>, done: Result<u32, StoreFault>) -> io::Result<()> {
    match done {
        Ok(id) => named(out, "clip", u64::from(id)),
        Err(refusal) => fault(out, refusal),
    }
}

/// A clip that was unlocked.
pub(crate) fn unlocked(out: &mut Vec<u8>, done: Result<(), StoreFault>) -> io::Result<()> {
    match done {
        Ok(()) => out.write_all(b"done"),
        Err(refusal) => fault(out, refusal),
    }
}

// The buffer that was taken into the hand, or queued again.
fn buffer(out: &mut Vec<u8>, done: Result<u32, LaneFault>) -> io::Result<()> {
    match done {
        Ok(index) => named(out, "buffer", u64::from(index)),
        Err(refusal) => lane_fault(out, refusal),
    }
}

/// The reply of a lane.
pub(crate) fn lane(out: &mut Vec<u8>, reply: &LaneReply<AnyPlane>) -> io::Result<()> {
    match reply {
        LaneReply::Queue(Ok(reply)) => queue(out, reply),
        LaneReply::Queue(Err(refusal)) => lane_fault(out, *refusal),
        LaneReply::Dequeue(done) => buffer(out, *done),
        LaneReply::Requeue(done) => buffer(out, *done),
        LaneReply::Submit(done) => number(out, "frame", *done),
        LaneReply::Flush(done) => flushed(out, done),
        LaneReply::Lock(done) => locked(out, *done),
        LaneReply::Unlock(done) => unlocked(out, *done),
        LaneReply::Read(done) => read(out, done),
    }
}
