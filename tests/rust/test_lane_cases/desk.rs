//! The desk's own calls, and those of a table of fds.
use crate::frame::{frame, is_frame};
use crate::line::Call;
use crate::plane::{AnyPlane, shared};
use crate::told;
use anyhow::Result;
use loop_desk::Desk;
use loop_disk::Disk;
use loop_plane::FdTable;
use loop_record::{Frame, Times};
use loop_store::{Clip, StoreFault};
use std::alloc::Global;
use std::io::{self, Write};

// The answer to a submit, and the frame that comes back.
fn submit<D: Disk + Drop>(
    desk: &mut Desk<D>,
    frame: Frame,
) -> (Result<u64, StoreFault>, Option<Frame>) {
    match desk.submit(frame) {
        Ok(number) => (Ok(number), None),
        Err((fault, back)) => (Err(fault), Some(back)),
    }
}

/// Gives the desk the frame of a number, with this many bytes. A refused one comes back unchanged.
pub(crate) fn put<D: Disk + Drop>(
    alloc: Global,
    desk: &mut Desk<D>,
    call: &Call,
    out: &mut Vec<u8>,
) -> Result<()> {
    let size = call.number(0) as usize;
    let number = call.number(1);
    let (done, back) = submit(desk, frame(alloc, size, number)?);
    told::number(out, "frame", done)?;
    if let Some(back) = back {
        let same = is_frame(alloc, &back, size, number)?;
        out.write_all(if same { b", back" } else { b", lost" })?;
    }
    Ok(())
}

/// Flushes the desk.
pub(crate) fn flush<D: Disk + Drop>(desk: &mut Desk<D>, out: &mut Vec<u8>) -> io::Result<()> {
    told::flushed(out, &desk.flush())
}

/// Locks the frames from a number to another, with a tag, which is 0 where there is none.
pub(crate) fn lock<D: Disk + Drop>(
    desk: &mut Desk<D>,
    call: &Call,
    out: &mut Vec<u8>,
) -> io::Result<()> {
    let done = desk.lock_clip(call.number(0), call.number(1), call.number(2));
    told::locked(out, done)
}

/// Unlocks the clip of an id.
pub(crate) fn unlock<D: Disk + Drop>(
    desk: &mut Desk<D>,
    call: &Call,
    out: &mut Vec<u8>,
) -> io::Result<()> {
    told::unlocked(out, desk.unlock_clip(call.small(0)))
}

/// Upgrades the store to version 2 of the layout.
pub(crate) fn upgrade<D: Disk + Drop>(desk: &mut Desk<D>, out: &mut Vec<u8>) -> io::Result<()> {
    match desk.upgrade() {
        Ok(true) => out.write_all(b"upgraded"),
        Ok(false) => out.write_all(b"already 2"),
        Err(fault) => told::fault(out, fault),
    }
}

/// Reads the frame of a number.
pub(crate) fn read<D: Disk + Drop>(
    alloc: Global,
    desk: &mut Desk<D>,
    call: &Call,
    out: &mut Vec<u8>,
) -> io::Result<()> {
    told::read(out, &desk.read_frame(alloc, call.number(0)))
}

/// The held frames of a time, as runs of their numbers.
pub(crate) fn sought<D: Disk + Drop>(
    alloc: Global,
    desk: &Desk<D>,
    call: &Call,
    out: &mut Vec<u8>,
) -> io::Result<()> {
    let times = Times {
        since: call.number(0),
        until: call.number(1),
    };
    match desk.sought(alloc, times) {
        Ok(runs) => told::runs(out, &runs),
        Err(fault) => told::fault(out, fault),
    }
}

/// Prints the status of the desk.
pub(crate) fn status<D: Disk + Drop>(desk: &Desk<D>, out: &mut Vec<u8>) -> io::Result<()> {
    let status = desk.status();
    told::named(out, "next", status.next)?;
    told::named(out, ", held", status.held)?;
    told::named(out, ", waiting", u64::from(status.pending))?;
    if status.must_reopen {
        out.write_all(b", must reopen")?;
    }
    Ok(())
}

/// Prints the numbers of the frames that are held.
pub(crate) fn frames(out: &mut Vec<u8>, numbers: &[u64]) -> io::Result<()> {
    out.write_all(b"frames")?;
    for number in numbers {
        told::named(out, "", *number)?;
    }
    Ok(())
}

/// Prints clips with their ids.
pub(crate) fn clips(out: &mut Vec<u8>, clips: &[Clip]) -> io::Result<()> {
    for clip in clips {
        told::named(out, ", clip", u64::from(clip.id))?;
        told::named(out, ":", clip.from)?;
        told::named(out, " to", clip.to)?;
        if clip.tag != 0 {
            told::named(out, " tag", clip.tag)?;
        }
    }
    Ok(())
}

/// Prints what the desk holds.
pub(crate) fn outline<D: Disk + Drop>(
    alloc: Global,
    desk: &Desk<D>,
    out: &mut Vec<u8>,
) -> io::Result<()> {
    match desk.outline(alloc) {
        Ok(outline) => {
            told::named(out, "next", outline.next)?;
            told::named(out, ", waiting", u64::from(outline.pending))?;
            told::named(out, ", version", u64::from(outline.version))?;
            out.write_all(b", ")?;
            frames(out, &outline.frames)?;
            clips(out, &outline.clips)
        }
        Err(fault) => told::fault(out, fault),
    }
}

/// Puts one more plane of another device's memory under an fd.
pub(crate) fn share(alloc: Global, table: &mut FdTable<AnyPlane>, out: &mut Vec<u8>) -> Result<()> {
    match table.add(shared(alloc)?) {
        Ok(fd) => told::named(out, "fd", u64::from(fd))?,
        Err((fault, _)) => write!(out, "{fault:?}")?,
    }
    Ok(())
}

/// Closes an fd.
pub(crate) fn close_fd(
    table: &mut FdTable<AnyPlane>,
    call: &Call,
    out: &mut Vec<u8>,
) -> io::Result<()> {
    match table.close(call.small(0)) {
        Ok(_) => out.write_all(b"closed"),
        Err(fault) => write!(out, "{fault:?}"),
    }
}
