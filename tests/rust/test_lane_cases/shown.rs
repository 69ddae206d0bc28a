//! What a disk shows: the frames that are held, each whole, and the clips.
use crate::desk::clips;
use crate::frame::is_whole;
use crate::line::Call;
use crate::told;
use anyhow::{Result, anyhow};
use loop_disk::MemDisk;
use loop_store::Store;
use loop_y4m::{ExportFault, export};
use std::alloc::Global;
use std::io::{self, Write};

/// What is shown once a disk has made this many calls.
#[derive(Drop)]
pub(crate) struct Step {
    pub(crate) calls: u64,
    pub(crate) shown: Vec<u8>,
}

// Prints a frame's number, and whether it is whole.
fn frame(alloc: Global, store: &mut Store<MemDisk>, number: u64, out: &mut Vec<u8>) -> Result<()> {
    told::named(out, "", number)?;
    match store.read_frame(alloc, number) {
        Ok(read) if read.head.number == number && is_whole(&read) => (),
        Ok(_) => out.write_all(b" (another)")?,
        Err(_) => out.write_all(b" (unread)")?,
    }
    Ok(())
}

// Prints what a store shows.
fn of_store(alloc: Global, store: &mut Store<MemDisk>, out: &mut Vec<u8>) -> Result<()> {
    let Ok(numbers) = store.frames(alloc) else {
        return Err(anyhow!("memory for numbers"));
    };
    out.write_all(b"frames")?;
    for number in &numbers {
        frame(alloc, store, *number, out)?;
    }
    let Ok(listed) = store.clips(alloc) else {
        return Err(anyhow!("memory for clips"));
    };
    clips(out, &listed)?;
    Ok(())
}

/// Prints what a disk shows.
pub(crate) fn of_disk(alloc: Global, disk: MemDisk, out: &mut Vec<u8>) -> Result<()> {
    match Store::open(alloc, disk) {
        Ok(store) => {
            let mut store = store;
            of_store(alloc, &mut store, out)
        }
        Err(refused) => {
            told::fault(out, refused.fault)?;
            Ok(())
        }
    }
}

// Prints a text. A byte that isn't printable is a backslash and two hexadecimal digits.
fn text(out: &mut Vec<u8>, bytes: &[u8]) -> io::Result<()> {
    for byte in bytes {
        if (b' '..=b'~').contains(byte) {
            out.write_all(&[*byte])?;
        } else {
            write!(out, "\\{byte:02x}")?;
        }
    }
    Ok(())
}

// Prints the text of a store's frames.
fn exported(
    alloc: Global,
    store: &mut Store<MemDisk>,
    call: &Call,
    out: &mut Vec<u8>,
) -> Result<()> {
    let mut bytes = Vec::new(alloc);
    match export(alloc, store, call.number(0), call.number(1), &mut bytes) {
        Ok(_count) => text(out, &bytes)?,
        Err(ExportFault::Store(refusal)) => told::fault(out, refusal)?,
        Err(ExportFault::Write) => out.write_all(b"Write")?,
    }
    Ok(())
}

/// Prints the text of a disk's frames from a number to another.
pub(crate) fn text_of_disk(
    alloc: Global,
    disk: MemDisk,
    call: &Call,
    out: &mut Vec<u8>,
) -> Result<()> {
    match Store::open(alloc, disk) {
        Ok(store) => {
            let mut store = store;
            exported(alloc, &mut store, call, out)
        }
        Err(refused) => {
            told::fault(out, refused.fault)?;
            Ok(())
        }
    }
}

// How many of the steps were acknowledged within this many calls.
fn done_within(steps: &[Step], calls: u64) -> usize {
    let mut done = 0usize;
    for step in steps {
        if step.calls <= calls {
            done = done.saturating_add(1);
        }
    }
    done
}

/// Whether an event ends after this many calls.
pub(crate) fn is_end(steps: &[Step], calls: u64) -> bool {
    for step in steps {
        if step.calls == calls {
            return true;
        }
    }
    false
}

/// Whether this may be shown after this many calls: the last of the steps that were acknowledged by then, or one of the
/// steps of an event that was under way.
pub(crate) fn is_left(steps: &[Step], calls: u64, goes_on: bool, shown: &[u8]) -> bool {
    let done = done_within(steps, calls);
    let next = match steps.get(done) {
        Some(step) => step.calls,
        None => calls,
    };
    let mut place = 0usize;
    for step in steps {
        place = place.saturating_add(1);
        let may = place == done || (goes_on && calls < step.calls && step.calls <= next);
        if may && step.shown.as_slice() == shown {
            return true;
        }
    }
    false
}
