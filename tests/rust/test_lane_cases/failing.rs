//! A list over a disk that fails a call: each call in turn.
use crate::case::{Case, disk_of};
use crate::event::is_of_queue;
use crate::line::{Call, Verb};
use crate::lists::{List, replay};
use crate::shown::{self, Step, is_left};
use anyhow::Result;
use loop_disk::{Disk, FuseDisk, MemDisk, OnceDisk};
use std::alloc::Global;
use std::io::Write;

// The calls that fail, one after the other.
#[derive(Clone, Copy)]
struct Range {
    // The last call of the list.
    last: u64,
    // From this call on a failed call is a read, which is no reason to reopen the disk.
    reads: u64,
}

// Whether a reply is right once the disk has failed. An event that reaches the desk is refused, since the disk must be
// reopened.
fn is_stopped(verb: Verb, told: &[u8]) -> bool {
    is_of_queue(verb)
        || verb == Verb::Dequeue
        || verb == Verb::Requeue
        || told == b"MustReopen".as_slice()
        || told == b"HandEmpty".as_slice()
}

// What the replies show.
#[derive(Clone, Copy, PartialEq, Eq)]
enum Replies {
    // All are the same as without a failure.
    Same,
    // One was Disk, and all after it are right.
    Failed,
    Wrong,
}

// Adds a reply to those before it.
fn behind(before: Replies, call: &Call, told: &[u8], want: &[u8]) -> Replies {
    match before {
        Replies::Failed if is_stopped(call.verb, told) => Replies::Failed,
        Replies::Same if told.starts_with(b"Disk(") => Replies::Failed,
        Replies::Same if told == want => Replies::Same,
        _ => Replies::Wrong,
    }
}

// Judges the replies. Before the Disk reply they have to be the same as without a failure.
fn judged(list: &List, told: &[Vec<u8>]) -> Replies {
    let mut state = Replies::Same;
    if told.len() != list.told.len() {
        return Replies::Wrong;
    }
    for ((call, want), found) in list.calls.iter().zip(&list.told).zip(told) {
        state = behind(state, call, found, want);
    }
    state
}

// Whether the desk reports that its disk must be reopened just where that is so.
fn is_told<D: Disk + Drop>(alloc: Global, case: &Case<D>, stopped: bool) -> bool {
    case.lane.desk.status().must_reopen == stopped
        && case.lane.desk.outline(alloc).is_err() == stopped
}

// Does a list over a disk that fails a call. Returns whether all is right, and the disk.
fn tried<D: Disk + Drop>(
    alloc: Global,
    list: &List,
    disk: D,
    call: u64,
    range: Range,
) -> Result<(bool, D)> {
    let (told, case) = replay(alloc, list, disk)?;
    let found = judged(list, &told);
    let failed = found == Replies::Failed;
    let right = found != Replies::Wrong && failed == (call < range.last);
    let told = is_told(alloc, &case, failed && call < range.reads);
    Ok((right && told, disk_of(case)))
}

// Whether the disk shows the steps that were acknowledged before the call, and some of those of the failed event.
fn reopens(alloc: Global, disk: MemDisk, steps: &[Step], call: u64) -> Result<bool> {
    let mut text = Vec::new(alloc);
    shown::of_disk(alloc, disk, &mut text)?;
    Ok(is_left(steps, call, true, &text))
}

// A disk as the list found it.
fn start_of(alloc: Global, list: &List) -> Result<MemDisk> {
    Ok(MemDisk::of(list.start.as_slice().to_vec(alloc)?))
}

// Fails all calls from one on. Returns whether all is right.
fn fuse(alloc: Global, list: &List, steps: &[Step], call: u64, range: Range) -> Result<bool> {
    let disk = FuseDisk::new(start_of(alloc, list)?, call);
    let (right, disk) = tried(alloc, list, disk, call, range)?;
    Ok(right && reopens(alloc, disk.into_inner(), steps, call)?)
}

// Fails one call, and keeps this many bytes of a write. Returns whether all is right.
fn once(
    alloc: Global,
    list: &List,
    steps: &[Step],
    (call, torn): (u64, Option<u64>),
    range: Range,
) -> Result<bool> {
    let start = start_of(alloc, list)?;
    let disk = match torn {
        None => OnceDisk::new(start, call),
        Some(keep) => OnceDisk::torn(start, call, keep as usize),
    };
    let (right, disk) = tried(alloc, list, disk, call, range)?;
    Ok(right && reopens(alloc, disk.into_inner(), steps, call)?)
}

// Fails a call in each way. Returns whether all is right.
fn fails(
    alloc: Global,
    list: &List,
    steps: &[Step],
    call: u64,
    (range, torn): (Range, &[u64]),
) -> Result<bool> {
    for keep in torn {
        if !once(alloc, list, steps, (call, Some(*keep)), range)? {
            return Ok(false);
        }
    }
    Ok(fuse(alloc, list, steps, call, range)? && once(alloc, list, steps, (call, None), range)?)
}

/// Does a list over disks that fail a call. The call's first number is that of the first call that fails; the third is
/// that of the last, one after the last call of the list. From the second number on the calls are reads. Further
/// numbers say how many bytes of a failed write are kept.
pub(crate) fn failing(
    alloc: Global,
    list: &List,
    steps: &[Step],
    call: &Call,
    out: &mut Vec<u8>,
) -> Result<()> {
    let range = Range {
        last: call.number(2),
        reads: call.number(1),
    };
    let torn = match call.numbers.as_slice() {
        [_, _, _, torn @ ..] => torn,
        _ => &[],
    };
    let mut count = 0u64;
    for place in call.number(0)..=range.last {
        if !fails(alloc, list, steps, place, (range, torn))? {
            write!(out, "the failure of call {place} isn't told or kept")?;
            return Ok(());
        }
        count = count.saturating_add(1);
    }
    let ways = torn.len().saturating_add(2);
    write!(
        out,
        "{count} calls, and each failure in {ways} ways is told and kept"
    )?;
    Ok(())
}
