//! Each call of the disk fails: alone, its write torn or left out, or with all later calls.

use crate::acts::{Act, does, frames_of};
use crate::case::{Case, Moment, close};
use crate::frames::{
    append_again, append_next, held, is_beginning, opened_keeping, read, refused, unexpected,
};
use crate::keeping;
use crate::text::say;
use anyhow::{Result, anyhow};
use loop_disk::{Disk, DiskFault, FuseDisk, MemDisk, OnceDisk};
use loop_store::{Command, Store, StoreFault};
use std::alloc::Global;

/// The most calls of an opening and of the acts after it.
pub(crate) const MAX_CALLS: u64 = 1000;

// How many bytes of a torn write are kept. With None the write isn't done.
const KEEPS: [Option<usize>; 4] = [None, Some(0), Some(1), Some(20)];

// Checks that a refusal is `MustReopen`.
fn must<T: Drop>(answer: Result<T, StoreFault>) -> Result<()> {
    match answer {
        Err(StoreFault::MustReopen) => Ok(()),
        _ => Err(anyhow!("it isn't refused until it is opened again")),
    }
}

// Checks that each call that locks, lists or upgrades is refused.
fn lists_nothing<D: Disk + Drop>(alloc: Global, store: &mut Store<D>) -> Result<()> {
    must(store.frames(alloc))?;
    must(store.clips(alloc))?;
    must(store.lock(0, 0, 0))?;
    must(store.unlock(0))?;
    must(store.upgrade())
}

// Checks that a list of commands is refused.
fn runs_nothing<D: Disk + Drop>(alloc: Global, store: &mut Store<D>) -> Result<()> {
    must(store.run(alloc, &[Command::Read(0)]))
}

// Checks that a store that must be reopened refuses each call, except those that report what it knows.
fn is_stopped<D: Disk + Drop>(alloc: Global, store: &mut Store<D>, next: u64) -> Result<()> {
    must(append_next(alloc, store, 1, 0)?)?;
    must(read(alloc, store, 0)?)?;
    lists_nothing(alloc, store)?;
    runs_nothing(alloc, store)?;
    if store.next() != next || !(next == 0 || store.holds(next.wrapping_sub(1))) {
        return Err(anyhow!("it tells other numbers than before"));
    }
    Ok(())
}

// How many of a list of acts were done, and why no more were.
#[derive(Clone, Copy, PartialEq, Eq)]
struct Done {
    count: usize,
    refused: Option<StoreFault>,
}

// Does acts until one is refused.
fn does_some<D: Disk + Drop>(alloc: Global, store: &mut Store<D>, acts: &[Act]) -> Result<Done> {
    let mut count = 0usize;
    for act in acts {
        let next = store.next();
        if let Err(fault) = does(alloc, store, *act, 0)? {
            is_stopped(alloc, store, next)?;
            return Ok(Done {
                count,
                refused: Some(fault),
            });
        }
        count = count.wrapping_add(1);
    }
    Ok(Done {
        count,
        refused: None,
    })
}

// Repeats the acts since the opening, with as many blocks kept, until a call is refused.
fn does_kept<D: Disk + Drop>(case: &Case, store: &mut Store<D>) -> Result<Done> {
    let done = does_some(case.alloc, store, &case.acts)?;
    if store.keep() == case.keep {
        Ok(done)
    } else {
        Err(anyhow!("it keeps other blocks than before"))
    }
}

// Opens a disk and repeats the acts since the opening, until a call is refused.
fn tried<D: Disk + Drop>(case: &Case, disk: D) -> Result<(Done, D)> {
    match Store::open_keeping(case.alloc, disk, case.keep) {
        Ok(mut store) => {
            let done = does_kept(case, &mut store)?;
            Ok((done, store.into_disk()))
        }
        Err(refused) => {
            let done = Done {
                count: 0,
                refused: Some(refused.fault),
            };
            Ok((done, refused.disk))
        }
    }
}

// Whether a store may show this. It shows what was shown at a moment. Where the act after that was refused, it may also
// show what the act or a prefix of its steps leaves.
fn is_left(case: &Case, store: &Store<MemDisk>, done: &Done, found: &[u64]) -> Result<bool> {
    let clips = store.clips(case.alloc).map_err(refused)?;
    let version = store.version();
    let is_of = |moment: &Moment| {
        *moment.clips.as_slice() == *clips.as_slice() && moment.version == version
    };
    let Some(before) = case.moments.get(done.count) else {
        return Ok(false);
    };
    let next = case.moments.get(done.count.wrapping_add(1));
    Ok(match (next, case.acts.get(done.count)) {
        (Some(after), Some(act)) => {
            is_beginning(found, &before.frames, &after.frames, frames_of(*act))
                && (is_of(before) || is_of(after))
        }
        _ => *found == *before.frames.as_slice() && is_of(before),
    })
}

// Checks that what is left shows what it may. Then stores a frame in a second attempt, if there is a place for it, and
// returns its number.
fn goes_on(case: &Case, store: &mut Store<MemDisk>, done: &Done) -> Result<Option<u64>> {
    let found = held(case.alloc, store, u64::MAX)?;
    if !is_left(case, store, done, &found)? {
        return Err(unexpected(&found));
    }
    let clips = store.clips(case.alloc).map_err(refused)?;
    append_again(case.alloc, store, &found, &clips)
}

// Checks that the last frame has this number and is of the second attempt, and that those before it are of the first.
fn ends_with(alloc: Global, store: &mut Store<MemDisk>, number: u64) -> Result<()> {
    let shown = held(alloc, store, number)?;
    match shown.last() {
        Some(last) if *last == number => Ok(()),
        _ => Err(unexpected(&shown)),
    }
}

// Opens what is left, and stores a frame in a second attempt. Returns its number, if there was a place for it, and the
// disk.
fn goes_on_over(case: &Case, disk: MemDisk, done: &Done) -> Result<(Option<u64>, MemDisk)> {
    let mut store = opened_keeping(case.alloc, disk, case.keep)?;
    let number = goes_on(case, &mut store, done)?;
    Ok((number, store.into_disk()))
}

// Opens what the second attempt left. What was given up doesn't come back.
fn is_last(case: &Case, disk: MemDisk, number: u64) -> Result<()> {
    let mut store = opened_keeping(case.alloc, disk, case.keep)?;
    ends_with(case.alloc, &mut store, number)
}

// Opens what is left, stores a frame in a second attempt, and opens it again.
fn reopens(case: &Case, disk: MemDisk, done: &Done) -> Result<()> {
    match goes_on_over(case, disk, done)? {
        (Some(number), disk) => is_last(case, disk, number),
        (None, _) => Ok(()),
    }
}

/// The image as it was opened.
pub(crate) fn base(case: &Case) -> Result<MemDisk> {
    Ok(MemDisk::of(case.base.clone()?))
}

// Fails one call. A write is torn after some of its bytes, or left out.
fn fails_once(case: &Case, call: u64, keep: Option<usize>) -> Result<Done> {
    let disk = match keep {
        Some(keep) => OnceDisk::torn(base(case)?, call, keep),
        None => OnceDisk::new(base(case)?, call),
    };
    let (done, disk) = tried(case, disk)?;
    reopens(case, disk.into_inner(), &done)?;
    Ok(done)
}

// Fails the calls from one on.
fn fails_from(case: &Case, call: u64) -> Result<Done> {
    let disk = FuseDisk::new(base(case)?, call);
    let (done, disk) = tried(case, disk)?;
    if disk.left != 0 {
        return Err(anyhow!("more calls were expected"));
    }
    reopens(case, disk.into_inner(), &done)?;
    Ok(done)
}

// Fails a call alone, in each way. The refusals are all the same.
fn fails_alike(case: &Case, call: u64, done: Done) -> Result<()> {
    for keep in &KEEPS {
        if fails_once(case, call, *keep)? != done {
            return Err(anyhow!("failing once isn't refused as failing from then on"));
        }
    }
    Ok(())
}

// Fails a call in each way, alone and with all later ones. The refusals are all the same.
fn fails_at(case: &Case, call: u64) -> Result<Option<StoreFault>> {
    let done = fails_from(case, call)?;
    fails_alike(case, call, done)?;
    Ok(done.refused)
}

/// The letter of a call that failed: sync, read or write.
pub(crate) fn letter(fault: StoreFault) -> u8 {
    match fault {
        StoreFault::Disk(DiskFault::Read) => b'r',
        StoreFault::Disk(DiskFault::Write) => b'w',
        StoreFault::Disk(DiskFault::Sync) => b's',
        _ => b'?',
    }
}

// Fails each call in turn, until there is no such call, and prints the letters of those that failed.
fn print_fails(case: &Case, told: &mut Vec<u8>) -> Result<()> {
    for call in 0..MAX_CALLS {
        match fails_at(case, call) {
            Err(error) => return Err(anyhow!(", and at call {call}: {error}")),
            Ok(None) => break,
            Ok(Some(fault)) => told.push(letter(fault))?,
        }
    }
    Ok(())
}

/// `fails`: fails each call of the opening and of the acts since, in turn, until there is no such call. Prints the
/// letters of the calls that failed, and that each left a prefix of the steps.
pub(crate) fn fails(case: &mut Case, told: &mut Vec<u8>) -> Result<()> {
    close(case)?;
    if case.is_refused {
        return keeping::fails(case, told);
    }
    print_fails(case, told)?;
    say(told, ", and each leaves a beginning")
}
