//! Openings with a number of the newest blocks kept. One that is refused leaves the bytes as they were.

use crate::case::{Case, close};
use crate::counted::Counted;
use crate::fails::{MAX_CALLS, base, letter};
use crate::line;
use crate::stops::{SPOILS, left_at};
use crate::text::{print_calls, print_count, print_fault, say};
use crate::words::small_of;
use anyhow::{Result, anyhow};
use loop_disk::{CrashDisk, Disk, FuseDisk, MemDisk, OnceDisk};
use loop_store::{OpenRefused, Store, StoreFault};
use std::alloc::Global;
use std::io::Write;
use std::str::SplitWhitespace;

// The error for bytes that were changed.
fn other_bytes() -> anyhow::Error {
    anyhow!(", and other bytes are left")
}

/// The image on a disk whose calls are counted from 0.
pub(crate) fn counted<'a>(case: &Case<'a>) -> Result<Counted<'a, MemDisk>> {
    case.calls.set(0);
    Ok(Counted {
        inner: MemDisk::of(case.image.clone()?),
        calls: case.calls,
    })
}

/// Prints why the image is refused, and after how many calls. Its disk comes back with the refusal.
pub(crate) fn print_refused(
    case: &Case,
    refused: &OpenRefused<Counted<MemDisk>>,
    told: &mut Vec<u8>,
) -> Result<()> {
    print_fault(told, refused.fault)?;
    if *refused.disk.inner.bytes() != *case.image.as_slice() {
        return Err(other_bytes());
    }
    say(told, " ")?;
    print_calls(told, case.calls)?;
    say(told, ", handed back")
}

// Remembers that the image is refused with this many blocks kept.
fn remember(case: &mut Case, keep: u32) -> Result<()> {
    case.keep = keep;
    case.is_refused = true;
    case.base = case.image.clone()?;
    Ok(())
}

// Opens the image with this many blocks kept. A store of it keeps `kept` of them.
fn opens(case: &mut Case, keep: u32, kept: u32, told: &mut Vec<u8>) -> Result<()> {
    line::opens(case, keep, u64::MAX, told)?;
    say(told, ", keeps ")?;
    print_count(told, u64::from(kept), "")
}

/// `open keeping COUNT`: opens the image with COUNT blocks kept. Prints in how many calls of the disk, or why it is
/// refused.
pub(crate) fn open(case: &mut Case, keep: u32, told: &mut Vec<u8>) -> Result<()> {
    let disk = counted(case)?;
    match Store::open_keeping(case.alloc, disk, keep) {
        Ok(store) => opens(case, keep, store.keep(), told),
        Err(refused) => {
            print_refused(case, &refused, told)?;
            remember(case, keep)
        }
    }
}

// Prints a block.
fn print_block(told: &mut Vec<u8>, block: Option<u64>) -> Result<()> {
    match block {
        Some(block) => print_count(told, block, ""),
        None => say(told, "none"),
    }
}

// Prints the block that would go next with this many kept.
fn print_victim(case: &Case, keep: u32, told: &mut Vec<u8>) -> Result<()> {
    match Store::open_keeping(case.alloc, MemDisk::of(case.image.clone()?), keep) {
        Err(refused) => print_fault(told, refused.fault),
        Ok(store) => print_block(told, store.victim()),
    }
}

// Prints the block that would go next with each of these counts kept.
fn print_victims(case: &Case, words: &mut SplitWhitespace, told: &mut Vec<u8>) -> Result<()> {
    let mut gap: &[u8] = b"";
    for word in words {
        told.write_all(gap)?;
        print_victim(case, small_of(word)?, told)?;
        gap = b" ";
    }
    Ok(())
}

/// `victims COUNT ..`: the block of the image that would go next with each of these counts kept.
pub(crate) fn victims(
    case: &mut Case,
    words: &mut SplitWhitespace,
    told: &mut Vec<u8>,
) -> Result<()> {
    close(case)?;
    print_victims(case, words, told)
}

// Why a disk isn't opened with this many blocks kept, and the disk.
fn refused_by<D: Disk + Drop>(alloc: Global, disk: D, keep: u32) -> Result<(StoreFault, D)> {
    match Store::open_keeping(alloc, disk, keep) {
        Ok(_) => Err(anyhow!("it isn't refused")),
        Err(refused) => Ok((refused.fault, refused.disk)),
    }
}

// A disk of other bytes, over which the image was written and not synced.
fn written(alloc: Global, image: &[u8]) -> Result<CrashDisk> {
    let mut disk = CrashDisk::of(alloc, vec![in alloc; 0x5A; image.len()]?)?;
    if disk.size() != image.len() as u64 || disk.write_at(0, image).is_err() {
        return Err(other_bytes());
    }
    Ok(disk)
}

// That disk, once an opening is refused.
fn recorded(case: &Case) -> Result<CrashDisk> {
    let disk = written(case.alloc, &case.base)?;
    let (_fault, disk) = refused_by(case.alloc, disk, case.keep)?;
    Ok(disk)
}

// Checks that the disk has the image.
fn is_there(case: &Case, disk: &MemDisk) -> Result<()> {
    if *disk.bytes() == *case.base.as_slice() {
        Ok(())
    } else {
        Err(other_bytes())
    }
}

// Stops after this many calls, with each spoilt content.
fn stops_behind(case: &Case, disk: &CrashDisk, calls: usize) -> Result<()> {
    for spoil in &SPOILS {
        if is_there(case, &left_at(disk, calls, *spoil)?).is_err() {
            return Err(anyhow!("after {calls} calls, {spoil:?}: other bytes"));
        }
    }
    Ok(())
}

// Stops after each call from the first of the opening on.
fn stops_all(case: &Case, disk: &CrashDisk) -> Result<()> {
    for calls in 2..=disk.calls() {
        stops_behind(case, disk, calls)?;
    }
    Ok(())
}

/// `stops` of an opening that is refused: each stop after its first call, a sync, leaves the image, whatever could have
/// been left before it.
pub(crate) fn stops(case: &Case, told: &mut Vec<u8>) -> Result<()> {
    let disk = recorded(case)?;
    stops_all(case, &disk)?;
    let calls = disk.calls().saturating_sub(1);
    print_count(
        told,
        calls as u64,
        " calls, and each stop leaves what was there",
    )
}

// Fails a call alone.
fn fails_once(case: &Case, call: u64) -> Result<StoreFault> {
    let disk = OnceDisk::new(base(case)?, call);
    let (fault, disk) = refused_by(case.alloc, disk, case.keep)?;
    is_there(case, &disk.into_inner())?;
    Ok(fault)
}

// Fails the calls from one on.
fn fails_from(case: &Case, call: u64) -> Result<StoreFault> {
    let disk = FuseDisk::new(base(case)?, call);
    let (fault, disk) = refused_by(case.alloc, disk, case.keep)?;
    is_there(case, &disk.into_inner())?;
    Ok(fault)
}

// Fails a call alone, and the calls from it on. Both refusals are the same.
fn fails_at(case: &Case, call: u64) -> Result<StoreFault> {
    let fault = fails_from(case, call)?;
    if fails_once(case, call)? == fault {
        Ok(fault)
    } else {
        Err(anyhow!("failing once isn't refused as failing from then on"))
    }
}

// Prints why the opening is refused where nothing fails.
fn print_then(told: &mut Vec<u8>, fault: StoreFault) -> Result<()> {
    say(told, ", then ")?;
    print_fault(told, fault)
}

/// `fails` of an opening that is refused: the letters of its calls, each of which fails, and why it is refused after
/// those.
pub(crate) fn fails(case: &Case, told: &mut Vec<u8>) -> Result<()> {
    for call in 0..MAX_CALLS {
        match fails_at(case, call)? {
            StoreFault::Disk(fault) => told.push(letter(StoreFault::Disk(fault)))?,
            fault => {
                print_then(told, fault)?;
                break;
            }
        }
    }
    say(told, ", and each leaves what was there")
}
