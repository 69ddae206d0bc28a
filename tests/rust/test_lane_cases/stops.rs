//! A list over a disk that is stopped at each moment.
use crate::line::Call;
use crate::lists::{List, done_again, other_reply};
use crate::shown::{self, Step, is_end, is_left};
use anyhow::{Result, anyhow};
use loop_disk::{CrashDisk, Spoil};
use std::alloc::{AllocError, Global};
use std::io::Write;

// What unsynced bytes may read as: the five contents, and a mix for each number.
fn spoils(alloc: Global, call: &Call) -> Result<Vec<Spoil>, AllocError> {
    let mut spoils = Vec::from_slice(
        alloc,
        &[
            Spoil::Keep,
            Spoil::Old,
            Spoil::Zero,
            Spoil::Ones,
            Spoil::Gate,
        ],
    )?;
    for number in &call.numbers {
        spoils.push(Spoil::Mix((*number % 256) as u8))?;
    }
    Ok(spoils)
}

// What a stop after this many calls leaves.
fn left_at(alloc: Global, disk: &CrashDisk, calls: usize, spoil: Spoil) -> Result<Vec<u8>> {
    if disk.calls() < calls {
        return Err(anyhow!("there aren't so many calls"));
    }
    let mut text = Vec::new(alloc);
    shown::of_disk(alloc, disk.crash(calls, spoil)?, &mut text)?;
    Ok(text)
}

// Prints the first spoilt content for which a stop leaves what it may not. Returns false where there is none.
fn is_wrong_at(
    alloc: Global,
    disk: &CrashDisk,
    calls: usize,
    (spoils, steps): (&[Spoil], &[Step]),
    out: &mut Vec<u8>,
) -> Result<bool> {
    let count = calls as u64;
    // At the end of an event nothing is under way.
    let goes_on = !is_end(steps, count);
    for spoil in spoils {
        let left = left_at(alloc, disk, calls, *spoil)?;
        if !is_left(steps, count, goes_on, &left) {
            write!(out, "{calls} calls, {spoil:?}: ")?;
            out.write_all(&left)?;
            return Ok(true);
        }
    }
    Ok(false)
}

// Prints the first stop that leaves what it may not. Returns false where there is none.
fn is_wrong(
    alloc: Global,
    disk: &CrashDisk,
    spoils: &[Spoil],
    steps: &[Step],
    out: &mut Vec<u8>,
) -> Result<bool> {
    for calls in 0..=disk.calls() {
        if is_wrong_at(alloc, disk, calls, (spoils, steps), out)? {
            return Ok(true);
        }
    }
    Ok(false)
}

// Prints the first stop that leaves what it may not, or how many stops there were.
fn judges(
    alloc: Global,
    disk: &CrashDisk,
    spoils: &[Spoil],
    steps: &[Step],
    out: &mut Vec<u8>,
) -> Result<()> {
    if is_wrong(alloc, disk, spoils, steps, out)? {
        return Ok(());
    }
    let calls = disk.calls();
    let contents = spoils.len();
    write!(
        out,
        "{calls} calls, and each stop with {contents} contents is good"
    )?;
    Ok(())
}

/// Does a list over such a disk. Each stop has to leave a prefix of the steps, with all that were acknowledged.
pub(crate) fn stops(
    alloc: Global,
    list: &List,
    steps: &[Step],
    call: &Call,
    out: &mut Vec<u8>,
) -> Result<()> {
    let spoils = spoils(alloc, call)?;
    let disk = CrashDisk::of(alloc, list.start.as_slice().to_vec(alloc)?)?;
    let (other, disk) = done_again(alloc, list, disk)?;
    match other {
        Some(place) => other_reply(place, out),
        None => judges(alloc, &disk, &spoils, steps, out),
    }
}
