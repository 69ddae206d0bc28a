// Stores in memory and in files.

use crate::words::{number, open_file, path, refused};
use anyhow::{Context, Result, anyhow};
use loop_disk::{Disk, MemDisk};
use loop_record::{Frame, Geometry, PixelFormat};
use loop_store::{OpenRefused, Store, format};
use std::alloc::{AllocError, Global};
use std::env::Args;
use std::fs::File;
use std::rt::Files;

// The most frames of a group.
const MAX_GROUP: usize = 64;

/// The geometry that the next words name, of one frame a second.
pub(crate) fn geometry(words: &mut Args) -> Result<Geometry> {
    let geometry = Geometry {
        width: number(words)?,
        height: number(words)?,
        format: PixelFormat::Grey,
        rate_num: 1,
        rate_den: 1,
        segments: number(words)?,
        slots: number(words)?,
    };
    match geometry.check() {
        Ok(()) => Ok(geometry),
        Err(_) => Err(anyhow!("the geometry isn't good")),
    }
}

// A group of this many frames, each byte of which is this one.
fn group_of(
    alloc: Global,
    geometry: &Geometry,
    count: u32,
    byte: u8,
) -> Result<Vec<Frame>, AllocError> {
    let mut group = Vec::new(alloc);
    for _ in 0..count {
        group.push(Frame {
            sequence: 0,
            flags: 0x2000,
            timestamp: 0,
            bytes: vec![in alloc; byte; geometry.frame_bytes() as usize]?,
        })?;
    }
    Ok(group)
}

// Appends a group this many times.
fn append_groups<D: Disk + Drop>(store: &mut Store<D>, group: &[Frame], groups: u32) -> Result<()> {
    for _ in 0..groups {
        if group.is_empty() || group.len() > MAX_GROUP || group.len() > store.room() as usize {
            return Err(anyhow!("the group doesn't fit"));
        }
        store.append(group).map_err(refused)?;
    }
    Ok(())
}

// Formats a disk in memory and appends a group this many times.
fn append_round(alloc: Global, geometry: Geometry, group: &[Frame], groups: u32) -> Result<()> {
    let disk = MemDisk::new(alloc, geometry.disk_size())?;
    match format(alloc, disk, geometry) {
        Err(OpenRefused { fault, disk: _ }) => Err(refused(fault)),
        Ok(mut store) => append_groups(&mut store, group, groups),
    }
}

/// Appends as the next words say, and returns how many frames.
pub(crate) fn append(alloc: Global, words: &mut Args) -> Result<u64> {
    let geometry = geometry(words)?;
    let group = group_of(alloc, &geometry, number(words)?, 0)?;
    let groups = number(words)?;
    let rounds = number(words)?;
    for _ in 0..rounds {
        append_round(alloc, geometry, &group, groups)?;
    }
    let frames = u64::from(groups).saturating_mul(group.len() as u64);
    Ok(frames.saturating_mul(u64::from(rounds)))
}

/// Opens as the next words say, and returns the number of the next frame.
pub(crate) fn open(rt: &impl Files<File = File>, alloc: Global, words: &mut Args) -> Result<u64> {
    let path = path(words)?;
    let mut next = 0;
    for _ in 0..number(words)? {
        next = open_file(rt, alloc, &path)?.next();
    }
    Ok(next)
}

// Appends this many groups of this many frames to a store.
fn append_to<D: Disk + Drop>(
    alloc: Global,
    store: &mut Store<D>,
    count: u32,
    groups: u32,
) -> Result<u64> {
    let group = group_of(alloc, &store.geometry(), count, 0)?;
    append_groups(store, &group, groups)?;
    Ok(store.next())
}

/// Appends to a file as the next words say, and returns the number of the next frame.
pub(crate) fn append_file(
    rt: &impl Files<File = File>,
    alloc: Global,
    words: &mut Args,
) -> Result<u64> {
    let path = path(words)?;
    let count = number(words)?;
    let groups = number(words)?;
    let mut store = open_file(rt, alloc, &path)?;
    append_to(alloc, &mut store, count, groups)
}

// Locks the newest frame and unlocks it again, this many times, and returns the number of the next frame.
fn lock_and_unlock<D: Disk + Drop>(store: &mut Store<D>, rounds: u32) -> Result<u64> {
    let newest = store.next().checked_sub(1).context("no frame is there")?;
    for _ in 0..rounds {
        let id = store.lock(newest, newest, 0).map_err(refused)?;
        store.unlock(id).map_err(refused)?;
    }
    Ok(store.next())
}

/// Locks in a file as the next words say, and returns the number of the next frame.
pub(crate) fn lock_file(
    rt: &impl Files<File = File>,
    alloc: Global,
    words: &mut Args,
) -> Result<u64> {
    let path = path(words)?;
    let rounds = number(words)?;
    let mut store = open_file(rt, alloc, &path)?;
    lock_and_unlock(&mut store, rounds)
}

// How many frames and clips a store has, from the lists of both.
fn listed<D: Disk + Drop>(alloc: Global, store: &Store<D>) -> Result<u64> {
    let frames = store.frames(alloc).map_err(refused)?.len();
    let clips = store.clips(alloc).map_err(refused)?.len();
    Ok(frames.wrapping_add(clips) as u64)
}

/// Lists as the next words say, and returns how many frames and clips there are.
pub(crate) fn list(rt: &impl Files<File = File>, alloc: Global, words: &mut Args) -> Result<u64> {
    let path = path(words)?;
    let mut count = 0;
    for _ in 0..number(words)? {
        let store = open_file(rt, alloc, &path)?;
        count = listed(alloc, &store)?;
    }
    Ok(count)
}

// The byte of which a run's frame of that number is made. A frame of another run, or one near it, has another byte.
fn footage(number: u64, run: u32) -> u8 {
    ((number % 251 + u64::from(run % 251) * 7) % 251) as u8
}

// A group of this many frames of a run, from this number on.
fn footage_of(
    alloc: Global,
    geometry: &Geometry,
    first: u64,
    count: u32,
    run: u32,
) -> Result<Vec<Frame>, AllocError> {
    let mut group = Vec::new(alloc);
    for place in 0..count {
        let byte = footage(first.wrapping_add(u64::from(place)), run);
        group.push(Frame {
            sequence: 0,
            flags: 0x2000,
            timestamp: 0,
            bytes: vec![in alloc; byte; geometry.frame_bytes() as usize]?,
        })?;
    }
    Ok(group)
}

// Appends so many frames in groups of this many, fewer where a block ends, and prints the next number after each group.
fn record_frames<D: Disk + Drop>(
    rt: &HostRuntime,
    store: &mut Store<D>,
    frames: u32,
    run: u32,
    most: u32,
) -> Result<()> {
    let mut left = frames;
    for _ in 0..frames {
        let count = left.min(most).min(store.room());
        if count == 0 {
            break;
        }
        let group = footage_of(rt.alloc(), &store.geometry(), store.next(), count, run)?;
        append_groups(store, &group, 1)?;
        left -= count;
        let next = store.next();
        println!(rt; "next {next}")?;
    }
    Ok(())
}

/// Records into a file as the next words say.
pub(crate) fn record(rt: &HostRuntime, words: &mut Args) -> Result<()> {
    let path = path(words)?;
    let frames = number(words)?;
    let run = number(words)?;
    let most = number(words)?;
    let mut store = open_file(rt, rt.alloc(), &path)?;
    record_frames(rt, &mut store, frames, run, most)
}
