//! What stops leave. A stop is made at each moment of what was done since the opening. The places that were written
//! since the last sync are as bad as a crash may make them. What is left is opened and written to again.

use crate::acts::{Act, does, frames_of};
use crate::case::{Case, Moment};
use crate::frames::{
    append_again, frame, held, is_beginning, opened, opened_keeping, refused, size_of_frames,
    unexpected,
};
use crate::keeping;
use crate::list::run;
use crate::text::{print_count, print_numbers, say};
use crate::words::{number, spoil, two_numbers};
use anyhow::{Result, anyhow};
use loop_disk::{CrashDisk, MemDisk, Spoil};
use loop_store::{Clip, Command, Store};
use std::alloc::Global;
use std::io::Write;
use std::str::SplitWhitespace;

/// What crashes leave. Of the mixes, the second opens the gates of the first segment, of its first frame and of the
/// first clip, the last that of the second clip, and the others that of a later frame.
pub(crate) const SPOILS: [Spoil; 10] = [
    Spoil::Keep,
    Spoil::Old,
    Spoil::Zero,
    Spoil::Ones,
    Spoil::Gate,
    Spoil::Mix(0),
    Spoil::Mix(165),
    Spoil::Mix(254),
    Spoil::Mix(87),
    Spoil::Mix(197),
];

// The contents for stops that are followed by a second attempt, and for stops of that attempt.
const AGAIN: [Spoil; 2] = [Spoil::Gate, Spoil::Mix(254)];

/// The disk after a crash that follows this many calls.
pub(crate) fn left_at(disk: &CrashDisk, calls: usize, spoil: Spoil) -> Result<MemDisk> {
    if calls > disk.calls() {
        return Err(anyhow!("there aren't so many calls"));
    }
    Ok(disk.crash(calls, spoil)?)
}

// Does the acts, one by one.
fn does_all(alloc: Global, store: &mut Store<CrashDisk>, acts: &[Act]) -> Result<()> {
    for act in acts {
        does(alloc, store, *act, 0)?.map_err(refused)?;
    }
    Ok(())
}

// The commands that store this many frames from a number on. Each is followed by a read of the next one, which isn't
// there yet.
fn storing(alloc: Global, size: usize, first: u64, count: usize) -> Result<Vec<Command>> {
    let mut commands = Vec::new(alloc);
    let mut number = first;
    for _ in 0..count {
        commands.push(Command::Store(frame(alloc, size, number, 0)?))?;
        number = number.wrapping_add(1);
        commands.push(Command::Read(number))?;
    }
    Ok(commands)
}

// Stores this many frames by one list of commands. Each is followed by a read of the next one, which isn't there yet
// and takes no call.
fn stores_by_list(alloc: Global, store: &mut Store<CrashDisk>, count: usize) -> Result<()> {
    let first = store.next();
    let commands = storing(alloc, size_of_frames(store), first, count)?;
    run(alloc, store, &commands)?;
    if store.next() == first.wrapping_add(count as u64) {
        Ok(())
    } else {
        Err(anyhow!("not all frames are stored"))
    }
}

// Repeats the acts since the opening.
fn does_again(case: &Case, store: &mut Store<CrashDisk>, by_list: bool) -> Result<()> {
    if by_list {
        stores_by_list(case.alloc, store, case.acts.len())
    } else {
        does_all(case.alloc, store, &case.acts)
    }
}

/// A disk of these bytes that remembers its calls.
pub(crate) fn remembering(alloc: Global, bytes: &[u8]) -> Result<CrashDisk> {
    Ok(CrashDisk::of(alloc, bytes.to_vec(alloc)?)?)
}

// A disk that has made the calls of the opening and of the acts since, however many there are.
fn done_again(case: &Case, by_list: bool) -> Result<CrashDisk> {
    let disk = remembering(case.alloc, &case.base)?;
    let mut store = opened_keeping(case.alloc, disk, case.keep)?;
    does_again(case, &mut store, by_list)?;
    Ok(store.into_disk())
}

// A disk that has made the calls of the opening and of the acts since.
fn recorded(case: &Case, by_list: bool) -> Result<CrashDisk> {
    let disk = done_again(case, by_list)?;
    let calls = case.moments.last().map_or(0, |moment| moment.at);
    if disk.calls() == calls {
        Ok(disk)
    } else {
        Err(anyhow!("there were {calls} calls before"))
    }
}

// How many of the moments there are by the time of this many calls, and at least one.
fn count_passed(moments: &[Moment], calls: usize) -> usize {
    let mut count = 0usize;
    for moment in moments {
        if moment.at <= calls {
            count = count.wrapping_add(1);
        }
    }
    count.max(1)
}

// Whether these clips and this version are those of a moment.
fn has_clips(moment: &Moment, clips: &[Clip], version: u32) -> bool {
    *moment.clips.as_slice() == *clips && moment.version == version
}

// Whether a store may show this after this many calls. Where no act is under way, it has to be what was shown before.
// Else it may also be what the act or a prefix of its steps leaves.
fn may_show(case: &Case, calls: usize, frames: &[u64], clips: &[Clip], version: u32) -> bool {
    let passed = count_passed(&case.moments, calls);
    let last = passed.wrapping_sub(1);
    let Some(before) = case.moments.get(last) else {
        return false;
    };
    match (case.moments.get(passed), case.acts.get(last)) {
        (Some(after), Some(act)) if before.at < calls => {
            is_beginning(frames, &before.frames, &after.frames, frames_of(*act))
                && (has_clips(before, clips, version) || has_clips(after, clips, version))
        }
        _ => *frames == *before.frames.as_slice() && has_clips(before, clips, version),
    }
}

// The number of the frame that a second attempt has stored; u64::MAX where there was no place for it.
fn again_from(found: &[u64], after: &[u64]) -> u64 {
    match after.last() {
        Some(last) if *found != *after => *last,
        _ => u64::MAX,
    }
}

// Checks that after a stop in the second attempt the frames are those from before it or after it, and that what was
// given up isn't back.
fn is_again(alloc: Global, left: MemDisk, found: &[u64], after: &[u64]) -> Result<()> {
    let mut store = opened(alloc, left)?;
    let shown = held(alloc, &mut store, again_from(found, after))?;
    if is_beginning(&shown, found, after, 1) {
        Ok(())
    } else {
        Err(unexpected(&shown))
    }
}

// Opens what a stop in the second attempt left after this many calls.
fn stops_again_at(
    alloc: Global,
    disk: &CrashDisk,
    calls: usize,
    (found, after): (&[u64], &[u64]),
) -> Result<()> {
    for spoil in &AGAIN {
        is_again(alloc, left_at(disk, calls, *spoil)?, found, after)?;
    }
    Ok(())
}

// Opens what stops in the second attempt leave, at its last calls.
fn stops_again(alloc: Global, disk: &CrashDisk, found: &[u64], after: &[u64]) -> Result<()> {
    for calls in disk.calls().saturating_sub(8)..=disk.calls() {
        stops_again_at(alloc, disk, calls, (found, after))?;
    }
    Ok(())
}

// Stores a frame in a second attempt, if there is a place for it, and returns the numbers of the frames that are held
// then.
fn stores_again(
    alloc: Global,
    store: &mut Store<CrashDisk>,
    found: &[u64],
    clips: &[Clip],
) -> Result<Vec<u64>> {
    let again = append_again(alloc, store, found, clips)?;
    held(alloc, store, again.unwrap_or(u64::MAX))
}

// Stores a frame in a second attempt on a disk that remembers its calls. Returns the disk, and the numbers of the
// frames that are held then.
fn stored_again(
    case: &Case,
    left: &MemDisk,
    found: &[u64],
    clips: &[Clip],
) -> Result<(CrashDisk, Vec<u64>)> {
    let disk = remembering(case.alloc, left.bytes())?;
    let mut store = opened_keeping(case.alloc, disk, case.keep)?;
    let after = stores_again(case.alloc, &mut store, found, clips)?;
    Ok((store.into_disk(), after))
}

// Opens what a stop left on a disk that remembers its calls, and stores a frame in a second attempt, which is stopped
// too. A stop within an unlock may leave the clip, and then there may be no place for the frame.
fn tries_again(case: &Case, left: &MemDisk, found: &[u64], clips: &[Clip]) -> Result<()> {
    let (disk, after) = stored_again(case, left, found, clips)?;
    stops_again(case.alloc, &disk, found, &after)
}

// A disk of the same bytes.
fn copy_of(alloc: Global, disk: &MemDisk) -> Result<MemDisk> {
    Ok(MemDisk::of(disk.bytes().to_vec(alloc)?))
}

// The frames of what a stop leaves.
fn found_at(alloc: Global, left: &MemDisk) -> Result<Vec<u64>> {
    let mut store = opened(alloc, copy_of(alloc, left)?)?;
    held(alloc, &mut store, u64::MAX)
}

// The clips of what a stop leaves, and the version of the layout.
fn clips_at(alloc: Global, left: &MemDisk) -> Result<(Vec<Clip>, u32)> {
    let store = opened(alloc, copy_of(alloc, left)?)?;
    let version = store.version();
    let clips = store.clips(alloc).map_err(refused)?;
    Ok((clips, version))
}

// Checks that what a stop left may show these frames, and these clips in a version, and makes a second attempt if it is
// to.
fn goes_on(
    case: &Case,
    left: &MemDisk,
    calls: usize,
    found: &[u64],
    (clips, version): (&[Clip], u32),
    again: bool,
) -> Result<()> {
    if !may_show(case, calls, found, clips, version) {
        return Err(unexpected(found));
    }
    if again {
        tries_again(case, left, found, clips)
    } else {
        Ok(())
    }
}

// Opens what a stop after this many calls leaves.
fn stops_at(case: &Case, left: &MemDisk, calls: usize, again: bool) -> Result<()> {
    let found = found_at(case.alloc, left)?;
    let (clips, version) = clips_at(case.alloc, left)?;
    goes_on(case, left, calls, &found, (&clips, version), again)
}

// Opens what stops after this many calls leave.
fn stops_behind(case: &Case, disk: &CrashDisk, calls: usize) -> Result<()> {
    for spoil in &SPOILS {
        let left = left_at(disk, calls, *spoil)?;
        if let Err(error) = stops_at(case, &left, calls, AGAIN.contains(spoil)) {
            return Err(anyhow!("after {calls} calls, {spoil:?}: {error}"));
        }
    }
    Ok(())
}

// Opens what each stop leaves.
fn stops_all(case: &Case, disk: &CrashDisk) -> Result<()> {
    for calls in 0..=disk.calls() {
        stops_behind(case, disk, calls)?;
    }
    Ok(())
}

/// `stops`, or `stops of a list`: opens what each stop of what was done since the opening may leave. It has to be what
/// was shown before or after the act that is stopped, or after a prefix of its steps, and a second attempt has to
/// succeed. With `of a list` the frames are stored by one list of commands.
pub(crate) fn stops(
    case: &mut Case,
    words: &mut SplitWhitespace,
    told: &mut Vec<u8>,
) -> Result<()> {
    if case.is_refused {
        return keeping::stops(case, told);
    }
    let disk = recorded(case, words.next().is_some())?;
    stops_all(case, &disk)?;
    print_count(
        told,
        disk.calls() as u64,
        " calls, and each stop leaves a beginning",
    )
}

// Prints the frames that are held after stops that follow this many calls, with each of these spoilt contents.
fn print_stops(
    alloc: Global,
    disk: &CrashDisk,
    words: &mut SplitWhitespace,
    told: &mut Vec<u8>,
) -> Result<()> {
    let calls = number(words)?;
    say(told, "holds")?;
    for word in words {
        let left = left_at(disk, calls as usize, spoil(word)?)?;
        print_numbers(told, &found_at(alloc, &left)?)?;
    }
    Ok(())
}

/// `stop CALLS SPOIL ..`: the frames that are held after a stop that follows CALLS calls, with each of these spoilt
/// contents.
pub(crate) fn stop(case: &mut Case, words: &mut SplitWhitespace, told: &mut Vec<u8>) -> Result<()> {
    let disk = recorded(case, false)?;
    print_stops(case.alloc, &disk, words, told)
}

// How many clips there are where a crash leaves this byte in a place.
fn clips_with(alloc: Global, disk: &CrashDisk, (calls, at): (u64, u64), byte: u8) -> Result<usize> {
    // The mix has 167 * at more, which is a multiple of 256.
    let left = left_at(disk, calls as usize, Spoil::Mix(byte))?;
    if left.bytes().get(at as usize).copied() != Some(byte) {
        return Err(anyhow!("it isn't {byte} that is left"));
    }
    let (clips, _version) = clips_at(alloc, &left)?;
    Ok(clips.len())
}

// Prints the bytes in a place with which there is a clip after a stop that follows this many calls.
fn print_torn(
    alloc: Global,
    disk: &CrashDisk,
    place: (u64, u64),
    told: &mut Vec<u8>,
) -> Result<()> {
    for byte in 0..=255u8 {
        if clips_with(alloc, disk, place, byte)? > 0 {
            write!(told, " {byte:02x}")?;
        }
    }
    Ok(())
}

/// `torn CALLS AT`: a stop after CALLS calls leaves any byte in this place, a multiple of 256. Prints with which of
/// them there is a clip.
pub(crate) fn torn(case: &mut Case, words: &mut SplitWhitespace, told: &mut Vec<u8>) -> Result<()> {
    let disk = recorded(case, false)?;
    let place = two_numbers(words)?;
    say(told, "of 256 bytes a clip stands with")?;
    print_torn(case.alloc, &disk, place, told)
}
