//! What a store is asked for.

use crate::frames::{append_next, read_whole};
use crate::words::{bad_line, number, small};
use anyhow::Result;
use loop_disk::Disk;
use loop_record::Span;
use loop_store::{Store, StoreFault};
use std::alloc::Global;
use std::io::{self, Write};
use std::str::SplitWhitespace;

/// What a store is asked for.
#[derive(Clone, Copy)]
pub(crate) enum Act {
    /// To store a group of this many frames.
    Append(u64),
    Lock(Span),
    Unlock(u32),
    Read(u64),
    /// To make version 2 of the layout.
    Upgrade,
}

fn read_append(words: &mut SplitWhitespace) -> Result<Act> {
    let count = number(words)?;
    Ok(Act::Append(count))
}

fn read_lock(words: &mut SplitWhitespace) -> Result<Act> {
    let from = number(words)?;
    let to = number(words)?;
    Ok(Act::Lock(Span { from, to, tag: 0 }))
}

fn read_tagged(words: &mut SplitWhitespace) -> Result<Act> {
    let from = number(words)?;
    let to = number(words)?;
    let tag = number(words)?;
    Ok(Act::Lock(Span { from, to, tag }))
}

fn read_unlock(words: &mut SplitWhitespace) -> Result<Act> {
    let id = small(words)?;
    Ok(Act::Unlock(id))
}

fn read_read(words: &mut SplitWhitespace) -> Result<Act> {
    let number = number(words)?;
    Ok(Act::Read(number))
}

/// Reads the act that a word names, with the words after it.
pub(crate) fn read_act(word: &str, words: &mut SplitWhitespace) -> Result<Act> {
    match word {
        "append" => read_append(words),
        "lock" => read_lock(words),
        "tagged" => read_tagged(words),
        "unlock" => read_unlock(words),
        "read" => read_read(words),
        "upgrade" => Ok(Act::Upgrade),
        _ => Err(bad_line()),
    }
}

/// How many frames an act stores.
pub(crate) fn frames_of(act: Act) -> u64 {
    match act {
        Act::Append(count) => count,
        _ => 0,
    }
}

/// Whether an act writes.
pub(crate) fn writes(act: Act) -> bool {
    match act {
        Act::Read(_) => false,
        _ => true,
    }
}

/// Does an act, with frames of this attempt. Returns the number of the first frame, the id of the clip, 1 for an
/// upgrade that was made, and 0 where there is no such number.
pub(crate) fn does<D: Disk + Drop>(
    alloc: Global,
    store: &mut Store<D>,
    act: Act,
    attempt: u64,
) -> Result<Result<u64, StoreFault>> {
    Ok(match act {
        Act::Append(count) => append_next(alloc, store, count, attempt)?,
        Act::Lock(Span { from, to, tag }) => store.lock(from, to, tag).map(|id| u64::from(id)),
        Act::Unlock(id) => store.unlock(id).map(|_| 0),
        Act::Read(number) => read_whole(alloc, store, number, attempt)?.map(|_| 0),
        Act::Upgrade => store.upgrade().map(|made| u64::from(made)),
    })
}

// Prints what was done.
fn print_done(out: &mut Vec<u8>, act: Act, number: u64) -> io::Result<()> {
    match act {
        Act::Append(_) => write!(out, "{number}"),
        Act::Lock(_) => write!(out, "clip {number}"),
        Act::Unlock(_) => out.write_all(b"unlocked"),
        Act::Read(_) => out.write_all(b"whole"),
        Act::Upgrade if number == 1 => out.write_all(b"upgraded"),
        Act::Upgrade => out.write_all(b"already 2"),
    }
}

/// Prints the outcome of an act.
pub(crate) fn print_answer(
    out: &mut Vec<u8>,
    act: Act,
    answer: Result<u64, StoreFault>,
) -> io::Result<()> {
    match answer {
        Err(fault) => write!(out, "{fault:?}"),
        Ok(number) => print_done(out, act, number),
    }
}
