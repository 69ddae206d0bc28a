//! Lines that ask the store. Each is asked twice: of the store that is open, and of one that is opened anew for it.
//! Both give the same answer and leave the same bytes.

use crate::acts::{Act, does, print_answer};
use crate::case::{self, Case, CaseStore, Moment, Verb};
use crate::counted::Counted;
use crate::frames::{held, opened_keeping, read, refused};
use crate::image::bytes_of;
use crate::text::{
    print_calls, print_clips, print_count, print_fault, print_holds, print_part, print_runs, say,
};
use crate::words::{number, small, two_numbers};
use crate::{acts, keeping};
use anyhow::{Error, Result, anyhow};
use loop_disk::{MemDisk, OnceDisk};
use loop_record::{FrameHead, Times};
use std::alloc::Global;
use std::cell::Cell;
use std::io::Write;
use std::str::SplitWhitespace;

// What a line asks.
#[derive(Clone, Copy)]
enum Ask {
    Frames,
    Clips,
    Victim,
    Newest,
    Version,
    Sought(Times),
    Act(Act),
}

// Opens an image with this many blocks kept, on a disk of which this call fails.
fn open_image<'a>(
    alloc: Global,
    calls: &'a Cell<u64>,
    image: Vec<u8>,
    (keep, fails): (u32, u64),
) -> Result<CaseStore<'a>> {
    calls.set(0);
    let inner = OnceDisk::new(MemDisk::of(image), fails);
    opened_keeping(alloc, Counted { inner, calls }, keep)
}

// The numbers of the held frames. Reading each takes two calls of the disk, and nothing else takes one.
fn shown(alloc: Global, calls: &Cell<u64>, store: &mut CaseStore) -> Result<Vec<u64>> {
    calls.set(0);
    let numbers = held(alloc, store, u64::MAX)?;
    if calls.get() != (numbers.len() as u64).wrapping_mul(2) {
        return Err(anyhow!("to read a frame doesn't take two calls"));
    }
    Ok(numbers)
}

// Prints the frames that are held.
fn print_shown(
    alloc: Global,
    calls: &Cell<u64>,
    store: &mut CaseStore,
    told: &mut Vec<u8>,
) -> Result<()> {
    let numbers = shown(alloc, calls, store)?;
    Ok(print_holds(told, &numbers)?)
}

// Does an act. Returns how many calls of the disk it took, and whether it was done.
fn tell_act(
    alloc: Global,
    calls: &Cell<u64>,
    store: &mut CaseStore,
    act: Act,
    told: &mut Vec<u8>,
) -> Result<(u64, bool)> {
    calls.set(0);
    let answer = does(alloc, store, act, 0)?;
    let count = calls.get();
    let is_done = answer.is_ok();
    print_answer(told, act, answer)?;
    write!(told, " in {count} calls")?;
    if acts::frames_of(act) > 0 {
        told.write_all(b", ")?;
        print_shown(alloc, calls, store, told)?;
    }
    Ok((count, is_done))
}

// Prints the clips of a store.
fn tell_clips(alloc: Global, store: &CaseStore, told: &mut Vec<u8>) -> Result<()> {
    let clips = store.clips(alloc).map_err(refused)?;
    say(told, "has")?;
    Ok(print_clips(told, &clips)?)
}

// Prints the block that would go next, and how many calls that takes.
fn tell_victim(calls: &Cell<u64>, store: &CaseStore, told: &mut Vec<u8>) -> Result<()> {
    calls.set(0);
    match store.victim() {
        Some(block) => write!(told, "block {block}")?,
        None => say(told, "none")?,
    }
    say(told, " ")?;
    print_calls(told, calls)
}

// Prints the held frames of a time, and how many calls that takes.
fn tell_sought(
    alloc: Global,
    calls: &Cell<u64>,
    store: &CaseStore,
    times: Times,
    told: &mut Vec<u8>,
) -> Result<()> {
    calls.set(0);
    match store.sought(alloc, times) {
        Ok(runs) => print_runs(told, &runs)?,
        Err(fault) => print_fault(told, fault)?,
    }
    say(told, " ")?;
    print_calls(told, calls)
}

// Answers a line that isn't an act.
fn tell_other(
    alloc: Global,
    calls: &Cell<u64>,
    store: &mut CaseStore,
    ask: Ask,
    told: &mut Vec<u8>,
) -> Result<()> {
    match ask {
        Ask::Frames => print_shown(alloc, calls, store, told),
        Ask::Clips => tell_clips(alloc, store, told),
        Ask::Version => print_count(told, u64::from(store.version()), ""),
        Ask::Newest => print_count(told, u64::from(store.keep()), ""),
        Ask::Sought(times) => tell_sought(alloc, calls, store, times, told),
        _ => tell_victim(calls, store, told),
    }
}

// Answers a line. For an act, returns how many calls it took and whether it was done.
fn tell(
    alloc: Global,
    calls: &Cell<u64>,
    store: &mut CaseStore,
    ask: Ask,
    told: &mut Vec<u8>,
) -> Result<(u64, bool)> {
    if let Ask::Act(act) = ask {
        return tell_act(alloc, calls, store, act, told);
    }
    tell_other(alloc, calls, store, ask, told)?;
    Ok((0, false))
}

// The bytes that a store leaves.
fn left_by(alloc: Global, store: CaseStore) -> Result<Vec<u8>> {
    bytes_of(alloc, &store.into_disk().inner.into_inner())
}

// The store of the image, opened anew.
fn open_anew<'a>(case: &Case<'a>) -> Result<CaseStore<'a>> {
    let image = case.image.clone()?;
    open_image(case.alloc, case.calls, image, (case.keep, u64::MAX))
}

// Asks a store that is opened anew. Returns the bytes that it leaves.
fn asked_anew(case: &Case, ask: Ask, told: &mut Vec<u8>) -> Result<Vec<u8>> {
    let mut store = open_anew(case)?;
    tell(case.alloc, case.calls, &mut store, ask, told)?;
    left_by(case.alloc, store)
}

// Asks a store that is opened anew, which has to give the same answer.
fn ask_anew(case: &mut Case, ask: Ask, told: &[u8]) -> Result<()> {
    let mut again = Vec::new(case.alloc);
    case.image = asked_anew(case, ask, &mut again)?;
    if *again.as_slice() == *told {
        Ok(())
    } else {
        Err(anyhow!(", and another answer where it is opened before"))
    }
}

// The error where no store is open.
fn not_open() -> Error {
    anyhow!("no store is open")
}

// Asks the store, and another one that is opened anew.
fn asks(case: &mut Case, ask: Ask, told: &mut Vec<u8>) -> Result<(u64, bool)> {
    let Some(store) = &mut case.store else {
        return Err(not_open());
    };
    let done = tell(case.alloc, case.calls, store, ask, told)?;
    if !case.is_failing {
        ask_anew(case, ask, told)?;
    }
    Ok(done)
}

// What a store shows at a moment.
fn moment(alloc: Global, store: &mut CaseStore, at: usize) -> Result<Moment> {
    let version = store.version();
    let clips = store.clips(alloc).map_err(refused)?;
    Ok(Moment {
        at,
        frames: held(alloc, store, u64::MAX)?,
        clips,
        version,
    })
}

// Remembers what is shown after this many more calls.
fn remember(case: &mut Case, calls: u64) -> Result<()> {
    let Some(store) = &mut case.store else {
        return Err(not_open());
    };
    let last = case.moments.last().map_or(0, |moment| moment.at);
    let moment = moment(case.alloc, store, last.wrapping_add(calls as usize))?;
    case.moments.push(moment)?;
    Ok(())
}

// Begins a case over the image with this many blocks kept, on a disk of which this call fails. Returns how many calls
// the opening takes.
fn begin(case: &mut Case, keep: u32, fails: u64) -> Result<u64> {
    case.keep = keep;
    case.is_refused = false;
    case.base = case.image.clone()?;
    case.image = left_by(case.alloc, open_anew(case)?)?;
    let store = open_image(case.alloc, case.calls, case.base.clone()?, (keep, fails))?;
    case.store = Some(store);
    case.is_failing = fails < u64::MAX;
    case.acts = Vec::new(case.alloc);
    case.moments = Vec::new(case.alloc);
    Ok(case.calls.get())
}

/// `open`, `open failing CALL` or `open keeping COUNT`: opens the image, and prints in how many calls of the disk.
pub(crate) fn open(case: &mut Case, words: &mut SplitWhitespace, told: &mut Vec<u8>) -> Result<()> {
    case::close(case)?;
    match words.next() {
        Some("keeping") => keeping::open(case, small(words)?, told),
        Some(_) => opens(case, 1, number(words)?, told),
        None => opens(case, 1, u64::MAX, told),
    }
}

/// Opens the image with this many blocks kept, on a disk of which this call fails.
pub(crate) fn opens(case: &mut Case, keep: u32, fails: u64, told: &mut Vec<u8>) -> Result<()> {
    let count = begin(case, keep, fails)?;
    if !case.is_failing {
        remember(case, count)?;
    }
    say(told, "in ")?;
    print_count(told, count, " calls")
}

/// `close`: takes the disk out of the store, and compares it with the one of the stores opened anew.
pub(crate) fn close(case: &mut Case, told: &mut Vec<u8>) -> Result<()> {
    case::close(case)?;
    say(
        told,
        if case.is_failing {
            "closed"
        } else {
            "the same bytes either way"
        },
    )
}

// What a line asks for.
fn ask_of(verb: Verb) -> Ask {
    match verb {
        Verb::Frames => Ask::Frames,
        Verb::Clips => Ask::Clips,
        Verb::Version => Ask::Version,
        Verb::Newest => Ask::Newest,
        _ => Ask::Victim,
    }
}

/// `frames`: those that are held, each of which is read; `clips`: each with its id; `version`: that of the layout;
/// `victim`: the block that would go next; `newest`: how many of the newest blocks are kept.
pub(crate) fn tells(case: &mut Case, verb: Verb, told: &mut Vec<u8>) -> Result<()> {
    asks(case, ask_of(verb), told)?;
    Ok(())
}

/// `sought SINCE UNTIL`: the held frames whose times are from one to the other, as runs of their numbers, and how many
/// calls that takes.
pub(crate) fn sought(
    case: &mut Case,
    words: &mut SplitWhitespace,
    told: &mut Vec<u8>,
) -> Result<()> {
    let (since, until) = two_numbers(words)?;
    asks(case, Ask::Sought(Times { since, until }), told)?;
    Ok(())
}

// Prints the number and the sequence of a frame, and its first bytes.
fn print_frame(told: &mut Vec<u8>, head: &FrameHead, bytes: &[u8], count: u64) -> Result<()> {
    let (number, sequence) = (head.number, head.sequence);
    write!(told, "frame {number} of sequence {sequence}: ")?;
    print_part(told, bytes, (0, count))
}

/// `look NUMBER COUNT`: the number and the sequence of a frame, and its first bytes.
pub(crate) fn look(case: &mut Case, words: &mut SplitWhitespace, told: &mut Vec<u8>) -> Result<()> {
    let Some(store) = &mut case.store else {
        return Err(not_open());
    };
    let (number, count) = two_numbers(words)?;
    let (head, bytes) = read(case.alloc, store, number)?.map_err(refused)?;
    print_frame(told, &head, &bytes, count)
}

/// An act: `append COUNT`, `lock FROM TO`, `tagged FROM TO TAG`, `unlock ID`, `upgrade` or `read NUMBER`. Prints its
/// answer, and how many calls of the disk it takes.
pub(crate) fn act(
    case: &mut Case,
    word: &str,
    words: &mut SplitWhitespace,
    told: &mut Vec<u8>,
) -> Result<()> {
    let act = acts::read_act(word, words)?;
    let (calls, is_done) = asks(case, Ask::Act(act), told)?;
    if is_done && acts::writes(act) && !case.is_failing {
        case.acts.push(act)?;
        remember(case, calls)?;
    }
    Ok(())
}
