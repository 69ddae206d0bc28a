//! A queue alone, with its table of fds: ioctls of the application and calls of the device.
use crate::event::{Supply, is_of_queue, queue_event};
use crate::line::{Call, Verb};
use crate::lists::first_other;
use crate::plane::{AnyPlane, mapped, window};
use crate::{desk, told};
use anyhow::{Result, anyhow};
use loop_ioctl::{QueueEvent, QueueReply, are_whole, run_events};
use loop_plane::FdTable;
use loop_record::PixelFormat;
use loop_vb2::{PlaneSet, Queue, Refused};
use std::alloc::{AllocFailed, Global};
use std::io::{self, Write};
use std::mem;

/// How a case with a queue begins.
#[derive(Clone, Copy)]
pub(crate) struct QueueOpening {
    /// The side of its GREY frames.
    side: u32,
    /// How many queued buffers start the device.
    least: u32,
    /// How many sets of one mapped page are at hand.
    sets: u64,
}

/// A queue under way.
#[derive(Drop)]
pub(crate) struct QueueCase {
    queue: Queue<AnyPlane>,
    table: FdTable<AnyPlane>,
    supply: Supply,
}

/// What a case with a queue did: how it began, and each call with its answer.
#[derive(Drop)]
pub(crate) struct QueueList {
    opening: QueueOpening,
    calls: Vec<Call>,
    told: Vec<Vec<u8>>,
}

// Puts the planes of a refusal at hand again.
fn refused_back(
    refused: Refused<AnyPlane>,
    sets: &mut Vec<PlaneSet<AnyPlane>>,
) -> Result<(), AllocFailed<PlaneSet<AnyPlane>>> {
    let Refused {
        errno: _,
        planes,
        supply,
    } = refused;
    if let Some(set) = planes {
        sets.push(set)?;
    }
    for set in supply {
        sets.push(set)?;
    }
    Ok(())
}

/// Puts the planes that a reply hands back at hand again.
pub(crate) fn back(
    reply: QueueReply<AnyPlane>,
    sets: &mut Vec<PlaneSet<AnyPlane>>,
) -> Result<(), AllocFailed<PlaneSet<AnyPlane>>> {
    match reply {
        QueueReply::Ioctl(Err(refused)) => refused_back(refused, sets),
        QueueReply::Ioctl(Ok(_done)) => Ok(()),
        QueueReply::Ended(_done) => Ok(()),
        QueueReply::Fatal => Ok(()),
    }
}

// Sets of one mapped page.
fn pages(alloc: Global, count: u64) -> Result<Vec<PlaneSet<AnyPlane>>> {
    let mut sets = Vec::new(alloc);
    for _ in 0..count {
        sets.push(PlaneSet::one(mapped(alloc)?))?;
    }
    Ok(sets)
}

// A queue that begins in this way.
fn begin(alloc: Global, opening: QueueOpening) -> Result<QueueCase> {
    let QueueOpening { side, least, sets } = opening;
    if 64 < side || 32 < least {
        return Err(anyhow!("a side has 64 pixels, and 32 buffers start the device, at most"));
    }
    Ok(QueueCase {
        queue: Queue::new(alloc, PixelFormat::Grey, side, side, least),
        table: FdTable::new(alloc),
        supply: Supply {
            sets: pages(alloc, sets)?,
            format: PixelFormat::Grey,
            size: (side * side) as usize,
        },
    })
}

/// A queue of GREY frames: the side of a frame, how many queued buffers start the device, and how many sets are at
/// hand.
pub(crate) fn begins(alloc: Global, call: &Call) -> Result<(QueueCase, QueueList)> {
    let opening = QueueOpening {
        side: call.small(0),
        least: call.small(1),
        sets: call.number(2),
    };
    let list = QueueList {
        opening,
        calls: Vec::new(alloc),
        told: Vec::new(alloc),
    };
    Ok((begin(alloc, opening)?, list))
}

// Runs a queue through events.
fn replies(
    queue: &mut Queue<AnyPlane>,
    table: &mut FdTable<AnyPlane>,
    events: Vec<QueueEvent<AnyPlane>>,
) -> Result<Vec<QueueReply<AnyPlane>>> {
    let count = events.len();
    if !are_whole(&queue.shape(), &events) {
        return Err(anyhow!("a frame of another size"));
    }
    match run_events(queue, table, events) {
        Ok(replies) if replies.len() == count => Ok(replies),
        Ok(_replies) => Err(anyhow!("not a reply for each event")),
        Err(_refused) => Err(anyhow!("memory for replies")),
    }
}

// The text of a reply.
fn text_of(alloc: Global, reply: &QueueReply<AnyPlane>) -> Result<Vec<u8>> {
    let mut text = Vec::new(alloc);
    told::queue(&mut text, reply)?;
    Ok(text)
}

// Adds the text of a reply, and takes what it hands back.
fn tells(
    alloc: Global,
    reply: QueueReply<AnyPlane>,
    told: &mut Vec<Vec<u8>>,
    sets: &mut Vec<PlaneSet<AnyPlane>>,
) -> Result<()> {
    let text = text_of(alloc, &reply);
    back(reply, sets)?;
    told.push(text?)?;
    Ok(())
}

// Does events as one list.
fn does(
    alloc: Global,
    case: &mut QueueCase,
    events: Vec<QueueEvent<AnyPlane>>,
    told: &mut Vec<Vec<u8>>,
) -> Result<()> {
    for reply in replies(&mut case.queue, &mut case.table, events)? {
        tells(alloc, reply, told, &mut case.supply.sets)?;
    }
    Ok(())
}

// Prints whether the device has started since this was last asked.
fn fresh(case: &mut QueueCase, out: &mut Vec<u8>) -> io::Result<()> {
    let fresh = case.queue.take_fresh();
    out.write_all(if fresh { b"yes" } else { b"no" })
}

// Adds a set to those at hand, and prints how many there are.
fn adds(case: &mut QueueCase, plane: AnyPlane, out: &mut Vec<u8>) -> Result<()> {
    case.supply.sets.push(PlaneSet::one(plane))?;
    told::named(out, "sets", case.supply.sets.len() as u64)?;
    Ok(())
}

// Makes a call that is no event.
fn asked(alloc: Global, case: &mut QueueCase, call: &Call) -> Result<Vec<u8>> {
    let mut text = Vec::new(alloc);
    match call.verb {
        Verb::Grants => told::named(
            &mut text,
            "buffers",
            u64::from(case.queue.grants(call.small(0))),
        )?,
        Verb::Fresh => fresh(case, &mut text)?,
        Verb::Share => desk::share(alloc, &mut case.table, &mut text)?,
        Verb::CloseFd => desk::close_fd(&mut case.table, call, &mut text)?,
        Verb::Window => adds(case, window(alloc, call.small(0))?, &mut text)?,
        Verb::Page => adds(case, mapped(alloc)?, &mut text)?,
        _ => text.write_all(b"bad line")?,
    }
    Ok(text)
}

// Makes calls, and adds the answer to each. Events that follow one another are one list.
fn runs(
    alloc: Global,
    case: &mut QueueCase,
    calls: &[Call],
    told: &mut Vec<Vec<u8>>,
) -> Result<()> {
    let mut events = Vec::new(alloc);
    for call in calls {
        if is_of_queue(call.verb) {
            events.push(queue_event(alloc, call, &mut case.supply)?)?;
        } else {
            let before = mem::replace(&mut events, Vec::new(alloc));
            does(alloc, case, before, told)?;
            told.push(asked(alloc, case, call)?)?;
        }
    }
    does(alloc, case, events, told)
}

/// Makes a call, and adds it to the list.
pub(crate) fn calls(
    alloc: Global,
    case: &mut QueueCase,
    list: &mut QueueList,
    call: Call,
    out: &mut Vec<u8>,
) -> Result<()> {
    let mut told = Vec::new(alloc);
    let calls = [call];
    runs(alloc, case, &calls, &mut told)?;
    for text in told {
        out.write_all(&text)?;
        list.told.push(text)?;
    }
    let [call] = calls;
    list.calls.push(call)?;
    Ok(())
}

// The answers to the calls of a list over a fresh queue.
fn told_again(alloc: Global, list: &QueueList) -> Result<Vec<Vec<u8>>> {
    let mut told = Vec::new(alloc);
    let mut case = begin(alloc, list.opening)?;
    runs(alloc, &mut case, &list.calls, &mut told)?;
    Ok(told)
}

/// Repeats the calls of a list over a fresh queue. Prints whether the replies are the same.
pub(crate) fn again(alloc: Global, list: &QueueList, out: &mut Vec<u8>) -> Result<()> {
    let told = told_again(alloc, list)?;
    match first_other(&told, &list.told) {
        Some(place) => write!(out, "another reply at call {place}")?,
        None => {
            told::named(out, "the same replies:", told.len() as u64)?;
        }
    }
    Ok(())
}
