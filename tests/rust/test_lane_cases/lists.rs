//! Lists of a lane's calls. Events that follow one another are one list.
use crate::case::{Case, Opening, asks, begin, disk_of};
use crate::event::lane_event;
use crate::line::Call;
use crate::plane::AnyPlane;
use crate::queue::back;
use crate::told;
use anyhow::{Result, anyhow};
use loop_lane::{Lane, LaneEvent, LaneReply, lane_run};
use loop_disk::{Disk, MemDisk};
use loop_vb2::PlaneSet;
use std::alloc::Global;
use std::io::Write;
use std::mem;

/// What a case did: how it began, over which disk, and each call with its answer.
#[derive(Drop)]
pub(crate) struct List {
    pub(crate) opening: Opening,
    pub(crate) start: Vec<u8>,
    pub(crate) calls: Vec<Call>,
    pub(crate) told: Vec<Vec<u8>>,
}

// Puts the planes that a reply hands back at hand again.
fn takes_back(reply: LaneReply<AnyPlane>, sets: &mut Vec<PlaneSet<AnyPlane>>) -> Result<()> {
    match reply {
        LaneReply::Queue(done) => match done {
            Ok(reply) => Ok(back(reply, sets)?),
            Err(_fault) => Ok(()),
        },
        LaneReply::Dequeue(_done) => Ok(()),
        LaneReply::Submit(_done) => Ok(()),
        LaneReply::Requeue(_done) => Ok(()),
        LaneReply::Flush(_done) => Ok(()),
        LaneReply::Lock(_done) => Ok(()),
        LaneReply::Unlock(_done) => Ok(()),
        LaneReply::Read(_done) => Ok(()),
    }
}

// Runs a lane through events.
fn replies<D: Disk + Drop>(
    alloc: Global,
    lane: &mut Lane<D, AnyPlane>,
    events: Vec<LaneEvent<AnyPlane>>,
) -> Result<Vec<LaneReply<AnyPlane>>> {
    let count = events.len();
    match lane_run(alloc, lane, events) {
        Ok(replies) if replies.len() == count => Ok(replies),
        Ok(_replies) => Err(anyhow!("not a reply for each event")),
        Err(_refused) => Err(anyhow!("memory for replies")),
    }
}

// The text of a reply.
fn text_of(alloc: Global, reply: &LaneReply<AnyPlane>) -> Result<Vec<u8>> {
    let mut text = Vec::new(alloc);
    told::lane(&mut text, reply)?;
    Ok(text)
}

// Adds the text of a reply, and takes what it hands back.
fn tells(
    alloc: Global,
    reply: LaneReply<AnyPlane>,
    told: &mut Vec<Vec<u8>>,
    sets: &mut Vec<PlaneSet<AnyPlane>>,
) -> Result<()> {
    let text = text_of(alloc, &reply);
    takes_back(reply, sets)?;
    told.push(text?)?;
    Ok(())
}

// Does events as one list.
fn does<D: Disk + Drop>(
    alloc: Global,
    case: &mut Case<D>,
    events: Vec<LaneEvent<AnyPlane>>,
    told: &mut Vec<Vec<u8>>,
) -> Result<()> {
    for reply in replies(alloc, &mut case.lane, events)? {
        tells(alloc, reply, told, &mut case.supply.sets)?;
    }
    Ok(())
}

// The event of a call; None where the call is no event.
fn event<D: Disk + Drop>(
    alloc: Global,
    case: &mut Case<D>,
    call: &Call,
) -> Result<Option<LaneEvent<AnyPlane>>> {
    if case.alone {
        return Ok(None);
    }
    Ok(lane_event(alloc, call, &mut case.supply)?)
}

// Makes a call that is no event.
fn asked<D: Disk + Drop>(alloc: Global, case: &mut Case<D>, call: &Call) -> Result<Vec<u8>> {
    let mut text = Vec::new(alloc);
    if !asks(alloc, case, call, &mut text)? {
        text.write_all(b"bad line")?;
    }
    Ok(text)
}

/// Makes calls, and adds the answer to each.
pub(crate) fn runs<D: Disk + Drop>(
    alloc: Global,
    case: &mut Case<D>,
    calls: &[Call],
    told: &mut Vec<Vec<u8>>,
) -> Result<()> {
    let mut events = Vec::new(alloc);
    for call in calls {
        match event(alloc, case, call)? {
            Some(event) => events.push(event)?,
            None => {
                let before = mem::replace(&mut events, Vec::new(alloc));
                does(alloc, case, before, told)?;
                told.push(asked(alloc, case, call)?)?;
            }
        }
    }
    does(alloc, case, events, told)
}

/// The place of the first line that isn't the same.
pub(crate) fn first_other(found: &[Vec<u8>], wanted: &[Vec<u8>]) -> Option<usize> {
    let mut place = 0usize;
    for (one, other) in found.iter().zip(wanted) {
        if one.as_slice() != other.as_slice() {
            return Some(place);
        }
        place = place.saturating_add(1);
    }
    if found.len() == wanted.len() {
        None
    } else {
        Some(place)
    }
}

/// Does a list over a fresh disk as one list.
pub(crate) fn replay<D: Disk + Drop>(
    alloc: Global,
    list: &List,
    disk: D,
) -> Result<(Vec<Vec<u8>>, Case<D>)> {
    let mut case = begin(alloc, disk, list.opening)?;
    let mut told = Vec::new(alloc);
    runs(alloc, &mut case, &list.calls, &mut told)?;
    Ok((told, case))
}

/// Does a list over a fresh disk as one list. Returns the place of the first reply that isn't the same, and the disk.
pub(crate) fn done_again<D: Disk + Drop>(
    alloc: Global,
    list: &List,
    disk: D,
) -> Result<(Option<usize>, D)> {
    let (told, case) = replay(alloc, list, disk)?;
    let other = first_other(&told, &list.told);
    Ok((other, disk_of(case)))
}

/// Prints which reply isn't the same.
pub(crate) fn other_reply(place: usize, out: &mut Vec<u8>) -> Result<()> {
    told::named(out, "another reply at call", place as u64)?;
    Ok(())
}

// Prints whether the bytes are the same.
fn tells_bytes(same: bool, count: usize, out: &mut Vec<u8>) -> Result<()> {
    if same {
        told::named(out, "the same bytes and replies:", count as u64)?;
    } else {
        out.write_all(b"other bytes")?;
    }
    Ok(())
}

/// Repeats a list as one. Prints whether the replies and the bytes are the same.
pub(crate) fn again(alloc: Global, list: &List, image: &[u8], out: &mut Vec<u8>) -> Result<()> {
    let disk = MemDisk::of(list.start.as_slice().to_vec(alloc)?);
    let (other, disk) = done_again(alloc, list, disk)?;
    match other {
        Some(place) => other_reply(place, out),
        None => tells_bytes(disk.bytes() == image, list.told.len(), out),
    }
}
