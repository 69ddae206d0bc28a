//! The events that calls make of a lane, or of its queue alone.
use crate::frame::frame;
use crate::line::{Call, Verb};
use crate::plane::AnyPlane;
use loop_lane::LaneEvent;
use loop_ioctl::{BufferMemory, BufferType, Ioctl, PlaneFds, QueueEvent};
use loop_plane::Memory;
use loop_record::{PixelFormat, Span};
use loop_vb2::{PlaneSet, Stamp};
use std::alloc::{AllocError, Global};
use std::mem;

/// What is at hand for events.
#[derive(Drop)]
pub(crate) struct Supply {
    /// Sets of planes: REQBUFS of mapped memory brings all, and QBUF of the application's memory the last.
    pub(crate) sets: Vec<PlaneSet<AnyPlane>>,
    /// The format of the queue.
    pub(crate) format: PixelFormat,
    /// Bytes of a frame.
    pub(crate) size: usize,
}

// The buffer type that a call names.
fn type_of(format: PixelFormat, other: bool) -> BufferType {
    if (format == PixelFormat::Grey) == other {
        BufferType::VideoCaptureMplane
    } else {
        BufferType::VideoCapture
    }
}

// The fds that a call names, after the index.
fn fds(call: &Call) -> Option<PlaneFds> {
    let count = call.numbers.len().saturating_sub(1);
    if count == 0 {
        return None;
    }
    Some(PlaneFds {
        count: u32::try_from(count).unwrap_or(u32::MAX),
        fds: [call.small(1), call.small(2), call.small(3)],
    })
}

// The memory of a QBUF or PREPARE_BUF.
fn memory_of(call: &Call, sets: &mut Vec<PlaneSet<AnyPlane>>) -> BufferMemory<AnyPlane> {
    match call.memory {
        Memory::Mmap => BufferMemory::Mmap,
        Memory::UserPtr => BufferMemory::UserPtr(if call.bare { None } else { sets.pop() }),
        Memory::DmaBuf => BufferMemory::DmaBuf(fds(call)),
    }
}

// The sets that REQBUFS brings: all that are at hand where the memory is mapped.
fn supply_of(
    alloc: Global,
    call: &Call,
    sets: &mut Vec<PlaneSet<AnyPlane>>,
) -> Vec<PlaneSet<AnyPlane>> {
    if call.memory == Memory::Mmap && !call.bare {
        mem::replace(sets, Vec::new(alloc))
    } else {
        Vec::new(alloc)
    }
}

// The ioctl of a call; DQBUF where it is no other one.
fn ioctl(alloc: Global, call: &Call, supply: &mut Supply) -> Ioctl<AnyPlane> {
    let buf_type = type_of(supply.format, call.other);
    let index = call.small(0);
    let sets = &mut supply.sets;
    match call.verb {
        Verb::ReqBufs => Ioctl::ReqBufs {
            buf_type,
            count: index,
            memory: call.memory,
            supply: supply_of(alloc, call, sets),
        },
        Verb::QBuf => Ioctl::QBuf {
            buf_type,
            index,
            memory: memory_of(call, sets),
        },
        Verb::PrepareBuf => Ioctl::PrepareBuf {
            buf_type,
            index,
            memory: memory_of(call, sets),
        },
        Verb::QueryBuf => Ioctl::QueryBuf { buf_type, index },
        Verb::StreamOn => Ioctl::StreamOn { buf_type },
        Verb::StreamOff => Ioctl::StreamOff { buf_type },
        Verb::Map => Ioctl::Mmap { buf_type, index },
        Verb::Unmap => Ioctl::Munmap { buf_type, index },
        _ => Ioctl::DqBuf { buf_type },
    }
}

// The completion of a buffer with the frame of a number.
fn complete(alloc: Global, call: &Call, size: usize) -> Result<QueueEvent<AnyPlane>, AllocError> {
    let frame = frame(alloc, size, call.number(1))?;
    Ok(QueueEvent::Complete {
        index: call.small(0),
        stamp: Stamp {
            sequence: frame.sequence,
            timestamp: frame.timestamp,
        },
        bytes: frame.bytes,
    })
}

/// The queue event of a call.
pub(crate) fn queue_event(
    alloc: Global,
    call: &Call,
    supply: &mut Supply,
) -> Result<QueueEvent<AnyPlane>, AllocError> {
    let stamp = Stamp {
        sequence: 7,
        timestamp: 40,
    };
    let index = call.small(0);
    match call.verb {
        Verb::Complete => complete(alloc, call, supply.size),
        Verb::Short => Ok(QueueEvent::Complete {
            index,
            stamp,
            bytes: vec![in alloc; 9; 11]?,
        }),
        Verb::Fail => Ok(QueueEvent::Fail { index, stamp }),
        Verb::Fatal => Ok(QueueEvent::Fatal),
        _ => Ok(QueueEvent::Ioctl(ioctl(alloc, call, supply))),
    }
}

/// Whether a call is one of a queue.
pub(crate) fn is_of_queue(verb: Verb) -> bool {
    matches!(
        verb,
        Verb::ReqBufs
            | Verb::QueryBuf
            | Verb::QBuf
            | Verb::PrepareBuf
            | Verb::DqBuf
            | Verb::StreamOn
            | Verb::StreamOff
            | Verb::Map
            | Verb::Unmap
            | Verb::Complete
            | Verb::Short
            | Verb::Fail
            | Verb::Fatal
    )
}

/// The lane event of a call; None where it isn't one of a lane.
pub(crate) fn lane_event(
    alloc: Global,
    call: &Call,
    supply: &mut Supply,
) -> Result<Option<LaneEvent<AnyPlane>>, AllocError> {
    if is_of_queue(call.verb) {
        return Ok(Some(LaneEvent::Queue(queue_event(alloc, call, supply)?)));
    }
    Ok(match call.verb {
        Verb::Dequeue => Some(LaneEvent::Dequeue),
        Verb::Submit => Some(LaneEvent::Submit),
        Verb::Requeue => Some(LaneEvent::Requeue),
        Verb::Flush => Some(LaneEvent::Flush),
        Verb::Lock => Some(LaneEvent::Lock(Span {
            from: call.number(0),
            to: call.number(1),
            tag: call.number(2),
        })),
        Verb::Unlock => Some(LaneEvent::Unlock(call.small(0))),
        Verb::Read => Some(LaneEvent::Read(call.number(0))),
        _ => None,
    })
}
