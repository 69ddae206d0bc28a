// The language of the lists: two characters an event, a letter and a digit.
use super::cell::Cell;
use loop_ioctl::{BufferMemory, BufferType, Ioctl, PlaneFds, QueueEvent};
use loop_plane::Memory;
use loop_vb2::{PlaneSet, Stamp};
use std::alloc::{AllocError, Global};

// The buffer type of the queue.
const GREY: BufferType = BufferType::VideoCapture;

/// The set of one plane of this kind of memory.
pub(crate) fn set(kind: Memory, short: bool) -> PlaneSet<Cell> {
    PlaneSet::one(Cell {
        kind,
        short,
        byte: None,
    })
}

/// This many sets of MMAP planes.
pub(crate) fn supply(alloc: Global, count: u32) -> Result<Vec<PlaneSet<Cell>>, AllocError> {
    let mut sets = Vec::new(alloc);
    for _ in 0..count {
        sets.push(set(Memory::Mmap, false))?;
    }
    Ok(sets)
}

// The memory of a call that brings no planes, in a queue of this kind.
fn no_planes(kind: Memory) -> BufferMemory<Cell> {
    match kind {
        Memory::Mmap => BufferMemory::Mmap,
        Memory::UserPtr => BufferMemory::UserPtr(None),
        Memory::DmaBuf => BufferMemory::DmaBuf(None),
    }
}

// Planes for a queue of this kind: one by fd for DMABUF, one by value for the others.
fn planes(kind: Memory, fd: u32) -> BufferMemory<Cell> {
    match kind {
        Memory::DmaBuf => BufferMemory::DmaBuf(Some(PlaneFds {
            count: 1,
            fds: [fd, 0, 0],
        })),
        _ => BufferMemory::UserPtr(Some(set(Memory::UserPtr, false))),
    }
}

// The memory that QBUF or PREPARE_BUF brings; None for another letter.
fn memory(kind: Memory, letter: u8) -> Option<BufferMemory<Cell>> {
    match letter {
        b'q' | b'p' => Some(no_planes(kind)),
        b'Q' | b'P' => Some(planes(kind, 0)),
        b'R' => Some(planes(kind, 1)),
        b'S' => Some(planes(kind, 2)),
        b'T' => Some(BufferMemory::UserPtr(Some(set(Memory::UserPtr, true)))),
        b'K' => Some(BufferMemory::UserPtr(Some(set(Memory::DmaBuf, false)))),
        _ => None,
    }
}

// REQBUFS of this kind, without a supply or with one set for each buffer.
fn reqbufs(
    alloc: Global,
    memory: Memory,
    letter: u8,
    count: u32,
) -> Result<Ioctl<Cell>, AllocError> {
    let sets = if letter == b's' { count } else { 0 };
    Ok(Ioctl::ReqBufs {
        buf_type: GREY,
        count,
        memory,
        supply: supply(alloc, sets)?,
    })
}

// The calls that bring no memory; QUERYBUF for another buffer type where the letter is none of theirs.
fn plain(letter: u8, index: u32) -> Ioctl<Cell> {
    let buf_type = GREY;
    match letter {
        b'd' => Ioctl::DqBuf { buf_type },
        b'+' => Ioctl::StreamOn { buf_type },
        b'-' => Ioctl::StreamOff { buf_type },
        b'm' => Ioctl::Mmap { buf_type, index },
        b'u' => Ioctl::Munmap { buf_type, index },
        b'?' => Ioctl::QueryBuf { buf_type, index },
        _ => Ioctl::QueryBuf {
            buf_type: BufferType::VideoCaptureMplane,
            index,
        },
    }
}

// The call of a letter.
fn ioctl(alloc: Global, kind: Memory, letter: u8, index: u32) -> Result<Ioctl<Cell>, AllocError> {
    let buf_type = GREY;
    if letter == b'r' || letter == b's' {
        return reqbufs(alloc, kind, letter, index);
    }
    Ok(match memory(kind, letter) {
        None => plain(letter, index),
        Some(memory) => {
            if letter == b'p' || letter == b'P' {
                Ioctl::PrepareBuf {
                    buf_type,
                    index,
                    memory,
                }
            } else {
                Ioctl::QBuf {
                    buf_type,
                    index,
                    memory,
                }
            }
        }
    })
}

/// The event of a letter and a digit. A frame's sequence is the event's number in its list.
pub(crate) fn event(
    alloc: Global,
    kind: Memory,
    letter: u8,
    index: u32,
    number: u32,
) -> Result<QueueEvent<Cell>, AllocError> {
    let stamp = Stamp {
        sequence: number,
        timestamp: 40,
    };
    match letter {
        b'c' => Ok(QueueEvent::Complete {
            index,
            stamp,
            bytes: Vec::from_slice(alloc, &[9])?,
        }),
        b'f' => Ok(QueueEvent::Fail { index, stamp }),
        b'x' => Ok(QueueEvent::Fatal),
        _ => Ok(QueueEvent::Ioctl(ioctl(alloc, kind, letter, index)?)),
    }
}
