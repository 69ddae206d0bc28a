// What is printed of replies and states.
use super::cell::Cell;
use bitflags::Flags;
use loop_ioctl::{IoctlReply, QueueReply};
use loop_plane::FdTable;
use loop_vb2::{Errno, Queue};
use std::io::{self, Write};

// A refusal: the reason, the number of the errno, whether planes come back, and how many sets of a supply come back.
fn refusal<W: Write>(out: &mut W, errno: Errno, planes: bool, supply: usize) -> io::Result<()> {
    let reason = errno.reason as u32;
    let number = errno.number;
    let planes = u8::from(planes);
    write!(out, " E{reason}:{number}:{planes}:{supply}")
}

// The answer to an ioctl.
fn answer<W: Write>(out: &mut W, reply: &IoctlReply<Cell>) -> io::Result<()> {
    match reply {
        IoctlReply::Done => out.write_all(b" ok"),
        IoctlReply::Granted(granted) => {
            let count = granted.count;
            let left = granted.left.len();
            write!(out, " n{count}:{left}")
        }
        IoctlReply::Info(info) => {
            let flags = info.flags.bits();
            let used = info.used[0];
            write!(out, " I{flags}:{used}")
        }
        IoctlReply::Dequeued(frame) => {
            let index = frame.index;
            let flags = frame.flags.bits();
            let used = frame.used[0];
            let sequence = frame.sequence;
            let planes = u8::from(frame.planes.is_some());
            write!(out, " F{index}:{flags}:{used}:{sequence}:{planes}")
        }
    }
}

/// A reply.
pub(crate) fn reply<W: Write>(out: &mut W, reply: &QueueReply<Cell>) -> io::Result<()> {
    match reply {
        QueueReply::Ioctl(Ok(done)) => answer(out, done),
        QueueReply::Ioctl(Err(refused)) => refusal(
            out,
            refused.errno,
            refused.planes.is_some(),
            refused.supply.len(),
        ),
        QueueReply::Ended(Ok(())) => out.write_all(b" ok"),
        QueueReply::Ended(Err(errno)) => refusal(out, *errno, false, 0),
        QueueReply::Fatal => out.write_all(b" ok"),
    }
}

// The flags and the state of a buffer.
fn buffer<W: Write>(out: &mut W, queue: &Queue<Cell>, index: u32) -> io::Result<()> {
    match queue.query(index) {
        Ok(info) => {
            let flags = info.flags.bits();
            let state = info.state;
            let used = info.used[0];
            write!(out, " {flags}:{state:?}:{used}")
        }
        Err(errno) => refusal(out, errno, false, 0),
    }
}

/// The state after the events: the first three buffers, which of the fds are not attached, whether the device has
/// started, and the buffer that has been active longest.
pub(crate) fn state<W: Write>(
    out: &mut W,
    queue: &Queue<Cell>,
    mut table: FdTable<Cell>,
) -> io::Result<()> {
    out.write_all(b" |")?;
    for index in 0..3 {
        buffer(out, queue, index)?;
    }
    for fd in 0..2 {
        let here = u8::from(table.close(fd).is_ok());
        write!(out, " {here}")?;
    }
    let started = u8::from(queue.started());
    match queue.next_active() {
        Some(index) => write!(out, " {started} {index}"),
        None => write!(out, " {started} none"),
    }
}
