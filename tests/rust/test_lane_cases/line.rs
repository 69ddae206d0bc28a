//! Lines: a call by its name, numbers, and words for memory.
use loop_plane::Memory;
use std::alloc::{AllocError, Global};

/// The verbs of lines.
#[derive(Clone, Copy, PartialEq, Eq)]
pub(crate) enum Verb {
    /// An empty recording, three segments with two slots for frames of 12 bytes.
    Format,
    /// The same in version 1 of the layout.
    FormatV1,
    /// A lane over the recording: how many frames may wait.
    Lane,
    /// A desk over the recording: how many frames may wait, and how many a flush stores at most.
    Desk,
    /// A queue of GREY frames: the side of a frame, how many buffers start the device, and how many sets are at hand.
    Queue,
    /// One more set at hand: a window of this many bytes.
    Window,
    /// One more set at hand: a mapped page.
    Page,
    /// One more plane, with an fd of its own.
    Share,
    /// An fd is closed.
    CloseFd,
    /// The case ends. Prints what its disk holds.
    Close,
    /// Puts a number into the closed disk: 8 bytes from a place on.
    Poke,
    /// The text of the closed case's frames from a number to another.
    Export,
    /// Repeats the closed case, or that of the queue, as one list.
    Again,
    /// What may be shown once the disk has made this many calls.
    Step,
    /// Repeats the closed case, with a stop at each moment and each spoilt content; the numbers are those of mixes.
    Stops,
    /// Repeats the closed case, with each call failing in turn.
    Failing,
    ReqBufs,
    QueryBuf,
    QBuf,
    PrepareBuf,
    DqBuf,
    StreamOn,
    StreamOff,
    Map,
    Unmap,
    /// The device's frame period ends at a time.
    Tick,
    /// A buffer was filled with the frame of a number.
    Complete,
    /// The device has filled a buffer with eleven bytes.
    Short,
    Fail,
    Fatal,
    Dequeue,
    Submit,
    /// Gives the desk itself a frame: how many bytes, and its number.
    Put,
    Requeue,
    Flush,
    Lock,
    Unlock,
    /// Upgrades version 1 of the layout to version 2.
    Upgrade,
    Read,
    /// The held frames of a time, from its first moment to its last.
    Sought,
    Status,
    Outline,
    /// How many buffers a queue grants for this many.
    Grants,
    /// Whether the device has started since this was last asked.
    Fresh,
}

// Each call with its name, and how many numbers it needs.
const VERBS: [Row; 44] = [
    ("format", Verb::Format, 0),
    ("format1", Verb::FormatV1, 0),
    ("lane", Verb::Lane, 1),
    ("desk", Verb::Desk, 2),
    ("queue", Verb::Queue, 3),
    ("window", Verb::Window, 1),
    ("page", Verb::Page, 0),
    ("share", Verb::Share, 0),
    ("close-fd", Verb::CloseFd, 1),
    ("close", Verb::Close, 0),
    ("poke", Verb::Poke, 2),
    ("export", Verb::Export, 2),
    ("again", Verb::Again, 0),
    ("step", Verb::Step, 1),
    ("stops", Verb::Stops, 0),
    ("failing", Verb::Failing, 3),
    ("reqbufs", Verb::ReqBufs, 1),
    ("querybuf", Verb::QueryBuf, 1),
    ("qbuf", Verb::QBuf, 1),
    ("prepare", Verb::PrepareBuf, 1),
    ("dqbuf", Verb::DqBuf, 0),
    ("streamon", Verb::StreamOn, 0),
    ("streamoff", Verb::StreamOff, 0),
    ("mmap", Verb::Map, 1),
    ("munmap", Verb::Unmap, 1),
    ("tick", Verb::Tick, 1),
    ("complete", Verb::Complete, 2),
    ("short", Verb::Short, 1),
    ("fail", Verb::Fail, 1),
    ("fatal", Verb::Fatal, 0),
    ("dequeue", Verb::Dequeue, 0),
    ("submit", Verb::Submit, 0),
    ("put", Verb::Put, 2),
    ("requeue", Verb::Requeue, 0),
    ("flush", Verb::Flush, 0),
    ("lock", Verb::Lock, 2),
    ("unlock", Verb::Unlock, 1),
    ("upgrade", Verb::Upgrade, 0),
    ("read", Verb::Read, 1),
    ("sought", Verb::Sought, 2),
    ("status", Verb::Status, 0),
    ("outline", Verb::Outline, 0),
    ("grants", Verb::Grants, 1),
    ("fresh", Verb::Fresh, 0),
];

/// A call.
#[derive(Drop)]
pub(crate) struct Call {
    pub(crate) verb: Verb,
    pub(crate) numbers: Vec<u64>,
    /// The memory that is named; mapped memory where none is.
    pub(crate) memory: Memory,
    /// No planes are given.
    pub(crate) bare: bool,
    /// The buffer type is not the queue's.
    pub(crate) other: bool,
}

impl Call {
    /// A number of the call; 0 where there is none.
    pub(crate) fn number(&self, place: usize) -> u64 {
        match self.numbers.get(place) {
            Some(number) => *number,
            None => 0,
        }
    }

    /// A number of 32 bits; u32::MAX for a larger one.
    pub(crate) fn small(&self, place: usize) -> u32 {
        match u32::try_from(self.number(place)) {
            Ok(number) => number,
            Err(_) => u32::MAX,
        }
    }
}

// A call with its name, and how many numbers it needs.
type Row = (&'static str, Verb, usize);

// Whether a row has a name.
fn is_named(row: &Row, word: &str) -> bool {
    row.0 == word
}

// The row of a name.
fn row_of(table: &[Row], word: &str) -> Option<Row> {
    for row in table {
        if is_named(row, word) {
            return Some(*row);
        }
    }
    None
}

// Reads a word after the name. Returns false where it is none.
fn takes(call: &mut Call, word: &str) -> Result<bool, AllocError> {
    if let Ok(number) = word.parse::<u64>() {
        call.numbers.push(number)?;
        return Ok(true);
    }
    if word == "userptr" {
        call.memory = Memory::UserPtr;
    } else if word == "dmabuf" {
        call.memory = Memory::DmaBuf;
    } else if word == "bare" {
        call.bare = true;
    } else if word == "other" {
        call.other = true;
    } else {
        return Ok(word == "mmap");
    }
    Ok(true)
}

// Reads the words after the name. Returns false where one is none.
fn takes_all(call: &mut Call, words: &[&str]) -> Result<bool, AllocError> {
    for word in words {
        if !takes(call, word)? {
            return Ok(false);
        }
    }
    Ok(true)
}

/// The call of a text; None where it can't be read.
pub(crate) fn call_of(alloc: Global, text: &str) -> Result<Option<Call>, AllocError> {
    let words: Vec<&str> = text.split_whitespace().collect(alloc)?;
    let Some((name, rest)) = words.as_slice().split_first() else {
        return Ok(None);
    };
    let Some((_, verb, least)) = row_of(&VERBS, name) else {
        return Ok(None);
    };
    let mut call = Call {
        verb,
        numbers: Vec::new(alloc),
        memory: Memory::Mmap,
        bare: false,
        other: false,
    };
    let read = takes_all(&mut call, rest)?;
    Ok(if read && least <= call.numbers.len() {
        Some(call)
    } else {
        None
    })
}
