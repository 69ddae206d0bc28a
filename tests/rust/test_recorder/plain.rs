//! What a desk's history leaves on its disk, modelled in plain terms: the numbers of a loop recording with their
//! frames, and its clips.

use crate::calls::SIZE;
use crate::common::are_of;
use loop_disk::MemDisk;
use loop_record::{FrameHead, Span};
use loop_recorder::{FrameInfo, Noted};
use loop_store::{Clip, Store};
use std::alloc::{AllocError, Global};

// The frames of a block.
const SLOTS: u64 = 2;

// The blocks that a disk has room for.
const SEGMENTS: usize = 3;

/// A recording.
#[derive(Drop)]
pub(crate) struct Plain {
    next: u64,
    frames: Vec<FrameHead>,
    clips: Vec<Clip>,
}

// Whether a clip meets a block.
fn is_met(clips: &[Clip], block: u64) -> bool {
    clips.iter().any(|clip| clip.from / SLOTS <= block && block <= clip.to / SLOTS)
}

// The first of the held blocks that no clip meets. The newest isn't looked at, since its number is the greatest.
fn victim(frames: &[FrameHead], clips: &[Clip]) -> Option<u64> {
    for head in frames {
        let block = head.number / SLOTS;
        if !is_met(clips, block) {
            return Some(block);
        }
    }
    None
}

// In how many blocks the frames lie.
fn count_blocks(frames: &[FrameHead]) -> usize {
    let mut count = 0usize;
    let mut last = u64::MAX;
    for head in frames {
        if head.number / SLOTS != last {
            count = count.saturating_add(1);
        }
        last = head.number / SLOTS;
    }
    count
}

impl Plain {
    /// An empty recording.
    pub(crate) fn new(alloc: Global) -> Plain {
        Plain {
            next: 0,
            frames: Vec::new(alloc),
            clips: Vec::new(alloc),
        }
    }

    // A copy.
    fn copy(&self, alloc: Global) -> Result<Plain, AllocError> {
        Ok(Plain {
            next: self.next,
            frames: Vec::from_slice(alloc, &self.frames)?,
            clips: Vec::from_slice(alloc, &self.clips)?,
        })
    }

    // Whether a block has to go before the next frame is stored.
    fn is_full(&self) -> bool {
        self.next % SLOTS == 0 && count_blocks(&self.frames) == SEGMENTS
    }

    // The frames of the victim are gone.
    fn recycle(&mut self) {
        let gone = victim(&self.frames, &self.clips);
        self.frames.retain(|head| Some(head.number / SLOTS) != gone);
    }

    // A frame is stored.
    fn store(&mut self, stamp: FrameInfo) -> Result<(), AllocError> {
        self.frames.push(FrameHead {
            number: self.next,
            sequence: stamp.sequence,
            flags: stamp.flags,
            timestamp: stamp.timestamp,
        })?;
        self.next = self.next.saturating_add(1);
        Ok(())
    }

    // A clip is added, after those of lower ids.
    fn lock(&mut self, alloc: Global, id: u32, span: Span) -> Result<(), AllocError> {
        let mut clips = Vec::new(alloc);
        for clip in self.clips.iter().filter(|clip| clip.id < id) {
            clips.push(*clip)?;
        }
        clips.push(Clip {
            id,
            from: span.from,
            to: span.to,
            tag: span.tag,
        })?;
        for clip in self.clips.iter().filter(|clip| clip.id > id) {
            clips.push(*clip)?;
        }
        self.clips = clips;
        Ok(())
    }

    // The clip of an id is removed.
    fn unlock(&mut self, id: u32) {
        self.clips.retain(|clip| clip.id != id);
    }

    /// Whether a store has just these frames, whole, and these clips.
    pub(crate) fn is_in(&self, alloc: Global, store: &mut Store<MemDisk>) -> bool {
        if store.next() != self.next || store.held() != self.frames.len() as u64 {
            return false;
        }
        match store.clips(alloc) {
            Ok(clips) if clips.as_slice() == self.clips.as_slice() => (),
            _ => return false,
        }
        for head in &self.frames {
            if !has_frame(alloc, store, *head) {
                return false;
            }
        }
        true
    }
}

// Whether a store has a frame, with its head and all its bytes.
fn has_frame(alloc: Global, store: &mut Store<MemDisk>, head: FrameHead) -> bool {
    match store.read_frame(alloc, head.number) {
        Ok(read) => read.head == head && are_of(&read.bytes, head.sequence, SIZE),
        Err(_) => false,
    }
}

/// What a call of a history does.
#[derive(Drop)]
pub(crate) struct Deed {
    /// The recording before the call, and after each of its changes.
    pub states: Vec<Plain>,
    /// How many calls of the disk it makes.
    pub calls: usize,
}

impl Deed {
    // A call that does nothing to this recording.
    fn none(alloc: Global, plain: Plain) -> Result<Deed, AllocError> {
        let mut states = Vec::new(alloc);
        states.push(plain)?;
        Ok(Deed { states, calls: 0 })
    }

    // Adds a change that takes this many more calls.
    fn changes(&mut self, plain: Plain, calls: usize) -> Result<(), AllocError> {
        self.states.push(plain)?;
        self.calls = self.calls.saturating_add(calls);
        Ok(())
    }

    /// The recording after all changes.
    pub(crate) fn into_last(self, alloc: Global) -> Plain {
        let Deed {
            mut states,
            calls: _,
        } = self;
        match states.pop() {
            Some(plain) => plain,
            None => Plain::new(alloc),
        }
    }

    // A copy of it.
    fn last(&self, alloc: Global) -> Result<Plain, AllocError> {
        match self.states.last() {
            Some(plain) => plain.copy(alloc),
            None => Ok(Plain::new(alloc)),
        }
    }

    // The least block goes, if all blocks are full: two calls.
    fn recycle(&mut self, alloc: Global) -> Result<(), AllocError> {
        let mut plain = self.last(alloc)?;
        if plain.is_full() {
            plain.recycle();
            self.changes(plain, 2)?;
        }
        Ok(())
    }

    // Stores frames as one group: four calls, and four more for the first frame of a block.
    fn store(&mut self, alloc: Global, group: &[FrameInfo]) -> Result<(), AllocError> {
        self.recycle(alloc)?;
        let begins = self.last(alloc)?.next % SLOTS == 0;
        self.calls = self.calls.saturating_add(if begins { 8 } else { 4 });
        for stamp in group {
            let mut plain = self.last(alloc)?;
            plain.store(*stamp)?;
            self.changes(plain, 0)?;
        }
        Ok(())
    }

    // Locks a clip, by four calls, or unlocks it, by two.
    fn clip(&mut self, alloc: Global, id: u32, span: Option<Span>) -> Result<(), AllocError> {
        let mut plain = self.last(alloc)?;
        match span {
            Some(span) => {
                plain.lock(alloc, id, span)?;
                self.changes(plain, 4)
            }
            None => {
                plain.unlock(id);
                self.changes(plain, 2)
            }
        }
    }
}

/// What a call does to this recording and the frames that wait. Only a call that returned Ok does something. A frame is
/// read by two calls.
pub(crate) fn done(
    alloc: Global,
    plain: Plain,
    waiting: &mut Vec<FrameInfo>,
    call: Noted,
) -> Result<Deed, AllocError> {
    let mut deed = Deed::none(alloc, plain)?;
    match call {
        Noted::Submit(stamp, _, Ok(_)) => waiting.push(stamp)?,
        Noted::Flush(Ok(flushed)) if flushed.stored > 0 => {
            let group = taken(alloc, waiting, flushed.stored)?;
            deed.store(alloc, &group)?;
        }
        Noted::Lock(span, Ok(id)) => deed.clip(alloc, id, Some(span))?,
        Noted::Unlock(id, Ok(())) => deed.clip(alloc, id, None)?,
        Noted::Read(_, Ok(_)) => deed.calls = 2,
        _ => (),
    }
    Ok(deed)
}

// Takes the first of the waiting frames.
fn taken(
    alloc: Global,
    waiting: &mut Vec<FrameInfo>,
    count: u32,
) -> Result<Vec<FrameInfo>, AllocError> {
    let mut group = Vec::new(alloc);
    for _ in 0..count {
        if !waiting.is_empty() {
            group.push(waiting.remove(0))?;
        }
    }
    Ok(group)
}
