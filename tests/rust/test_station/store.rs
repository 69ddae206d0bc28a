//! A simulated store: a ring of blocks on a disk, and its clips.

use crate::judge::Judge;
use loop_station_core::{MayUnlock, Run, ShownClip};
use std::alloc::Global;

/// How many clips a store may have.
pub const MOST_CLIPS: u32 = 64;

/// A stored frame that is held.
#[derive(Clone, Copy)]
pub struct Held {
    /// Its number in the store.
    pub number: u64,
    /// When it came.
    pub time: u64,
}

/// A clip: the held frames of a span are locked.
#[derive(Clone, Copy)]
pub struct Clip {
    pub id: u32,
    /// The event that it was made for.
    pub event: u64,
    pub from: u64,
    pub to: u64,
    /// When its first frame came.
    pub time: u64,
    /// It is to be saved, and isn't yet.
    pub unsaved: bool,
}

impl Clip {
    /// As a decision is shown it.
    pub fn shown(&self) -> ShownClip {
        ShownClip {
            id: self.id,
            from: self.from,
            to: self.to,
            tag: self.event,
        }
    }
}

/// The first and the last number of a run.
#[derive(Clone, Copy)]
pub struct Span {
    pub from: u64,
    pub to: u64,
}

/// What is held of a time: runs of frames whose numbers follow each other.
#[derive(Drop)]
pub struct Pieces {
    pub spans: Vec<Span>,
    /// When its first and its last frame came.
    pub runs: Vec<Run>,
}

impl Pieces {
    // Adds a frame, after all others.
    fn add(&mut self, judge: &mut Judge, number: u64, time: u64) {
        if self.goes_on(number, time) {
            return;
        }
        let span = Span {
            from: number,
            to: number,
        };
        let run = Run {
            first: time,
            last: time,
            lost: number % 3,
        };
        judge.put(&mut self.spans, span);
        judge.put(&mut self.runs, run);
    }

    // Adds a frame to the last run. Whether it follows that.
    fn goes_on(&mut self, number: u64, time: u64) -> bool {
        let (Some(span), Some(run)) = (self.spans.last_mut(), self.runs.last_mut()) else {
            return false;
        };
        if span.to.saturating_add(1) != number {
            return false;
        }
        span.to = number;
        run.last = time;
        true
    }
}

/// A store.
#[derive(Drop)]
pub struct Store {
    /// How many blocks it has, and how many frames a block has room for.
    pub segments: u64,
    pub slots: u64,
    /// The number of the next frame.
    pub next: u64,
    /// What is held, in order.
    pub held: Vec<Held>,
    pub clips: Vec<Clip>,
}

impl Store {
    /// An empty store.
    pub fn new(alloc: Global, segments: u64, slots: u64) -> Store {
        Store {
            segments,
            slots: slots.max(1),
            next: 0,
            held: Vec::new(alloc),
            clips: Vec::new(alloc),
        }
    }

    /// The number of the newest block.
    pub fn newest(&self) -> u64 {
        self.next.saturating_sub(1) / self.slots.max(1)
    }

    // Whether a clip meets a block.
    fn is_locked(&self, block: u64) -> bool {
        let slots = self.slots.max(1);
        for clip in self.clips.as_slice() {
            if clip.from / slots <= block && block <= clip.to / slots {
                return true;
            }
        }
        false
    }

    /// How many blocks are held, and how many of those but the newest are locked.
    pub fn counts(&self) -> (u64, u64) {
        let slots = self.slots.max(1);
        let (mut blocks, mut locked) = (0u64, 0u64);
        let mut last = u64::MAX;
        for frame in self.held.as_slice() {
            let block = frame.number / slots;
            if block == last {
                continue;
            }
            last = block;
            blocks = blocks.saturating_add(1);
            if block != self.newest() && self.is_locked(block) {
                locked = locked.saturating_add(1);
            }
        }
        (blocks, locked)
    }

    // Gives up the oldest block that isn't locked. Whether there is one.
    fn recycle(&mut self) -> bool {
        let slots = self.slots.max(1);
        let newest = self.newest();
        let mut victim = None;
        for frame in self.held.as_slice() {
            let block = frame.number / slots;
            if block != newest && !self.is_locked(block) {
                victim = Some(block);
                break;
            }
        }
        let Some(victim) = victim else {
            return false;
        };
        self.held.retain(|frame| frame.number / slots != victim);
        true
    }

    /// Stores a frame. Whether there was a block for it: each may be locked.
    pub fn append(&mut self, judge: &mut Judge, time: u64) -> bool {
        let slots = self.slots.max(1);
        if self.next % slots == 0 && self.counts().0 >= self.segments && !self.recycle() {
            return false;
        }
        let number = self.next;
        judge.put(&mut self.held, Held { number, time });
        self.next = self.next.saturating_add(1);
        true
    }

    /// What is held of a time.
    pub fn pieces(&self, alloc: Global, judge: &mut Judge, since: u64, until: u64) -> Pieces {
        let mut pieces = Pieces {
            spans: Vec::new(alloc),
            runs: Vec::new(alloc),
        };
        for frame in self.held.as_slice() {
            if since <= frame.time && frame.time <= until {
                pieces.add(judge, frame.number, frame.time);
            }
        }
        pieces
    }

    /// The clip of an id.
    pub fn clip(&self, id: u32) -> Option<Clip> {
        for clip in self.clips.as_slice() {
            if clip.id == id {
                return Some(*clip);
            }
        }
        None
    }

    /// Locks a span for an event, if no clip of it has just this span. The clip that has it then: an id has to be free.
    pub fn holds_span(&mut self, judge: &mut Judge, event: u64, span: Span) -> Option<ShownClip> {
        for clip in self.clips.as_slice() {
            if clip.event == event && clip.from == span.from && clip.to == span.to {
                return Some(clip.shown());
            }
        }
        let id = self.free_id()?;
        let clip = Clip {
            id,
            event,
            from: span.from,
            to: span.to,
            time: self.time_of(span.from),
            unsaved: false,
        };
        judge.put(&mut self.clips, clip);
        Some(clip.shown())
    }

    // When the frame of a number came.
    fn time_of(&self, number: u64) -> u64 {
        for frame in self.held.as_slice() {
            if frame.number == number {
                return frame.time;
            }
        }
        0
    }

    // The least id that no clip has.
    fn free_id(&self) -> Option<u32> {
        for id in 0..MOST_CLIPS {
            if self.clip(id).is_none() {
                return Some(id);
            }
        }
        None
    }

    /// Unlocks a clip, by leave: it has to be there still.
    pub fn unlock(&mut self, judge: &mut Judge, leave: MayUnlock) {
        let ShownClip { id, from, to, .. } = leave.clip();
        let is_there = match self.clip(id) {
            Some(clip) => clip.from == from && clip.to == to,
            None => false,
        };
        judge.holds(is_there, "leave to unlock is for a clip that is there");
        self.clips.retain(|clip| clip.id != id);
    }

    /// The clip of an id is saved, or isn't to be any more.
    pub fn mark_saved(&mut self, id: u32) {
        for clip in self.clips.iter_mut() {
            if clip.id == id {
                clip.unsaved = false;
            }
        }
    }

    /// One of the clips, if there are any.
    pub fn any_clip(&self, random: u64) -> Option<Clip> {
        let count = (self.clips.len() as u64).max(1);
        Some(*self.clips.get((random % count) as usize)?)
    }

    /// Whether a clip is to be saved and isn't.
    pub fn has_unsaved(&self) -> bool {
        for clip in self.clips.as_slice() {
            if clip.unsaved {
                return true;
            }
        }
        false
    }

    /// Whether the clip of an id is there, and begins with this frame.
    pub fn begins_with(&self, id: u32, first: u64) -> bool {
        match self.clip(id) {
            Some(clip) => clip.from == first,
            None => false,
        }
    }

    /// The clips of an event are to be saved.
    pub fn mark_event(&mut self, event: u64) {
        for clip in self.clips.iter_mut() {
            if clip.event == event {
                clip.unsaved = true;
            }
        }
    }
}
