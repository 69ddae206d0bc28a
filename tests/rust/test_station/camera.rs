//! A simulated camera: its source, its queue, its desk and its store, beside a plain list of all its frames.

use crate::judge::Judge;
use crate::ordering::Ordering;
use crate::random::Random;
use crate::store::Store;
use crate::told::Told;
use loop_station_core::{
    Act, Camera as Life, DiskSeen, Event, FilmingEvent, NOT_THERE_YET, Seen, SourceEvent,
    SourceSeen, StoreSeen, Tally, is_moved,
};
use std::alloc::Global;

// How many frames may be on their way from the queue to the desk, and how many may wait there.
const ON_THE_WAY: usize = 8;

const AT_THE_DESK: usize = 32;

// The device of all files.
const DEVICE: u64 = 1;

// After so many microseconds a store is made in the place of one that was moved away.
const MADE_ANEW: u64 = 250_000;

// How many frames a flush stores at once.
const AT_ONCE: u64 = 8;

/// What has become of a frame.
#[derive(Clone, Copy, PartialEq, Eq)]
pub enum Fate {
    Coming,
    Waiting,
    Stored,
    Lost,
}

/// A frame of the plain list.
#[derive(Clone, Copy)]
pub struct Frame {
    pub time: u64,
    pub fate: Fate,
}

/// What a disk does.
#[derive(Clone, Copy, PartialEq, Eq)]
pub enum Disk {
    Works,
    Slow,
    Stalls,
}

/// A camera.
#[derive(Drop)]
pub struct Camera {
    /// Its place among the cameras.
    pub place: usize,
    /// How many microseconds pass from frame to frame.
    pub period: u64,
    /// How many frames may wait in memory.
    pub memory: usize,
    /// Its clips are saved by themselves, and released then.
    pub saves: bool,
    pub releases: bool,
    /// All frames that ever came, and how many of them came before the program began.
    pub frames: Vec<Frame>,
    pub before: usize,
    /// How many were taken from memory, and how many of these came to the desk or were given up.
    pub taken: usize,
    pub brought: usize,
    desk: Vec<usize>,
    /// When the frame came that waits for memory, if one does.
    pub coming: Option<u64>,
    pub disk: Disk,
    /// The store is open; when it is opened again otherwise.
    pub open: bool,
    pub again: u64,
    pub store: Store,
    /// Which store that is: the number of its file. Which file its path names by now, if it names one.
    pub file: u64,
    there: Option<(u64, u64)>,
    pub orders: Ordering,
    pub locked: bool,
    /// When a frame made progress last, and how often one did.
    pub progress: u64,
    pub moves: u64,
    pub source: SourceSeen,
    // The cause of an unusable source, and what is known of the disk.
    unusable: u32,
    measured: Option<DiskSeen>,
    // So much of the store is made, in percent, while it is.
    making: Option<u32>,
    pub tally: Tally,
    /// What the station decides of it, and whether each act was right.
    life: Life,
    acts: bool,
    pub told: Told,
}

impl Camera {
    /// A camera by chance.
    pub fn new(alloc: Global, random: &mut Random, place: usize, now: u64) -> Camera {
        let period = random.between(5_000, 200_000);
        let segments = random.between(3, 12);
        let slots = random.between(1, 8);
        Camera {
            place,
            period,
            memory: random.between(2, 40) as usize,
            saves: random.one_in(2),
            releases: random.one_in(2),
            frames: Vec::new(alloc),
            before: 0,
            taken: 0,
            brought: 0,
            desk: Vec::new(alloc),
            coming: None,
            disk: Disk::Works,
            open: false,
            again: now.saturating_add(random.below(2_000_000)),
            store: Store::new(alloc, segments, slots),
            file: 0,
            there: Some((DEVICE, 0)),
            orders: Ordering::new(alloc),
            locked: false,
            progress: now,
            moves: 0,
            source: SourceSeen::Missing,
            unusable: 0,
            measured: None,
            making: None,
            tally: Tally::new(),
            life: Life::new(),
            acts: true,
            told: Told::new(now),
        }
    }

    // Something happens to its filming, and this has to follow.
    fn happens(&mut self, event: FilmingEvent, wanted: Act) {
        let (life, act) = self.life.on(Event::Filming(event));
        self.life = life;
        self.acts = self.acts && act == wanted;
    }

    // Something happens to its source.
    fn source_happens(&mut self, event: SourceEvent) {
        let (life, _) = self.life.on(Event::Source(event));
        self.life = life;
    }

    // What becomes of a frame.
    fn set(&mut self, at: usize, fate: Fate) {
        if let Some(frame) = self.frames.get_mut(at) {
            frame.fate = fate;
        }
    }

    /// A frame comes from the source, unless the one before it waits for memory.
    pub fn gives(&mut self, judge: &mut Judge, now: u64) {
        if self.coming.is_some() {
            return;
        }
        let frame = Frame {
            time: now,
            fate: Fate::Coming,
        };
        judge.put(&mut self.frames, frame);
        self.tally = self.tally.comes();
        if self.frames.len().saturating_sub(self.taken) > self.memory {
            self.coming = Some(now);
        }
    }

    /// The queue takes a frame from memory.
    pub fn takes(&mut self) {
        let on_the_way = self.taken.saturating_sub(self.brought);
        if self.taken < self.frames.len() && on_the_way < ON_THE_WAY {
            self.taken = self.taken.saturating_add(1);
            self.coming = None;
        }
    }

    /// The store is opened again, if it is time. Whether it is open.
    pub fn is_there(&mut self, random: &mut Random, now: u64) -> bool {
        if !self.open && self.again <= now {
            self.open = true;
            self.making = None;
            if self.measured.is_none() {
                self.measured = Some(DiskSeen {
                    sync: random.below(400_000),
                    group: random.seconds(64).saturating_add(1),
                    rate_num: random.seconds(200),
                    rate_den: random.seconds(3).saturating_add(1),
                });
            }
            self.happens(FilmingEvent::Begin, Act::GoOn);
            self.orders.open();
        }
        self.open
    }

    /// Its path names another file by now, or one on another device, or none.
    pub fn file_goes(&mut self, random: &mut Random) {
        self.there = match random.below(3) {
            0 => None,
            1 => Some((DEVICE, self.file.saturating_add(1_000))),
            _ => Some((DEVICE.saturating_add(1), self.file)),
        };
    }

    /// Whether its store was moved away, as somebody who looks sees it.
    pub fn is_moved(&self, judge: &mut Judge) -> bool {
        let recorded = (DEVICE, self.file);
        let moved = is_moved(recorded, self.there);
        judge.holds(
            moved == (self.there != Some(recorded)),
            "a store was moved away where its path names another file, or none",
        );
        self.open && moved
    }

    /// Its store was moved away. What waits is still stored there, unless each block is locked, which lasts; then a
    /// store is made anew.
    pub fn moves(&mut self, alloc: Global, judge: &mut Judge, now: u64) {
        self.happens(FilmingEvent::Move, Act::GoOn);
        judge.holds(
            !self.life.films(1, 0),
            "the filming into a store that was moved away ends",
        );
        self.store_rest(judge, now);
        self.give_up_rest(now);
        self.happens(FilmingEvent::End(false), Act::MakeAnew);
        self.happens(FilmingEvent::Leave, Act::MakeAnew);
        self.store = Store::new(alloc, self.store.segments, self.store.slots);
        self.file = self.file.saturating_add(1);
        self.there = Some((DEVICE, self.file));
        self.again = now.saturating_add(MADE_ANEW);
    }

    // All that comes to the desk is stored, up to the first frame for which there is no block.
    fn store_rest(&mut self, judge: &mut Judge, now: u64) {
        for _ in self.brought..self.taken {
            self.bring(judge, false);
            self.moves_on(now);
        }
        let mut count = 0u32;
        for _ in 0..self.desk.len() {
            if !self.store_next(judge, Act::GiveUp) {
                break;
            }
            count = count.saturating_add(1);
        }
        self.tally = self.tally.store(count);
        if count > 0 {
            self.happens(FilmingEvent::Store(count), Act::GoOn);
            self.moves_on(now);
        }
    }

    /// A store that isn't there is being made, and is further each time.
    pub fn makes(&mut self, random: &mut Random) {
        if self.open || self.before > 0 {
            return;
        }
        let made = match self.making {
            Some(percent) => percent.saturating_add(random.seconds(30)),
            None => 0,
        };
        self.making = Some(made.min(100));
    }

    /// Frames come to the desk; where it is full they wait, or are given up.
    pub fn brings(&mut self, random: &mut Random, judge: &mut Judge, now: u64) {
        for _ in 0..ON_THE_WAY {
            let given_up = random.one_in(60);
            if self.brought >= self.taken || !given_up && self.desk.len() >= AT_THE_DESK {
                break;
            }
            self.bring(judge, given_up);
            self.moves_on(now);
        }
    }

    // The next frame comes to the desk, or is given up.
    fn bring(&mut self, judge: &mut Judge, given_up: bool) {
        let at = self.brought;
        if given_up {
            self.set(at, Fate::Lost);
            self.tally = self.tally.give_up();
        } else {
            self.set(at, Fate::Waiting);
            judge.put(&mut self.desk, at);
            self.tally = self.tally.bring();
        }
        self.brought = at.saturating_add(1);
    }

    /// What waits at the desk is stored, as the disk does.
    pub fn flush(&mut self, random: &mut Random, judge: &mut Judge, now: u64) {
        let most = match self.disk {
            Disk::Works => AT_ONCE,
            Disk::Slow => random.below(2),
            Disk::Stalls => 0,
        };
        let mut count = 0u32;
        for _ in 0..most {
            if !self.store_next(judge, Act::FlushAgain) {
                break;
            }
            count = count.saturating_add(1);
        }
        if count > 0 {
            self.tally = self.tally.store(count);
            self.locked = false;
            self.happens(FilmingEvent::Store(count), Act::GoOn);
            self.moves_on(now);
        }
    }

    /// What waits at the desk is stored, however much it is, as far as the disk does.
    pub fn flush_all(&mut self, random: &mut Random, judge: &mut Judge, now: u64) {
        for _ in 0..8 {
            self.flush(random, judge, now);
        }
    }

    // A frame made progress.
    fn moves_on(&mut self, now: u64) {
        self.progress = now;
        self.moves = self.moves.saturating_add(1);
    }

    // The first frame at the desk is stored. Whether it is: there may be none, or each block may be locked, and then
    // this has to follow.
    fn store_next(&mut self, judge: &mut Judge, wanted: Act) -> bool {
        if !self.open || self.desk.is_empty() {
            return false;
        }
        let at = self.desk.remove(0);
        let time = self.time_of(at);
        let is_stored = self.store.append(judge, time);
        if is_stored {
            self.set(at, Fate::Stored);
        } else {
            self.locked = true;
            self.happens(FilmingEvent::AllLocked, wanted);
            let is_back = self.desk.insert(0, at).is_ok();
            judge.holds(is_back, "there is memory");
        }
        is_stored
    }

    // When a frame came.
    fn time_of(&self, at: usize) -> u64 {
        match self.frames.get(at) {
            Some(frame) => frame.time,
            None => 0,
        }
    }

    /// The source goes, one way or another.
    pub fn source_goes(&mut self, random: &mut Random) {
        self.source = match random.below(7) {
            0 | 1 => SourceSeen::Missing,
            2 | 3 => SourceSeen::Silent,
            4 => SourceSeen::Other,
            _ => SourceSeen::Unusable,
        };
        self.unusable = random.seconds(3);
    }

    /// The disk fails, if the store is open: desk and queue are given up, and the store is opened again later.
    pub fn fails(&mut self, random: &mut Random, now: u64) {
        if !self.open {
            return;
        }
        self.give_up_rest(now);
        self.happens(FilmingEvent::Break, Act::GiveUp);
        self.happens(FilmingEvent::End(true), Act::OpenAgain);
        self.happens(FilmingEvent::Leave, Act::OpenAgain);
        self.again = now.saturating_add(random.below(5_000_000));
    }

    // Desk and queue are given up, and the store isn't open any more: what was in them and isn't stored is lost.
    fn give_up_rest(&mut self, now: u64) {
        if self.taken > self.brought {
            self.moves_on(now);
        }
        for at in self.before..self.taken {
            if let Some(frame) = self.frames.get_mut(at) {
                if frame.fate != Fate::Stored {
                    frame.fate = Fate::Lost;
                }
            }
        }
        self.tally = self
            .tally
            .lose(self.taken.saturating_sub(self.before) as u64);
        self.brought = self.taken;
        self.desk.clear();
        self.open = false;
        self.locked = false;
    }

    /// The program is killed, and begins again: what isn't stored is gone.
    pub fn begins(&mut self, alloc: Global, random: &mut Random, now: u64) {
        for frame in self.frames.iter_mut() {
            if frame.fate != Fate::Stored {
                frame.fate = Fate::Lost;
            }
        }
        self.before = self.frames.len();
        self.taken = self.before;
        self.brought = self.before;
        self.desk.clear();
        self.coming = None;
        self.open = false;
        self.again = now.saturating_add(random.below(1_000_000));
        self.locked = false;
        self.making = None;
        self.measured = None;
        self.progress = now;
        self.tally = Tally::new();
        self.life = Life::new();
        self.told = Told::new(now);
        self.orders = Ordering::new(alloc);
        self.there = Some((DEVICE, self.file));
    }

    /// How many frames have come since the program began up to a time, as the queue knows it: all that were taken, and
    /// those that wait and came by then.
    pub fn come(&self, time: u64) -> u64 {
        let mut come = self.taken.saturating_sub(self.before) as u64;
        for at in self.taken..self.frames.len() {
            if let Some(frame) = self.frames.get(at) {
                if frame.time <= time {
                    come = come.saturating_add(1);
                }
            }
        }
        come
    }

    /// Whether each frame that came before the first `came` of the list, up to a time, is at the desk or lost.
    pub fn is_brought(&self, came: usize, time: u64) -> bool {
        if self.brought >= came {
            return true;
        }
        match self.frames.get(self.brought) {
            Some(frame) => frame.time > time,
            None => true,
        }
    }

    // How many frames of the list have met this fate since the program began.
    fn count(&self, fate: Fate) -> u64 {
        let mut count = 0u64;
        for at in self.before..self.frames.len() {
            if let Some(frame) = self.frames.get(at) {
                if frame.fate == fate {
                    count = count.saturating_add(1);
                }
            }
        }
        count
    }

    /// The tally is what the list says.
    pub fn check(&self, judge: &mut Judge) {
        let waits = self
            .count(Fate::Coming)
            .saturating_add(self.count(Fate::Waiting));
        judge.holds(
            self.tally.behind() == waits,
            "the frames that wait are those of the list",
        );
        judge.holds(
            self.tally.lost() == self.count(Fate::Lost),
            "the lost frames are those of the list",
        );
        judge.holds(
            self.tally.left == self.count(Fate::Stored),
            "the stored frames are those of the list",
        );
        let come = self.frames.len().saturating_sub(self.before) as u64;
        judge.holds(
            self.tally.come == come,
            "the frames that came are those of the list",
        );
    }

    /// Somebody looks at it. How many lines are told.
    pub fn look(&mut self, judge: &mut Judge, now: u64, stopping: bool) -> u64 {
        let before = self.told.lines;
        self.show_source(now);
        self.judge_life(judge);
        let seen = self.seen(now, stopping);
        self.told.look(judge, &seen);
        self.told.lines.saturating_sub(before)
    }

    // Its source shows itself as it is: a silent one is open, and has brought nothing for a second more than it may.
    fn show_source(&mut self, now: u64) {
        self.source_happens(SourceEvent::Read);
        match self.source {
            SourceSeen::Missing => self.source_happens(SourceEvent::Missing),
            SourceSeen::Other => self.source_happens(SourceEvent::Offer(false)),
            SourceSeen::Unusable => self.source_happens(SourceEvent::Unusable),
            SourceSeen::On => self.source_happens(SourceEvent::Offer(true)),
            SourceSeen::Silent => {
                self.source_happens(SourceEvent::Offer(true));
                self.source_happens(SourceEvent::Wait(now.saturating_sub(3_000_000)));
                self.source_happens(SourceEvent::Look(now, self.period));
            }
        }
    }

    // Its life is what has happened to it.
    fn judge_life(&self, judge: &mut Judge) {
        judge.holds(
            self.life.source_seen() == self.source,
            "a source is as it has shown itself",
        );
        judge.holds(
            !self.open || self.life.locked == self.locked,
            "all is locked from such a refusal on until a frame is stored",
        );
        judge.holds(
            !self.open || self.life.films(1, 0),
            "a filming goes on until something breaks",
        );
        judge.holds(self.acts, "what follows is right");
    }

    // What is seen of it now.
    fn seen(&self, now: u64, stopping: bool) -> Seen {
        let (_, locked) = self.store.counts();
        let blocks = self.store.segments.saturating_sub(1);
        Seen {
            now,
            source: self.life.source_seen(),
            unusable: self.unusable,
            store: match (self.open, self.making) {
                (true, _) => StoreSeen::Open,
                (false, _) if stopping => StoreSeen::Stopped,
                (false, Some(percent)) => StoreSeen::Making(percent),
                (false, None) if self.before == 0 => StoreSeen::Absent(NOT_THERE_YET),
                (false, None) => StoreSeen::Absent(3),
            },
            disk: self.measured,
            lost: self.tally.lost(),
            locked: self.open && self.life.locked,
            behind: self.tally.behind().saturating_mul(self.period),
            waited: self.coming,
            room: blocks.saturating_sub(locked),
            blocks: if self.open { blocks } else { 0 },
            stopping,
        }
    }
}
