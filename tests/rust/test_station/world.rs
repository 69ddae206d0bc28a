//! The whole station in simulation, step by step. `ordered` has the orders of clips, and what follows where a store
//! isn't there any more.

mod ordered;

use crate::answers::Answers;
use crate::camera::{Camera, Disk};
use crate::judge::Judge;
use crate::keeping::{Noted, Waiting, judge_shortfall};
use crate::random::Random;
use crate::saving::{Asking, Saving, judge_after};
use crate::searching::search;
use crate::texts::Texts;
use loop_station_core::{
    GrowthTurn, KeepTurn, Numbers, SaveEnd, SourceSeen, bounds, is_too_far, stood_still,
};
use std::alloc::{AllocError, Global};

// When a simulation begins, in microseconds since 1970.
const BEGIN: u64 = 1_795_000_000_000_000;

// How many microseconds after its line a keep may end at most.
const HOUR: u64 = 3_600_000_000;

// How many keeps wait at most.
const MOST_KEEPS: usize = 12;

// An event whose end was over so many microseconds ago may have had no turn since.
const JUST_NOW: u64 = 100_000;

// Below so many keeps one may end in an hour.
const FEW_KEEPS: usize = 4;

/// What was counted.
#[derive(Drop)]
pub struct Counts {
    pub keeps: u64,
    pub answered: u64,
    // How many are to be answered, less those that a kill has ended.
    due: u64,
    pub saves: u64,
    pub saved: u64,
    pub orders: u64,
    pub moves: u64,
    pub lines: u64,
    pub kills: u64,
}

impl Counts {
    // Nothing.
    fn new() -> Counts {
        Counts {
            keeps: 0,
            answered: 0,
            due: 0,
            saves: 0,
            saved: 0,
            orders: 0,
            moves: 0,
            lines: 0,
            kills: 0,
        }
    }
}

/// The program: its orders, its keeps and its saves.
#[derive(Drop)]
pub struct Station {
    alloc: Global,
    random: Random,
    pub judge: Judge,
    now: u64,
    keeps: Vec<Waiting>,
    // The events that go on, as their file has them.
    noted: Vec<Noted>,
    answers: Answers,
    pub texts: Texts,
    saving: Saving,
    places: usize,
    // A disk that doesn't work as it should works again by one of so many throws.
    slowness: u64,
    folder: bool,
    numbers: Numbers,
    last: u64,
    pub counts: Counts,
}

impl Station {
    // A program that has just begun.
    fn new(alloc: Global, seed: u64) -> Result<Station, AllocError> {
        let mut random = Random::new(seed);
        let places = if random.one_in(2) {
            16
        } else {
            random.place(3).saturating_add(1)
        };
        let mut judge = Judge::new();
        let texts = Texts::new(alloc, &mut judge);
        Ok(Station {
            alloc,
            slowness: random.between(1, 6),
            random,
            judge,
            now: BEGIN,
            keeps: Vec::new(alloc),
            noted: Vec::new(alloc),
            answers: Answers::new(alloc),
            texts,
            saving: Saving::new(alloc, places)?,
            places,
            folder: true,
            numbers: Numbers::after(0),
            last: 0,
            counts: Counts::new(),
        })
    }

    // Time passes: mostly little, now and then much.
    fn pass(&mut self) {
        let most = match self.random.below(1_000) {
            0 => 90_000_000,
            1..=5 => 3_000_000,
            6..=200 => 60_000,
            _ => 4_000,
        };
        let passed = self.random.below(most);
        self.now = self.now.saturating_add(passed);
        let up = self.random.below(most);
        let longer = passed.max(up);
        let still = if longer > 1_100_000 {
            Some(longer)
        } else {
            None
        };
        self.judge.holds(
            stood_still(100_000, passed, up) == still,
            "that the program stood still is told where it did, for as long",
        );
    }

    // A search in a clip, and a step of a text.
    fn texts_and_clips(&mut self) {
        if self.random.one_in(10) {
            let found = search(self.alloc, &mut self.random, &mut self.judge);
            self.counts.lines = self.counts.lines.saturating_add(found);
        }
        self.texts.step(&mut self.random, &mut self.judge);
    }

    // A step of a camera.
    fn step(&mut self, camera: &mut Camera, throw: u64) {
        match throw {
            0..=31 => self.source_gives(camera),
            32..=44 => self.queue_takes(camera),
            45..=75 => self.desk_turns(camera, false),
            76..=85 => self.look(camera, false),
            86..=89 => self.weather(camera),
            90 => self.clip_ordered(camera),
            91 => self.save_unsaved(camera),
            _ => self.check(camera),
        }
    }

    // A turn of each thread of a camera, at the end. No frame comes once the program ends.
    fn turn(&mut self, camera: &mut Camera, stopping: bool) {
        if !stopping {
            self.source_gives(camera);
        }
        self.queue_takes(camera);
        self.desk_turns(camera, stopping);
        self.look(camera, stopping);
    }

    // Frames come: one, or a burst.
    fn source_gives(&mut self, camera: &mut Camera) {
        let count = if self.random.one_in(20) {
            self.random.below(12)
        } else {
            1
        };
        if camera.source == SourceSeen::On {
            for _ in 0..count {
                // No two frames have one time.
                self.now = self.now.saturating_add(1);
                camera.gives(&mut self.judge, self.now);
            }
        }
    }

    // The queue takes frames from memory.
    fn queue_takes(&mut self, camera: &mut Camera) {
        for _ in 0..self.random.below(9) {
            camera.takes();
        }
    }

    // A turn of a desk's thread: frames come to the desk, the keeps have their turns, and the desk is flushed.
    fn desk_turns(&mut self, camera: &mut Camera, stopping: bool) {
        if !camera.is_there(&mut self.random, self.now) {
            camera.makes(&mut self.random);
        } else {
            camera.brings(&mut self.random, &mut self.judge, self.now);
            self.keeps_turn(camera, stopping);
            self.order_turns(camera);
            camera.flush(&mut self.random, &mut self.judge, self.now);
        }
    }

    // Each keep of a camera has its turn.
    fn keeps_turn(&mut self, camera: &mut Camera, stopping: bool) {
        let mut at = 0usize;
        for _ in 0..self.keeps.len() {
            if self.keep_turns(at, camera, stopping) && at < self.keeps.len() {
                let mut keep = self.keeps.remove(at);
                self.keep_ends(camera, &mut keep);
            } else {
                at = at.saturating_add(1);
            }
        }
    }

    // A keep has its turn, if it is one of this camera. Whether it is done.
    fn keep_turns(&mut self, at: usize, camera: &mut Camera, stopping: bool) -> bool {
        let Some(keep) = self.keeps.get_mut(at) else {
            return false;
        };
        if keep.camera != camera.place {
            return false;
        }
        if !keep.grows {
            return self.keep_begins(at, camera, stopping);
        }
        match keep.growth(&mut self.judge, self.now, stopping) {
            GrowthTurn::Release => {
                keep.release_covered(&mut self.judge, camera, &self.saving);
                false
            }
            GrowthTurn::End => true,
            GrowthTurn::Leave => false,
            GrowthTurn::Keep => {
                self.keep_grows(at, camera, stopping);
                false
            }
        }
    }

    // A keep that isn't answered yet has its turn. Whether it is done.
    fn keep_begins(&mut self, at: usize, camera: &mut Camera, stopping: bool) -> bool {
        let Some(keep) = self.keeps.get_mut(at) else {
            return false;
        };
        let until = match keep.turn(&mut self.judge, camera, self.now, stopping) {
            KeepTurn::Part { until } => until,
            KeepTurn::Wait => return false,
            KeepTurn::Whole => return true,
        };
        camera.flush_all(&mut self.random, &mut self.judge, self.now);
        let pieces = keep.lock(self.alloc, &mut self.judge, camera, until);
        keep.grows = true;
        let lines = keep.answer(&mut self.judge, pieces.spans.len(), 0, false);
        let (order, place) = (keep.order, keep.place);
        self.answer(order, place, lines);
        false
    }

    // An event whose end lay ahead has a turn: what has come of it is locked.
    fn keep_grows(&mut self, at: usize, camera: &mut Camera, stopping: bool) {
        let Some(keep) = self.keeps.get_mut(at) else {
            return;
        };
        let until = match keep.turn(&mut self.judge, camera, self.now, stopping) {
            KeepTurn::Part { until } => until,
            KeepTurn::Wait => return,
            KeepTurn::Whole => {
                keep.ends();
                keep.until
            }
        };
        camera.flush_all(&mut self.random, &mut self.judge, self.now);
        let _pieces = keep.lock(self.alloc, &mut self.judge, camera, until);
    }

    // A camera answers an order with so many lines.
    fn answer(&mut self, order: u64, place: usize, lines: u64) {
        let printed = self.answers.give(&mut self.judge, order, place, lines);
        self.counts.lines = self.counts.lines.saturating_add(printed);
    }

    // A keep is done: what is there is locked and answered, or its event is told to be over; its clips are saved by
    // themselves where its camera is so.
    fn keep_ends(&mut self, camera: &mut Camera, keep: &mut Waiting) {
        let until = keep.until.min(self.now);
        let pieces = if keep.grows {
            camera
                .store
                .pieces(self.alloc, &mut self.judge, keep.since, until)
        } else {
            camera.flush_all(&mut self.random, &mut self.judge, self.now);
            keep.lock(self.alloc, &mut self.judge, camera, until)
        };
        let runs = pieces.runs.as_slice();
        let gaps = judge_shortfall(self.alloc, &mut self.judge, keep, runs, camera.period);
        if keep.grows {
            keep.judge_end(&mut self.judge, gaps);
            let told = gaps.saturating_add(1);
            self.counts.lines = self.counts.lines.saturating_add(told);
        } else {
            let lines = keep.answer(&mut self.judge, runs.len(), gaps, true);
            self.answer(keep.order, keep.place, lines);
        }
        self.counts.answered = self.counts.answered.saturating_add(1);
        if camera.saves {
            camera.store.mark_event(keep.event);
        }
        self.save_unsaved(camera);
    }

    // The file of events is written: those that go on now are in it.
    fn note(&mut self) {
        self.noted.clear();
        for keep in self.keeps.as_slice() {
            if keep.grows {
                let noted = keep.noted();
                self.judge.put(&mut self.noted, noted);
            }
        }
    }

    // A keep of before a kill goes on.
    fn goes_on(&mut self, keep: Waiting) {
        self.judge.put(&mut self.keeps, keep);
    }

    // Clips that are to be saved, and aren't being saved, are asked for.
    fn save_unsaved(&mut self, camera: &Camera) {
        if camera.saves {
            let lacks = self.random.one_in(8);
            let count = self.saving.ask_all(
                &mut self.judge,
                camera.place,
                camera.store.clips.as_slice(),
                camera.file,
                lacks,
            );
            self.counts.saves = self.counts.saves.saturating_add(count);
        }
    }

    // The save of a place reads on, and may end.
    fn save_goes_on(&mut self, camera: &mut Camera, place: usize, asking: &Asking) {
        let (id, first) = (asking.key.id, asking.key.first);
        let is_there = asking.file == camera.file;
        self.judge.holds(
            !is_there || camera.store.begins_with(id, first),
            "a clip that a save reads is there, and the one that was asked for",
        );
        let end = if !is_there {
            // All may have been read before its store was moved away, and the folder may be slow.
            match self.random.below(8) {
                0 => SaveEnd::Final,
                1 if !asking.cancelled => SaveEnd::Whole,
                _ => return,
            }
        } else if asking.cancelled {
            camera.store.mark_saved(id);
            SaveEnd::Final
        } else if self.folder && self.random.one_in(3) {
            camera.store.mark_saved(id);
            self.counts.saved = self.counts.saved.saturating_add(1);
            self.counts.lines = self.counts.lines.saturating_add(1);
            SaveEnd::Whole
        } else if self.random.one_in(9) {
            SaveEnd::MayPass
        } else {
            return;
        };
        judge_after(&mut self.judge, end, asking, self.now);
        if self
            .saving
            .finish(&mut self.judge, place, end, camera.releases)
        {
            self.release(camera, asking.key, asking.file);
        }
    }

    // What happens to sources, disks and the folder.
    fn weather(&mut self, camera: &mut Camera) {
        match self.random.below(14) {
            0 => camera.disk = Disk::Slow,
            1 if self.random.one_in(3) => camera.disk = Disk::Stalls,
            2 if self.random.one_in(4) => self.disk_fails(camera),
            3..=5 if self.random.one_in(3) => camera.source_goes(&mut self.random),
            6 => self.folder = !self.random.one_in(4),
            7 | 8 if self.random.one_in(self.slowness) => camera.disk = Disk::Works,
            9 => self.folder = true,
            10 if self.random.one_in(8) => camera.file_goes(&mut self.random),
            11 if self.random.one_in(40) => self.many_ordered(camera),
            _ => camera.source = SourceSeen::On,
        }
    }

    // The number of an event whose line was read now.
    fn number(&mut self) -> u64 {
        let event = self.numbers.next(self.now);
        self.judge
            .holds(event > self.last, "each event has a number of its own");
        self.judge.holds(
            event == self.now || event == self.last.saturating_add(1),
            "an event's number is its time",
        );
        self.last = event;
        event
    }

    // The time of a keep whose line was read now.
    fn time(&mut self) -> (u64, u64) {
        let now = self.now;
        match self.random.below(24) {
            0..=5 => {
                let since = now.saturating_sub(self.random.below(8_000_000));
                let until = since.saturating_add(self.random.below(16_000_000));
                (since, until)
            }
            6 if self.keeps.len() < FEW_KEEPS => {
                (now, now.saturating_add(self.random.below(2 * HOUR)))
            }
            7 if self.keeps.len() < FEW_KEEPS => {
                let after = self.random.between(HOUR - 1, HOUR + 1);
                (now, now.saturating_add(after))
            }
            _ => self.time_of_seconds(),
        }
    }

    // The time of so many seconds before a line, and so many after it.
    fn time_of_seconds(&mut self) -> (u64, u64) {
        let (seconds, after) = (self.random.seconds(10), self.random.seconds(3));
        let (since, until) = bounds(self.now, seconds, after);
        let micros = u64::from(seconds).saturating_mul(1_000_000);
        self.judge.holds(
            since == self.now.saturating_sub(micros),
            "a keep begins so many seconds before its line",
        );
        let micros = u64::from(after).saturating_mul(1_000_000);
        self.judge.holds(
            until == self.now.saturating_add(micros),
            "a keep ends so many seconds after its line",
        );
        (since, until)
    }

    // Writers order keeps at the same time: one, or several.
    fn keeps_ordered(&mut self, cameras: &[Camera]) {
        let writers = if self.random.one_in(6) {
            self.random.between(2, 4)
        } else {
            1
        };
        for _ in 0..writers {
            self.keep_ordered(cameras);
        }
    }

    // A writer orders a keep of one camera or of all.
    fn keep_ordered(&mut self, cameras: &[Camera]) {
        let (since, until) = self.time();
        let is_far = until.saturating_sub(self.now) > HOUR;
        self.judge.holds(
            is_too_far(self.now, until) == is_far,
            "a keep ends within an hour",
        );
        if is_far || self.keeps.len() >= MOST_KEEPS {
            return;
        }
        let event = self.number();
        let all = self.random.one_in(3);
        let only = self.random.place(cameras.len());
        let count = if all { cameras.len() } else { 1 };
        let labelled = self.random.one_in(2);
        let order = self.answers.ask(&mut self.judge, count, labelled);
        for camera in cameras {
            if all || camera.place == only {
                let noted = Noted {
                    camera: camera.place,
                    event,
                    since,
                    until,
                };
                let place = if all { camera.place } else { 0 };
                let keep = Waiting::new(self.alloc, camera, &noted, order, place, false, self.now);
                self.counts.keeps = self.counts.keeps.saturating_add(1);
                self.counts.due = self.counts.due.saturating_add(1);
                if camera.orders.is_gone() {
                    self.answer_absent(&keep);
                } else {
                    self.judge.put(&mut self.keeps, keep);
                }
            }
        }
    }

    // Somebody looks at a camera.
    fn look(&mut self, camera: &mut Camera, stopping: bool) {
        let lines = camera.look(&mut self.judge, self.now, stopping);
        self.counts.lines = self.counts.lines.saturating_add(lines);
        self.look_for_store(camera);
    }

    // The lists of a camera may be compared.
    fn check(&mut self, camera: &Camera) {
        if self.random.one_in(64) {
            camera.check(&mut self.judge);
        }
    }

    // The program is killed, and begins again.
    fn kill(&mut self) {
        self.counts.kills = self.counts.kills.saturating_add(1);
        self.now = self.now.saturating_add(self.random.below(3_000_000));
        self.numbers = Numbers::after(self.last);
        match Saving::new(self.alloc, self.places) {
            Ok(saving) => self.saving = saving,
            Err(_) => self.judge.holds(false, "there is memory"),
        }
        self.answers.drop_all();
        self.texts.cut(&mut self.random, &mut self.judge);
        self.keeps.clear();
        self.counts.due = self.counts.answered.saturating_add(self.noted.len() as u64);
    }

    // Each keep is answered once, but for those whose end lies ahead; and each save has ended.
    fn judge_end(&mut self) {
        let left = self.keeps.len() as u64;
        let ahead = self.keeps.iter().all(|keep| keep.grows
            && keep.until.saturating_add(JUST_NOW) > self.now);
        self.judge.holds(
            ahead,
            "each keep is answered, and ends unless its end lies ahead, or was over just now",
        );
        self.judge.holds(
            self.counts.answered.saturating_add(left) == self.counts.due,
            "each keep is answered once",
        );
        self.judge
            .holds(self.answers.is_empty(), "each order is answered");
        self.judge.holds(self.saving.len() == 0, "each save ends");
        self.saving.stop(&mut self.judge);
    }

    // Nothing of a camera is left untold or unsaved.
    fn judge_camera(&mut self, camera: &mut Camera) {
        self.look(camera, true);
        camera.check(&mut self.judge);
        self.judge.holds(
            camera.told.lost == camera.tally.lost(),
            "by the end each lost frame is told",
        );
        self.judge.holds(
            !(camera.saves && camera.store.has_unsaved()),
            "by the end each clip is saved that was to be",
        );
    }
}

/// A station and its cameras.
#[derive(Drop)]
pub struct World {
    pub station: Station,
    cameras: Vec<Camera>,
}

impl World {
    /// The world of a seed.
    pub fn new(alloc: Global, seed: u64) -> Result<World, AllocError> {
        let mut station = Station::new(alloc, seed)?;
        let mut cameras = Vec::new(alloc);
        for place in 0..station.random.place(4).saturating_add(1) {
            let camera = Camera::new(alloc, &mut station.random, place, BEGIN);
            station.judge.put(&mut cameras, camera);
        }
        Ok(World { station, cameras })
    }

    /// One step, by chance.
    pub fn step(&mut self) {
        self.station.pass();
        match self.station.random.below(1_000) {
            0..=49 => self.save_goes_on(),
            50..=69 => self.station.keeps_ordered(self.cameras.as_slice()),
            70 if self.station.random.one_in(8) => self.kill(),
            71..=90 => self.station.note(),
            91..=120 => self.station.texts_and_clips(),
            _ => self.camera_step(),
        }
    }

    // A step of any camera.
    fn camera_step(&mut self) {
        let throw = self.station.random.below(100);
        let place = self.station.random.place(self.cameras.len());
        if let Some(camera) = self.cameras.get_mut(place) {
            self.station.step(camera, throw);
        }
    }

    // Any save goes on, if one runs in the place.
    fn save_goes_on(&mut self) {
        let count = self.station.places;
        let place = self.station.random.place(count);
        if let Some(asking) = self.station.saving.running(place) {
            if let Some(camera) = self.cameras.get_mut(asking.key.camera) {
                self.station.save_goes_on(camera, place, &asking);
            }
        }
    }

    // The program is killed, and begins again: its stores and the lines of its events are there.
    fn kill(&mut self) {
        self.station.kill();
        let now = self.station.now;
        for camera in self.cameras.iter_mut() {
            camera.begins(self.station.alloc, &mut self.station.random, now);
        }
        self.events_go_on();
        self.save_unsaved();
    }

    // The events that the file has go on.
    fn events_go_on(&mut self) {
        for place in 0..self.station.noted.len() {
            if let Some(keep) = self.keep_of(place) {
                self.station.goes_on(keep);
            }
        }
    }

    // The keep of an event that the file has, with what it has locked by now.
    fn keep_of(&self, place: usize) -> Option<Waiting> {
        let noted = self.station.noted.get(place)?;
        let camera = self.cameras.get(noted.camera)?;
        let (alloc, now) = (self.station.alloc, self.station.now);
        Some(Waiting::new(alloc, camera, noted, 0, 0, true, now))
    }

    // Clips that are to be saved, and aren't being saved, are asked for.
    fn save_unsaved(&mut self) {
        for camera in self.cameras.as_slice() {
            self.station.save_unsaved(camera);
        }
    }

    /// The program ends in order: each keep is answered, each line told, each save ended.
    pub fn end(&mut self) {
        self.station.folder = true;
        for camera in self.cameras.iter_mut() {
            camera.disk = Disk::Works;
        }
        for turn in 0..400u64 {
            self.turn(turn >= 300);
        }
        self.last_saves();
        for camera in self.cameras.iter_mut() {
            self.station.judge_camera(camera);
        }
        self.station.judge_end();
    }

    // A turn of each thread.
    fn turn(&mut self, stopping: bool) {
        self.station.now = self.station.now.saturating_add(20_000);
        for camera in self.cameras.iter_mut() {
            self.station.turn(camera, stopping);
        }
        self.save_goes_on();
    }

    // All saves go on until each clip is saved that was to be.
    fn last_saves(&mut self) {
        for _ in 0..200_000u64 {
            if self.station.saving.len() < 2 {
                self.save_unsaved();
            }
            if self.station.saving.len() == 0 {
                return;
            }
            self.save_goes_on();
        }
    }
}
