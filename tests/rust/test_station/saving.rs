//! The saves, beside a plain list of them that judges each answer.

use crate::camera::Camera;
use crate::judge::Judge;
use crate::store::Clip;
use loop_station_core::{
    Asked, Cancelled, SaveEnd, SaveKey, SaveLine, Saves, StoppedSave, after_save,
};
use std::alloc::{AllocError, Global};

// After how many microseconds a save that failed is tried again.
const MINUTE: u64 = 60_000_000;

// The tag of the first camera's clips.
const OWN_TAG: u64 = 7;

/// A save that was asked for and hasn't ended.
#[derive(Clone, Copy)]
pub struct Asking {
    pub key: SaveKey,
    /// The place in which it runs; none while it waits.
    pub place: Option<usize>,
    pub automatic: bool,
    /// The store that its clip is of.
    pub file: u64,
    wanted: bool,
    /// It is to end.
    pub cancelled: bool,
}

/// The saves of the station.
#[derive(Drop)]
pub struct Saving {
    core: Saves,
    list: Vec<Asking>,
    places: usize,
}

// Whether a save is of the clip of an id, of whatever store.
fn is_of_id(asking: &Asking, camera: usize, id: u32) -> bool {
    asking.key.camera == camera && asking.key.id == id
}

// Whether a save reads each clip of a tag, of whatever store.
fn is_of_tag(asking: &Asking, camera: usize, tag: Option<u64>) -> bool {
    asking.key.whole && asking.key.camera == camera && tag == Some(asking.key.tag)
}

// Whether a save is of a clip of a store.
fn is_of(asking: &Asking, key: &SaveKey, file: u64) -> bool {
    asking.file == file && is_same(&asking.key, key)
}

// Whether two clips of a store are the same.
fn is_same(a: &SaveKey, b: &SaveKey) -> bool {
    a.camera == b.camera && a.id == b.id && a.first == b.first && a.last == b.last && a.tag == b.tag
}

impl Saving {
    /// No saves.
    pub fn new(alloc: Global, places: usize) -> Result<Saving, AllocError> {
        Ok(Saving {
            core: Saves::new(alloc, places)?,
            list: Vec::new(alloc),
            places,
        })
    }

    /// How many saves run or wait.
    pub fn len(&self) -> usize {
        self.list.len()
    }

    // Where the save of a place is.
    fn at(&self, place: usize) -> Option<usize> {
        self.list
            .iter()
            .position(|asking| asking.place == Some(place))
    }

    // The first place without a save.
    fn free(&self) -> Option<usize> {
        for place in 0..self.places {
            if self.at(place).is_none() {
                return Some(place);
            }
        }
        None
    }

    // Where the first save that waits is.
    fn first_waiting(&self) -> Option<usize> {
        self.list.iter().position(|asking| asking.place.is_none())
    }

    // Whether a save reads a clip, alone or with the others of its tag, as the list has it.
    fn has_reader(&self, camera: usize, id: u32, tag: Option<u64>) -> bool {
        for asking in self.list.as_slice() {
            if is_of_id(asking, camera, id) || is_of_tag(asking, camera, tag) {
                return true;
            }
        }
        false
    }

    /// Whether there is a save of a clip of a store, as the list has it.
    pub fn has_save(&self, key: &SaveKey, file: u64) -> bool {
        for asking in self.list.as_slice() {
            if is_of(asking, key, file) {
                return true;
            }
        }
        false
    }

    // Whether a clip of a store is being saved by itself, or waits for that. The core says the same.
    fn has_automatic(&self, judge: &mut Judge, key: SaveKey, file: u64) -> bool {
        let mut is_there = false;
        for asking in self.list.as_slice() {
            is_there = is_there
                || asking.automatic && !asking.cancelled && is_of(asking, &key, file);
        }
        judge.holds(
            self.core.has_automatic(key) == is_there,
            "a clip is saved by itself once at a time, and one of another store for itself",
        );
        is_there
    }

    // Whether a clip of a store is to be released once no save is of it.
    fn is_wanted(&self, key: &SaveKey, file: u64) -> bool {
        for asking in self.list.as_slice() {
            if is_of(asking, key, file) && asking.wanted {
                return true;
            }
        }
        false
    }

    // A save goes from the list.
    fn removed(&mut self, at: usize) -> Option<Asking> {
        if at < self.list.len() {
            return Some(self.list.remove(at));
        }
        None
    }

    /// Whether a save reads the clip of an id with this tag, if there is one.
    pub fn is_read(&self, judge: &mut Judge, camera: usize, id: u32, tag: Option<u64>) -> bool {
        let is_read = self.core.is_read(camera, id, tag);
        judge.holds(
            is_read == self.has_reader(camera, id, tag),
            "is_read is as the list says",
        );
        is_read
    }

    /// A save of a clip of a store is asked for. `lacks`: there is no memory for it to wait in. Whether it is taken.
    pub fn ask(
        &mut self,
        judge: &mut Judge,
        key: SaveKey,
        automatic: bool,
        file: u64,
        lacks: bool,
    ) -> bool {
        let free = self.free();
        let answer = self.core.ask(key, automatic);
        judge.holds(
            is_right(answer, free, automatic),
            "a save begins in the first free place, or waits if it is automatic, or is refused",
        );
        if free.is_none() && !automatic {
            return false;
        }
        if free.is_none() && lacks {
            self.core.withdraw();
            return false;
        }
        let wanted = self.is_wanted(&key, file);
        let asking = Asking {
            key,
            place: free,
            automatic,
            file,
            wanted,
            cancelled: false,
        };
        judge.put(&mut self.list, asking);
        true
    }

    /// Asks for a save of each clip that is to be saved, and isn't being saved. How many.
    pub fn ask_all(
        &mut self,
        judge: &mut Judge,
        camera: usize,
        clips: &[Clip],
        file: u64,
        lacks: bool,
    ) -> u64 {
        let mut count = 0u64;
        for clip in clips {
            let key = key_of(camera, clip);
            if clip.unsaved && !self.has_automatic(judge, key, file) {
                let is_taken = self.ask(judge, key, true, file, lacks);
                judge.holds(is_taken || lacks, "an automatic save is never refused");
                count = count.saturating_add(u64::from(is_taken));
            }
        }
        count
    }

    /// The save that runs in a place.
    pub fn running(&self, place: usize) -> Option<Asking> {
        Some(*self.list.get(self.at(place)?)?)
    }

    /// The save of a place has come to an end; `releases`: clips of its camera are released once they are saved.
    /// Whether its clip is to be released now.
    pub fn finish(
        &mut self,
        judge: &mut Judge,
        place: usize,
        end: SaveEnd,
        releases: bool,
    ) -> bool {
        let Some(at) = self.at(place) else {
            return false;
        };
        self.wish(at, end, releases);
        let Some(asking) = self.removed(at) else {
            return false;
        };
        let release = asking.wanted && !self.has_save(&asking.key, asking.file);
        let ended = self.core.finish(place, end, releases);
        judge.holds(
            ended.release == release,
            "the last save of a clip releases it, if that is wanted",
        );
        self.begins(judge, place, ended.begun);
        release
    }

    // A save that began by itself and whose clip is saved wants it released.
    fn wish(&mut self, at: usize, end: SaveEnd, releases: bool) {
        let Some(asking) = self.list.get(at) else {
            return;
        };
        let (key, file, automatic) = (asking.key, asking.file, asking.automatic);
        let is_saved = end == SaveEnd::Whole || end == SaveEnd::Already;
        if automatic && is_saved && releases {
            for asking in self.list.iter_mut() {
                if is_of(asking, &key, file) {
                    asking.wanted = true;
                }
            }
        }
    }

    // The save that begins where another has ended is the first that waits.
    fn begins(&mut self, judge: &mut Judge, place: usize, begun: Option<SaveKey>) {
        let Some(at) = self.first_waiting() else {
            judge.holds(begun.is_none(), "only a save that waits begins");
            return;
        };
        let Some(asking) = self.list.get_mut(at) else {
            return;
        };
        let is_first = match begun {
            Some(key) => is_same(&asking.key, &key),
            None => false,
        };
        judge.holds(
            is_first,
            "the first save that waits begins in a place that is free",
        );
        asking.place = Some(place);
    }

    // The save of a clip that a cancel ends: the first place, or else the first that waits.
    fn to_cancel(&self, camera: usize, id: u32) -> Option<usize> {
        for place in 0..self.places {
            if let Some(asking) = self.running(place) {
                if is_of_id(&asking, camera, id) && !asking.cancelled {
                    return self.at(place);
                }
            }
        }
        self.list.iter().position(|asking| asking.place.is_none() && is_of_id(asking, camera, id))
    }

    /// A save of a clip is to end. The one that waited and has ended by that, and whether its clip is to be released.
    pub fn cancel(&mut self, judge: &mut Judge, camera: usize, id: u32) -> Option<(Asking, bool)> {
        let expected = self.to_cancel(camera, id);
        let answer = self.core.cancel(camera, id);
        let Some(at) = expected else {
            judge.holds(
                matches!(answer, Cancelled::No),
                "only a save that is there is cancelled",
            );
            return None;
        };
        match answer {
            Cancelled::No => judge.holds(false, "a save that can be cancelled is"),
            Cancelled::Running(place) => self.judge_cancelled(judge, at, place),
            Cancelled::Waiting { release } => return self.judge_gone(judge, at, release),
        }
        None
    }

    // The save that runs in a place is cancelled.
    fn judge_cancelled(&mut self, judge: &mut Judge, at: usize, place: usize) {
        judge.holds(
            self.at(place) == Some(at),
            "the first save that runs is cancelled",
        );
        if let Some(asking) = self.list.get_mut(at) {
            asking.cancelled = true;
        }
    }

    // A save that waited has ended.
    fn judge_gone(
        &mut self,
        judge: &mut Judge,
        at: usize,
        release: bool,
    ) -> Option<(Asking, bool)> {
        let asking = self.removed(at)?;
        judge.holds(
            asking.place.is_none(),
            "a save that runs is cancelled before one that waits",
        );
        let due = asking.wanted && !self.has_save(&asking.key, asking.file);
        judge.holds(
            release == due,
            "a cancelled save that was the last releases its clip, if that is wanted",
        );
        Some((asking, release))
    }

    /// The program ends: each save is ended once.
    pub fn stop(&mut self, judge: &mut Judge) {
        for _ in 0..self.list.len().saturating_add(1) {
            let Some(stopped) = self.core.stop() else {
                break;
            };
            self.judge_stopped(judge, &stopped);
        }
        judge.holds(self.list.is_empty(), "a stop ends each save");
    }

    // A save is ended by a stop.
    fn judge_stopped(&mut self, judge: &mut Judge, stopped: &StoppedSave) {
        let at = match stopped.place {
            Some(place) => self.at(place),
            None => self.first_waiting(),
        };
        let is_there = match self.removed(at.unwrap_or(usize::MAX)) {
            Some(asking) => is_same(&asking.key, &stopped.key),
            None => false,
        };
        judge.holds(is_there, "a stop ends the first save that runs or waits");
        if let Some(place) = stopped.place {
            let ended = self.core.finish(place, SaveEnd::Whole, true);
            judge.holds(ended.begun.is_none() && !ended.release, "a save ends once");
        }
    }
}

/// What follows from the end of a save is right: it is tried again a minute later, or told for good.
pub fn judge_after(judge: &mut Judge, end: SaveEnd, asking: &Asking, now: u64) {
    let is_again = asking.automatic && end == SaveEnd::MayPass;
    for told in [false, true] {
        let after = after_save(end, asking.automatic, told, now);
        judge.holds(
            after.again.is_some() == is_again,
            "only a save that began by itself and may succeed later is tried again",
        );
        judge.holds(
            after.again.unwrap_or(now.saturating_add(MINUTE)) == now.saturating_add(MINUTE),
            "a save is tried again a minute later",
        );
        judge.holds(
            (after.line == Some(SaveLine::Waits)) == (is_again && !told),
            "a save that is tried again is told as such once",
        );
        judge.holds(
            (after.line == Some(SaveLine::Saved)) == (end == SaveEnd::Whole),
            "a clip is told as saved where its text is whole",
        );
    }
}

// Whether this is the answer to a save that is asked for, where a place is free or none is.
fn is_right(answer: Asked, free: Option<usize>, automatic: bool) -> bool {
    match answer {
        Asked::Begins(place) => free == Some(place),
        Asked::Waits => free.is_none() && automatic,
        Asked::TooMany => free.is_none() && !automatic,
        Asked::NoMemory | Asked::Stopped => false,
    }
}

// The tag of a clip. All clips of the first camera have one tag, and those of the others that of their event.
fn tag_of(camera: usize, clip: &Clip) -> u64 {
    if camera == 0 { OWN_TAG } else { clip.event }
}

/// The tag of the clip of an id, if there is one.
pub fn tag_in(camera: &Camera, id: u32) -> Option<u64> {
    Some(tag_of(camera.place, &camera.store.clip(id)?))
}

/// The save of a clip.
pub fn key_of(camera: usize, clip: &Clip) -> SaveKey {
    SaveKey {
        camera,
        id: clip.id,
        first: clip.from,
        last: clip.to,
        tag: tag_of(camera, clip),
        time: clip.time,
        whole: false,
    }
}
