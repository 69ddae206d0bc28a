//! The orders of clips that a camera does, and what follows where its store isn't there any more.

use super::Station;
use crate::camera::Camera;
use crate::keeping::Waiting;
use crate::ordering::Wish;
use crate::saving::{key_of, tag_in};
use crate::store::MOST_CLIPS;
use loop_station_core::{MayRelease, MayUnlock, SaveKey, may_release, may_release_saved};

impl Station {
    // An order comes to a camera. One that isn't taken in is answered at once.
    fn order(&mut self, camera: &mut Camera, wish: Wish) {
        if camera.orders.add(&mut self.judge, wish) {
            self.counts.orders = self.counts.orders.saturating_add(1);
        } else {
            self.counts.lines = self.counts.lines.saturating_add(1);
        }
    }

    // A camera does its next order, if one waits.
    pub(super) fn order_turns(&mut self, camera: &mut Camera) {
        match camera.orders.take(&mut self.judge) {
            Some(Wish::Release(id, asked)) => self.release_ordered(camera, id, asked),
            Some(Wish::ReleaseSaved(saved, file)) => self.release_saved(camera, saved, file),
            Some(Wish::Save(id, whole)) => self.save_ordered(camera, id, whole),
            Some(Wish::Cancel(id)) => self.cancel_ordered(camera, id),
            None => {}
        }
        camera.orders.done(&mut self.judge);
    }

    // A writer orders something of a clip.
    pub(super) fn clip_ordered(&mut self, camera: &mut Camera) {
        let Some(clip) = camera.store.any_clip(self.random.next()) else {
            return;
        };
        let wish = match self.random.below(8) {
            0..=3 => Wish::Release(clip.id, self.said_first(clip.from)),
            4 | 5 => Wish::Save(clip.id, false),
            6 => Wish::Save(clip.id, true),
            _ => Wish::Cancel(clip.id),
        };
        self.order(camera, wish);
    }

    // More orders come to a camera at once than may wait.
    pub(super) fn many_ordered(&mut self, camera: &mut Camera) {
        for _ in 0..self.random.between(200, 300) {
            self.order(camera, Wish::Cancel(MOST_CLIPS));
        }
    }

    // With which frame an order to release a clip says that it begins: half of these orders do, and some are wrong.
    fn said_first(&mut self, first: u64) -> Option<u64> {
        match self.random.below(4) {
            0 => Some(first),
            1 => Some(first.saturating_add(1)),
            _ => None,
        }
    }

    // A save of the clip of an id is ordered, if there is one; `whole`: with all others of its tag.
    fn save_ordered(&mut self, camera: &Camera, id: u32, whole: bool) {
        if let Some(clip) = camera.store.clip(id) {
            let key = SaveKey {
                whole,
                ..key_of(camera.place, &clip)
            };
            let is_taken = self
                .saving
                .ask(&mut self.judge, key, false, camera.file, false);
            self.counts.saves = self.counts.saves.saturating_add(u64::from(is_taken));
        }
    }

    // The release of a clip is ordered by its id, and maybe by the frame with which it has to begin.
    fn release_ordered(&mut self, camera: &mut Camera, id: u32, asked: Option<u64>) {
        let tag = tag_in(camera, id);
        let is_read = self.saving.is_read(&mut self.judge, camera.place, id, tag);
        let is_meant = match asked {
            Some(asked) => camera.store.begins_with(id, asked),
            None => true,
        };
        let there = camera.store.clip(id);
        let leave = leave_in(may_release(is_read, asked, there.map(|clip| clip.shown())));
        self.judge.holds(
            leave.is_some() == (there.is_some() && is_meant && !is_read),
            "an order releases the clip that it means, unless a save reads it",
        );
        if let Some(leave) = leave {
            camera.store.unlock(&mut self.judge, leave);
        }
    }

    // A save of a clip is cancelled.
    fn cancel_ordered(&mut self, camera: &mut Camera, id: u32) {
        let Some((asking, is_released)) = self.saving.cancel(&mut self.judge, camera.place, id)
        else {
            return;
        };
        if asking.file == camera.file {
            camera.store.mark_saved(id);
        }
        if is_released {
            self.release(camera, asking.key, asking.file);
        }
    }

    // A clip of a store is released, since it is saved and no save is of it: by an order, which nobody waits for.
    pub(super) fn release(&mut self, camera: &mut Camera, saved: SaveKey, file: u64) {
        let has_save = self.saving.has_save(&saved, file);
        self.judge.holds(!has_save, "a clip of which there is a save isn't released");
        self.order(camera, Wish::ReleaseSaved(saved, file));
    }

    // A clip that was saved is released, if it is still there.
    fn release_saved(&mut self, camera: &mut Camera, saved: SaveKey, file: u64) {
        let tag = Some(saved.tag);
        let is_read = self
            .saving
            .is_read(&mut self.judge, camera.place, saved.id, tag);
        let there = match camera.store.clip(saved.id) {
            Some(clip) => Some(key_of(camera.place, &clip)),
            None => None,
        };
        let is_there = match there {
            Some(clip) => {
                file == camera.file
                    && clip.first == saved.first
                    && clip.last == saved.last
                    && clip.tag == saved.tag
            }
            None => false,
        };
        let leave = leave_in(may_release_saved(is_read, saved, there));
        self.judge.holds(
            leave.is_some() == (is_there && !is_read),
            "the clip that was saved is released, and none of another store",
        );
        if let Some(leave) = leave {
            camera.store.unlock(&mut self.judge, leave);
        }
    }

    // A camera's disk fails: its store is opened again later.
    pub(super) fn disk_fails(&mut self, camera: &mut Camera) {
        if camera.open {
            camera.fails(&mut self.random, self.now);
            self.store_leaves(camera);
        }
    }

    // Somebody looks whether a camera's store is where it belongs. One that was moved away is made anew: events go on
    // there.
    pub(super) fn look_for_store(&mut self, camera: &mut Camera) {
        if !camera.is_moved(&mut self.judge) {
            return;
        }
        camera.moves(self.alloc, &mut self.judge, self.now);
        self.counts.moves = self.counts.moves.saturating_add(1);
        self.store_leaves(camera);
        for keep in self.keeps.iter_mut() {
            if keep.camera == camera.place {
                keep.begins_anew();
            }
        }
    }

    // A camera's store isn't there: the orders that wait, and the keeps that wait for frames, are answered so.
    fn store_leaves(&mut self, camera: &mut Camera) {
        let lines = camera.orders.leave(&mut self.judge);
        self.counts.lines = self.counts.lines.saturating_add(lines);
        let mut at = 0usize;
        for _ in 0..self.keeps.len() {
            let waits = match self.keeps.get(at) {
                Some(keep) => keep.camera == camera.place && !keep.grows,
                None => false,
            };
            if waits {
                let keep = self.keeps.remove(at);
                self.answer_absent(&keep);
            } else {
                at = at.saturating_add(1);
            }
        }
    }

    // A keep is answered by that its camera's store isn't there.
    pub(super) fn answer_absent(&mut self, keep: &Waiting) {
        self.answer(keep.order, keep.place, 1);
        self.counts.answered = self.counts.answered.saturating_add(1);
    }
}

// The leave in an answer.
fn leave_in(answer: MayRelease) -> Option<MayUnlock> {
    match answer {
        MayRelease::Now(leave) => Some(leave),
        MayRelease::Saving | MayRelease::Other(_) | MayRelease::NoClip => None,
    }
}
