//! Keeps: what the core decides of one, and whether that was right by the plain list of frames.

use crate::camera::Camera;
use crate::judge::Judge;
use crate::saving::{Saving, tag_in};
use crate::store::{Clip, MOST_CLIPS, Pieces};
use loop_station_core::{
    EventEnd, Gap, GrowthTurn, Keep, KeepTurn, Look, OpenEvent, Run, ShownClip, event_end,
    kept_answer, next_growth, next_turn, shortfall_of,
};
use std::alloc::Global;

// How many microseconds a keep waits at most while no frame makes progress.
const STUCK: u64 = 60_000_000;

/// A keep that waits, and what the judge knows of it.
#[derive(Drop)]
pub struct Waiting {
    pub camera: usize,
    pub event: u64,
    pub since: u64,
    pub until: u64,
    keep: Keep,
    // How many frames of the list had come when its line was read, and when it had ended.
    came: usize,
    ended: Option<usize>,
    // The newest block when it last locked.
    block: Option<u64>,
    // How often a frame had made progress when it was last looked at, and when one was last seen to.
    moves: u64,
    moved: u64,
    /// Its order, and the camera's place among those that the order means.
    pub order: u64,
    pub place: usize,
    /// It is answered, and goes on.
    pub grows: bool,
    // Clips of it that a longer one covers.
    covered: Vec<u32>,
    // It is locked to its end.
    is_done: bool,
    // A clip was refused.
    refused: bool,
}

/// An event that goes on, as its file has it.
#[derive(Clone, Copy)]
pub struct Noted {
    pub camera: usize,
    pub event: u64,
    pub since: u64,
    pub until: u64,
}

impl Waiting {
    /// The keep of an event whose line was read now; `grows`: it was answered before, and goes on.
    pub fn new(
        alloc: Global,
        camera: &Camera,
        noted: &Noted,
        order: u64,
        place: usize,
        grows: bool,
        now: u64,
    ) -> Waiting {
        let (event, since, until) = (noted.event, noted.since, noted.until);
        let come = camera.come(until.min(now));
        let came = camera.frames.len();
        let asked = OpenEvent {
            event,
            since,
            until,
            tag: event,
        };
        Waiting {
            camera: camera.place,
            event,
            since,
            until,
            keep: Keep::new(asked, now, come, &camera.tally),
            came,
            ended: if until <= now { Some(came) } else { None },
            block: None,
            moves: camera.moves,
            moved: now,
            order,
            place,
            grows,
            covered: Vec::new(alloc),
            is_done: false,
            refused: false,
        }
    }

    /// As the file of events has it.
    pub fn noted(&self) -> Noted {
        Noted {
            camera: self.camera,
            event: self.event,
            since: self.since,
            until: self.until,
        }
    }

    /// What is done of it next, once it grows.
    pub fn growth(&self, judge: &mut Judge, now: u64, stopping: bool) -> GrowthTurn {
        let covered = !self.covered.is_empty();
        let turn = next_growth(covered, self.is_done, stopping, now, self.until);
        let later = stopping && now < self.until;
        judge.holds(
            match turn {
                GrowthTurn::Release => covered,
                GrowthTurn::End => !covered && self.is_done,
                GrowthTurn::Leave => !covered && !self.is_done && later,
                GrowthTurn::Keep => !covered && !self.is_done && !later,
            },
            "covered clips go first; then an event ends, is left at a stop, or goes on",
        );
        turn
    }

    /// Its camera's store was moved away, and is made anew: nothing of it is locked there.
    pub fn begins_anew(&mut self) {
        self.keep = self.keep.anew();
        self.block = None;
        self.covered.clear();
    }

    /// A clip that a longer one covers is released, unless a save reads it.
    pub fn release_covered(&mut self, judge: &mut Judge, camera: &mut Camera, saving: &Saving) {
        let Some(part) = self.next_covered(camera) else {
            return;
        };
        let is_read = saving.is_read(judge, self.camera, part.id, tag_in(camera, part.id));
        for id in 0..MOST_CLIPS {
            let Some(longer) = self.clip_in(camera, id) else {
                continue;
            };
            let leave = part.leave_for_part(is_read, longer);
            judge.holds(
                leave.is_some() == (!is_read && lies_within(part, &[longer])),
                "a part is released where a longer clip covers it and no save reads it",
            );
            if let Some(leave) = leave {
                camera.store.unlock(judge, leave);
                return;
            }
        }
    }

    // The next clip of it that a longer one covered, if it is there still.
    fn next_covered(&mut self, camera: &Camera) -> Option<ShownClip> {
        let id = self.covered.pop()?;
        self.clip_in(camera, id)
    }

    // The clip of an id, if it is one of the event.
    fn clip_in(&self, camera: &Camera, id: u32) -> Option<ShownClip> {
        match camera.store.clip(id) {
            Some(clip) if clip.event == self.event => Some(clip.shown()),
            _ => None,
        }
    }

    /// It is locked to its end.
    pub fn ends(&mut self) {
        self.is_done = true;
    }

    /// Lets the core decide what it does now, and judges that.
    pub fn turn(
        &mut self,
        judge: &mut Judge,
        camera: &Camera,
        now: u64,
        stopping: bool,
    ) -> KeepTurn {
        let look = Look {
            tally: camera.tally,
            time: now,
            come: camera.come(self.until.min(now)),
            block: camera.store.newest(),
            locked: camera.locked,
            stopping,
        };
        let (keep, turn) = next_turn(self.keep, &look);
        self.keep = keep;
        judge.holds(
            keep.event == self.event && keep.since == self.since && keep.until == self.until,
            "a keep's times are those of its line",
        );
        self.sees(camera, now);
        match turn {
            KeepTurn::Wait => self.judge_wait(judge, camera, now, stopping),
            KeepTurn::Part { until } => self.judge_part(judge, camera, now, until),
            KeepTurn::Whole => self.judge_whole(judge, camera, now, stopping),
        }
        turn
    }

    // Notes whether a frame made progress, and how many had come when its end was over.
    fn sees(&mut self, camera: &Camera, now: u64) {
        if self.moves != camera.moves {
            self.moves = camera.moves;
            self.moved = now;
        }
        if self.ended.is_none() && self.until <= now {
            self.ended = Some(camera.frames.len());
        }
    }

    // It locks only once each frame that had come before its line is at the desk.
    fn judge_lock(&self, judge: &mut Judge, camera: &Camera, now: u64) {
        let is_stuck = camera.locked || now.saturating_sub(camera.progress) > STUCK;
        judge.holds(
            is_stuck || camera.is_brought(self.came, self.until),
            "a keep locks only once each frame that had come before its line is at the desk",
        );
    }

    // It locks what is there, and goes on.
    fn judge_part(&mut self, judge: &mut Judge, camera: &Camera, now: u64, until: u64) {
        let block = camera.store.newest();
        judge.holds(
            until == now.min(self.until),
            "a part ends now, or where the keep does",
        );
        judge.holds(
            self.block != Some(block),
            "a part is locked again only once there is a new block",
        );
        self.block = Some(block);
        self.judge_lock(judge, camera, now);
    }

    // It locks all that there will be, and is done.
    fn judge_whole(&self, judge: &mut Judge, camera: &Camera, now: u64, stopping: bool) {
        judge.holds(
            self.until <= now || stopping,
            "a keep is whole only once its end has passed",
        );
        self.judge_lock(judge, camera, now);
        let is_stuck = camera.locked || now.saturating_sub(camera.progress) > STUCK;
        judge.holds(
            is_stuck || camera.is_brought(usize::MAX, self.until),
            "a keep is whole only once each frame up to its end is at the desk",
        );
    }

    // It waits only as long as it has to.
    fn judge_wait(&self, judge: &mut Judge, camera: &Camera, now: u64, stopping: bool) {
        let is_stuck = camera.locked || now.saturating_sub(self.moved) > STUCK;
        let is_due = is_stuck || camera.brought >= self.came;
        judge.holds(
            !is_due || self.block == Some(camera.store.newest()),
            "a keep locks as soon as it may",
        );
        let all = match self.ended {
            Some(ended) => ended,
            None if stopping => camera.frames.len(),
            None => usize::MAX,
        };
        judge.holds(
            !(camera.brought >= all || is_stuck && all < usize::MAX),
            "a keep is whole as soon as it may be",
        );
    }

    /// Locks what is held of its time up to a time. The event's clips that lie within the new ones are to be released.
    pub fn lock(
        &mut self,
        alloc: Global,
        judge: &mut Judge,
        camera: &mut Camera,
        until: u64,
    ) -> Pieces {
        let pieces = camera.store.pieces(alloc, judge, self.since, until);
        let mut locked = Vec::new(alloc);
        for span in pieces.spans.as_slice() {
            match camera.store.holds_span(judge, self.event, *span) {
                Some(clip) => judge.put(&mut locked, clip),
                None => self.refused = true,
            }
        }
        for id in 0..MOST_CLIPS {
            if let Some(clip) = camera.store.clip(id) {
                self.cover(judge, &clip, locked.as_slice());
            }
        }
        pieces
    }

    // A clip, judged: one of the event is to be released where it lies within a new one.
    fn cover(&mut self, judge: &mut Judge, clip: &Clip, locked: &[ShownClip]) {
        let covered = locked.iter().any(|new| clip.shown().is_covered_by(*new));
        judge.holds(
            covered == lies_within(clip.shown(), locked),
            "a clip is covered where it lies within a new one",
        );
        if clip.event == self.event && covered {
            judge.put(&mut self.covered, clip.id);
        }
    }

    /// With how many lines it is answered, of so many clips and gaps; `whole`: nothing of its time lies ahead.
    pub fn answer(&self, judge: &mut Judge, clips: usize, gaps: u64, whole: bool) -> u64 {
        let answer = kept_answer(clips, self.refused, whole);
        judge.holds(
            answer.none == (clips < 1 && !self.refused)
                && answer.held == (clips > 0 && whole)
                && answer.begun != whole,
            "a keep is answered by what it has locked",
        );
        let held = if answer.held && gaps > 0 {
            gaps.saturating_add(1)
        } else {
            0
        };
        (clips as u64)
            .saturating_add(u64::from(answer.none))
            .saturating_add(u64::from(self.refused))
            .saturating_add(u64::from(answer.begun))
            .saturating_add(held)
    }

    /// How its event is told to have ended is right.
    pub fn judge_end(&self, judge: &mut Judge, gaps: u64) {
        let right = match event_end(self.refused, gaps < 1) {
            EventEnd::Whole => !self.refused && gaps < 1,
            EventEnd::Refused => self.refused,
            EventEnd::Gaps => !self.refused && gaps > 0,
        };
        judge.holds(right, "an event is told as whole where it is");
    }
}

// Whether a clip lies within another one.
fn lies_within(clip: ShownClip, others: &[ShownClip]) -> bool {
    for other in others {
        if other.id != clip.id && other.from <= clip.from && clip.to <= other.to {
            return true;
        }
    }
    false
}

/// What is missing of a keep's time, judged: each gap is one, and what is held and missing is all. How many gaps.
pub fn judge_shortfall(
    alloc: Global,
    judge: &mut Judge,
    keep: &Waiting,
    runs: &[Run],
    period: u64,
) -> u64 {
    let (since, until) = (keep.since, keep.until);
    let Ok(short) = shortfall_of(alloc, runs, since, until, period) else {
        judge.holds(false, "there is memory");
        return 0;
    };
    judge.holds(
        short.asked == until.saturating_sub(since),
        "what was asked for is the time",
    );
    let (mut missing, mut lost) = (0u64, 0u64);
    for gap in short.gaps.as_slice() {
        missing = missing.saturating_add(gap.micros);
        lost = lost.saturating_add(gap.lost);
        judge_gap(judge, runs, gap, period);
    }
    judge.holds(
        short.lost == lost && lost == lost_of(runs),
        "each lost frame is told",
    );
    judge.holds(
        short.held.saturating_add(missing) == short.asked,
        "what is held and what is missing is all",
    );
    let count = count_gaps(runs, since, until, period);
    judge.holds(short.gaps.len() as u64 == count, "each gap is told");
    count
}

// How many frames are lost between runs.
fn lost_of(runs: &[Run]) -> u64 {
    let mut lost = 0u64;
    for run in runs {
        lost = lost.saturating_add(run.lost);
    }
    lost
}

// Nothing is held within a gap, and frames are lost in it, or it is long.
fn judge_gap(judge: &mut Judge, runs: &[Run], gap: &Gap, period: u64) {
    judge.holds(
        gap.lost > 0 || gap.micros > period.saturating_add(period / 2),
        "a gap is longer than a period and a half, or frames are lost in it",
    );
    let end = gap.at.saturating_add(gap.micros);
    for run in runs {
        judge.holds(
            run.last <= gap.at || end <= run.first,
            "nothing is held within a gap",
        );
    }
}

// How many places there are where frames are lost, or nothing is held for long.
fn count_gaps(runs: &[Run], since: u64, until: u64, period: u64) -> u64 {
    let most = period.saturating_add(period / 2);
    let mut at = since;
    let mut gaps = 0u64;
    for run in runs {
        if run.lost > 0 || run.first.saturating_sub(at) > most {
            gaps = gaps.saturating_add(1);
        }
        at = run.last;
    }
    if until.saturating_sub(at) > most {
        gaps = gaps.saturating_add(1);
    }
    gaps
}
