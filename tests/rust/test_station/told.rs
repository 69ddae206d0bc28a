//! What was told of a camera, and whether that was right.

use crate::judge::Judge;
use loop_station_core::{
    Change, Changes, DiskSeen, KINDS, NOT_THERE_YET, Reported, Seen, SourceSeen, StoreSeen,
};

/// What was told of a camera since the program began, as its lines have it.
#[derive(Drop)]
pub struct Told {
    core: Reported,
    began: u64,
    /// How many lines.
    pub lines: u64,
    /// How many lost frames.
    pub lost: u64,
    lost_at: u64,
    source: Option<SourceSeen>,
    store: StoreSeen,
    locked: bool,
    nearly: bool,
    behind: u64,
    // When a wait for memory began, as long as it isn't over, when it was last seen, and how much of it was told.
    waits: Option<u64>,
    waited: u64,
    waited_told: u64,
    // The cause of an unusable source, the quarters of a store that is made, and whether the disk's speed was told.
    unusable: Option<u32>,
    making: Option<u32>,
    disk: bool,
}

impl Told {
    /// Nothing was told yet.
    pub fn new(now: u64) -> Told {
        Told {
            core: Reported::new(now),
            began: now,
            lines: 0,
            lost: 0,
            lost_at: 0,
            source: None,
            store: StoreSeen::Unknown,
            locked: false,
            nearly: false,
            behind: 0,
            waits: None,
            waited: 0,
            waited_told: 0,
            unusable: None,
            making: None,
            disk: false,
        }
    }

    /// Looks at a camera, and judges what is told of it.
    pub fn look(&mut self, judge: &mut Judge, seen: &Seen) {
        let (core, changes) = self.core.next(seen);
        self.core = core;
        self.lines = self.lines.saturating_add(count(&changes));
        let early = seen.now < self.began.saturating_add(1_000_000);
        self.source = judge_source(judge, self.source, seen.source, early, changes.source);
        self.store = judge_store(judge, self.store, seen.store, early, changes.store);
        judge_locked(judge, self.locked, seen.locked, changes.locked);
        self.locked = seen.locked;
        self.nearly = judge_nearly(judge, self.nearly, seen, changes.nearly);
        self.behind = judge_behind(judge, self.behind, seen.behind, changes.behind);
        self.judge_lost(judge, seen, changes.given_up);
        self.judge_waits(judge, seen, changes.waited);
        self.unusable = judge_unusable(judge, self.unusable, seen, changes.unusable);
        self.making = judge_making(judge, self.making, seen.store, changes.making);
        self.disk = judge_disk(judge, self.disk, seen.disk, &changes);
    }

    // Each lost frame is told once, a second after others at the latest.
    fn judge_lost(&mut self, judge: &mut Judge, seen: &Seen, line: Option<Change>) {
        let is_second = seen.now >= self.lost_at.saturating_add(1_000_000);
        let Some(line) = line else {
            judge.holds(
                self.lost == seen.lost || !is_second && !seen.stopping,
                "lost frames are told within a second, and at the end",
            );
            return;
        };
        let (frames, since) = match line {
            Change::GivenUp { frames, since } => (frames, since),
            _ => (0, u64::MAX),
        };
        judge.holds(
            frames > 0 && since <= seen.now,
            "lost frames are told with a time that was",
        );
        judge.holds(
            seen.stopping || self.lost_at == 0 || is_second,
            "lost frames are told at most once a second",
        );
        self.lost = self.lost.saturating_add(frames);
        self.lost_at = seen.now;
        judge.holds(self.lost == seen.lost, "each lost frame is told once");
    }

    // A wait for memory is told from a second on each time that it has doubled, and once it is over.
    fn judge_waits(&mut self, judge: &mut Judge, seen: &Seen, line: Option<Change>) {
        let since = match self.waits {
            Some(since) => Some(since),
            None => seen.waited,
        };
        let Some(since) = since else {
            judge.holds(line.is_none(), "a wait is told only where there was one");
            return;
        };
        if seen.waited.is_some() {
            self.waits = Some(since);
            self.waited = seen.now;
        }
        let long = self.waited.saturating_sub(since);
        judge.holds(is_so(line, long, since), "a wait is told as long as it was");
        if seen.waited.is_some() {
            self.judge_goes_on(judge, line.is_some(), long);
        } else {
            self.judge_over(judge, seen, line.is_some(), long);
        }
    }

    // A wait for memory goes on.
    fn judge_goes_on(&mut self, judge: &mut Judge, told: bool, long: u64) {
        judge.holds(
            told == (long >= 1_000_000 && long / 2 >= self.waited_told),
            "a wait is told from a second on, each time that it has doubled",
        );
        if told {
            self.waited_told = long;
        }
    }

    // No wait is seen any more.
    fn judge_over(&mut self, judge: &mut Judge, seen: &Seen, told: bool, long: u64) {
        let over = seen.now.saturating_sub(self.waited) >= 1_000_000 || seen.stopping;
        judge.holds(
            told == (over && long >= 100_000 && long > self.waited_told),
            "a wait is told once it is over, if it was longer than was told",
        );
        if over {
            self.waits = None;
            self.waited_told = 0;
        }
    }
}

// Whether a line says of a wait, if it does, how long it was.
fn is_so(line: Option<Change>, long: u64, from: u64) -> bool {
    match line {
        None => true,
        Some(Change::Waited { micros, since }) => micros == long && since == from,
        _ => false,
    }
}

// How many lines there are.
fn count(changes: &Changes) -> u64 {
    let mut count = 0u64;
    for kind in 0..KINDS {
        if changes.at(kind).is_some() {
            count = count.saturating_add(1);
        }
    }
    count
}

// A source's line says what it has become. What is known of the source then.
fn judge_source(
    judge: &mut Judge,
    known: Option<SourceSeen>,
    seen: SourceSeen,
    early: bool,
    line: Option<Change>,
) -> Option<SourceSeen> {
    if known.is_none() && early && seen == SourceSeen::Missing {
        judge.holds(line.is_none(), "a source may come in the first second");
        return None;
    }
    let changed = known != Some(seen);
    let right = match line {
        None => !changed || seen == SourceSeen::Other || seen == SourceSeen::Unusable,
        Some(Change::SourceOn) => changed && seen == SourceSeen::On,
        Some(Change::SourceMissing) => changed && seen == SourceSeen::Missing,
        Some(Change::SourceSilent) => changed && seen == SourceSeen::Silent,
        _ => false,
    };
    judge.holds(right, "a source's line says what it has become");
    Some(seen)
}

// A store's line says what it has become. What is known of the store then.
fn judge_store(
    judge: &mut Judge,
    known: StoreSeen,
    seen: StoreSeen,
    early: bool,
    line: Option<Change>,
) -> StoreSeen {
    let soon = early && seen == StoreSeen::Absent(NOT_THERE_YET);
    let quiet = matches!(
        seen,
        StoreSeen::Unknown | StoreSeen::Making(_) | StoreSeen::Stopped
    ) || soon;
    if quiet || known == seen {
        judge.holds(line.is_none(), "a store that hasn't changed has no line");
        return known;
    }
    let right = match (line, seen) {
        (Some(Change::StoreOpen), StoreSeen::Open) => true,
        (Some(Change::StoreAbsent(cause)), StoreSeen::Absent(why)) => cause == why,
        _ => false,
    };
    judge.holds(right, "a store's line says what it has become");
    seen
}

// All locked and room again alternate.
fn judge_locked(judge: &mut Judge, known: bool, seen: bool, line: Option<Change>) {
    let right = match line {
        None => known == seen,
        Some(Change::AllLocked) => !known && seen,
        Some(Change::RoomAgain) => known && !seen,
        _ => false,
    };
    judge.holds(
        right,
        "that all is locked is told when it is so, and that it isn't any more",
    );
}

// Four of five blocks are locked. Whether that is known then.
fn judge_nearly(judge: &mut Judge, known: bool, seen: &Seen, line: Option<Change>) -> bool {
    let locked = seen.blocks.saturating_sub(seen.room);
    let many = seen.blocks > 0 && locked.saturating_mul(100) >= seen.blocks.saturating_mul(80);
    let few = seen.blocks > 0 && locked.saturating_mul(100) < seen.blocks.saturating_mul(70);
    let right = match line {
        None => known || !many,
        Some(Change::NearlyAllLocked) => !known && many,
        _ => false,
    };
    judge.holds(right, "that four of five blocks are locked is told once");
    many || known && !few
}

// The disk is behind. How far it was told to be then.
fn judge_behind(judge: &mut Judge, known: u64, seen: u64, line: Option<Change>) -> u64 {
    let due = if known == 0 {
        seen > 1_000_000
    } else {
        seen >= 500_000 && seen / 2 >= known
    };
    let over = known > 0 && seen < 500_000;
    let (right, next) = match line {
        None => (!due && !over, known),
        Some(Change::Behind(micros)) => (due && micros == seen, seen),
        Some(Change::CaughtUp) => (over, 0),
        _ => (false, known),
    };
    judge.holds(
        right,
        "behind is told from a second on and when it has doubled, and that it is below half a second",
    );
    next
}

// An unusable source is told for each other cause, and again once its frames could be had. The cause that is known
// then.
fn judge_unusable(
    judge: &mut Judge,
    known: Option<u32>,
    seen: &Seen,
    line: Option<Change>,
) -> Option<u32> {
    let next = match seen.source {
        SourceSeen::Unusable => Some(seen.unusable),
        SourceSeen::Missing => known,
        SourceSeen::On | SourceSeen::Silent | SourceSeen::Other => None,
    };
    let due = seen.source == SourceSeen::Unusable && known != next;
    let right = match line {
        None => !due,
        Some(Change::SourceUnusable(why)) => due && why == seen.unusable,
        _ => false,
    };
    judge.holds(right, "an unusable source is told once for each cause");
    next
}

// A store that is made is told once for each quarter. The quarter that is known then.
fn judge_making(
    judge: &mut Judge,
    known: Option<u32>,
    seen: StoreSeen,
    line: Option<Change>,
) -> Option<u32> {
    let StoreSeen::Making(percent) = seen else {
        judge.holds(line.is_none(), "a store is made only while it is");
        return None;
    };
    let quarter = match percent {
        0..=24 => 0,
        25..=49 => 1,
        50..=74 => 2,
        75..=99 => 3,
        _ => 4,
    };
    let right = match line {
        None => known == Some(quarter),
        Some(Change::Made(made)) => known != Some(quarter) && made == percent,
        _ => false,
    };
    judge.holds(right, "a store that is made is told once for each quarter");
    Some(quarter)
}

// How fast the disk is, is told once, and then whether it is too slow. Whether it was told then.
fn judge_disk(judge: &mut Judge, known: bool, seen: Option<DiskSeen>, changes: &Changes) -> bool {
    let Some(disk) = seen else {
        judge.holds(
            changes.syncs.is_none() && changes.slow.is_none(),
            "a disk is told once it is measured",
        );
        return known;
    };
    let told = match changes.syncs {
        None => known,
        Some(Change::Syncs(micros)) => !known && micros == disk.sync,
        _ => false,
    };
    judge.holds(told, "how fast a disk is, is told once");
    // A flush of so many frames takes two syncs.
    let flush = disk.sync.max(1).saturating_mul(2);
    let second = u64::from(disk.group).saturating_mul(1_000_000);
    let frames = second.checked_div(flush).unwrap_or(0);
    let wanted = u64::from(disk.rate_num);
    let slow = frames.saturating_mul(u64::from(disk.rate_den)) < wanted;
    let right = match changes.slow {
        None => known || !slow,
        Some(
            Change::TooSlow {
                micros,
                frames: most,
            },
        ) => { !known && slow && micros == disk.sync && most == frames }
        _ => false,
    };
    judge.holds(right, "a disk that is too slow for its source is told once");
    true
}
