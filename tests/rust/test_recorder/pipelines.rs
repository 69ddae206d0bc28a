//! Cameras that are filmed, by turns and by threads, into a disk that takes all and into one that fails; what is kept,
//! read and unlocked meanwhile; and the text of what was filmed.

use crate::common::*;
use loop_capture::{Device, Pattern, Tick};
use loop_desk::{Desk, Flushed, Hand, LaneFault};
use loop_disk::{Disk, FuseDisk, MemDisk};
use loop_lane::{LostFrames, Numbers, film_and_export};
use loop_pipeline::{
    Back, Begun, Brought, Camera, CameraEnd, Desks, Front, Guide, GuidedCamera, Leave, Link,
    LostFrame, Noting, Outcome, Reports, Seat, Shot, TakeOutcome, Taken, Told, Unlocks, Visits, end,
    film_all, film_camera, heap_start, new_queue, start_queue,
};
use loop_plane::{FdTable, HeapPlane, PlaneMemory};
use loop_record::{Frame, Span, Times};
use loop_recorder::FrameInfo;
use loop_store::{Clip, Store, StoreFault};
use loop_vb2::Queue;
use rtrb::{Consumer, RingBuffer};
use std::alloc::Global;
use std::process::Abort;
use std::sync::Wait;
use std::sync::atomic::{AtomicU64, Ordering};
use std::thread;
use std::thread::Threads;
use std::time::Clock;

// How many ticks there are from a first one on, each a millisecond after the one before; and what the threads reported.
#[derive(Drop)]
struct Guided {
    ticks: u64,
    first: u64,
    brought: AtomicU64,
    gave_up: AtomicU64,
    stored: AtomicU64,
    // Clips that a visitor locked, of all frames that were held then.
    clips: AtomicU64,
}

// A guide with no reports yet.
fn guide(ticks: u64, first: u64) -> Guided {
    Guided {
        ticks,
        first,
        brought: AtomicU64::new(0),
        gave_up: AtomicU64::new(0),
        stored: AtomicU64::new(0),
        clips: AtomicU64::new(0),
    }
}

impl Noting for Guided {
    ghost NOTED = { ? };

    const NOTED: bool = false;
}

impl Visits for Guided {
    ghost asks = { ? };

    const VISITED: bool = true;
}

// Leave to unlock a clip.
#[derive(Drop)]
struct AnyLeave {
    clip: Clip,
}

impl Leave for AnyLeave {
    ghost id = { ? };

    ghost clip = { ? };

    fn id(&self) -> u32 {
        self.clip.id
    }

    fn clip(&self) -> Span {
        let Clip { from, to, tag, .. } = self.clip;
        Span { from, to, tag }
    }
}

impl Unlocks for Guided {
    type Leave = AnyLeave;
}

impl Reports for Guided {
    fn brought<R: Wait, D: Disk + Drop>(
        &self,
        _rt: &R,
        _back: &Back<D, Guided>,
        _number: Told<u64>,
    ) {
        self.brought.fetch_add(1, Ordering::SeqCst);
    }

    fn gave_up<R: Wait, D: Disk + Drop>(
        &self,
        _rt: &R,
        _back: &Back<D, Guided>,
        _frame: Told<LostFrame>,
    ) {
        self.gave_up.fetch_add(1, Ordering::SeqCst);
    }

    fn stored<R: Wait, D: Disk + Drop>(
        &self,
        _rt: &R,
        _back: &Back<D, Guided>,
        done: Told<Flushed>,
    ) {
        self.stored
            .fetch_add(u64::from(done.what().stored), Ordering::SeqCst);
    }

    fn flushes_again<R: Wait>(&self, _rt: &R, _fault: StoreFault) -> bool {
        false
    }
}

impl Guide for Guided {
    fn next_tick<R: Wait + Clock>(&self, _rt: &R, n: u64) -> Option<u64> {
        if n >= self.ticks {
            return None;
        }
        Some(n.saturating_add(self.first).saturating_mul(1_000))
    }

    /// Once two frames or more are held, a visitor locks them and unlocks them again, once.
    fn visit<R: Wait + Clock, D: Disk + Drop>(
        &self,
        _rt: &R,
        alloc: Global,
        desks: &mut Desks<D, Guided>,
    ) {
        let place = desks.active();
        if self.clips.load(Ordering::SeqCst) > 0 || desks.status(place).held < 2 {
            return;
        }
        let kept = desks.keep(alloc, place, ALL, 7);
        if let Some(clip) = kept.clips.first() {
            if desks.unlock_clip(place, AnyLeave { clip: *clip }).is_ok() {
                self.clips.store(kept.clips.len() as u64, Ordering::SeqCst);
            }
        }
    }
}

// All times.
const ALL: Times = Times {
    since: 0,
    until: u64::MAX,
};

type Fused = FuseDisk<MemDisk>;

type TestCamera = Camera<Pattern, Fused, HeapPlane, Guided>;

type TestEnded = CameraEnd<Pattern, Fused, HeapPlane, Guided>;

// A queue that streams, with four buffers in the application's memory.
fn streaming(rt: &impl Abort, alloc: Global) -> (Queue<HeapPlane>, FdTable<HeapPlane>) {
    let (mut queue, mut table) = new_queue(alloc, &SMALL);
    let Ok(start) = heap_start(alloc, &queue, 4) else {
        panic!(rt; "memory for buffers")
    };
    assert!(rt; start_queue(&mut queue, &mut table, start).is_ok());
    (queue, table)
}

// A device of the pattern's frames.
fn device(rt: &impl Abort, alloc: Global) -> Device<Pattern> {
    match Device::new(alloc, Pattern::new(), 12) {
        Ok(device) => device,
        Err(_) => panic!(rt; "memory for a frame"),
    }
}

// A camera before a store on a disk that passes this many calls; None where so few can't open the store.
fn camera(rt: &impl Abort, alloc: Global, passed: u64) -> Option<TestCamera> {
    let disk = FuseDisk::new(MemDisk::of(image(rt, alloc, 0)), passed);
    let store = Store::open(alloc, disk).ok()?;
    let desk = desk_of(rt, alloc, store, limits(2, 1_000_000));
    let (queue, table) = streaming(rt, alloc);
    Some(Camera::new(device(rt, alloc), queue, table, desk))
}

// Films a camera in a scope of its own.
fn film<R: Threads + Wait + Clock + Abort + Sync>(
    rt: &R,
    alloc: Global,
    link: &Link,
    guide: &Guided,
    camera: TestCamera,
) -> TestEnded {
    let (rt, link, guide) = (&*rt, &*link, &*guide);
    thread::scope(thread::scope_env(), rt, move |scope| -> TestEnded {
        match film_camera(rt, alloc, scope, link, guide, camera) {
            Ok(ended) => ended,
            Err(_) => panic!(rt; "no camera was filmed"),
        }
    })
}

// Checks that a desk holds the frame of a number, which is the pattern's, at the time of its tick.
fn has_frame(rt: &impl Abort, alloc: Global, desk: &mut Seat<Fused, Guided>, number: u32) {
    match desk.read_frame(alloc, u64::from(number)) {
        None => panic!(rt; "frame {number}: not asked"),
        Some(Ok(read)) => {
            assert!(rt; are_of(&read.bytes, number, 12), "{number:?}");
            assert_eq!(rt;
                read.head.timestamp,
                u64::from(number) * 1_000,
                "{number:?}"
            );
        }
        Some(Err(fault)) => panic!(rt; "frame {number}: {fault}"),
    }
}

// The camera again, from what its filming ended with.
fn again(rt: &impl Abort, ended: TestEnded) -> TestCamera {
    let CameraEnd {
        device,
        queue,
        table,
        hand,
        desk,
        ..
    } = ended;
    match hand {
        Hand::Empty => Camera::seated(device, queue, table, desk),
        _ => panic!(rt; "a buffer isn't in its queue"),
    }
}

#[test]
fn each_frame_is_filmed_in_one_filming_after_another(rt: HostRuntime) {
    let alloc = rt.alloc();
    let link = Link::new(alloc).expect(&rt, "memory for a link");
    let Some(camera) = camera(&rt, alloc, 1_000_000) else {
        panic!(rt; "no store")
    };
    let first = guide(20, 0);
    let mut ended = film(&rt, alloc, &link, &first, camera);
    assert_eq!(rt; ended.desk.status().next, 20);
    assert_eq!(rt; (ended.given_up, ended.left), (0, 0));
    assert_eq!(rt; first.brought.load(Ordering::SeqCst), 20);
    assert_eq!(rt; first.stored.load(Ordering::SeqCst), 20);
    assert_eq!(rt; first.gave_up.load(Ordering::SeqCst), 0);
    assert!(rt; first.clips.load(Ordering::SeqCst) > 0);
    has_frame(&rt, alloc, &mut ended.desk, 18);
    has_frame(&rt, alloc, &mut ended.desk, 19);
    let second = guide(20, 20);
    let mut ended = film(&rt, alloc, &link, &second, again(&rt, ended));
    assert_eq!(rt; ended.desk.status().next, 40);
    assert_eq!(rt; (ended.given_up, ended.left), (0, 0));
    has_frame(&rt, alloc, &mut ended.desk, 39);
}

// A camera over a disk that takes all, and its guide.
fn shot(rt: &impl Abort, alloc: Global, ticks: u64) -> Shot<Pattern, Fused, HeapPlane, Guided> {
    match camera(rt, alloc, 1_000_000) {
        Some(camera) => Shot {
            guide: guide(ticks, 0),
            camera,
        },
        None => panic!(rt; "no store"),
    }
}

// Checks that a camera has stored so many frames, with the times of its guide, and lost none.
fn has_stored(
    rt: &impl Abort,
    alloc: Global,
    outcome: Option<Outcome<Pattern, Fused, HeapPlane, Guided>>,
    frames: u32,
) {
    let Some(outcome) = outcome else {
        panic!(rt; "no outcome of {frames} frames")
    };
    let Outcome { shot: _, filmed } = outcome;
    match filmed {
        Ok(mut ended) => {
            assert_eq!(rt; ended.desk.status().next, u64::from(frames), "{frames:?}");
            assert_eq!(rt; (ended.given_up, ended.left), (0, 0), "{frames:?}");
            has_frame(rt, alloc, &mut ended.desk, frames.saturating_sub(1));
        }
        Err(_) => panic!(rt; "not filmed: {frames} frames"),
    }
}

#[test]
fn several_cameras_are_filmed_each_by_its_own_guide(rt: HostRuntime) {
    let alloc = rt.alloc();
    let mut shots = Vec::new(alloc);
    for ticks in &[20u64, 7] {
        let added = shots.push(shot(&rt, alloc, *ticks)).is_ok();
        assert!(rt; added, "{ticks:?}");
    }
    match film_all(&rt, alloc, shots) {
        Ok(mut outcomes) => {
            assert_eq!(rt; outcomes.len(), 2);
            has_stored(&rt, alloc, outcomes.pop(), 7);
            has_stored(&rt, alloc, outcomes.pop(), 20);
        }
        Err(_) => panic!(rt; "memory for two cameras"),
    }
}

#[test]
fn frames_that_a_broken_disk_does_not_take_are_counted(rt: HostRuntime) {
    let alloc = rt.alloc();
    let link = Link::new(alloc).expect(&rt, "memory for a link");
    let mut broken = false;
    for passed in 0..60u64 {
        let Some(camera) = camera(&rt, alloc, passed) else {
            continue;
        };
        let told = guide(20, 0);
        let ended = film(&rt, alloc, &link, &told, camera);
        let status = ended.desk.status();
        let brought = told.brought.load(Ordering::SeqCst);
        let lost = ended.given_up.saturating_add(ended.left);
        assert_eq!(rt; brought.saturating_add(lost), 20, "{passed:?}");
        assert_eq!(rt;
            told.gave_up.load(Ordering::SeqCst),
            ended.given_up,
            "{passed:?}"
        );
        assert_eq!(rt;
            told.stored.load(Ordering::SeqCst),
            status.next,
            "{passed:?}"
        );
        assert_eq!(rt;
            status.next.saturating_add(u64::from(status.pending)),
            brought,
            "{passed:?}"
        );
        if status.must_reopen {
            broken = true;
        }
    }
    assert!(rt; broken);
}

// The text of the pattern's frames 18 and 19: up to the bytes of the first, and from then on.
const FIRST: &[u8] =
    b"YUV4MPEG2 W4 H2 F25:1 Ip A0:0 C420jpeg\nFRAME\n\x12\x13\x14\x15\x16\x17\x18\x19\x1a\x1b\x1c\x1d";

const SECOND: &[u8] = b"FRAME\n\x13\x14\x15\x16\x17\x18\x19\x1a\x1b\x1c\x1d\x1e";

// Films a camera in a scope of its own, and exports frames 18 and 19; returns which frames were lost, and the text.
fn film_text<R: Threads + Wait + Clock + Abort + Sync>(
    rt: &R,
    alloc: Global,
    link: &Link,
    guide: &Guided,
    camera: TestCamera,
) -> (Option<LostFrames>, Vec<u8>) {
    let (rt, link, guide) = (&*rt, &*link, &*guide);
    thread::scope(
        thread::scope_env(),
        rt,
        move |scope| -> (Option<LostFrames>, Vec<u8>) {
            let mut out = Vec::new(alloc);
            let guided = GuidedCamera {
                link,
                guide,
                camera,
            };
            let numbers = Numbers { from: 18, to: 19 };
            let lost = film_and_export(rt, alloc, scope, guided, numbers, &mut out);
            (lost.ok(), out)
        },
    )
}

#[test]
fn what_a_camera_filmed_becomes_a_text(rt: HostRuntime) {
    let alloc = rt.alloc();
    let link = Link::new(alloc).expect(&rt, "memory for a link");
    let Some(camera) = camera(&rt, alloc, 1_000_000) else {
        panic!(rt; "no store")
    };
    let (lost, text) = film_text(&rt, alloc, &link, &guide(20, 0), camera);
    let none = LostFrames {
        given_up: 0,
        left: 0,
        missed: 0,
        failed: 0,
    };
    assert_eq!(rt; lost, Some(none));
    assert_eq!(rt; text.len(), FIRST.len() + SECOND.len());
    assert!(rt; text.starts_with(FIRST) && text.ends_with(SECOND));
}

type TestFront = Front<Pattern, HeapPlane, Guided>;

type TestBack = Back<MemDisk, Guided>;

// The outcome of taking a frame, in a word.
fn take(alloc: Global, front: &mut TestFront) -> &'static str {
    let mut spare = None;
    match front.take(alloc, &mut spare) {
        TakeOutcome::Frame => "frame",
        TakeOutcome::NoFrame => "no frame",
        TakeOutcome::RingFull => "ring full",
        TakeOutcome::Refused(LaneFault::Store(fault)) => fault.name(),
        TakeOutcome::Refused(LaneFault::Queue(_errno)) => "queue",
    }
}

// Which buffer the next tick completes.
fn tick<R: Wait + Clock>(rt: &R, front: &mut TestFront, told: &Guided) -> Option<u32> {
    let untold = front.tick(rt, told)?;
    let tick = untold.tick();
    untold.tell(rt, told);
    match tick {
        Tick::Completed(index) => Some(index),
        _ => None,
    }
}

// The outcome of bringing a frame, in a word.
fn bring<R: Wait>(rt: &R, back: &mut TestBack, told: &Guided) -> &'static str {
    match back.bring(true, false) {
        Brought::Nothing => "nothing",
        Brought::NoRoom => "no room",
        Brought::Submitted(number) => {
            number.tell_brought(rt, told, back);
            "submitted"
        }
        Brought::GivenUp(fault, frame) => {
            frame.tell_given_up(rt, told, back);
            fault.name()
        }
    }
}

// Three frames are completed, and two fill the ring.
fn fill_ring<R: Abort + Wait + Clock>(rt: &R, alloc: Global, front: &mut TestFront, told: &Guided) {
    assert_eq!(rt; take(alloc, front), "queue");
    assert_eq!(rt; tick(rt, front, told), Some(0));
    assert_eq!(rt; tick(rt, front, told), Some(1));
    assert_eq!(rt; tick(rt, front, told), Some(2));
    assert_eq!(rt; take(alloc, front), "frame");
    assert_eq!(rt; take(alloc, front), "HandFull");
    assert!(rt; front.put_back().is_ok());
    assert_eq!(rt; take(alloc, front), "frame");
    assert!(rt; front.put_back().is_ok());
    assert_eq!(rt; take(alloc, front), "ring full");
}

// Two frames fill the desk.
fn fill_desk<R: Abort + Wait>(rt: &R, back: &mut TestBack, told: &Guided) {
    assert_eq!(rt; bring(rt, back, told), "submitted");
    assert_eq!(rt; bring(rt, back, told), "submitted");
    assert_eq!(rt; bring(rt, back, told), "no room");
}

// No flush was refused, so no frame is given up: the two are stored, and the third comes to the desk.
fn store_and_bring<R: Abort + Wait>(rt: &R, back: &mut TestBack, told: &Guided) {
    assert_eq!(rt; bring(rt, back, told), "no room");
    if let Some(frame) = back.give_up() {
        frame.tell_given_up(rt, told, back);
        panic!(rt; "a frame was given up");
    }
    match back.flush_for(rt, told) {
        Some(Ok(flushed)) => {
            assert_eq!(rt; flushed.what().stored, 2);
            flushed.tell_stored(rt, told, back);
        }
        Some(Err(fault)) => panic!(rt; "no flush: {fault}"),
        None => panic!(rt; "no flush: not asked"),
    }
    assert_eq!(rt; bring(rt, back, told), "submitted");
}

// The third frame is taken, and then a fourth, whose buffer stays in the hand. Then the guide ends the front.
fn take_last<R: Abort + Wait + Clock>(rt: &R, alloc: Global, front: &mut TestFront, told: &Guided) {
    assert!(rt; front.put_back().is_ok());
    assert_eq!(rt; tick(rt, front, told), Some(3));
    assert_eq!(rt; take(alloc, front), "frame");
    assert_eq!(rt; tick(rt, front, told), None);
}

#[test]
fn a_front_and_a_back_work_by_turns(rt: HostRuntime) {
    let alloc = rt.alloc();
    let (queue, table) = streaming(&rt, alloc);
    let device = device(&rt, alloc);
    let disk = MemDisk::new(alloc, SMALL_BYTES).expect(&rt, "memory for a disk");
    let desk = desk_of(&rt, alloc, store_on(&rt, alloc, disk), limits(2, 1_000_000));
    let Ok((to, from)) = RingBuffer::new(alloc, 2) else {
        panic!(rt; "memory for a ring")
    };
    let told = guide(4, 0);
    let begun = Begun::of(&queue, &device, &to, &told);
    let mut front = Front::new(device, queue, table, to, &told);
    let mut back = back_before(&rt, alloc, desk, from);
    fill_ring(&rt, alloc, &mut front, &told);
    fill_desk(&rt, &mut back, &told);
    assert_eq!(rt; take(alloc, &mut front), "frame");
    store_and_bring(&rt, &mut back, &told);
    take_last(&rt, alloc, &mut front, &told);
    let Ok(parts) = front.into_ended() else {
        panic!(rt; "its guide has ended it")
    };
    let ended = end(begun, parts, back);
    assert_eq!(rt; (ended.given_up, ended.left), (0, 1));
    assert_eq!(rt; (ended.missed, ended.failed), (0, 0));
    assert_eq!(rt;
        (ended.desk.status().next, ended.desk.status().pending),
        (2, 1)
    );
    match ended.hand {
        Hand::Spent { index, .. } => assert_eq!(rt; index, 3),
        _ => panic!(rt; "no buffer is in the hand"),
    }
}

// A back with one desk.
fn back_before(
    rt: &impl Abort,
    alloc: Global,
    desk: Desk<MemDisk>,
    from: Consumer<Frame>,
) -> TestBack {
    match Back::new(alloc, 1, Seat::alone(desk), from, 0) {
        Ok(back) => back,
        Err(_) => panic!(rt; "memory for a back"),
    }
}

type TestDesks = Desks<MemDisk, Guided>;

// A desk at which four frames wait, with times 0, 10, 20 and 30.
fn desks_of_four(rt: &impl Abort, alloc: Global) -> TestDesks {
    let disk = MemDisk::new(alloc, SMALL_BYTES).expect(rt, "memory for a disk");
    let desk = desk_of(rt, alloc, store_on(rt, alloc, disk), limits(8, 1_000_000));
    let Ok((mut to, mut from)) = RingBuffer::new(alloc, 4) else {
        panic!(rt; "memory for a ring")
    };
    let mut seat = Seat::alone(desk);
    for number in 0..4u32 {
        let stamp = FrameInfo {
            sequence: number,
            flags: 0,
            timestamp: u64::from(number) * 10,
        };
        let given = frame(alloc, stamp, 12).expect(rt, "memory for a frame");
        assert!(rt; to.push(given).is_ok(), "{number:?}");
        let taken = seat.submit_from(&mut from);
        assert!(rt; matches!(taken, Taken::Asked(_, Ok(_))), "{number:?}");
    }
    match Desks::new(alloc, 1, seat, 0) {
        Ok(desks) => desks,
        Err(_) => panic!(rt; "memory for desks"),
    }
}

// Stores two frames.
fn store_two(rt: &impl Abort, desks: &mut TestDesks) {
    match desks.flush() {
        Ok(flushed) => assert_eq!(rt; flushed.stored, 2),
        Err(fault) => panic!(rt; "no flush: {fault}"),
    }
}

// The first clip that a keep locks, and how many it locks.
fn keep(
    rt: &impl Abort,
    alloc: Global,
    desks: &mut TestDesks,
    times: Times,
) -> (Option<Clip>, usize) {
    let place = desks.active();
    let kept = desks.keep(alloc, place, times, 7);
    assert!(rt; kept.fault.is_none());
    (kept.clips.first().copied(), kept.clips.len())
}

#[test]
fn a_keep_between_flushes_locks_what_is_held(rt: HostRuntime) {
    let alloc = rt.alloc();
    let mut desks = desks_of_four(&rt, alloc);
    assert_eq!(rt; keep(&rt, alloc, &mut desks, ALL).1, 0);
    store_two(&rt, &mut desks);
    store_two(&rt, &mut desks);
    let times = Times {
        since: 10,
        until: 29,
    };
    let (Some(clip), count) = keep(&rt, alloc, &mut desks, times) else {
        panic!(rt; "no clip")
    };
    assert_eq!(rt; (clip.from, clip.to, clip.tag, count), (1, 2, 7, 1));
    match desks.outline(alloc, desks.active()) {
        Ok(outline) => assert_eq!(rt;
            (outline.next, outline.clips.len(), outline.pending),
            (4, 1, 0)
        ),
        Err(fault) => panic!(rt; "no outline: {fault}"),
    }
    let place = desks.active();
    match desks.read_frame(alloc, place, 3) {
        Ok(read) => assert!(rt; are_of(&read.bytes, 3, 12)),
        Err(fault) => panic!(rt; "frame 3: {fault}"),
    }
}

// What the call of leave for a clip answers.
fn unlock(desks: &mut TestDesks, clip: Clip) -> Result<(), StoreFault> {
    desks.unlock_clip(desks.active(), AnyLeave { clip })
}

#[test]
fn the_clip_that_got_the_id_since_stays(rt: HostRuntime) {
    let alloc = rt.alloc();
    let mut desks = desks_of_four(&rt, alloc);
    store_two(&rt, &mut desks);
    store_two(&rt, &mut desks);
    let (first, rest) = (
        Times {
            since: 10,
            until: 19,
        },
        Times {
            since: 10,
            until: 29,
        },
    );
    let (Some(clip), _) = keep(&rt, alloc, &mut desks, first) else {
        panic!(rt; "no clip")
    };
    assert_eq!(rt; unlock(&mut desks, clip), Ok(()));
    assert_eq!(rt; unlock(&mut desks, clip), Err(StoreFault::NoSuchClip));
    let (Some(other), _) = keep(&rt, alloc, &mut desks, rest) else {
        panic!(rt; "no clip")
    };
    assert_eq!(rt;
        (other.id, other.from, other.to),
        (clip.id, clip.from, clip.to + 1)
    );
    assert_eq!(rt; unlock(&mut desks, clip), Err(StoreFault::NoSuchClip));
    assert_eq!(rt;
        desks.clip(desks.active(), clip.id),
        Some(Span {
            from: other.from,
            to: other.to,
            tag: 7
        })
    );
    assert_eq!(rt; unlock(&mut desks, other), Ok(()));
    assert_eq!(rt; desks.clip(desks.active(), clip.id), None);
}
