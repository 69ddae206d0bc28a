//! The door of a camera: desks join in their order, wait on where there is no memory for them, and come back in the
//! end.

use crate::common::*;
use loop_capture::{Device, Pattern};
use loop_desk::Desk;
use loop_disk::MemDisk;
use loop_pipeline::{
    Arrival, Back, Camera, CameraEnd, Door, Guide, GuidedCamera, Link, Noting, Reports, Seat,
    Unfilmed, Visits, film_desks, heap_start, new_queue, start_queue,
};
use loop_plane::HeapPlane;
use loop_store::StoreFault;
use rtrb::RingBuffer;
use std::alloc::{AllocGlobal, Global};
use std::process::Abort;
use std::sync::Wait;
use std::thread;
use std::thread::Threads;
use std::time::Clock;

// Ticks at once, so many times.
#[derive(Clone, Copy)]
struct Ticks(u64);

impl Noting for Ticks {
    ghost NOTED = { ? };

    const NOTED: bool = false;
}

impl Visits for Ticks {
    ghost asks = { ? };

    const VISITED: bool = false;
}

impl Guide for Ticks {
    fn next_tick<R: Wait + Clock>(&self, _rt: &R, n: u64) -> Option<u64> {
        if n < self.0 { Some(n) } else { None }
    }
}

impl Reports for Ticks {
    fn flushes_again<R: Wait>(&self, _rt: &R, _fault: StoreFault) -> bool {
        false
    }
}

type Filmed = Result<
    CameraEnd<Pattern, MemDisk, HeapPlane, Ticks>,
    Unfilmed<Pattern, MemDisk, HeapPlane, Ticks>,
>;

// A desk whose store has so many frames, by which it is known.
fn desk_with(rt: &impl Abort, alloc: Global, frames: u32) -> Desk<MemDisk> {
    let disk = MemDisk::of(image(rt, alloc, frames));
    desk_of(rt, alloc, store_on(rt, alloc, disk), limits(8, 1_000_000))
}

// A door with memory for 300, at which desks of so many frames wait.
fn door_with<R: Abort + Wait>(rt: &R, alloc: Global, frames: &[u32]) -> Door<MemDisk> {
    let Ok(door) = Door::new(alloc, 300) else {
        panic!(rt; "memory for a door")
    };
    for count in frames {
        assert!(rt;
            door.put(rt, desk_with(rt, alloc, *count)).is_ok(),
            "{count:?}"
        );
    }
    door
}

// Of how many frames the stores are whose desks still wait.
fn waiting(rt: &impl Abort, alloc: Global, door: Door<MemDisk>) -> Vec<u64> {
    let mut counts = Vec::new(alloc);
    for desk in door.into_desks() {
        counts
            .push(desk.status().next)
            .expect(rt, "memory for a list");
    }
    counts
}

#[test]
fn a_desk_waits_on_where_a_back_is_full(rt: HostRuntime) {
    let alloc = rt.alloc();
    let Ok((_, from)) = RingBuffer::new(alloc, 1) else {
        panic!(&rt; "memory for a ring")
    };
    let first: Seat<MemDisk, Ticks> = Seat::alone(desk_with(&rt, alloc, 1));
    let Ok(mut back) = Back::new(alloc, 3, first, from, 0) else {
        panic!(&rt; "memory for a back")
    };
    let door = door_with(&rt, alloc, &[2, 3, 4, 5]);
    let come = [
        Arrival::Joined,
        Arrival::Joined,
        Arrival::Full,
        Arrival::Full,
    ];
    for arrival in come {
        assert!(rt; door.let_in(&rt, &mut back) == arrival);
    }
    let desks = back.desks();
    assert_eq!(rt; desks.count(), 3);
    for place in 0..3usize {
        assert_eq!(rt; desks.status(place).next, place as u64 + 1, "{place:?}");
    }
    // None is lost, and none is out of its order.
    assert_eq!(rt; waiting(&rt, alloc, door).as_slice(), [4u64, 5].as_slice());
}

#[test]
fn a_desk_is_not_let_in_at_a_door_that_is_shut(rt: HostRuntime) {
    let alloc = rt.alloc();
    let Ok((_, from)) = RingBuffer::new(alloc, 1) else {
        panic!(&rt; "memory for a ring")
    };
    let first: Seat<MemDisk, Ticks> = Seat::alone(desk_with(&rt, alloc, 1));
    let Ok(mut back) = Back::new(alloc, 2, first, from, 0) else {
        panic!(&rt; "memory for a back")
    };
    let door = Door::shut(alloc);
    let refused = door.put(&rt, desk_with(&rt, alloc, 2));
    let Err(desk) = refused else {
        panic!(&rt; "a desk was put at a door that is shut")
    };
    assert_eq!(rt; desk.status().next, 2);
    assert!(rt; door.let_in(&rt, &mut back) == Arrival::Nobody);
    assert_eq!(rt; waiting(&rt, alloc, door).len(), 0);
}

// A camera before a store without frames.
fn camera(rt: &impl Abort, alloc: Global) -> Camera<Pattern, MemDisk, HeapPlane, Ticks> {
    let (mut queue, mut table) = new_queue(alloc, &SMALL);
    let Ok(start) = heap_start(alloc, &queue, 4) else {
        panic!(rt; "memory for buffers")
    };
    assert!(rt; start_queue(&mut queue, &mut table, start).is_ok());
    match Device::new(alloc, Pattern::new(), 12) {
        Ok(device) => Camera::new(device, queue, table, desk_with(rt, alloc, 0)),
        Err(_) => panic!(rt; "memory for a frame"),
    }
}

// Films a camera for so many ticks, with this door.
fn film<R: AllocGlobal + Threads + Wait + Clock + Abort + Sync>(
    rt: &R,
    ticks: u64,
    door: &Door<MemDisk>,
) -> Filmed {
    let alloc = rt.alloc();
    let link = Link::new(alloc).expect(rt, "memory for a link");
    let guide = Ticks(ticks);
    let camera = camera(rt, alloc);
    let (rt, link, guide, door) = (&*rt, &link, &guide, &*door);
    thread::scope(thread::scope_env(), rt, move |scope| -> Filmed {
        let guided = GuidedCamera {
            link,
            guide,
            camera,
        };
        film_desks(rt, alloc, scope, guided, door)
    })
}

#[test]
fn the_desks_at_the_door_join_a_camera_that_is_filmed(rt: HostRuntime) {
    let alloc = rt.alloc();
    let door = door_with(&rt, alloc, &[2, 3, 4]);
    let Ok(ended) = film(&rt, 3, &door) else {
        panic!(&rt; "no camera was filmed")
    };
    // Frames are brought to the first alone, which has room for them.
    assert_eq!(rt; ended.desk.status().next, 3);
    let mut counts = Vec::new(alloc);
    for desk in ended.joined.as_slice() {
        counts
            .push(desk.status().next)
            .expect(&rt, "memory for a list");
    }
    assert_eq!(rt; counts.as_slice(), [2u64, 3, 4].as_slice());
    assert_eq!(rt; waiting(&rt, alloc, door).len(), 0);
}

#[test]
fn a_camera_has_256_desks_and_the_others_come_back(rt: HostRuntime) {
    let alloc = rt.alloc();
    let door = door_with(&rt, alloc, &[]);
    for count in 0..258u32 {
        assert!(rt;
            door.put(&rt, desk_with(&rt, alloc, count % 3)).is_ok(),
            "{count:?}"
        );
    }
    let Ok(ended) = film(&rt, 1, &door) else {
        panic!(&rt; "no camera was filmed")
    };
    assert_eq!(rt; ended.joined.len(), 255);
    // Those of 255 to 257.
    assert_eq!(rt;
        waiting(&rt, alloc, door).as_slice(),
        [0u64, 1, 2].as_slice()
    );
}
