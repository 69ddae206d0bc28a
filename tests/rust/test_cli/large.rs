//! Recordings of frames of two million bytes, through buffers of the application's memory.

use loop_capture::{Device, Pattern};
use loop_desk::Desk;
use loop_disk::MemDisk;
use loop_pipeline::{
    Camera, CameraEnd, Guide, Link, Noting, Reports, Seat, Unfilmed, Visits, film_camera,
    heap_start, new_queue, start_queue,
};
use loop_plane::HeapPlane;
use loop_record::{Geometry, PixelFormat};
use loop_script::LIMITS;
use loop_store::{StoreFault, format};
use std::alloc::Global;
use std::process::Abort;
use std::sync::Wait;
use std::thread;
use std::thread::Threads;
use std::time::Clock;

// Frames of one plane and of three, their bytes, and the bytes of a disk with two segments of two of them.
const ROWS: [(PixelFormat, u32, u32, u32, u64); 2] = [
    (PixelFormat::Grey, 2048, 1024, 2_097_152, 8_392_320),
    (PixelFormat::Ym12, 1600, 900, 2_160_000, 8_643_712),
];

type HeapCamera = Camera<Pattern, MemDisk, HeapPlane, Four>;

type HeapEnded = CameraEnd<Pattern, MemDisk, HeapPlane, Four>;

type Filmed = Result<HeapEnded, Unfilmed<Pattern, MemDisk, HeapPlane, Four>>;

// Four ticks at 25 frames a second.
#[derive(Drop)]
struct Four;

impl Noting for Four {
    ghost NOTED = { ? };

    const NOTED: bool = false;
}

impl Visits for Four {
    ghost asks = { ? };

    const VISITED: bool = false;
}

impl Reports for Four {
    fn flushes_again<R: Wait>(&self, _rt: &R, _fault: StoreFault) -> bool {
        false
    }
}

impl Guide for Four {
    fn next_tick<R: Wait + Clock>(&self, _rt: &R, n: u64) -> Option<u64> {
        if n < 4 { Some(n * 40_000) } else { None }
    }
}

// A device of the pattern's frames.
fn device_of(rt: &impl Abort, alloc: Global, bytes: u32) -> Device<Pattern> {
    match Device::new(alloc, Pattern::new(), bytes) {
        Ok(device) => device,
        Err(_) => panic!(rt; "memory for a frame"),
    }
}

// A camera of a row, whose queue of four buffers streams.
fn camera_of(
    rt: &impl Abort,
    alloc: Global,
    row: &(PixelFormat, u32, u32, u32, u64),
) -> HeapCamera {
    let (pixels, width, height, bytes, size) = *row;
    let geometry = Geometry {
        width,
        height,
        format: pixels,
        rate_num: 25,
        rate_den: 1,
        segments: 2,
        slots: 2,
    };
    let disk = MemDisk::new(alloc, size).expect(rt, "memory for a disk");
    let Ok(store) = format(alloc, disk, geometry) else {
        panic!(rt; "no store of {width}x{height}")
    };
    let (mut queue, mut table) = new_queue(alloc, &store.geometry());
    let Ok(start) = heap_start(alloc, &queue, 4) else {
        panic!(rt; "memory for buffers")
    };
    let started = start_queue(&mut queue, &mut table, start).is_ok();
    assert!(rt; started);
    match Desk::new(alloc, store, LIMITS) {
        Ok(desk) => Camera::new(device_of(rt, alloc, bytes), queue, table, desk),
        Err(_) => panic!(rt; "memory for a desk"),
    }
}

// Films a camera for four ticks.
fn film<R: Threads + Wait + Clock + Sync>(
    rt: &R,
    alloc: Global,
    link: &Link,
    guide: &Four,
    camera: HeapCamera,
) -> Filmed {
    let (rt, link, guide) = (&*rt, &*link, &*guide);
    thread::scope(thread::scope_env(), rt, move |scope| -> Filmed {
        film_camera(rt, alloc, scope, link, guide, camera)
    })
}

// What a row's camera with four buffers records of four frames.
fn records<R: Threads + Wait + Clock + Abort + Sync>(
    rt: &R,
    alloc: Global,
    row: &(PixelFormat, u32, u32, u32, u64),
) -> HeapEnded {
    let camera = camera_of(rt, alloc, row);
    let link = Link::new(alloc).expect(rt, "memory for a link");
    match film(rt, alloc, &link, &Four, camera) {
        Ok(ended) => ended,
        Err(_) => panic!(rt; "no end"),
    }
}

// Whether these are the bytes of the pattern's frame of a number.
fn are_of(bytes: &[u8], number: u8, size: u32) -> bool {
    let mut next = number;
    for byte in bytes {
        if *byte != next {
            return false;
        }
        next = next.wrapping_add(1);
    }
    bytes.len() as u64 == u64::from(size)
}

// Checks that a desk holds the frame of a number, which is the pattern's.
fn is_held(rt: &impl Abort, alloc: Global, desk: &mut Seat<MemDisk, Four>, number: u8, size: u32) {
    match desk.read_frame(alloc, u64::from(number)) {
        None => panic!(rt; "frame {number}: not asked"),
        Some(Ok(read)) => assert!(rt; are_of(&read.bytes, number, size), "{number:?}, {size:?}"),
        Some(Err(fault)) => panic!(rt; "frame {number}: {fault}"),
    }
}

// Checks that the four frames of a row are stored as the source gave them.
fn are_stored(rt: &impl Abort, alloc: Global, ended: &mut HeapEnded, size: u32) {
    assert_eq!(rt; ended.desk.status().next, 4, "{size:?}");
    assert_eq!(rt; (ended.given_up, ended.left), (0, 0), "{size:?}");
    for number in 0..4u8 {
        is_held(rt, alloc, &mut ended.desk, number, size);
    }
}

#[test]
fn frames_of_more_than_a_mebibyte_are_recorded_in_the_applications_memory(rt: HostRuntime) {
    for row in &ROWS {
        let mut ended = records(&rt, rt.alloc(), row);
        are_stored(&rt, rt.alloc(), &mut ended, row.3);
    }
}
