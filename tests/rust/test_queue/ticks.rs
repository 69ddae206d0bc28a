//! What a tick does to a queue, and which sequence a frame has.

use self::Step::{Starts, Stops, Takes, Ticks};
use crate::listed::{Frame, Giver, Lender, Listed, round};
use loop_capture::{Device, FrameSource, Loan, Next, Pattern, Tick, Y4mSource};
use loop_pages::{PageLedger, PageSeat};
use loop_plane::{HeapPlane, Memory, MmapPlane, PlaneMemory};
use loop_record::PixelFormat;
use loop_vb2::{PlaneSet, Queue, Shape};
use loop_y4m::Y4mReader;
use std::alloc::{AllocError, Global};
use std::process::Abort;
use std::sync::Arc;
use std::test::Fail;

// Two frames of 4 by 2 but for the last byte of the second: byte i of frame n is n + i.
const CUT: &[u8; 74] = b"YUV4MPEG2 W4 H2 F25:1 Ip A0:0 C420jpeg\nFRAME\n\
    \x00\x01\x02\x03\x04\x05\x06\x07\x08\x09\x0A\x0BFRAME\n\
    \x01\x02\x03\x04\x05\x06\x07\x08\x09\x0A\x0B";

// What a device and its queue do, with the answer.
#[derive(Clone, Copy)]
enum Step {
    // A tick at this time.
    Ticks(u64, Tick),
    // A frame is dequeued, and its buffer queued again.
    Takes(Option<Frame>),
    // The one buffer is queued, and streaming starts.
    Starts,
    // Streaming stops.
    Stops,
}

// Does one step.
fn does<S: FrameSource>(
    rt: &impl Abort,
    device: &mut Device<S>,
    queue: &mut Queue<MmapPlane>,
    step: &Step,
    place: usize,
) {
    match step {
        Ticks(time, want) => assert_eq!(rt; device.tick(queue, *time), *want, "{place:?}"),
        Takes(want) => assert_eq!(rt; round(queue), *want, "{place:?}"),
        Starts => starts(rt, queue),
        Stops => {
            queue.stream_off();
        }
    }
}

// Queues the one buffer, and starts streaming.
fn starts(rt: &impl Abort, queue: &mut Queue<MmapPlane>) {
    assert!(rt; queue.queue(0, Memory::Mmap, None).is_ok() && queue.stream_on().is_ok());
}

// Does a list of steps.
fn plays<S: FrameSource>(
    rt: &impl Abort,
    device: &mut Device<S>,
    queue: &mut Queue<MmapPlane>,
    steps: &[Step],
) {
    for (place, step) in steps.iter().enumerate() {
        does(rt, device, queue, step, place);
    }
}

// A plane of one page.
fn plane(alloc: Global, ledger: &Arc<PageLedger>, seat: PageSeat) -> Result<MmapPlane, Fail> {
    let Ok(hold) = PageLedger::claim(alloc, ledger, seat, 1) else {
        return Err("a page".into());
    };
    let Ok(plane) = MmapPlane::new(alloc, hold) else {
        return Err("memory for a plane".into());
    };
    Ok(plane)
}

// Gives a queue the one buffer of a set of planes.
fn requests(
    rt: &impl Abort,
    alloc: Global,
    queue: &mut Queue<MmapPlane>,
    set: PlaneSet<MmapPlane>,
) -> Result<(), AllocError> {
    let mut supply = Vec::new(alloc);
    supply.push(set)?;
    assert!(rt; queue.request(1, Memory::Mmap, supply).is_ok());
    Ok(())
}

// A queue with one buffer of a Grey frame of one pixel.
fn one_pixel(rt: &impl Abort, alloc: Global) -> Result<Queue<MmapPlane>, Fail> {
    let (ledger, seat) = PageLedger::new(alloc, 1)?;
    let plane = plane(alloc, &ledger, seat)?;
    let mut queue: Queue<MmapPlane> = Queue::new(alloc, PixelFormat::Grey, 1, 1, 1);
    requests(rt, alloc, &mut queue, PlaneSet::one(plane))?;
    Ok(queue)
}

// What a device with frames of two bytes does where frames have one.
fn is_too_wide(
    rt: &impl Abort,
    wide: &mut Device<Pattern>,
    queue: &mut Queue<MmapPlane>,
    time: u64,
) {
    assert_eq!(rt; wide.tick(queue, time), Tick::WrongSize, "{time:?}");
}

#[test]
fn frames_are_numbered_from_the_start_and_those_without_a_buffer_are_missed(
    rt: HostRuntime,
) -> Result<(), Fail> {
    let alloc = rt.alloc();
    let mut queue = one_pixel(&rt, alloc)?;
    let source: Box<dyn FrameSource + Send> = Box::new(alloc, Pattern::new())?;
    let (Ok(mut device), Ok(mut wide)) = (
        Device::new(alloc, source, 1),
        Device::new(alloc, Pattern::new(), 2),
    ) else {
        return Err("memory for a frame".into());
    };

    is_too_wide(&rt, &mut wide, &mut queue, 1);
    plays(
        &rt,
        &mut device,
        &mut queue,
        &[Ticks(2, Tick::Idle), Starts],
    );
    is_too_wide(&rt, &mut wide, &mut queue, 3);
    let steps = [
        Ticks(10, Tick::Completed(0)),
        Ticks(20, Tick::Missed),
        Takes(Some((0, 0, 10, 0x2000, 0))),
        Ticks(30, Tick::Completed(0)),
        Takes(Some((0, 2, 30, 0x2000, 2))),
        Stops,
        Ticks(40, Tick::Idle),
        Starts,
        Ticks(50, Tick::Completed(0)),
        Takes(Some((0, 0, 50, 0x2000, 3))),
    ];
    plays(&rt, &mut device, &mut queue, &steps);
    Ok(())
}

#[test]
fn a_device_goes_on_from_a_number_over_starts_and_goes_round(rt: HostRuntime) -> Result<(), Fail> {
    let alloc = rt.alloc();
    let mut queue = one_pixel(&rt, alloc)?;
    let Ok(mut device) = Device::from_number(alloc, Pattern::new(), 1, u32::MAX - 1) else {
        return Err("memory for a frame".into());
    };
    let steps = [
        Ticks(2, Tick::Idle),
        Starts,
        Ticks(10, Tick::Completed(0)),
        Ticks(20, Tick::Missed),
        Takes(Some((0, u32::MAX - 1, 10, 0x2000, 0))),
        Ticks(30, Tick::Completed(0)),
        Takes(Some((0, 0, 30, 0x2000, 2))),
        Stops,
        Ticks(40, Tick::Idle),
        Starts,
        Ticks(50, Tick::Completed(0)),
        Takes(Some((0, 1, 50, 0x2000, 3))),
    ];
    plays(&rt, &mut device, &mut queue, &steps);
    Ok(())
}

#[test]
fn a_bad_frame_takes_a_number_and_an_end_takes_none(rt: HostRuntime) -> Result<(), Fail> {
    let alloc = rt.alloc();
    let mut queue = one_pixel(&rt, alloc)?;
    let answers = [Next::Bad, Next::End, Next::More, Next::Bad, Next::More];
    let Ok(mut device) = Device::new(alloc, Listed { answers, calls: 0 }, 1) else {
        return Err("memory for a frame".into());
    };
    let steps = [
        Starts,
        Ticks(60, Tick::Failed(0)),
        Takes(Some((0, 0, 60, 0x2040, 0xFF))),
        Ticks(70, Tick::Ended),
        Ticks(80, Tick::Completed(0)),
        Ticks(90, Tick::Missed),
        Takes(Some((0, 1, 80, 0x2000, 2))),
        Ticks(100, Tick::Completed(0)),
        Takes(Some((0, 3, 100, 0x2000, 4))),
        Ticks(110, Tick::Ended),
    ];
    plays(&rt, &mut device, &mut queue, &steps);
    Ok(())
}

// A queue with one buffer of a frame of 4 by 2 pixels in three planes.
fn three_planes(rt: &impl Abort, alloc: Global) -> Result<Queue<MmapPlane>, Fail> {
    let (ledger, seat) = PageLedger::new(alloc, 3)?;
    let (first, rest) = ledger.split(seat);
    let (second, third) = ledger.split(rest);
    let set = PlaneSet::three(
        plane(alloc, &ledger, first)?,
        plane(alloc, &ledger, second)?,
        plane(alloc, &ledger, third)?,
    );
    let mut queue: Queue<MmapPlane> = Queue::new(alloc, PixelFormat::Ym12, 4, 2, 1);
    requests(rt, alloc, &mut queue, set)?;
    Ok(queue)
}

// Dequeues the frame, of which each of these planes begins with these bytes. Its buffer is queued again.
fn copies(rt: &impl Abort, queue: &mut Queue<MmapPlane>, planes: &[(u32, [u8; 2])]) {
    assert!(rt; queue.dequeue().is_ok());
    for (plane, want) in planes {
        let mut out = [0xFF; 2];
        assert!(rt;
            queue.copy_plane(0, *plane, 0, &mut out).is_ok(),
            "{plane:?}"
        );
        assert_eq!(rt; out, *want, "{plane:?}");
    }
    assert!(rt; queue.queue(0, Memory::Mmap, None).is_ok());
}

#[test]
fn a_cut_frame_gives_an_error_buffer_and_then_the_end(rt: HostRuntime) -> Result<(), Fail> {
    let alloc = rt.alloc();
    let mut queue = three_planes(&rt, alloc)?;
    let Ok(reader) = Y4mReader::open(CUT.as_slice()) else {
        return Err("a header".into());
    };
    let Ok(mut device) = Device::new(alloc, Y4mSource::new(reader), 12) else {
        return Err("memory for a frame".into());
    };
    plays(
        &rt,
        &mut device,
        &mut queue,
        &[Starts, Ticks(40, Tick::Completed(0))],
    );
    copies(&rt, &mut queue, &[(0, [0, 1]), (1, [8, 9]), (2, [10, 11])]);
    let steps = [
        Ticks(80, Tick::Failed(0)),
        Takes(Some((0, 1, 80, 0x2040, 0xFF))),
        Ticks(120, Tick::Ended),
        Ticks(160, Tick::Ended),
    ];
    plays(&rt, &mut device, &mut queue, &steps);
    Ok(())
}

#[test]
fn a_frame_that_is_lent_is_copied_into_the_buffer(rt: HostRuntime) -> Result<(), Fail> {
    let alloc = rt.alloc();
    let mut queue = one_pixel(&rt, alloc)?;
    let source = Lender {
        row: [7, 0, 9],
        calls: 0,
        frame: [0],
    };
    let Ok(mut device) = Device::new(alloc, source, 1) else {
        return Err("memory for a frame".into());
    };
    let steps = [
        Starts,
        Ticks(10, Tick::Completed(0)),
        Takes(Some((0, 0, 10, 0x2000, 7))),
        Ticks(20, Tick::Failed(0)),
        Takes(Some((0, 1, 20, 0x2040, 0xFF))),
        Ticks(30, Tick::Completed(0)),
        Ticks(40, Tick::Ended),
        Takes(Some((0, 2, 30, 0x2000, 9))),
        Ticks(50, Tick::Ended),
    ];
    plays(&rt, &mut device, &mut queue, &steps);
    Ok(())
}

// The planes of a frame of this shape, each filled with the byte 1.
fn filled_planes(alloc: Global, shape: &Shape) -> Result<PlaneSet<HeapPlane>, Fail> {
    let [y, cb, cr] = shape.sizes;
    let y = filled_plane(alloc, y)?;
    if shape.count == 1 {
        return Ok(PlaneSet::one(y));
    }
    Ok(PlaneSet::three(y, filled_plane(alloc, cb)?, filled_plane(alloc, cr)?))
}

// A plane of so many bytes, all 1.
fn filled_plane(alloc: Global, size: u32) -> Result<HeapPlane, Fail> {
    let mut plane = HeapPlane::new(alloc, size)?;
    plane.fill(vec![in alloc; 1u8; size as usize]?.as_slice());
    Ok(plane)
}

// A queue of 2 by 2 pixels that streams, with one buffer, whose bytes are all 1.
fn filled_queue(
    rt: &impl Abort,
    alloc: Global,
    format: PixelFormat,
) -> Result<Queue<HeapPlane>, Fail> {
    let mut queue = Queue::new(alloc, format, 2, 2, 1);
    let planes = filled_planes(alloc, &queue.shape())?;
    assert!(rt; queue.request(1, Memory::UserPtr, Vec::new(alloc)).is_ok());
    assert!(rt; queue.queue(0, Memory::UserPtr, Some(planes)).is_ok());
    assert!(rt; queue.stream_on().is_ok());
    Ok(queue)
}

// A source of frames of this length, the first of which has bytes of 7.
fn giver(alloc: Global, size: usize) -> Result<Giver, Fail> {
    Ok(Giver {
        next: 7,
        row: vec![in alloc; 0u8; size]?,
    })
}

// The bytes of each plane of the buffer that is dequeued.
fn dequeued(alloc: Global, queue: &mut Queue<HeapPlane>) -> Result<Vec<u8>, Fail> {
    let Ok(frame) = queue.dequeue() else {
        return Err("a frame".into());
    };
    let Some(planes) = frame.planes else {
        return Err("planes".into());
    };
    let mut all = Vec::new(alloc);
    for plane in 0..3 {
        let mut bytes = vec![in alloc; 0u8; planes.used_of(plane) as usize]?;
        planes.copy_out(plane, 0, bytes.as_mut_slice());
        all.extend_from_slice(bytes.as_slice())?;
    }
    Ok(all)
}

// One tick of a device that has this source.
fn ticks_once(
    alloc: Global,
    source: &mut Giver,
    queue: &mut Queue<HeapPlane>,
    size: u32,
) -> Result<Tick, Fail> {
    match Device::new(alloc, Loan { source }, size) {
        Ok(mut device) => Ok(device.tick(queue, 10)),
        Err(_) => Err("memory for a frame".into()),
    }
}

#[test]
fn a_frame_in_one_plane_is_moved_there(rt: HostRuntime) -> Result<(), Fail> {
    let alloc = rt.alloc();
    let mut queue = filled_queue(&rt, alloc, PixelFormat::Grey)?;
    let mut source = giver(alloc, 4)?;
    assert_eq!(rt;
        ticks_once(alloc, &mut source, &mut queue, 4)?,
        Tick::Completed(0)
    );
    // What was in the plane's row is with the source.
    assert!(rt; source.row.as_slice() == [1, 1, 1, 1].as_slice());
    // A frame without a buffer stays with the source.
    assert_eq!(rt;
        ticks_once(alloc, &mut source, &mut queue, 4)?,
        Tick::Missed
    );
    assert!(rt; source.row.as_slice() == [8, 8, 8, 8].as_slice());
    assert!(rt; dequeued(alloc, &mut queue)?.as_slice() == [7, 7, 7, 7].as_slice());
    Ok(())
}

#[test]
fn a_frame_in_three_planes_is_copied(rt: HostRuntime) -> Result<(), Fail> {
    let alloc = rt.alloc();
    let mut queue = filled_queue(&rt, alloc, PixelFormat::Ym12)?;
    let mut source = giver(alloc, 6)?;
    assert_eq!(rt;
        ticks_once(alloc, &mut source, &mut queue, 6)?,
        Tick::Completed(0)
    );
    assert!(rt; source.row.as_slice() == [7; 6].as_slice());
    assert!(rt; dequeued(alloc, &mut queue)?.as_slice() == [7; 6].as_slice());
    Ok(())
}
