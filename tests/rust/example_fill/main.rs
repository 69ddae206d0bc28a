//! `example_fill STORE SEGMENTS SLOTS VIDEO LAST OUT` makes a fresh store in a file, and fills it with the frames of a
//! YUV4MPEG2 file or pipe. Then it locks the last LAST frames as a clip, and exports them to another file.

use anyhow::{Context, Result, anyhow};
use loop_desk::{Desk, DeskLimits};
use loop_file::{FileDisk, TextFile, open_to_read};
use loop_record::Frame;
use loop_store::{Store, format};
use loop_y4m::{Y4mReader, export};
use std::alloc::Global;
use std::env;
use std::io::{BufReader, Read};

// How many frames wait at most. They are stored in groups.
const WAITING: u32 = 8;

// Submits each frame of a video, and stores them. Of a video that is cut, the whole frames before the cut are stored.
fn fill<R: Read + Drop>(
    alloc: Global,
    video: &mut Y4mReader<R>,
    desk: &mut Desk<FileDisk>,
) -> Result<()> {
    let (num, den) = video.rate();
    let mut read = Ok(true);
    for n in 0..u64::MAX {
        let mut bytes = vec![in alloc; 0; video.frame_bytes() as usize]?;
        read = video.next_frame(&mut bytes);
        if read != Ok(true) {
            break;
        }
        let frame = Frame {
            sequence: (n % 4_294_967_296) as u32,
            flags: 0x2000,
            timestamp: n.saturating_mul(1_000_000 * u64::from(den)) / u64::from(num.max(1)),
            bytes,
        };
        if let Err((fault, _)) = desk.submit(frame) {
            return Err(anyhow!("refused {fault}"));
        }
        if desk.status().pending == WAITING {
            desk.flush()?;
        }
    }
    for _ in 0..WAITING {
        desk.flush()?;
    }
    read?;
    Ok(())
}

// A desk over a store.
fn desk_of(alloc: Global, store: Store<FileDisk>) -> Result<Desk<FileDisk>> {
    let limits = DeskLimits {
        pending: WAITING,
        group: 8,
        calls: 1_000_000,
    };
    Desk::new(alloc, store, limits).ok().context("no memory")
}

// Makes the store, with these segments and slots, and fills it with the frames of a source. Returns its desk.
fn make(
    rt: &HostRuntime,
    path: &str,
    segments: u32,
    slots: u32,
    source: &str,
) -> Result<Desk<FileDisk>> {
    let alloc = rt.alloc();
    let input = BufReader::new(alloc, open_to_read(rt, source)?)?;
    let mut video = Y4mReader::open(input)?;
    let geometry = video.geometry(segments, slots)?;
    let disk = FileDisk::create(rt, path, geometry.disk_size())?;
    let mut desk = desk_of(alloc, format(alloc, disk, geometry)?)?;
    fill(alloc, &mut video, &mut desk)?;
    Ok(desk)
}

// Locks the newest frames, `last` of them. Returns the numbers of the first and the last.
fn lock(desk: &mut Desk<FileDisk>, last: u64) -> Result<(u64, u64)> {
    let next = desk.status().next;
    let to = next.checked_sub(1).context("no frame came")?;
    let from = next.saturating_sub(last);
    desk.lock_clip(from, to, 0)?;
    Ok((from, to))
}

// Exports the frames from a number to another, and syncs the file. Returns how many there are.
fn save(rt: &HostRuntime, desk: Desk<FileDisk>, from: u64, to: u64, path: &str) -> Result<u64> {
    let alloc = rt.alloc();
    let mut store = Store::open(alloc, desk.into_disk())?;
    let mut out = TextFile::open(rt, path)?;
    out.empty()?;
    let count = export(alloc, &mut store, from, to, &mut out)?;
    out.settle()?;
    Ok(count)
}

fn main(rt: HostRuntime) -> Result<()> {
    let mut words = env::args(&rt)?;
    let _program = words.next();
    let path = words.next().context("no store")?;
    let segments = words.next().context("no segments")?.parse()?;
    let slots = words.next().context("no slots")?.parse()?;
    let source = words.next().context("no video")?;
    let last = words.next().context("no count of frames")?.parse()?;
    let out = words.next().context("no file for them")?;
    let mut desk = make(&rt, path.as_str(), segments, slots, source.as_str())?;
    let (from, to) = lock(&mut desk, last)?;
    let count = save(&rt, desk, from, to, out.as_str())?;
    let next = to.saturating_add(1);
    println!(&rt; "next {next}, exported {count}")?;
    Ok(())
}
