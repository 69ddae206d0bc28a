//! The state that a line finds and leaves.

use crate::acts::Act;
use crate::counted::Counted;
use crate::pile::{Call, Pile, Tape};
use crate::words::{row_of, word};
use crate::{fails, image, keeping, line, list, make, pile, stops};
use anyhow::{Result, anyhow};
use loop_disk::{MemDisk, OnceDisk};
use loop_store::{Clip, Store};
use std::alloc::Global;
use std::cell::Cell;
use std::str::SplitWhitespace;

/// A store over a disk that counts its calls, and may fail one.
pub(crate) type CaseStore<'a> = Store<Counted<'a, OnceDisk<MemDisk>>>;

/// What a store shows after this many calls of its disk.
#[derive(Drop)]
pub(crate) struct Moment {
    pub(crate) at: usize,
    pub(crate) frames: Vec<u64>,
    pub(crate) clips: Vec<Clip>,
    pub(crate) version: u32,
}

/// An image, the store over it where one is open, and the acts since it was opened.
#[derive(Drop)]
pub(crate) struct Case<'a> {
    pub(crate) alloc: Global,
    pub(crate) calls: &'a Cell<u64>,
    /// The bytes of the disk. While a store is open: the bytes left by the stores that are opened anew for each line.
    pub(crate) image: Vec<u8>,
    /// The bytes of the disk when it was opened.
    pub(crate) base: Vec<u8>,
    /// An image to compare with.
    pub(crate) kept: Vec<u8>,
    /// A store that was written by the program before version 2 of the layout.
    pub(crate) old: Vec<u8>,
    pub(crate) store: Option<CaseStore<'a>>,
    /// How many of the newest blocks its stores keep.
    pub(crate) keep: u32,
    /// Whether the image was refused with this many blocks kept.
    pub(crate) is_refused: bool,
    /// Whether a call fails. Then no store is opened anew for each line.
    pub(crate) is_failing: bool,
    /// What was done since the opening.
    pub(crate) acts: Vec<Act>,
    /// What was shown after the opening, and after each of the acts.
    pub(crate) moments: Vec<Moment>,
    pub(crate) pile: Option<Pile<'a>>,
    pub(crate) tape: Option<Tape>,
    /// Calls that are remembered.
    pub(crate) list: Vec<Call>,
}

impl<'a> Case<'a> {
    /// An empty case, with an old store at hand.
    pub(crate) fn new(alloc: Global, calls: &'a Cell<u64>, old: Vec<u8>) -> Case<'a> {
        Case {
            alloc,
            calls,
            image: Vec::new(alloc),
            base: Vec::new(alloc),
            kept: Vec::new(alloc),
            old,
            store: None,
            keep: 1,
            is_refused: false,
            is_failing: false,
            acts: Vec::new(alloc),
            moments: Vec::new(alloc),
            pile: None,
            tape: None,
            list: Vec::new(alloc),
        }
    }
}

/// Takes the disk out of the store, and checks that the stores that were opened anew for each line left the same bytes.
pub(crate) fn close(case: &mut Case) -> Result<()> {
    let Some(store) = case.store.take() else {
        return Ok(());
    };
    let disk = store.into_disk().inner.into_inner();
    if case.is_failing {
        case.image = disk.bytes().to_vec(case.alloc)?;
        return Ok(());
    }
    if *disk.bytes() == *case.image.as_slice() {
        Ok(())
    } else {
        Err(anyhow!("where it is opened before each line, other bytes are left"))
    }
}

/// What a line asks for, by its first word.
#[derive(Clone, Copy)]
pub(crate) enum Verb {
    Image,
    ImageV1,
    Old,
    Filled,
    Cut,
    Put,
    Clip,
    AllClips,
    Slot,
    Bytes,
    Keep,
    Same,
    Opens,
    Export,
    Disk,
    Open,
    Close,
    Frames,
    Clips,
    Version,
    Victim,
    Newest,
    Victims,
    Sought,
    Look,
    List,
    Format,
    FormatV1,
    FormatStops,
    FormatV1Stops,
    Stops,
    Stop,
    Torn,
    Fails,
    /// An act of the store.
    Act,
}

const VERBS: [(&str, Verb); 34] = [
    ("image", Verb::Image),
    ("image1", Verb::ImageV1),
    ("old", Verb::Old),
    ("filled", Verb::Filled),
    ("cut", Verb::Cut),
    ("put", Verb::Put),
    ("clip", Verb::Clip),
    ("all-clips", Verb::AllClips),
    ("slot", Verb::Slot),
    ("bytes", Verb::Bytes),
    ("keep", Verb::Keep),
    ("same", Verb::Same),
    ("opens", Verb::Opens),
    ("export", Verb::Export),
    ("disk", Verb::Disk),
    ("open", Verb::Open),
    ("close", Verb::Close),
    ("frames", Verb::Frames),
    ("clips", Verb::Clips),
    ("version", Verb::Version),
    ("victim", Verb::Victim),
    ("newest", Verb::Newest),
    ("victims", Verb::Victims),
    ("sought", Verb::Sought),
    ("look", Verb::Look),
    ("list", Verb::List),
    ("format", Verb::Format),
    ("format1", Verb::FormatV1),
    ("format-stops", Verb::FormatStops),
    ("format1-stops", Verb::FormatV1Stops),
    ("stops", Verb::Stops),
    ("stop", Verb::Stop),
    ("torn", Verb::Torn),
    ("fails", Verb::Fails),
];

// Answers a line about a store.
fn of_store(
    case: &mut Case,
    (verb, first): (Verb, &str),
    words: &mut SplitWhitespace,
    told: &mut Vec<u8>,
) -> Result<()> {
    match verb {
        Verb::Open => line::open(case, words, told),
        Verb::Close => line::close(case, told),
        Verb::Frames | Verb::Clips | Verb::Version | Verb::Victim | Verb::Newest => {
            line::tells(case, verb, told)
        }
        Verb::Victims => keeping::victims(case, words, told),
        Verb::Sought => line::sought(case, words, told),
        Verb::Look => line::look(case, words, told),
        Verb::List => list::list(case, words, told),
        Verb::Format => make::format(case, 2, words, told),
        Verb::FormatV1 => make::format(case, 1, words, told),
        Verb::FormatStops => make::stops(case, 2, words, told),
        Verb::FormatV1Stops => make::stops(case, 1, words, told),
        Verb::Stops => stops::stops(case, words, told),
        Verb::Stop => stops::stop(case, words, told),
        Verb::Torn => stops::torn(case, words, told),
        Verb::Fails => fails::fails(case, told),
        _ => line::act(case, first, words, told),
    }
}

// Answers a line about an image, a disk or a store.
fn does(
    case: &mut Case,
    (verb, first): (Verb, &str),
    words: &mut SplitWhitespace,
    told: &mut Vec<u8>,
) -> Result<()> {
    match verb {
        Verb::Image | Verb::ImageV1 | Verb::Old | Verb::Filled | Verb::Cut => {
            image::makes(case, verb, words, told)
        }
        Verb::Put | Verb::Clip | Verb::AllClips | Verb::Slot => {
            image::puts(case, verb, words, told)
        }
        Verb::Bytes => image::bytes(case, words, told),
        Verb::Keep => image::keep(case, told),
        Verb::Same => image::same(case, told),
        Verb::Opens => image::opens(case, words, told),
        Verb::Export => image::exports(case, words, told),
        Verb::Disk => pile::run(case, words, told),
        _ => of_store(case, (verb, first), words, told),
    }
}

/// Answers a line.
pub(crate) fn run(case: &mut Case, asked: &str, told: &mut Vec<u8>) -> Result<()> {
    let mut words = asked.split_whitespace();
    let first = word(&mut words)?;
    let verb = row_of(&VERBS, first, Verb::Act);
    does(case, (verb, first), &mut words, told)
}
