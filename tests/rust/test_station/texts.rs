//! A folder of texts, on a disk that keeps what was synced, and of the rest whatever it likes. A cut leaves no text
//! under its name that isn't whole.

use crate::judge::Judge;
use crate::random::Random;
use loop_station_core::{TextStep, next_text_step};
use std::alloc::Global;

// How many names there are, and of how many pieces a text is.
const NAMES: usize = 4;

const WHOLE: u64 = 3;

// A text: its number, how many pieces are written, and how many of them are on the disk.
#[derive(Clone, Copy, PartialEq, Eq)]
struct Text {
    number: u64,
    written: u64,
    synced: u64,
}

// The save that writes a text.
#[derive(Clone, Copy)]
struct Writer {
    replaces: bool,
    step: TextStep,
}

// A name: what has it, what has it on the disk, the unfinished text, and who writes that.
#[derive(Clone, Copy)]
struct Name {
    whole: Option<Text>,
    kept: Option<Text>,
    part: Option<Text>,
    writer: Option<Writer>,
    // The number of the text that was told last as saved.
    saved: Option<u64>,
}

/// The folder.
#[derive(Drop)]
pub struct Texts {
    names: Vec<Name>,
    next: u64,
    /// How many texts were saved.
    pub saved: u64,
}

// A step that the disk does comes through, but for a few.
fn comes_through(random: &mut Random) -> bool {
    !random.one_in(12)
}

impl Name {
    // Nothing has it.
    fn new() -> Name {
        Name {
            whole: None,
            kept: None,
            part: None,
            writer: None,
            saved: None,
        }
    }

    // A save begins, unless there is one, or a text is there and isn't to be replaced.
    fn begins(&mut self, number: u64, replaces: bool) {
        if self.writer.is_some() || self.whole.is_some() && !replaces {
            return;
        }
        self.part = Some(Text {
            number,
            written: 0,
            synced: 0,
        });
        self.writer = Some(Writer {
            replaces: self.whole.is_some(),
            step: TextStep::SyncText,
        });
    }

    // The save goes on: it writes, or takes a step. Whether it is told as saved.
    fn goes_on(&mut self, random: &mut Random, judge: &mut Judge) -> bool {
        let Some(writer) = self.writer else {
            return false;
        };
        if let Some(part) = &mut self.part {
            if part.written < WHOLE {
                part.written = part.written.saturating_add(1);
                return false;
            }
        }
        match writer.step {
            TextStep::Saved => {
                self.judge_saved(judge);
                self.writer = None;
                return true;
            }
            TextStep::NotSaved => {
                self.part = None;
                self.writer = None;
                return false;
            }
            step => {
                let is_done = self.does(random, step, writer.replaces);
                self.writer = Some(Writer {
                    step: next_text_step(step, is_done, writer.replaces),
                    ..writer
                });
            }
        }
        false
    }

    // Does a step, and answers whether it came through.
    fn does(&mut self, random: &mut Random, step: TextStep, replaces: bool) -> bool {
        let comes = comes_through(random);
        match step {
            TextStep::SyncText => {
                if let (true, Some(part)) = (comes, &mut self.part) {
                    part.synced = part.written;
                }
            }
            TextStep::Name => {
                if !comes || self.whole.is_some() && !replaces {
                    return false;
                }
                self.whole = self.part;
                self.part = None;
            }
            TextStep::SyncName => {
                if comes {
                    self.kept = self.whole;
                }
            }
            TextStep::Unname => self.whole = None,
            TextStep::Saved | TextStep::NotSaved => {}
        }
        comes
    }

    // A text that is told as saved is whole, and on the disk.
    fn judge_saved(&mut self, judge: &mut Judge) {
        let is_kept = match (self.whole, self.kept) {
            (Some(whole), Some(kept)) => whole == kept && kept.synced == WHOLE,
            _ => false,
        };
        judge.holds(
            is_kept,
            "a text is told as saved only once it is on the disk under its name",
        );
        self.saved = self.whole.map(|text| text.number);
    }

    // The power goes: of what isn't synced the disk keeps what it likes.
    fn cut(&mut self, random: &mut Random, judge: &mut Judge) {
        if random.one_in(2) {
            self.whole = self.kept;
        }
        if let Some(whole) = &mut self.whole {
            let unsynced = whole.written.saturating_sub(whole.synced);
            let left = whole
                .synced
                .saturating_add(random.below(unsynced.saturating_add(1)));
            whole.written = left;
            whole.synced = left;
            judge.holds(left == WHOLE, "what has a text's name is whole after a cut");
        }
        judge.holds(
            self.saved.is_none() || self.whole.is_some(),
            "a text that was told as saved is there after a cut",
        );
        self.kept = self.whole;
        self.part = None;
        self.writer = None;
    }
}

impl Texts {
    /// An empty folder.
    pub fn new(alloc: Global, judge: &mut Judge) -> Texts {
        let mut names = Vec::new(alloc);
        for _ in 0..NAMES {
            judge.put(&mut names, Name::new());
        }
        Texts {
            names,
            next: 0,
            saved: 0,
        }
    }

    /// A save begins, or one goes on.
    pub fn step(&mut self, random: &mut Random, judge: &mut Judge) {
        let place = random.place(NAMES);
        let begins = random.one_in(8);
        let replaces = random.one_in(2);
        let Some(name) = self.names.get_mut(place) else {
            return;
        };
        if begins {
            name.begins(self.next, replaces);
            self.next = self.next.saturating_add(1);
        } else if name.goes_on(random, judge) {
            self.saved = self.saved.saturating_add(1);
        }
    }

    /// The power goes.
    pub fn cut(&mut self, random: &mut Random, judge: &mut Judge) {
        for name in self.names.iter_mut() {
            name.cut(random, judge);
        }
    }
}
