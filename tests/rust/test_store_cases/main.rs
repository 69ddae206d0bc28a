//! Cases of disks and stores, a line each, read from standard input: `tests/cases/store.cases`. An empty line, and one
//! that begins with `#`, is passed over. Of any other line the text before `=> ` is asked, and what follows has to be
//! the answer. A line that comes to something else is printed, with both.
//!
//! - `words` reads the words of a line; `text` reads bytes that are written as text, and prints spans of numbers;
//! - `counted` is a disk that counts its calls; `frames` has the frames, with the calls of a store that check their
//!   preconditions first, and `acts` what a store is asked for;
//! - `case` is the state that a line finds and leaves: an image and the store over it; `image` changes the image,
//!   `line` asks the store;
//! - `list` does lists of commands, `make` formats, `stops` stops at each call with each spoilt content, `fails`
//!   fails each call in turn;
//! - `keeping` opens with a number of the newest blocks kept;
//! - `pile` is a disk that remembers, fails and reads ahead, without a store;
//! - `tally` counts the lines, and compares them.
//!
//! `data/version1.loop` is a store that the program wrote before there was version 2 of the layout: seven frames of its
//! pattern by `record`, then `lock 2 2`, `lock 6 6`, `lock 3 6` and `unlock 1`.

mod acts;
mod case;
mod counted;
mod fails;
mod frames;
mod image;
mod keeping;
mod line;
mod list;
mod make;
mod pile;
mod stops;
mod tally;
mod text;
mod words;

use crate::case::Case;
use crate::tally::Tally;
use anyhow::Result;
use std::alloc::AllocGlobal;
use std::cell::Cell;
use std::fs;
use std::io::{BufRead, BufWriter, Write};
use std::rt::Files;

// The question in a line and the answer that it names; None where the line is no case.
fn asked(line: &str) -> Option<(&str, &str)> {
    if line.is_empty() || line.starts_with("#") {
        return None;
    }
    line.split_once("=> ").or(Some((line, "(no arrow)")))
}

// The answer to a line.
fn tells(case: &mut Case, asked: &str) -> Result<Vec<u8>> {
    let mut told = Vec::new(case.alloc);
    if let Err(error) = case::run(case, asked, &mut told) {
        write!(told, "{error}")?;
    }
    Ok(told)
}

// Answers a line.
fn answer<W: Write>(case: &mut Case, line: &str, tally: &mut Tally, out: &mut W) -> Result<()> {
    match asked(line) {
        Some((asked, wanted)) => tally.note(asked, wanted, &tells(case, asked)?, out),
        None => {
            tally.pass();
            Ok(())
        }
    }
}

// Answers each line.
fn answers<R: BufRead + Drop, W: Write>(case: &mut Case, input: R, out: &mut W) -> Result<()> {
    let mut tally = Tally::new();
    for line in input.lines(case.alloc) {
        answer(case, &line?, &mut tally, out)?;
    }
    tally.end(out)
}

// The bytes of the old store, or none where there is no such file.
fn old_store(rt: &(impl AllocGlobal + Files)) -> Vec<u8> {
    match fs::read(rt, "version1.loop") {
        Ok(bytes) => bytes,
        Err(_) => Vec::new(rt.alloc()),
    }
}

fn main(rt: HostRuntime) -> Result<()> {
    let mut out = BufWriter::new(rt.alloc(), rt.stdout())?;
    let calls = Cell::new(0);
    let mut case = Case::new(rt.alloc(), &calls, old_store(&rt));
    answers(&mut case, rt.reader(), &mut out)
}
