//! Measures a store in memory or in a file. `bench/run` and `bench/files` time it beside plain programs in C.
//! `tools/check kill` kills it, and `tools/check power` stops it as a power loss would. It prints only what was done.
//! Its first word is one of these:
//!
//!     append WIDTH HEIGHT SEGMENTS SLOTS GROUP GROUPS ROUNDS
//!
//! formats a disk in memory for GREY frames and appends GROUPS groups of GROUP frames, ROUNDS times;
//!
//!     open PATH ROUNDS
//!
//! opens the store in a file, ROUNDS times;
//!
//!     append-file PATH GROUP GROUPS
//!
//! opens the store in a file once, and appends GROUPS groups of GROUP frames;
//!
//!     lock-file PATH ROUNDS
//!
//! opens the store in a file once, and locks its newest frame and unlocks it again, ROUNDS times;
//!
//!     list PATH ROUNDS
//!
//! opens the store in a file and lists its frames and clips, ROUNDS times;
//!
//!     record PATH FRAMES RUN GROUP
//!
//! opens the store in a file once, appends FRAMES frames in groups of GROUP, fewer where a block ends, and prints the
//! number after each group once it is stored. Each byte of frame N is (N % 251 + RUN % 251 * 7) % 251;
//!
//! Without a word it does nothing, since what it measures is never the same twice.

mod store;
mod words;

use anyhow::{Result, anyhow};
use std::env;
use std::env::Args;

fn main(rt: HostRuntime) -> Result<()> {
    let mut words = env::args(&rt)?;
    let _program = words.next();
    match words.next() {
        None => Ok(()),
        Some(word) => measure(&rt, word.as_str(), &mut words),
    }
}

// Measures what a word names, as the words after it say.
fn measure(rt: &HostRuntime, word: &str, words: &mut Args) -> Result<()> {
    match word {
        "append" => told(rt, "appended", store::append(rt.alloc(), words)),
        "open" => told(rt, "opened, next", store::open(rt, rt.alloc(), words)),
        "append-file" => told(
            rt,
            "appended, next",
            store::append_file(rt, rt.alloc(), words),
        ),
        "lock-file" => told(rt, "locked, next", store::lock_file(rt, rt.alloc(), words)),
        "list" => told(rt, "listed", store::list(rt, rt.alloc(), words)),
        "record" => store::record(rt, words),
        _ => Err(anyhow!("append, open, append-file, lock-file, list or record")),
    }
}

// Prints what was done, and how much of it.
fn told(rt: &impl Print, done: &str, counted: Result<u64>) -> Result<()> {
    let count = counted?;
    println!(rt; "{done} {count}")?;
    Ok(())
}
