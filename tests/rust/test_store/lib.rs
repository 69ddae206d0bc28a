//! Tests of the store, of its parts and of its exports that need Rust: the bytes of each part of a disk, written and
//! read, which stray gates are closed, which block goes, memory that is refused, reads over a disk that isn't written
//! to, and the names of the refusals. The worked rows of the layout and of the rules, the stops and the calls that fail
//! are cases of `test_store_cases`. What an image reads as is also in loop_record's proofs, computed on worked images.
//!
//! - `layout`: sizes, and the bytes of each part of a disk; `ring`: calls of a ring, over a disk that claims nothing
//!   of its bytes, so that a test may begin with any image; `upgrade`: upgrades of a clip table to version 2 of the
//!   layout; `tables`: the segments and the clips in memory;
//! - `common`: a geometry, frames of a pattern, images, and calls that look first at what they need;
//! - `looks`: a store over a disk that is never written to;
//! - `sequences`: the sequence of each held frame;
//! - `memory`: each growth is refused in turn;
//! - `names`: the numbers, the names and the sentences of the refusals;
//! - YUV4MPEG2: `reading` and `writing` have the worked rows of the format, with inputs and outputs that are cut,
//!   interrupted or fail (`fakes`); `exporting`: what is exported of a store, read back; `real`: streams that ffmpeg
//!   and mjpegtools wrote.

mod common;
mod deep;
mod exporting;
mod fakes;
mod layout;
mod looks;
mod memory;
mod names;
mod reading;
mod real;
mod ring;
mod sequences;
mod tables;
mod upgrade;
mod writing;
