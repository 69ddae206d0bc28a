//! Tests of the disks that need Rust.
//! What the other disks do is tested by the cases of `test_store_cases`.
//!
//! - `memory` has the memory disk and the stores over it, `files` the disk over a file;
//! - `faults` has files whose calls fail, over the bytes in memory of `faulty`; `places` where a file is made and how
//!   it is refused, over a system whose calls fail;
//! - `crashing` and `ahead` refuse memory to the disk that remembers its calls and to the one that reads ahead;
//! - `overlay` has the disk over another that is never written to;
//! - `calls` has the calls of a disk with their answers, `paths` what is done at a path.

mod ahead;
mod calls;
mod crashing;
mod faults;
mod faulty;
mod files;
mod memory;
mod overlay;
mod paths;
mod places;
