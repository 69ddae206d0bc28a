//! Tests of what loop_cli and loop_station do where a test needs Rust: inputs and outputs that fail, memory that is
//! refused, values that no line of a program shows. What a command prints stands in tests/rows, which `tools/check rows`
//! runs.
//!
//! - `ends`: inputs and outputs that fail, or that note what they are asked for; `ran`: a run of a script, and its
//!   outcome;
//! - `waits`: what is printed before the program waits for the next line, and inputs and outputs that fail;
//! - `memory`: scripts and sessions where memory is refused;
//! - `parts`: lines, numbers, refusals and frames of the pattern, each alone;
//! - `words`: words that can't be had; `large`: recordings of large frames; `even`: the writes of an export; `targets`:
//!   exports whose output fails;
//! - `station`: lines and configurations of loop_station.

mod ends;
mod even;
mod large;
mod memory;
mod parts;
mod ran;
mod station;
mod targets;
mod waits;
mod words;
