//! Tests of the desk and of the lane that need an allocator that refuses, a device, or the text of what was recorded.
//! Lists of events with their answers, the desk's own calls, stops and failing disks are cases of `test_lane_cases`.
//!
//! - `common`: events and replies as rows of tables, and lanes and desks over images;
//! - `growths`: each growth is refused in turn;
//! - `sequences`: the one that a desk tells of its store;
//! - `stops`: what a power loss within a lane's run leaves is opened; `text`: what a lane recorded becomes a text;
//! - `device`: what a device's ticks become, through the queue, the lane and the store, as a text.

mod common;
mod device;
mod growths;
mod sequences;
mod stops;
mod text;
