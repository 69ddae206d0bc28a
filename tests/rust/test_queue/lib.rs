//! Tests of page ledgers, planes, the buffer queue, its ioctls and a device over real planes: what needs an allocator,
//! boxes, threads, or pages that are counted. Calls with their answers are cases of `test_lane_cases`.
//!
//! - `budget`: what an allocator with a budget grants; `pages`: claims of pages by one thread, `threads`: by several;
//!   `claimed`: planes over claimed pages; `planes`: planes of each kind;
//! - `common`: a queue of frames of one byte whose calls are rows of tables;
//! - `rounds`: buffers are queued, filled and dequeued, with ample memory and with each growth refused;
//! - `refusals`: what a refused request hands back, and which pages are free again; `supplies`: the same by ioctls;
//!   `lists`: by a list of events;
//! - `boxes`: a frame on its way through a queue of boxes;
//! - `listed`: a source that returns what its list has; `ticks`: what a device's ticks do to a queue, with the pattern,
//!   with that source, and with an input that is cut; `sources`: what sources return.

mod boxes;
mod budget;
mod claimed;
mod common;
mod listed;
mod lists;
mod pages;
mod planes;
mod refusals;
mod rounds;
mod sources;
mod supplies;
mod threads;
mod ticks;
