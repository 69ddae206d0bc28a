//! Tests of what acts on a station's decisions: which blocks of a store may go while others are opened, and how many
//! frames are taken before.
//!
//! - `opening`: a store's free frames and the blocks that may go, and the frames that wait while stores are opened.

mod opening;
