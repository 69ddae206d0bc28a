//! Searches for gaps in clips, beside a plain look at each pair of neighbours.

use crate::judge::Judge;
use crate::random::Random;
use loop_station_core::{Mark, Search, SearchTurn, lost_between};
use std::alloc::Global;

// How many turns a search has at most.
const MOST_TURNS: u64 = 4_000;

// How long a frame is on its way at most, in microseconds, where none is missing.
fn most(period: u64) -> u64 {
    period.saturating_add((period / 2).max(250_000u64.saturating_sub(period)))
}

// When the frames of a clip came: none earlier than a period after the one before, some late, some after a gap.
fn times(alloc: Global, random: &mut Random, judge: &mut Judge, period: u64) -> Vec<u64> {
    let mut times = Vec::new(alloc);
    let mut now = random.below(1_000_000);
    let gaps = random.between(2, 12);
    for _ in 0..random.between(1, 60) {
        judge.put(&mut times, now);
        let late = if random.one_in(gaps) {
            random.below(2_000_000)
        } else {
            random.below(5_000)
        };
        now = now.saturating_add(period).saturating_add(late);
    }
    times
}

// The sequences of frames that came at these times: some are lost before one, here and there, and they go round.
fn sequences(alloc: Global, judge: &mut Judge, times: &[u64]) -> Vec<u32> {
    let mut sequences = Vec::new(alloc);
    let mut next = u32::MAX - 20;
    for time in times {
        judge.put(&mut sequences, next);
        let lost = if time % 5 == 0 { time % 64 } else { 0 };
        next = next.wrapping_add(1).wrapping_add(lost as u32);
    }
    sequences
}

// A clip: when its frames came, and their sequences.
#[derive(Drop)]
struct Held {
    times: Vec<u64>,
    sequences: Vec<u32>,
    period: u64,
}

impl Held {
    // The frame of a number.
    fn mark(&self, number: u64) -> Mark {
        let place = number as usize;
        Mark {
            number,
            time: self.times.get(place).map_or(0, |time| *time),
            sequence: self.sequences.get(place).map_or(0, |sequence| *sequence),
        }
    }

    // How many frames are lost before the frame of a number.
    fn lost(&self, number: u64) -> u64 {
        let (one, other) = (self.mark(number.saturating_sub(1)), self.mark(number));
        u64::from(other.sequence.wrapping_sub(one.sequence)).saturating_sub(1)
    }

    // The number of the first frame from a place on that comes too late, or before which some are lost, if one is so.
    fn next_gap(&self, from: u64) -> Option<u64> {
        for number in from.saturating_add(1)..self.times.len() as u64 {
            let (one, other) = (self.mark(number.saturating_sub(1)), self.mark(number));
            if other.time.saturating_sub(one.time) > most(self.period) || self.lost(number) > 0 {
                return Some(number);
            }
        }
        None
    }

    // How many frames are lost in it.
    fn all_lost(&self) -> u64 {
        let mut lost = 0u64;
        for number in 1..self.times.len() as u64 {
            lost = lost.saturating_add(self.lost(number));
        }
        lost
    }
}

/// Searches the clip of a seed: each gap is found, in their order, and nothing else is. How many.
pub fn search(alloc: Global, random: &mut Random, judge: &mut Judge) -> u64 {
    let period = random.between(5_000, 400_000);
    let times = times(alloc, random, judge, period);
    let sequences = sequences(alloc, judge, &times);
    let held = Held {
        times,
        sequences,
        period,
    };
    let last = (held.times.len() as u64).saturating_sub(1);
    let mut search = Search::new(held.mark(0), held.mark(last), period);
    let (mut at, mut count, mut lost) = (0u64, 0u64, 0u64);
    for _ in 0..MOST_TURNS {
        let (next, turn) = search.turn();
        search = next;
        match turn {
            SearchTurn::Read(number) => {
                let mark = held.mark(number);
                search = search.told(mark.time, mark.sequence);
            }
            SearchTurn::Gap { from, to } => {
                lost = lost.saturating_add(lost_between(from.sequence, to.sequence, 1));
                at = judge_gap(judge, &held, at, from, to);
                count = count.saturating_add(1);
            }
            SearchTurn::Again => {}
            SearchTurn::Over => {
                judge.holds(held.next_gap(at).is_none(), "each gap is found");
                judge.holds(lost == held.all_lost(), "each lost frame is found");
                return count;
            }
        }
    }
    judge.holds(false, "a search ends");
    count
}

// The gap that is found is the next one. The number of the frame after it.
fn judge_gap(judge: &mut Judge, held: &Held, at: u64, from: Mark, to: Mark) -> u64 {
    let Some(number) = held.next_gap(at) else {
        judge.holds(false, "only gaps are found");
        return at;
    };
    let (one, other) = (held.mark(number.saturating_sub(1)), held.mark(number));
    judge.holds(
        from.time == one.time
            && from.sequence == one.sequence
            && to.time == other.time
            && to.sequence == other.sequence,
        "gaps are found in their order, each between its two frames",
    );
    number
}
