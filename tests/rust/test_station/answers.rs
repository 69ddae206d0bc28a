//! Orders of several cameras: their lines stay together, in the order of the cameras, and `done` comes last.

use crate::judge::Judge;
use loop_station_core::Replies;
use std::alloc::Global;

/// What is printed: a line of a camera for an order, or that a labelled order is done.
#[derive(Clone, Copy, PartialEq, Eq)]
pub enum Printed {
    /// The order, the camera's place among those that it means, and which of its lines.
    Line(u64, usize, u64),
    Done(u64),
}

// An order that isn't answered yet.
#[derive(Drop)]
struct Pending {
    order: u64,
    labelled: bool,
    core: Replies<Vec<Printed>>,
    // How many lines each camera has answered, once it has.
    lines: Vec<Option<u64>>,
}

/// The orders that wait, and what was printed of the last one.
#[derive(Drop)]
pub struct Answers {
    alloc: Global,
    pending: Vec<Pending>,
    next: u64,
    /// How many orders were answered.
    pub answered: u64,
}

impl Answers {
    /// No orders.
    pub fn new(alloc: Global) -> Answers {
        Answers {
            alloc,
            pending: Vec::new(alloc),
            next: 0,
            answered: 0,
        }
    }

    /// Whether no order waits.
    pub fn is_empty(&self) -> bool {
        self.pending.is_empty()
    }

    /// An order of so many cameras, with a label or without. Its number.
    pub fn ask(&mut self, judge: &mut Judge, cameras: usize, labelled: bool) -> u64 {
        let order = self.next;
        self.next = order.saturating_add(1);
        let Ok(core) = Replies::new(self.alloc, cameras) else {
            judge.holds(false, "there is memory");
            return order;
        };
        let mut lines = Vec::new(self.alloc);
        for _ in 0..cameras {
            judge.put(&mut lines, None);
        }
        let pending = Pending {
            order,
            labelled,
            core,
            lines,
        };
        judge.put(&mut self.pending, pending);
        order
    }

    // Where an order is.
    fn at(&self, order: u64) -> Option<usize> {
        self.pending
            .iter()
            .position(|pending| pending.order == order)
    }

    /// A camera of an order answers it with so many lines. What is printed by that: all lines of the order, once each
    /// camera has answered.
    pub fn give(&mut self, judge: &mut Judge, order: u64, place: usize, count: u64) -> u64 {
        let Some(at) = self.at(order) else {
            judge.holds(false, "an order is answered once");
            return 0;
        };
        let answer = lines_of(self.alloc, judge, order, place, count);
        let Some(pending) = self.pending.get_mut(at) else {
            return 0;
        };
        if let Some(given) = pending.lines.get_mut(place) {
            if given.is_none() {
                *given = Some(count);
            }
        }
        let is_whole = pending.lines.iter().all(|given| given.is_some());
        judge.holds(
            pending.core.give(place, answer) == is_whole,
            "an order is answered when the last of its cameras is",
        );
        if !is_whole {
            let again = lines_of(self.alloc, judge, order, place, count.saturating_add(1));
            judge.holds(
                !pending.core.give(place, again),
                "a second answer of a camera counts for nothing",
            );
            return 0;
        }
        let printed = print(self.alloc, judge, pending);
        judge_printed(judge, pending, printed.as_slice());
        self.answered = self.answered.saturating_add(1);
        let _gone = self.pending.remove(at);
        printed.len() as u64
    }

    /// The program is killed: what waits is never answered.
    pub fn drop_all(&mut self) {
        self.pending.clear();
    }
}

// The lines with which a camera answers.
fn lines_of(
    alloc: Global,
    judge: &mut Judge,
    order: u64,
    place: usize,
    count: u64,
) -> Vec<Printed> {
    let mut lines = Vec::new(alloc);
    for line in 0..count {
        judge.put(&mut lines, Printed::Line(order, place, line));
    }
    lines
}

// What is printed of an order that is answered.
fn print(alloc: Global, judge: &mut Judge, pending: &mut Pending) -> Vec<Printed> {
    let mut printed = Vec::new(alloc);
    for answer in pending.core.take(alloc) {
        let Some(lines) = answer else {
            continue;
        };
        let is_there = printed.extend_from_slice(&lines).is_ok();
        judge.holds(is_there, "there is memory");
    }
    if pending.labelled {
        judge.put(&mut printed, Printed::Done(pending.order));
    }
    printed
}

// The lines are those of each camera, in the order of the cameras, and `done` is the last.
fn judge_printed(judge: &mut Judge, pending: &Pending, printed: &[Printed]) {
    let mut at = 0usize;
    for place in 0..pending.lines.len() {
        let count = match pending.lines.get(place) {
            Some(Some(count)) => *count,
            _ => 0,
        };
        at = judge_lines(judge, pending.order, place, count, printed, at);
    }
    if pending.labelled {
        judge.holds(
            printed.get(at).copied() == Some(Printed::Done(pending.order)),
            "a labelled order's last line is that it is done",
        );
        at = at.saturating_add(1);
    }
    judge.holds(at == printed.len(), "no other line is printed between");
}

// The lines of a camera come from a place on. The place after them.
fn judge_lines(
    judge: &mut Judge,
    order: u64,
    place: usize,
    count: u64,
    printed: &[Printed],
    from: usize,
) -> usize {
    let mut at = from;
    for line in 0..count {
        judge.holds(
            printed.get(at).copied() == Some(Printed::Line(order, place, line)),
            "the lines of an order are together, in the order of its cameras",
        );
        at = at.saturating_add(1);
    }
    at
}
