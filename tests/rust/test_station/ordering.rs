//! The orders that wait for a camera, beside a plain count of those that came.

use crate::judge::Judge;
use loop_station_core::{AddedOrder, MOST_ORDERS, Orders, SaveKey};
use std::alloc::Global;

/// What an order asks for of the clip of an id.
#[derive(Clone, Copy)]
pub enum Wish {
    /// It is released, if it begins with this frame, where one is said.
    Release(u32, Option<u64>),
    /// It is released, since it is saved; this is the file of its store. Nobody waits for that.
    ReleaseSaved(SaveKey, u64),
    /// It is saved; `true`: with all others of its tag.
    Save(u32, bool),
    Cancel(u32),
}

// An order that was taken in: which of them it is, from 0.
#[derive(Clone, Copy)]
struct Order {
    number: u64,
    wish: Wish,
}

// Whether somebody does the orders.
#[derive(Clone, Copy, PartialEq, Eq)]
enum Doer {
    ToCome,
    Here,
    Gone,
}

/// The orders of a camera.
#[derive(Drop)]
pub struct Ordering {
    core: Orders,
    // Those that the station holds, as the core told it.
    held: Vec<Order>,
    // How many were taken in, and how many of these were handed out.
    taken: u64,
    handed: u64,
    doer: Doer,
}

impl Ordering {
    /// None, and nobody does them yet.
    pub fn new(alloc: Global) -> Ordering {
        Ordering {
            core: Orders::new(),
            held: Vec::new(alloc),
            taken: 0,
            handed: 0,
            doer: Doer::ToCome,
        }
    }

    /// Whether nobody does them any more.
    pub fn is_gone(&self) -> bool {
        self.doer == Doer::Gone
    }

    /// One comes. Whether it is taken in.
    pub fn add(&mut self, judge: &mut Judge, wish: Wish) -> bool {
        let is_full = self.taken.saturating_sub(self.handed) >= MOST_ORDERS as u64;
        let (core, added) = self.core.add();
        self.core = core;
        judge.holds(
            match added {
                AddedOrder::Waits => !self.is_gone() && !is_full,
                AddedOrder::Absent => self.is_gone(),
                AddedOrder::TooMany => !self.is_gone() && is_full,
            },
            "an order is taken in where somebody does it, and 256 wait at most",
        );
        if added != AddedOrder::Waits {
            return false;
        }
        let order = Order {
            number: self.taken,
            wish,
        };
        judge.put(&mut self.held, order);
        self.taken = self.taken.saturating_add(1);
        true
    }

    /// The next one is handed out, if one waits.
    pub fn take(&mut self, judge: &mut Judge) -> Option<Wish> {
        let (core, is_there) = self.core.take();
        self.core = core;
        judge.holds(
            is_there == (self.handed < self.taken),
            "an order is handed out where one waits",
        );
        judge.holds(
            !self.core.is_idle() || !is_there,
            "a camera that does an order isn't idle",
        );
        if !is_there || self.held.is_empty() {
            return None;
        }
        let order = self.held.remove(0);
        judge.holds(
            order.number == self.handed,
            "each order is handed out once, in its order",
        );
        self.handed = self.handed.saturating_add(1);
        Some(order.wish)
    }

    /// The one that was handed out is done.
    pub fn done(&mut self, judge: &mut Judge) {
        let waits = self.handed < self.taken;
        let (core, has_more) = self.core.done();
        self.core = core;
        judge.holds(
            has_more == waits,
            "the desk's thread looks again where a further order waits",
        );
        judge.holds(
            self.core.is_idle() != waits,
            "a camera is idle where no order waits",
        );
    }

    /// From now on somebody does them.
    pub fn open(&mut self) {
        self.core = self.core.open();
        self.doer = Doer::Here;
    }

    /// From now on nobody does. Those that wait are handed out, and answered so. How many.
    pub fn leave(&mut self, judge: &mut Judge) -> u64 {
        self.core = self.core.leave();
        self.doer = Doer::Gone;
        let mut count = 0u64;
        for _ in 0..MOST_ORDERS {
            if self.take(judge).is_none() {
                break;
            }
            count = count.saturating_add(1);
        }
        self.done(judge);
        judge.holds(
            self.handed == self.taken,
            "each order that waits is answered where its camera's store isn't there",
        );
        count
    }
}
