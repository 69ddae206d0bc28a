//! What a simulation finds.

/// The first thing that doesn't hold.
#[derive(Drop)]
pub struct Judge {
    pub broken: Option<&'static str>,
}

impl Judge {
    /// Nothing was found yet.
    pub fn new() -> Judge {
        Judge { broken: None }
    }

    /// This has to hold.
    pub fn holds(&mut self, so: bool, what: &'static str) {
        if !so && self.broken.is_none() {
            self.broken = Some(what);
        }
    }

    /// Adds to a list.
    pub fn put<T: Drop>(&mut self, list: &mut Vec<T>, item: T) {
        let is_there = list.push(item).is_ok();
        self.holds(is_there, "there is memory");
    }
}
