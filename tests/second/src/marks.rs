//! Marks: how often each branch and twist of the generator was used.

use std::collections::BTreeMap;

#[derive(Default)]
pub struct Marks {
    pub counts: BTreeMap<String, u64>,
    log: Vec<String>,
}

impl Marks {
    pub fn add(&mut self, name: &str) {
        *self.counts.entry(name.to_string()).or_insert(0) += 1;
        self.log.push(name.to_string());
    }

    pub fn count(&self, name: &str) -> u64 {
        self.counts.get(name).copied().unwrap_or(0)
    }

    /// A place in the log, to come back to.
    pub fn place(&self) -> usize {
        self.log.len()
    }

    /// Takes back the marks made since a place.
    pub fn take_back(&mut self, place: usize) {
        for name in self.log.split_off(place) {
            let left = self.count(&name).saturating_sub(1);
            self.counts.insert(name.clone(), left);
            if left == 0 {
                self.counts.remove(&name);
            }
        }
    }

    /// Begins a new log; what is counted stays.
    pub fn settle(&mut self) {
        self.log.clear();
    }
}
