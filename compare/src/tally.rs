//! How often a run met what it has to meet.

use std::collections::BTreeMap;

/// Counts by name.
#[derive(Default)]
pub struct Tally(BTreeMap<String, u64>);

impl Tally {
    pub fn note(&mut self, mark: String) {
        *self.0.entry(mark).or_default() += 1;
    }

    pub fn count(&self, mark: &str) -> u64 {
        self.0.get(mark).copied().unwrap_or(0)
    }

    /// What was met less often than wanted, said in words.
    pub fn short(&self, wanted: &[(String, u64)]) -> Vec<String> {
        let short = wanted.iter().filter(|(mark, least)| self.count(mark) < *least);
        short.map(|(mark, least)| format!("{mark}: {} times, wanted {least}", self.count(mark))).collect()
    }
}
