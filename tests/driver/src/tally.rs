//! How often each answer came up: a comparison says nothing of an answer that never did.

use std::collections::BTreeMap;

#[derive(Default)]
pub struct Tally {
    counts: BTreeMap<String, u64>,
}

impl Tally {
    pub fn add(&mut self, what: impl Into<String>) {
        self.add_many(what, 1);
    }

    pub fn add_many(&mut self, what: impl Into<String>, count: u64) {
        *self.counts.entry(what.into()).or_insert(0) += count;
    }

    pub fn count(&self, what: &str) -> u64 {
        self.counts.get(what).copied().unwrap_or(0)
    }

    /// By name, numbers at the end of a name by size.
    pub fn print(&self) {
        let key = |what: &str| {
            let (name, number) = what.split_once('=').unwrap_or((what, ""));
            (name.to_string(), number.parse().unwrap_or(0u64))
        };
        let mut counts: Vec<(&String, &u64)> = self.counts.iter().collect();
        counts.sort_by_key(|(what, _)| key(what));
        for (what, count) in counts {
            println!("{count:>9}  {what}");
        }
    }

    /// Everything that must come up often, and did not.
    pub fn missing(&self, wanted: &[(String, u64)]) -> Vec<String> {
        let short = |(what, least): &&(String, u64)| self.count(what) < *least;
        wanted.iter().filter(short).map(|(what, _)| what.clone()).collect()
    }
}
