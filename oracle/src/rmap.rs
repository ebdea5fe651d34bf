//! Stand-in for the original's runs of numbers, each by its first and last. No answer here rests on it.
use std::collections::BTreeMap;
pub struct RMap(BTreeMap<u64, u64>);
impl RMap {
    pub const fn new() -> Self {
        Self(BTreeMap::new())
    }
    fn run_of(&self, i: u64) -> Option<(u64, u64)> {
        self.0
            .range(..=i)
            .next_back()
            .map(|(&s, &e)| (s, e))
            .filter(|r| i <= r.1)
    }
    pub fn insert(&mut self, i: u64) {
        if self.run_of(i).is_some() {
            return;
        }
        let start = i.checked_sub(1).and_then(|p| self.run_of(p)).map_or(i, |r| r.0);
        let end = i.checked_add(1).and_then(|n| self.0.remove(&n)).unwrap_or(i);
        self.0.insert(start, end);
    }
    /// Drops the numbers from `start` to `end`, both among them.
    pub fn remove(&mut self, start: u64, end: u64) {
        let hit: Vec<_> = self
            .0
            .range(..=end)
            .map(|(&s, &e)| (s, e))
            .filter(|r| r.1 >= start)
            .collect();
        for (s, e) in hit {
            self.0.remove(&s);
            if s < start {
                self.0.insert(s, start - 1);
            }
            if e > end {
                self.0.insert(end + 1, e);
            }
        }
    }
    pub fn next_gap(&self, i: u64) -> (Option<u64>, Option<u64>) {
        let next = i.checked_add(1).and_then(|n| self.0.range(n..).next()).map(|(&s, _)| s);
        (self.run_of(i).map(|r| r.1), next)
    }
    pub fn missing_items(&self, from: u64, most: usize) -> Vec<u64> {
        let mut out = Vec::new();
        let Some(last) = self.last_index() else { return out };
        let mut i = from;
        while i < last && out.len() < most {
            match self.run_of(i) {
                Some((_, e)) if e >= last => break,
                Some((_, e)) => i = e + 1,
                None => {
                    out.push(i);
                    i += 1;
                }
            }
        }
        out
    }
    pub fn iter(&self) -> impl Iterator<Item = (&u64, &u64)> {
        self.0.iter()
    }
    pub fn iter_from(&self, from: u64) -> impl Iterator<Item = (&u64, &u64)> {
        self.0.iter().filter(move |r| *r.1 >= from)
    }
    pub fn first_index(&self) -> Option<u64> {
        self.0.keys().next().copied()
    }
    pub fn last_index(&self) -> Option<u64> {
        self.0.values().next_back().copied()
    }
}
