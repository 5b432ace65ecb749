//! The tables that the search goes on from: for each call the slowest ones, a few of each family.

use crate::library::Answer;
use std::time::Duration;

/// A table that was measured. A call that was stopped took the limit.
#[derive(Clone)]
pub struct Found {
    /// The family that it descends from, by number.
    pub family: usize,
    pub table: Vec<u8>,
    /// N, as the graph call says, and the answer of the partition call; none where the call was stopped.
    pub regions: Option<u64>,
    pub answer: Option<Answer>,
    pub reduce: Duration,
    pub graph: Duration,
}

/// How many the search mostly goes on from, and how many of them may be of one family.
const SLOWEST: usize = 20;
const OF_A_FAMILY: usize = 3;

/// The slowest tables by one time, slowest first.
pub struct Pool {
    time: fn(&Found) -> Duration,
    kept: Vec<Found>,
}

impl Pool {
    pub fn new(time: fn(&Found) -> Duration) -> Pool {
        Pool { time, kept: Vec::new() }
    }

    /// The slowest tables, at most three of a family.
    pub fn slowest(&self) -> &[Found] {
        &self.kept[..self.kept.len().min(SLOWEST)]
    }

    /// The same and faster ones, so that each family has up to three.
    pub fn all(&self) -> &[Found] {
        &self.kept
    }

    /// The time by which this pool orders its tables.
    pub fn time(&self, found: &Found) -> Duration {
        (self.time)(found)
    }

    /// Does it take longer than one of its family that would give way to it?
    pub fn takes(&self, found: &Found) -> bool {
        let mut family = self.kept.iter().filter(|kept| kept.family == found.family);
        let is_there = family.clone().any(|kept| kept.table == found.table);
        !is_there && family.nth(OF_A_FAMILY - 1).map_or(true, |last| self.time(found) > self.time(last))
    }

    /// Puts it among the others. The fastest of its family gives way where there are too many.
    pub fn keep(&mut self, found: Found) {
        let family = found.family;
        let slower = self.kept.partition_point(|kept| self.time(kept) >= self.time(&found));
        self.kept.insert(slower, found);
        if let Some((place, _)) = self.kept.iter().enumerate().filter(|(_, kept)| kept.family == family).nth(OF_A_FAMILY) {
            self.kept.remove(place);
        }
    }
}
