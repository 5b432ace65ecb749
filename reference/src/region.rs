// One region: its clocks, what delay and reset make of it, which atoms hold in it, and its entry.
//
// A region is a location and, clock by clock, over or an integer part and a rank. It is kept as the
// document's entry has it: 16 and rank 0 for a clock that is over, 0 and rank 0 for a clock that the model
// does not have.

use crate::table::{GuardAtom, Model, MOST_CLOCKS};
use std::cmp::Ordering;

/// How many clocks a region has room for.
pub const CLOCKS: usize = MOST_CLOCKS as usize;
/// The length of an entry in bytes: location, integer parts, ranks.
pub const ENTRY: usize = 1 + 2 * CLOCKS;
/// The integer part that stands for a clock that is over.
pub const OVER: u8 = 16;

/// What delay must know of the model: how many clocks it has, and M.
#[derive(Clone, Copy, Debug)]
pub struct Clocks {
    pub count: usize,
    pub largest: u8,
}

impl Clocks {
    /// M is the largest constant of the table, 0 if there is none: reached or not, every atom counts.
    pub fn of(model: &Model) -> Clocks {
        let invariants = model.invariants.iter().map(|atom| atom.constant);
        let guards = model.edges.iter().flat_map(|edge| &edge.guards).map(|atom| atom.constant);
        Clocks { count: model.clocks.into(), largest: invariants.chain(guards).max().unwrap_or(0) }
    }
}

/// The place of each fraction among the different non-zero fractions, from 1, smallest first; 0 for zero.
/// A clock that has no fraction here (over, or not there) is given as zero.
pub fn ranks_of<T: Ord + Copy + Default>(fractions: [T; CLOCKS]) -> [u8; CLOCKS] {
    let zero = T::default();
    let mut ranks = [0; CLOCKS];
    for speaker in 0..CLOCKS {
        // The first clock of each different non-zero fraction speaks for it.
        let fraction = fractions[speaker];
        let speaks = fraction != zero && !fractions[..speaker].contains(&fraction);
        for clock in 0..CLOCKS {
            ranks[clock] += u8::from(speaks && fractions[clock] >= fraction);
        }
    }
    ranks
}

#[derive(Clone, Copy, PartialEq, Eq, Debug)]
pub struct Region {
    pub location: u8,
    /// The integer parts; `OVER` for a clock that is over.
    pub whole: [u8; CLOCKS],
    /// The ranks; 0 for a clock that is over.
    pub rank: [u8; CLOCKS],
}

impl Region {
    /// The location with all clocks 0.
    pub fn start(location: u8) -> Region {
        Region { location, whole: [0; CLOCKS], rank: [0; CLOCKS] }
    }

    pub fn is_over(self, clock: usize) -> bool {
        self.whole[clock] == OVER
    }

    /// Whether the clock is not over and has fraction zero.
    fn is_whole(self, clock: usize) -> bool {
        !self.is_over(clock) && self.rank[clock] == 0
    }

    /// The region that follows by delay, whatever the invariant says of it.
    pub fn delay(self, clocks: Clocks) -> Option<Region> {
        let all = 0..clocks.count;
        if all.clone().all(|clock| self.is_over(clock)) {
            return None;
        }
        let mut next = self;
        if all.clone().any(|clock| self.is_whole(clock)) {
            let mut started = false;
            for clock in all.clone().filter(|&clock| self.is_whole(clock)) {
                if self.whole[clock] == clocks.largest {
                    next.whole[clock] = OVER;
                } else {
                    next.rank[clock] = 1;
                    started = true;
                }
            }
            if started {
                for clock in all.filter(|&clock| self.rank[clock] > 0) {
                    next.rank[clock] = self.rank[clock] + 1;
                }
            }
        } else {
            // Each clock that is not over has a rank of 1 or more, and one that is over has 0.
            let highest = all.clone().map(|clock| self.rank[clock]).max().unwrap_or(0);
            for clock in all.filter(|&clock| self.rank[clock] == highest) {
                next.whole[clock] = self.whole[clock] + 1;
                next.rank[clock] = 0;
            }
        }
        Some(next)
    }

    /// The region with the clocks of the mask reset. Bit 0 is clock 0.
    #[inline]
    pub fn reset(self, mask: u8) -> Region {
        let mut next = self;
        for clock in (0..CLOCKS).filter(|clock| mask & (1 << clock) != 0) {
            next.whole[clock] = 0;
            next.rank[clock] = 0;
        }
        // Among themselves the ranks left stand as the fractions do.
        next.rank = ranks_of(next.rank);
        next
    }

    /// How the clock's value stands to a constant, which is M at most.
    fn stands_to(self, clock: usize, constant: u8) -> Ordering {
        if self.is_over(clock) {
            return Ordering::Greater;
        }
        self.whole[clock].cmp(&constant).then(self.rank[clock].cmp(&0))
    }

    /// Whether an atom holds. Invariant atoms know the first two comparisons only, with the same meaning.
    pub fn meets(self, clock: u8, comparison: u8, constant: u8) -> bool {
        let standing = self.stands_to(clock.into(), constant);
        match comparison {
            0 => standing.is_lt(),
            1 => standing.is_le(),
            2 => standing.is_gt(),
            3 => standing.is_ge(),
            4 => standing.is_eq(),
            _ => unreachable!("the reader refuses other comparisons"),
        }
    }

    /// Whether all atoms of a guard hold.
    pub fn meets_all(self, guards: &[GuardAtom]) -> bool {
        guards.iter().all(|atom| self.meets(atom.clock, atom.comparison, atom.constant))
    }

    /// The nine bytes of the region.
    pub fn entry(self) -> [u8; ENTRY] {
        let mut bytes = [0; ENTRY];
        bytes[0] = self.location;
        bytes[1..1 + CLOCKS].copy_from_slice(&self.whole);
        bytes[1 + CLOCKS..].copy_from_slice(&self.rank);
        bytes
    }

    /// The region as one number, the key under which it is found again: different regions have different
    /// ones, as five bits hold an integer part and three bits a rank.
    #[inline]
    pub fn packed(self) -> u64 {
        (0..CLOCKS).fold(u64::from(self.location), |packed, clock| {
            packed << 8 | u64::from(self.whole[clock]) << 3 | u64::from(self.rank[clock])
        })
    }
}
