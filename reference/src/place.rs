// The state call: the region in which a state lies, refusals 20 and 21, and the region's number.
//
// A state's values are fractions over one denominator. No value is ever divided with loss: whether a clock is
// over is told by comparing products, an integer part is a quotient, and the fractional parts stand to each
// other as the remainders do, since the denominator is the same.

use crate::explore;
use crate::region::{Clocks, Region, CLOCKS, OVER};
use crate::table::{self, Model, Refusal};
use std::collections::BTreeSet;

/// The largest denominator that the state call takes.
pub const LARGEST_STATE_DENOMINATOR: u64 = 1_000_000;

/// A state as the state call takes it: any six numbers.
#[derive(Clone, Copy, PartialEq, Eq, Hash, Debug)]
pub struct State {
    pub location: u64,
    pub values: [u64; CLOCKS],
    pub denominator: u64,
}

impl State {
    /// Whether the model has the location, the denominator is in its range, and each clock beyond n is 0.
    fn is_allowed(&self, model: &Model) -> bool {
        let location = self.location < model.labels.len() as u64;
        let denominator = self.denominator >= 1 && self.denominator <= LARGEST_STATE_DENOMINATOR;
        let beyond = self.values[usize::from(model.clocks)..].iter().all(|&value| value == 0);
        location && denominator && beyond
    }

    /// Whether a clock is above M.
    pub fn is_over(&self, clock: usize, clocks: Clocks) -> bool {
        let border = u128::from(clocks.largest) * u128::from(self.denominator);
        u128::from(self.values[clock]) > border
    }

    /// The fractional part of a clock's value, as a number over the state's denominator.
    fn fraction(&self, clock: usize) -> u64 {
        self.values[clock] % self.denominator
    }

    /// The different non-zero fractions of the clocks that are not over, smallest first.
    fn fractions(&self, clocks: Clocks) -> BTreeSet<u64> {
        (0..clocks.count)
            .filter(|&clock| !self.is_over(clock, clocks))
            .map(|clock| self.fraction(clock))
            .filter(|&fraction| fraction != 0)
            .collect()
    }

    /// The region of a state whose location is one of a model and whose denominator is not 0.
    pub fn region(&self, clocks: Clocks) -> Region {
        let fractions = self.fractions(clocks);
        let mut region = Region::start(self.location as u8);
        for clock in 0..clocks.count {
            if self.is_over(clock, clocks) {
                region.whole[clock] = OVER;
            } else {
                // At most M, which is 15 at most. A fraction of zero has none at or below it: rank 0.
                region.whole[clock] = (self.values[clock] / self.denominator) as u8;
                region.rank[clock] = fractions.range(..=self.fraction(clock)).count() as u8;
            }
        }
        region
    }
}

/// The state call: the number of the state's region, or a refusal of 1 to 15, 20 or 21. The lent bytes hold
/// the entries afterwards, as after the graph call; 20 and 21 come after exploring.
pub fn place(table: &[u8], lent: &mut [u8], state: &State) -> Result<usize, Refusal> {
    let model = table::read(table)?;
    let regions = explore::net(&model, lent)?.regions;
    if !state.is_allowed(&model) {
        return Err(Refusal { number: 20, place: 0 });
    }
    let region = state.region(Clocks::of(&model));
    let number = regions.iter().position(|&reached| reached == region);
    number.ok_or(Refusal { number: 21, place: 0 })
}
