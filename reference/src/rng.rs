// The seeded source of chance for the case generator: splitmix64, so that every run makes the same cases.

pub struct Rng {
    state: u64,
}

/// The seed of all cases.
const SEED: u64 = 0x7461_626c_6572_6561;

impl Rng {
    /// The source for one group of cases. Groups do not disturb each other: a case added to one
    /// group leaves the others as they were.
    pub fn for_group(group: u64) -> Rng {
        let mut rng = Rng { state: SEED ^ group.wrapping_mul(0xd6e8_feb8_6659_fd93) };
        rng.next();
        rng
    }

    /// The source for one of many asks of a seed, which does not depend on the others.
    pub fn for_ask(seed: u64, number: u64) -> Rng {
        let mut rng = Rng { state: seed };
        rng.state = rng.next() ^ number.wrapping_mul(0xd6e8_feb8_6659_fd93);
        rng.next();
        rng
    }

    pub fn next(&mut self) -> u64 {
        self.state = self.state.wrapping_add(0x9e37_79b9_7f4a_7c15);
        let mut mixed = self.state;
        mixed = (mixed ^ (mixed >> 30)).wrapping_mul(0xbf58_476d_1ce4_e5b9);
        mixed = (mixed ^ (mixed >> 27)).wrapping_mul(0x94d0_49bb_1331_11eb);
        mixed ^ (mixed >> 31)
    }

    /// A number from 0 to `bound` - 1. The slight unevenness of the remainder does no harm here.
    pub fn below(&mut self, bound: usize) -> usize {
        assert!(bound > 0, "nothing lies below 0");
        (self.next() % bound as u64) as usize
    }

    /// A number from `low` to `high`, both included.
    pub fn between(&mut self, low: usize, high: usize) -> usize {
        low + self.below(high - low + 1)
    }

    /// True `part` times out of `whole`.
    pub fn chance(&mut self, part: usize, whole: usize) -> bool {
        self.below(whole) < part
    }

    pub fn byte(&mut self) -> u8 {
        self.below(256) as u8
    }

    pub fn pick<T: Copy>(&mut self, list: &[T]) -> T {
        list[self.below(list.len())]
    }
}
