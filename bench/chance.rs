//! A source of chance that gives the same numbers for the same seed.

/// The steps of a linear congruence, of which the high bits are taken.
pub struct Chance(pub u64);

impl Chance {
    /// A number below the bound, which is not 0.
    pub fn below(&mut self, bound: u8) -> u8 {
        self.number(bound.into()) as u8
    }

    /// The same for larger bounds.
    pub fn number(&mut self, bound: usize) -> usize {
        self.0 = self.0.wrapping_mul(6_364_136_223_846_793_005).wrapping_add(1_442_695_040_888_963_407);
        ((self.0 >> 33) % bound as u64) as usize
    }
}
