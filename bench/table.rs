//! Writes model tables (docs/FORMAT.md), for the families.

/// Comparisons of atoms. An invariant takes the first two only.
pub const LESS: u8 = 0;
pub const AT_MOST: u8 = 1;
pub const MORE: u8 = 2;
pub const AT_LEAST: u8 = 3;
pub const EQUAL: u8 = 4;

/// A guard atom: clock, comparison, constant.
pub type Guard = (u8, u8, u8);

/// A branch: weight, target, and the reset mask, bit 0 for clock 0.
pub type Branch = (u16, u8, u8);

/// A model as it is written: the initial location is 0 if nothing else is said.
pub struct Model {
    clocks: u8,
    pub initial: u8,
    labels: Vec<u8>,
    invariants: Vec<u8>,
    edges: Vec<u8>,
}

impl Model {
    pub fn new(clocks: u8, labels: &[u8]) -> Model {
        Model { clocks, initial: 0, labels: labels.to_vec(), invariants: Vec::new(), edges: Vec::new() }
    }

    pub fn invariant(&mut self, location: u8, clock: u8, comparison: u8, constant: u8) {
        self.invariants.extend([3, location, clock, comparison, constant]);
    }

    /// An edge. W is the sum of the weights.
    pub fn edge(&mut self, source: u8, action: u8, guards: &[Guard], branches: &[Branch]) {
        let [low, high] = branches.iter().map(|branch| branch.0).sum::<u16>().to_le_bytes();
        self.edges.extend([4, source, action, low, high]);
        for &(clock, comparison, constant) in guards {
            self.edges.extend([5, clock, comparison, constant]);
        }
        for &(weight, target, mask) in branches {
            let [low, high] = weight.to_le_bytes();
            self.edges.extend([6, low, high, target, mask]);
        }
    }

    pub fn table(&self) -> Vec<u8> {
        let mut table = vec![1, self.clocks, self.labels.len() as u8, self.initial];
        for &label in &self.labels {
            table.extend([2, label]);
        }
        table.extend(&self.invariants);
        table.extend(&self.edges);
        table.push(7);
        table
    }
}
