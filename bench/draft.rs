//! A table as lists of records that can be changed, for the search. It is read from an accepted table and written again; `mend` brings
//! records that a change has spoilt back within the rules of docs/FORMAT.md.

use crate::table::{Branch, Guard, Model, AT_MOST, EQUAL};

pub const MOST_CLOCKS: u8 = 4;
pub const MOST_LOCATIONS: usize = 64;
pub const LARGEST_CONSTANT: u8 = 15;
const MOST_INVARIANTS: usize = 128;
const MOST_EDGES: usize = 128;
const MOST_OF_AN_EDGE: usize = 8;
const LARGEST_DENOMINATOR: u32 = 60_000;

#[derive(Clone)]
pub struct Edge {
    pub source: u8,
    pub action: u8,
    pub guards: Vec<Guard>,
    pub branches: Vec<Branch>,
}

/// An invariant atom: location, clock, comparison, constant.
pub type Invariant = (u8, u8, u8, u8);

#[derive(Clone)]
pub struct Draft {
    pub clocks: u8,
    pub initial: u8,
    pub labels: Vec<u8>,
    pub invariants: Vec<Invariant>,
    pub edges: Vec<Edge>,
}

impl Draft {
    /// The records of an accepted table.
    pub fn read(table: &[u8]) -> Draft {
        let mut draft = Draft { clocks: 0, initial: 0, labels: Vec::new(), invariants: Vec::new(), edges: Vec::new() };
        let mut rest = table;
        loop {
            let length = match *rest {
                [1, clocks, _, initial, ..] => {
                    (draft.clocks, draft.initial) = (clocks, initial);
                    4
                }
                [2, label, ..] => {
                    draft.labels.push(label);
                    2
                }
                [3, location, clock, comparison, constant, ..] => {
                    draft.invariants.push((location, clock, comparison, constant));
                    5
                }
                [4, source, action, _, _, ..] => {
                    draft.edges.push(Edge { source, action, guards: Vec::new(), branches: Vec::new() });
                    5
                }
                [5, clock, comparison, constant, ..] => {
                    draft.last_edge().guards.push((clock, comparison, constant));
                    4
                }
                [6, low, high, target, mask, ..] => {
                    draft.last_edge().branches.push((u16::from_le_bytes([low, high]), target, mask));
                    5
                }
                _ => return draft,
            };
            rest = &rest[length..];
        }
    }

    fn last_edge(&mut self) -> &mut Edge {
        self.edges.last_mut().expect("an accepted table has no guard atom or branch before its first edge")
    }

    pub fn table(&self) -> Vec<u8> {
        let mut model = Model::new(self.clocks, &self.labels);
        model.initial = self.initial;
        for &(location, clock, comparison, constant) in &self.invariants {
            model.invariant(location, clock, comparison, constant);
        }
        for edge in &self.edges {
            model.edge(edge.source, edge.action, &edge.guards, &edge.branches);
        }
        model.table()
    }

    pub fn locations(&self) -> u8 {
        self.labels.len() as u8
    }

    /// The bits of all clocks.
    pub fn all_clocks(&self) -> u8 {
        ((1u16 << self.clocks) - 1) as u8
    }

    /// Brings all numbers into their ranges and all lists to their lengths. What is sound already stays as it is.
    pub fn mend(&mut self) {
        let (clocks, all_clocks) = (self.clocks, self.all_clocks());
        self.labels.truncate(MOST_LOCATIONS);
        let locations = self.locations();
        self.initial %= locations;
        if clocks == 0 {
            self.invariants.clear();
            self.edges.iter_mut().for_each(|edge| edge.guards.clear());
        }
        self.invariants.truncate(MOST_INVARIANTS);
        for (location, clock, comparison, constant) in &mut self.invariants {
            *location %= locations;
            *clock %= clocks;
            *comparison %= AT_MOST + 1;
            *constant %= LARGEST_CONSTANT + 1;
        }
        self.edges.retain(|edge| !edge.branches.is_empty());
        self.edges.truncate(MOST_EDGES);
        for edge in &mut self.edges {
            edge.source %= locations;
            edge.guards.truncate(MOST_OF_AN_EDGE);
            for (clock, comparison, constant) in &mut edge.guards {
                *clock %= clocks;
                *comparison %= EQUAL + 1;
                *constant %= LARGEST_CONSTANT + 1;
            }
            edge.branches.truncate(MOST_OF_AN_EDGE);
            for (_, target, mask) in &mut edge.branches {
                *target %= locations;
                *mask &= all_clocks;
            }
            mend_weights(&mut edge.branches);
        }
    }
}

/// No weight is 0, and their sum is not too large: where it would be, all are made smaller.
fn mend_weights(branches: &mut [Branch]) {
    let sum = |branches: &[Branch]| branches.iter().map(|branch| u32::from(branch.0)).sum::<u32>();
    while sum(branches) > LARGEST_DENOMINATOR {
        branches.iter_mut().for_each(|branch| branch.0 /= 2);
    }
    branches.iter_mut().for_each(|branch| branch.0 = branch.0.max(1));
}
