// Rounds by pairs, straight from the document's text: a relation is a table of pairs, and each condition is
// tried on each pair. Slow; the collection of cases holds the rounds by signatures to it on small models.

use crate::links::{Graph, Step};
use crate::rounds::Blocks;

/// An equivalence of regions.
#[derive(PartialEq, Eq)]
pub struct Relation {
    count: usize,
    pairs: Vec<bool>,
}

/// Which of the demands on a bisimulation some related pair fails.
#[derive(Clone, Copy, Default, PartialEq, Eq, Debug)]
pub struct Faults {
    pub labels: bool,
    pub delay: bool,
    /// No available edge of the same action at all.
    pub action: bool,
    /// Available edges of the same action, but with other shares.
    pub shares: bool,
    /// A pair meets delay or edges one way and not the other way.
    pub one_way: bool,
}

impl Relation {
    fn new(count: usize, related: impl Fn(usize, usize) -> bool) -> Relation {
        let pairs = (0..count * count).map(|pair| related(pair / count, pair % count)).collect();
        Relation { count, pairs }
    }

    /// Equal numbers mean related.
    pub fn of(numbers: &[u64]) -> Relation {
        Relation::new(numbers.len(), |first, second| numbers[first] == numbers[second])
    }

    fn relates(&self, first: usize, second: usize) -> bool {
        self.pairs[first * self.count + second]
    }

    /// The lowest region of each class.
    fn lowest(&self) -> Vec<usize> {
        let is_lowest = |&region: &usize| (0..region).all(|lower| !self.relates(region, lower));
        (0..self.count).filter(is_lowest).collect()
    }

    /// The classes as blocks, numbered from 0 by their lowest region.
    pub fn blocks(&self) -> Blocks {
        let lowest = self.lowest();
        let block = |region| lowest.iter().position(|&low| self.relates(low, region)).expect("some class");
        (0..self.count).map(|region| block(region) as u32).collect()
    }
}

/// Round 0 relates regions of equal label.
pub fn by_label(graph: &Graph) -> Relation {
    Relation::new(graph.count(), |first, second| graph.labels[first] == graph.labels[second])
}

/// Round k+1 relates r and s if round k does and both conditions, taken over round k, hold from r to s and from
/// s to r.
pub fn next_round(graph: &Graph, round: &Relation) -> Relation {
    let over = Over { graph, round, lowest: round.lowest() };
    Relation::new(graph.count(), |r, s| round.relates(r, s) && over.both(r, s) && over.both(s, r))
}

/// What some related pair fails.
pub fn faults(graph: &Graph, relation: &Relation) -> Faults {
    let over = Over { graph, round: relation, lowest: relation.lowest() };
    let mut faults = Faults::default();
    for r in 0..graph.count() {
        for s in (0..graph.count()).filter(|&s| relation.relates(r, s)) {
            faults.labels |= graph.labels[r] != graph.labels[s];
            faults.delay |= !over.delay(r, s);
            for step in graph.steps[r].iter().filter(|step| !over.answers(s, step)) {
                let acts = graph.steps[s].iter().any(|other| other.action == step.action);
                faults.action |= !acts;
                faults.shares |= acts;
            }
            faults.one_way |= over.both(r, s) != over.both(s, r);
        }
    }
    faults
}

/// Whether the relation is a bisimulation.
pub fn is_bisimulation(graph: &Graph, relation: &Relation) -> bool {
    faults(graph, relation) == Faults::default()
}

/// The conditions over a relation.
struct Over<'a> {
    graph: &'a Graph,
    round: &'a Relation,
    lowest: Vec<usize>,
}

impl Over<'_> {
    /// Both conditions from r to s.
    fn both(&self, r: usize, s: usize) -> bool {
        self.delay(r, s) && self.graph.steps[r].iter().all(|step| self.answers(s, step))
    }

    /// What a region reaches by delay, zero included.
    fn reached(&self, region: usize) -> Vec<usize> {
        let mut reached = vec![region];
        while let Some(next) = reached.last().and_then(|&last| self.graph.next[last]) {
            reached.push(next);
        }
        reached
    }

    /// Whatever r reaches by delay is related to something s reaches by delay.
    fn delay(&self, r: usize, s: usize) -> bool {
        let there = self.reached(s);
        self.reached(r).iter().all(|&one| there.iter().any(|&other| self.round.relates(one, other)))
    }

    /// Some available edge of s, same action, gives every class the same share.
    fn answers(&self, s: usize, step: &Step) -> bool {
        self.graph.steps[s].iter().any(|other| other.action == step.action && self.same_shares(step, other))
    }

    /// Shares are equal when cross products are.
    fn same_shares(&self, step: &Step, other: &Step) -> bool {
        self.lowest.iter().all(|&class| {
            self.weight_in(step, class) * other.denominator == self.weight_in(other, class) * step.denominator
        })
    }

    /// The sum of the weights of the branches that land in a class.
    fn weight_in(&self, step: &Step, class: usize) -> u64 {
        let there = step.landings.iter().filter(|landing| self.round.relates(class, landing.target));
        there.map(|landing| landing.weight).sum()
    }
}
