// The next round over any names, straight from the document's text and pair by pair: which regions of equal name a
// round relates whose predecessor has the names as its blocks. The names may be any: a class is then the regions of
// one name, and labels say nothing.
//
// Nothing here describes a region so that descriptions could be compared. Each pair is tried by itself.

use crate::links::{Graph, Step};

/// What each region reaches by delay, zero included.
pub fn reached(graph: &Graph) -> Vec<Vec<usize>> {
    let from = |region: usize| {
        let mut reached = vec![region];
        let mut here = region;
        while let Some(next) = graph.next[here] {
            reached.push(next);
            here = next;
        }
        reached
    };
    (0..graph.count()).map(from).collect()
}

/// The regions of a graph under names.
pub struct Named<'a> {
    graph: &'a Graph,
    reached: &'a [Vec<usize>],
    names: &'a [usize],
    /// The names that regions have, each once: one for each class.
    classes: Vec<usize>,
}

impl<'a> Named<'a> {
    pub fn new(graph: &'a Graph, reached: &'a [Vec<usize>], names: &'a [usize]) -> Named<'a> {
        let mut classes = names.to_vec();
        classes.sort_unstable();
        classes.dedup();
        Named { graph, reached, names, classes }
    }

    /// For each region the lowest that the next round relates to it.
    pub fn lowest(&self) -> Vec<usize> {
        let lowest = |region: usize| {
            let mut all = 0..self.graph.count();
            all.find(|&other| self.relates(region, other)).expect("a region is related to itself")
        };
        (0..self.graph.count()).map(lowest).collect()
    }

    /// Whether the next round relates r and s: the names do, and both conditions hold from r to s and from s to r.
    pub fn relates(&self, r: usize, s: usize) -> bool {
        self.same_name(r, s) && self.both(r, s) && self.both(s, r)
    }

    pub fn same_name(&self, r: usize, s: usize) -> bool {
        self.names[r] == self.names[s]
    }

    /// Both conditions from r to s.
    pub fn both(&self, r: usize, s: usize) -> bool {
        self.delay(r, s) && self.edges(r, s)
    }

    /// Whatever r reaches by delay has the name of something that s reaches by delay.
    pub fn delay(&self, r: usize, s: usize) -> bool {
        self.reached[r].iter().all(|&one| self.reached[s].iter().any(|&other| self.same_name(one, other)))
    }

    /// For each available edge of r some available edge of s, same action, gives every class the same share.
    pub fn edges(&self, r: usize, s: usize) -> bool {
        let steps = &self.graph.steps;
        steps[r].iter().all(|step| {
            steps[s].iter().any(|other| other.action == step.action && self.same_shares(step, other))
        })
    }

    /// Whether two edges give every class the same share: shares are equal when cross products are. The products stay
    /// below 2^32.
    fn same_shares(&self, one: &Step, other: &Step) -> bool {
        self.classes.iter().all(|&class| {
            self.weight(one, class) * other.denominator == self.weight(other, class) * one.denominator
        })
    }

    /// The sum of the weights of an edge's branches that land in a class.
    fn weight(&self, step: &Step, class: usize) -> u64 {
        let landings = step.landings.iter();
        landings.filter(|landing| self.names[landing.target] == class).map(|landing| landing.weight).sum()
    }
}
