// The graph of regions with its links: for each region its label, the region that follows by delay, and its
// available edges with where their branches land. Rounds and proposals are judged on this graph alone.

use crate::explore::Layout;
use crate::region::Region;
use crate::table::Model;
use std::collections::HashMap;

/// One branch of an available edge: its weight and the region in which it lands.
#[derive(Clone, Copy, PartialEq, Eq, Debug)]
pub struct Landing {
    pub weight: u64,
    pub target: usize,
}

/// An available edge of a region.
#[derive(PartialEq, Eq, Debug)]
pub struct Step {
    pub action: u8,
    pub denominator: u64,
    pub landings: Vec<Landing>,
}

pub struct Graph {
    pub labels: Vec<u8>,
    /// The region that follows by delay, if one does.
    pub next: Vec<Option<usize>>,
    /// The available edges in table order.
    pub steps: Vec<Vec<Step>>,
    /// All regions in an order in which each comes after the one that follows it by delay.
    pub later_first: Vec<usize>,
}

impl Graph {
    /// The links among all regions of a model, given by number.
    pub fn of(model: &Model, regions: &[Region]) -> Graph {
        let layout = Layout::of(model);
        let numbers: HashMap<u64, usize> =
            regions.iter().enumerate().map(|(number, region)| (region.packed(), number)).collect();
        let number = |region: Region| numbers[&region.packed()];
        let next: Vec<Option<usize>> =
            regions.iter().map(|&region| layout.delay(region).map(number)).collect();
        let steps = regions.iter().map(|&region| steps_of(&layout, region, &number)).collect();
        let labels = regions.iter().map(|region| model.labels[usize::from(region.location)]).collect();
        let later_first = later_first(&next);
        Graph { labels, next, steps, later_first }
    }

    /// N.
    pub fn count(&self) -> usize {
        self.labels.len()
    }
}

/// The available edges of a region, with the numbers of the regions in which they land.
fn steps_of(layout: &Layout, region: Region, number: &impl Fn(Region) -> usize) -> Vec<Step> {
    let mut steps = Vec::new();
    for (edge, targets) in layout.available_edges(region) {
        let landings = edge.branches.iter().zip(targets);
        steps.push(Step {
            action: edge.action,
            denominator: edge.denominator.into(),
            landings: landings
                .map(|(branch, target)| Landing { weight: branch.weight.into(), target: number(target) })
                .collect(),
        });
    }
    steps
}

/// Delay never comes back to a region, so following it from each region ends.
fn later_first(next: &[Option<usize>]) -> Vec<usize> {
    let mut order = Vec::new();
    let mut placed = vec![false; next.len()];
    for start in 0..next.len() {
        let mut path = Vec::new();
        let mut here = Some(start);
        while let Some(region) = here.filter(|&region| !placed[region]) {
            placed[region] = true;
            path.push(region);
            here = next[region];
        }
        order.extend(path.into_iter().rev());
    }
    order
}
