// Models for the listing: by chance with any labels, actions and denominators, with shares at exact halves, with
// many branches, and the one in which time meets blocks in another order than by number.

use crate::block_models::{labelled, shuffle, step};
use crate::generate::{any_byte, index_below, mask, weights};
use crate::graph_models::{by_chance, guard, invariant, AT_MOST, EQUAL};
use crate::records::with_places;
use crate::rng::Rng;
use crate::table::{Branch, Edge, Model, LARGEST_CONSTANT, LARGEST_DENOMINATOR, MOST_BRANCHES};

/// A denominator that so many branches can share, small or large, mostly one for which shares are rounded.
pub fn denominator(rng: &mut Rng, branches: usize) -> u16 {
    let borders = [32, 160, 4_000, 20_000, 40_000, LARGEST_DENOMINATOR - 1, LARGEST_DENOMINATOR];
    match rng.below(4) {
        0 => rng.pick(&borders),
        1 => rng.between(branches, 20) as u16,
        _ => rng.between(branches, LARGEST_DENOMINATOR.into()) as u16,
    }
}

/// The model with other labels and actions: equal ones stay equal, and all are any.
pub fn renamed(rng: &mut Rng, mut model: Model) -> Model {
    let labels: Vec<u8> = (0..256).map(|_| any_byte(rng)).collect();
    let actions: Vec<u8> = (0..256).map(|_| any_byte(rng)).collect();
    for label in &mut model.labels {
        *label = labels[usize::from(*label)];
    }
    for edge in &mut model.edges {
        edge.action = actions[usize::from(edge.action)];
    }
    with_places(model)
}

/// The model with other labels, actions and weights.
pub fn coloured(rng: &mut Rng, model: Model) -> Model {
    let mut model = renamed(rng, model);
    for edge in &mut model.edges {
        weigh(rng, edge);
    }
    with_places(model)
}

/// Gives the branches of an edge other weights, over another denominator.
fn weigh(rng: &mut Rng, edge: &mut Edge) {
    edge.denominator = denominator(rng, edge.branches.len());
    let weights = weights(rng, edge.denominator, edge.branches.len());
    for (branch, weight) in edge.branches.iter_mut().zip(weights) {
        branch.weight = weight;
    }
}

/// The denominators, in lowest terms, of all shares that are half between two ten-thousandths: 20,000 times such a
/// share is odd. Each divides the largest denominator.
pub const HALVING: [u16; 5] = [32, 160, 800, 4_000, 20_000];

/// How many times as large weights over such a denominator are made: once, as often as can be, or between.
pub fn factor(rng: &mut Rng, halving: u16) -> u16 {
    let most = LARGEST_DENOMINATOR / halving;
    let any = rng.between(1, most.into()) as u16;
    rng.pick(&[1, most, any, any])
}

/// Numbers by chance, each as large as its least one or larger by some units, that sum to the total.
pub fn spread(rng: &mut Rng, total: u16, least: &[u16], unit: u16) -> Vec<u16> {
    let count = least.len();
    let units = (total - least.iter().sum::<u16>()) / unit;
    let more = weights(rng, units + count as u16, count);
    least.iter().zip(more).map(|(least, more)| least + unit * (more - 1)).collect()
}

/// The model with other weights. The share of each branch is an exact half of a ten-thousandth, and so is that of any
/// odd number of branches of an edge together, but for one branch of each edge that has an odd number of them: its share
/// is a whole number of ten-thousandths.
pub fn halved(rng: &mut Rng, mut model: Model) -> Model {
    for edge in &mut model.edges {
        halve(rng, edge);
    }
    with_places(model)
}

/// Gives the branches of an edge odd weights over a denominator of halves, one of them an even weight where the sum
/// asks for it, and makes all so many times as large.
fn halve(rng: &mut Rng, edge: &mut Edge) {
    let halving = rng.pick(&HALVING);
    let count = edge.branches.len();
    let mut least = vec![1; count];
    least[rng.below(count)] += count as u16 % 2;
    let weights = spread(rng, halving, &least, 2);
    let factor = factor(rng, halving);
    edge.denominator = halving * factor;
    for (branch, weight) in edge.branches.iter_mut().zip(weights) {
        branch.weight = weight * factor;
    }
}

/// A model by chance with more branches to an edge, up to 8.
pub fn branching(rng: &mut Rng) -> Model {
    let mut model = by_chance(rng);
    let (locations, clocks) = (model.labels.len() as u8, model.clocks);
    for edge in &mut model.edges {
        while edge.branches.len() < rng.between(1, MOST_BRANCHES) {
            let (target, mask) = (index_below(rng, locations), mask(rng, clocks));
            edge.branches.push(Branch { weight: 1, target, mask });
        }
    }
    coloured(rng, model)
}

/// A model by chance whose locations have so many edges each, most of them without a guard.
pub fn many_edges(rng: &mut Rng, clocks: u8, locations: u8, edges: usize) -> Model {
    let mut all = Vec::new();
    for _ in 0..usize::from(locations) * edges {
        let branches: Vec<(u16, u8, u8)> =
            (0..rng.between(1, 4)).map(|_| (1, index_below(rng, locations), mask(rng, clocks))).collect();
        let guarded = clocks > 0 && rng.chance(1, 3);
        let guards =
            if guarded { vec![guard(index_below(rng, clocks), rng.below(5) as u8, 1)] } else { vec![] };
        all.push(step(index_below(rng, locations), rng.below(9) as u8, &guards, &branches));
    }
    let labels: Vec<u8> = (0..locations).map(|_| rng.below(3) as u8).collect();
    coloured(rng, labelled(clocks, &labels, Vec::new(), all))
}

/// A model by chance of nine locations or more whose edges have eight branches each, to different locations in
/// any order.
pub fn wide(rng: &mut Rng, clocks: u8) -> Model {
    let locations = rng.between(MOST_BRANCHES + 1, 14) as u8;
    let mut edges = Vec::new();
    for source in 0..locations {
        let mut targets: Vec<u8> = (0..locations).collect();
        shuffle(rng, &mut targets);
        let targets = &targets[..MOST_BRANCHES];
        let branches: Vec<(u16, u8, u8)> =
            targets.iter().map(|&target| (1, target, mask(rng, clocks))).collect();
        edges.push(step(source, rng.below(3) as u8, &[], &branches));
    }
    shuffle(rng, &mut edges);
    let labels: Vec<u8> = (0..locations).collect();
    coloured(rng, labelled(clocks, &labels, Vec::new(), edges))
}

/// A model with one clock whose location 1 is entered at `first` and later on, at 15, at 0 again. An edge at
/// each whole number parts all its regions, so that time from 0 on meets blocks of higher numbers before the
/// ones that were met first.
pub fn entered_late(first: u8) -> Model {
    let mut edges = vec![step(0, 1, &[guard(0, EQUAL, first)], &[(1, 1, 0)])];
    for constant in 0..=LARGEST_CONSTANT {
        edges.push(step(1, 100 + constant, &[guard(0, EQUAL, constant)], &[(1, 1, 0)]));
    }
    edges.push(step(1, 2, &[guard(0, EQUAL, LARGEST_CONSTANT)], &[(1, 1, 1)]));
    labelled(1, &[3, 4], vec![invariant(0, 0, AT_MOST, first)], edges)
}
