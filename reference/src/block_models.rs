// Models for the calls on blocks: coarse ones by chance, models with twin locations whose regions share blocks
// by the way they are made, the same spoiled by one change, chains of many rounds, and large ones.

use crate::generate::{index_below, mask};
use crate::graph_models::{
    all_of, all_regions, by_chance, free, guard, invariant, topped_up, AT_MOST, EQUAL, LESS,
};
use crate::records::with_places;
use crate::rng::Rng;
use crate::table::{Branch, Edge, GuardAtom, InvariantAtom, Model, LARGEST_CONSTANT};

/// An edge with its action and its branches, given by weight, target and mask. W is the sum of the weights.
pub fn step(source: u8, action: u8, guards: &[GuardAtom], branches: &[(u16, u8, u8)]) -> Edge {
    Edge {
        place: 0,
        source,
        action,
        denominator: branches.iter().map(|&(weight, _, _)| weight).sum(),
        guards: guards.to_vec(),
        branches: branches.iter().map(|&(weight, target, mask)| Branch { weight, target, mask }).collect(),
    }
}

/// A model with initial location 0 and these labels.
pub fn labelled(clocks: u8, labels: &[u8], invariants: Vec<InvariantAtom>, edges: Vec<Edge>) -> Model {
    with_places(Model { clocks, initial: 0, labels: labels.to_vec(), invariants, edges })
}

/// An edge of the initial location that leads to each of these locations with all clocks reset.
pub fn fan(clocks: u8, locations: std::ops::RangeInclusive<u8>) -> Edge {
    let branches: Vec<(u16, u8, u8)> = locations.map(|location| (1, location, all_of(clocks))).collect();
    step(0, 0, &[], &branches)
}

/// Puts a list in any order.
pub fn shuffle<T>(rng: &mut Rng, list: &mut [T]) {
    for last in (1..list.len()).rev() {
        let other = rng.below(last + 1);
        list.swap(last, other);
    }
}

/// A model by chance in which few labels, actions and shares differ, so that not all regions part.
pub fn coarse(rng: &mut Rng) -> Model {
    let mut model = by_chance(rng);
    let (labels, actions) = (rng.between(1, 2) as u8, rng.between(1, 2) as u8);
    for label in &mut model.labels {
        *label %= labels;
    }
    for edge in &mut model.edges {
        edge.action %= actions;
        for branch in &mut edge.branches {
            branch.weight = 1;
        }
        edge.denominator = edge.branches.len() as u16;
    }
    with_places(model)
}

/// A small model by chance: two labels, two actions, small weights.
fn plain(rng: &mut Rng) -> Model {
    let clocks = rng.pick(&[0, 0, 1, 1, 1, 2]);
    let largest = if clocks == 2 { rng.between(0, 1) } else { rng.between(0, 3) } as u8;
    let locations = rng.between(1, 3) as u8;
    let mut edges = Vec::new();
    for number in 0..rng.between(1, 4) as u8 {
        let source = if number < locations { number } else { index_below(rng, locations) };
        let branches: Vec<(u16, u8, u8)> = (0..rng.between(1, 2))
            .map(|_| (rng.between(1, 3) as u16, index_below(rng, locations), mask(rng, clocks)))
            .collect();
        let guarded = clocks > 0 && rng.chance(1, 2);
        let guards: Vec<GuardAtom> = (0..u8::from(guarded))
            .map(|_| {
                guard(index_below(rng, clocks), rng.below(5) as u8, rng.between(0, largest.into()) as u8)
            })
            .collect();
        edges.push(step(source, rng.below(2) as u8, &guards, &branches));
    }
    let mut invariants = Vec::new();
    if clocks > 0 && rng.chance(1, 2) {
        let location = index_below(rng, locations);
        invariants.push(invariant(location, index_below(rng, clocks), AT_MOST, largest));
    }
    let labels: Vec<u8> = (0..locations).map(|_| rng.below(2) as u8).collect();
    labelled(clocks, &labels, invariants, edges)
}

/// A model made from a small one by taking locations twice. Each location has the edges of its origin, over
/// other denominators, and where they lead is shared out among the twins of the target. Regions with equal
/// clocks and equal origin are related by a bisimulation.
pub struct Twins {
    pub model: Model,
    /// The location of the small model from which each location was made.
    pub origin: Vec<u8>,
}

pub fn twins(rng: &mut Rng) -> Twins {
    let base = plain(rng);
    let mut origin: Vec<u8> = (0..base.labels.len() as u8).collect();
    for location in 0..base.labels.len() as u8 {
        if location == base.initial || rng.chance(1, 2) {
            origin.push(location);
        }
    }
    shuffle(rng, &mut origin);
    let mut edges = Vec::new();
    let mut invariants = Vec::new();
    for (location, &from) in origin.iter().enumerate() {
        let location = location as u8;
        let atoms = base.invariants.iter().filter(|atom| atom.location == from);
        invariants.extend(atoms.map(|&atom| InvariantAtom { location, ..atom }));
        for edge in base.edges.iter().filter(|edge| edge.source == from) {
            for _ in 0..if rng.chance(1, 5) { 2 } else { 1 } {
                edges.push(twin_edge(rng, edge, location, &origin));
            }
        }
    }
    shuffle(rng, &mut edges);
    let initial = origin.iter().position(|&from| from == base.initial).expect("each location is taken") as u8;
    let labels = origin.iter().map(|&from| base.labels[usize::from(from)]).collect();
    let model = with_places(Model { clocks: base.clocks, initial, labels, invariants, edges });
    Twins { model, origin }
}

/// The edge of a twin: some times the weights and W, each branch led to one twin of its target or shared out.
fn twin_edge(rng: &mut Rng, edge: &Edge, source: u8, origin: &[u8]) -> Edge {
    let factor = rng.between(1, 4) as u16;
    let mut branches = Vec::new();
    for branch in &edge.branches {
        let twins: Vec<u8> =
            (0..origin.len() as u8).filter(|&twin| origin[usize::from(twin)] == branch.target).collect();
        let weight = branch.weight * factor;
        let first =
            if weight > 1 && rng.chance(2, 3) { rng.between(1, weight.into()) as u16 } else { weight };
        for part in [first, weight - first] {
            if part > 0 {
                branches.push((part, rng.pick(&twins), branch.mask));
            }
        }
    }
    shuffle(rng, &mut branches);
    step(source, edge.action, &edge.guards, &branches)
}

/// The model with one thing changed: a label, an action, two weights, a target, a mask, a guard, or an edge
/// less.
pub fn spoiled(rng: &mut Rng, mut model: Model) -> Model {
    let locations = model.labels.len() as u8;
    let clocks = model.clocks;
    let index = rng.below(model.edges.len());
    let edge = &mut model.edges[index];
    let branch = rng.below(edge.branches.len());
    match rng.below(8) {
        0 => model.labels[usize::from(index_below(rng, locations))] ^= 1,
        1 => edge.action ^= 1,
        2 | 3 => {
            edge.branches[branch].weight += 1;
            edge.denominator += 1;
        }
        4 => edge.branches[branch].target = index_below(rng, locations),
        5 => edge.branches[branch].mask = mask(rng, clocks),
        6 if !edge.guards.is_empty() => {
            let constant = &mut edge.guards[0].constant;
            *constant = if rng.chance(1, 2) { constant.saturating_sub(1) } else { *constant + 1 };
            *constant = (*constant).min(LARGEST_CONSTANT);
        }
        _ => {
            model.edges.remove(index);
        }
    }
    with_places(model)
}

/// A coarse model that stays the same where clocks 0 and 1 are exchanged: each atom and each edge stands in it
/// both ways, so that a region and the one with the two clocks exchanged share a block.
pub fn symmetric(rng: &mut Rng) -> Model {
    let mut model = loop {
        let model = coarse(rng);
        if model.clocks >= 2 {
            break model;
        }
    };
    let atoms: Vec<InvariantAtom> =
        model.invariants.iter().map(|&atom| InvariantAtom { clock: exchanged(atom.clock), ..atom }).collect();
    model.invariants.extend(atoms);
    let mut edges = model.edges.clone();
    for edge in &mut edges {
        for atom in &mut edge.guards {
            atom.clock = exchanged(atom.clock);
        }
        for branch in &mut edge.branches {
            branch.mask = branch.mask & !3 | (branch.mask & 1) << 1 | (branch.mask & 2) >> 1;
        }
    }
    model.edges.extend(edges);
    shuffle(rng, &mut model.edges);
    with_places(model)
}

/// A clock with clocks 0 and 1 exchanged.
fn exchanged(clock: u8) -> u8 {
    if clock < 2 {
        1 - clock
    } else {
        clock
    }
}

/// A chain of locations without clocks, all of the same label but the last, which may have another.
pub fn chain(locations: u8, last_label: u8) -> Model {
    let mut labels = vec![0; locations.into()];
    labels[usize::from(locations) - 1] = last_label;
    let edges = (1..locations).map(|location| step(location - 1, 1, &[], &[(1, location, 0)])).collect();
    labelled(0, &labels, Vec::new(), edges)
}

/// A chain without clocks in which each step but the last may lead back to the start. The shares are equal,
/// over different denominators.
pub fn retrying(locations: u8) -> Model {
    let step_from = |location: u8| {
        let factor = 1 + u16::from(location) % 7;
        step(location, 1, &[], &[(2 * factor, 0, 0), (factor, location + 1, 0)])
    };
    labelled(0, &vec![3; locations.into()], Vec::new(), (0..locations - 1).map(step_from).collect())
}

/// A chain that ticks: clock 0 is reset at 1 again and again, until clock 1 is at M and the next location is
/// entered with both reset. In the last one it ends there. Each tick takes two rounds to be told from the
/// others.
pub fn ticking(locations: u8, largest: u8) -> Model {
    let at_one = guard(0, EQUAL, 1);
    let mut edges = Vec::new();
    let mut invariants = Vec::new();
    for location in 0..locations {
        invariants.push(invariant(location, 0, AT_MOST, 1));
        edges.push(step(location, 1, &[at_one, guard(1, LESS, largest)], &[(1, location, 1)]));
        if location + 1 < locations {
            edges.push(step(location, 1, &[at_one, guard(1, EQUAL, largest)], &[(1, location + 1, 3)]));
        }
    }
    labelled(2, &vec![7; locations.into()], invariants, edges)
}

/// A free model with so many regions in all, and of one label where its locations have edges.
pub fn large(clocks: u8, largest: u8, locations: u8, count: usize) -> Model {
    let model = free(clocks, largest, locations);
    let missing = count - usize::from(locations) * all_regions(clocks, largest);
    let mut model = topped_up(model, largest, missing);
    for (number, edge) in model.edges.iter_mut().enumerate() {
        edge.action = (number % 3) as u8;
    }
    for label in &mut model.labels {
        *label %= 2;
    }
    with_places(model)
}

/// A free model of one location in which an edge tells each integer value of each clock, so that most regions
/// part.
pub fn large_by_guards(clocks: u8, largest: u8) -> Model {
    let mut model = free(clocks, largest, 1);
    for clock in 0..clocks {
        for constant in 0..=largest {
            let action = 10 + clock * 16 + constant;
            model.edges.push(step(0, action, &[guard(clock, EQUAL, constant)], &[(1, 0, 0)]));
        }
    }
    with_places(model)
}
