// The maker of models whose graphs are worth exploring: by chance, free (every region is reached, so that
// their number follows from a count), and topped up to a wanted number of regions.

use crate::generate::{index_below, mask, weights};
use crate::records::with_places;
use crate::rng::Rng;
use crate::table::{Branch, Edge, GuardAtom, InvariantAtom, Model};

pub const LESS: u8 = 0;
pub const AT_MOST: u8 = 1;
pub const MORE: u8 = 2;
pub const AT_LEAST: u8 = 3;
pub const EQUAL: u8 = 4;

/// An edge whose branches, given by target and mask, weigh the same.
pub fn edge(source: u8, guards: &[GuardAtom], branches: &[(u8, u8)]) -> Edge {
    Edge {
        place: 0,
        source,
        action: 1,
        denominator: branches.len() as u16,
        guards: guards.to_vec(),
        branches: branches.iter().map(|&(target, mask)| Branch { weight: 1, target, mask }).collect(),
    }
}

pub fn guard(clock: u8, comparison: u8, constant: u8) -> GuardAtom {
    GuardAtom { clock, comparison, constant }
}

pub fn invariant(location: u8, clock: u8, comparison: u8, constant: u8) -> InvariantAtom {
    InvariantAtom { location, clock, comparison, constant }
}

/// A model with initial location 0 and a label for each location.
pub fn model(clocks: u8, locations: u8, invariants: Vec<InvariantAtom>, edges: Vec<Edge>) -> Model {
    let labels = (0..locations).map(|location| location % 3).collect();
    with_places(Model { clocks, initial: 0, labels, invariants, edges })
}

/// The mask of all clocks.
pub fn all_of(clocks: u8) -> u8 {
    (1 << clocks) - 1
}

/// A model in which each clock may be reset by itself at any time and each location be entered from the one
/// before, so that all regions of all locations are reached. M is `largest`; there is a clock at least.
pub fn free(clocks: u8, largest: u8, locations: u8) -> Model {
    let mut edges = vec![edge(0, &[guard(clocks - 1, EQUAL, largest)], &[(0, 0)])];
    for location in 0..locations {
        for clock in 0..clocks {
            edges.push(edge(location, &[], &[(location, 1 << clock)]));
        }
        if location + 1 < locations {
            edges.push(edge(location, &[], &[(location + 1, 0)]));
        }
    }
    model(clocks, locations, Vec::new(), edges)
}

/// The number of ways to choose `part` of `whole`.
fn choose(whole: usize, part: usize) -> usize {
    (0..part).fold(1, |ways, step| ways * (whole - step) / (step + 1))
}

/// The number of orders of so many fractions, equal ones allowed.
fn orders(fractions: usize) -> usize {
    match fractions {
        0 => 1,
        _ => (1..=fractions).map(|least| choose(fractions, least) * orders(fractions - least)).sum(),
    }
}

/// The number of all regions of one location: choose the clocks that are not over, those of them with
/// fraction zero, the integer parts, and the order of the other fractions.
pub fn all_regions(clocks: u8, largest: u8) -> usize {
    let (clocks, largest) = (usize::from(clocks), usize::from(largest));
    let within = |count: usize| -> usize {
        (0..=count)
            .map(|whole| {
                let parted = count - whole;
                choose(count, whole)
                    * (largest + 1).pow(whole as u32)
                    * largest.pow(parted as u32)
                    * orders(parted)
            })
            .sum()
    };
    (0..=clocks).map(|count| choose(clocks, count) * within(count)).sum()
}

/// The model with so many regions more: new locations are entered from the initial one with all clocks
/// reset and left by nothing, and their invariants say how far delay goes there. There is a clock at least,
/// M is `largest`, and the initial location must allow region 0.
pub fn topped_up(mut model: Model, largest: u8, mut missing: usize) -> Model {
    let longest = 2 * usize::from(largest) + 2;
    while missing > 0 {
        let location = model.labels.len() as u8;
        let part = missing.min(longest);
        if part < longest {
            // Up to c there are 2 c + 1 regions, below c there are 2 c.
            let comparison = if part % 2 == 1 { AT_MOST } else { LESS };
            model.invariants.push(invariant(location, 0, comparison, (part / 2) as u8));
        }
        model.labels.push(location);
        model.edges.push(edge(model.initial, &[], &[(location, all_of(model.clocks))]));
        missing -= part;
    }
    with_places(model)
}

/// A constant up to M, M itself more often than the others.
fn constant(rng: &mut Rng, largest: u8) -> u8 {
    if rng.chance(1, 3) {
        largest
    } else {
        rng.between(0, largest.into()) as u8
    }
}

/// Puts a list in any order.
fn shuffle<T>(rng: &mut Rng, list: &mut [T]) {
    for last in (1..list.len()).rev() {
        let other = rng.below(last + 1);
        list.swap(last, other);
    }
}

/// A model by chance. With more clocks the constants are smaller, so that the graph is often neither tiny
/// nor beyond all limits. Region 0 meets its invariant.
pub fn by_chance(rng: &mut Rng) -> Model {
    let clocks = rng.pick(&[0, 1, 1, 1, 2, 2, 2, 2, 3, 3, 3, 4, 4, 4]);
    let largest = match clocks {
        0 => 0,
        1 => rng.between(0, 15) as u8,
        2 => rng.between(0, 7) as u8,
        3 => rng.between(0, 3) as u8,
        _ => rng.between(0, 2) as u8,
    };
    let locations = if clocks == 0 { rng.between(1, 40) } else { rng.between(1, 6) } as u8;
    by_chance_of(rng, clocks, largest, locations)
}

/// The same with the numbers of clocks and locations given, and a bound for the constants.
pub fn by_chance_of(rng: &mut Rng, clocks: u8, largest: u8, locations: u8) -> Model {
    let initial = index_below(rng, locations);
    let mut invariants = Vec::new();
    for location in 0..locations {
        if clocks > 0 && rng.chance(2, 5) {
            for _ in 0..rng.between(1, 2) {
                let constant = constant(rng, largest);
                // Below 0 there is nothing: seldom, and never at the start.
                let strict = rng.chance(1, 2);
                let allowed = constant > 0 || (location != initial && rng.chance(1, 8));
                let comparison = if strict && allowed { LESS } else { AT_MOST };
                invariants.push(invariant(location, index_below(rng, clocks), comparison, constant));
            }
        }
    }
    let locations_count = usize::from(locations);
    let mut edges = Vec::new();
    for number in 0..rng.between(locations_count, 2 * locations_count + 2) {
        let source = if number < locations_count { number as u8 } else { index_below(rng, locations) };
        let guards = if clocks == 0 { 0 } else { rng.pick(&[0, 0, 1, 1, 2]) };
        let branches = rng.between(1, 3);
        let denominator = rng.between(branches, 20) as u16;
        edges.push(Edge {
            place: 0,
            source,
            action: rng.below(3) as u8,
            denominator,
            guards: (0..guards)
                .map(|_| guard(index_below(rng, clocks), rng.below(5) as u8, constant(rng, largest)))
                .collect(),
            branches: weights(rng, denominator, branches)
                .into_iter()
                .map(|weight| Branch { weight, target: index_below(rng, locations), mask: mask(rng, clocks) })
                .collect(),
        });
    }
    shuffle(rng, &mut invariants);
    shuffle(rng, &mut edges);
    let labels = (0..locations).map(|_| rng.below(3) as u8).collect();
    with_places(Model { clocks, initial, labels, invariants, edges })
}
