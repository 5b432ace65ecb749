// The maker of valid models, by chance within a shape, and the cases of valid tables.

use crate::cases::Cases;
use crate::records::with_places;
use crate::rng::Rng;
use crate::table::{
    Branch, Edge, GuardAtom, InvariantAtom, Model, LARGEST_CONSTANT, LARGEST_DENOMINATOR, MOST_BRANCHES,
    MOST_CLOCKS, MOST_EDGES, MOST_GUARDS, MOST_INVARIANTS, MOST_LOCATIONS,
};

/// The least and the greatest size of each part of a model.
#[derive(Clone, Copy)]
pub struct Shape {
    pub clocks: (u8, u8),
    pub locations: (u8, u8),
    pub invariants: (usize, usize),
    pub edges: (usize, usize),
    pub guards: (usize, usize),
    pub branches: (usize, usize),
}

pub const TINY: Shape = Shape {
    clocks: (0, 2),
    locations: (1, 2),
    invariants: (0, 1),
    edges: (0, 1),
    guards: (0, 1),
    branches: (1, 2),
};

pub const SMALL: Shape = Shape {
    clocks: (0, MOST_CLOCKS),
    locations: (1, 5),
    invariants: (0, 4),
    edges: (0, 4),
    guards: (0, 2),
    branches: (1, 3),
};

/// Every part occurs often enough to have a first, a middle and a last one.
pub const RICH: Shape = Shape {
    clocks: (1, MOST_CLOCKS),
    locations: (3, 5),
    invariants: (3, 4),
    edges: (3, 4),
    guards: (1, 3),
    branches: (1, 3),
};

pub const MIDDLE: Shape = Shape {
    clocks: (0, MOST_CLOCKS),
    locations: (1, 20),
    invariants: (0, 20),
    edges: (3, 16),
    guards: (0, MOST_GUARDS),
    branches: (1, MOST_BRANCHES),
};

pub const LARGE: Shape = Shape {
    clocks: (1, MOST_CLOCKS),
    locations: (30, MOST_LOCATIONS),
    invariants: (40, MOST_INVARIANTS),
    edges: (40, MOST_EDGES),
    guards: (0, MOST_GUARDS),
    branches: (1, MOST_BRANCHES),
};

/// All maxima: 10,629 bytes.
pub const LARGEST: Shape = Shape {
    clocks: (MOST_CLOCKS, MOST_CLOCKS),
    locations: (MOST_LOCATIONS, MOST_LOCATIONS),
    invariants: (MOST_INVARIANTS, MOST_INVARIANTS),
    edges: (MOST_EDGES, MOST_EDGES),
    guards: (MOST_GUARDS, MOST_GUARDS),
    branches: (MOST_BRANCHES, MOST_BRANCHES),
};

fn small_between(rng: &mut Rng, (low, high): (u8, u8)) -> u8 {
    rng.between(low.into(), high.into()) as u8
}

/// A number below `count`, the first and the last a little more often than the others.
pub fn index_below(rng: &mut Rng, count: u8) -> u8 {
    match rng.below(8) {
        0 => 0,
        1 => count - 1,
        _ => rng.below(count.into()) as u8,
    }
}

/// A byte, with the borders a little more often than the others.
pub fn any_byte(rng: &mut Rng) -> u8 {
    if rng.chance(1, 6) {
        rng.pick(&[0, 1, 127, 128, 254, 255])
    } else {
        rng.byte()
    }
}

pub fn constant(rng: &mut Rng) -> u8 {
    index_below(rng, LARGEST_CONSTANT + 1)
}

pub fn invariant_atom(rng: &mut Rng, clocks: u8, locations: u8) -> InvariantAtom {
    InvariantAtom {
        location: index_below(rng, locations),
        clock: index_below(rng, clocks),
        comparison: rng.below(2) as u8,
        constant: constant(rng),
    }
}

pub fn guard_atom(rng: &mut Rng, clocks: u8) -> GuardAtom {
    GuardAtom { clock: index_below(rng, clocks), comparison: rng.below(5) as u8, constant: constant(rng) }
}

/// A mask over the clocks: none, all, or any.
pub fn mask(rng: &mut Rng, clocks: u8) -> u8 {
    let all = (1u8 << clocks) - 1;
    match rng.below(6) {
        0 => 0,
        1 => all,
        _ => rng.byte() & all,
    }
}

/// A denominator that can be shared out among so many branches.
fn denominator(rng: &mut Rng, branches: usize) -> u16 {
    let border = [branches as u16, 10, 255, 256, 257, 10_000, LARGEST_DENOMINATOR - 1, LARGEST_DENOMINATOR];
    match rng.below(3) {
        0 => rng.pick(&border),
        1 => rng.between(branches, 20) as u16,
        _ => rng.between(branches, LARGEST_DENOMINATOR.into()) as u16,
    }
}

/// So many weights of 1 or more that sum to the denominator.
pub fn weights(rng: &mut Rng, denominator: u16, branches: usize) -> Vec<u16> {
    let mut weights = vec![1; branches];
    let mut left = denominator - branches as u16;
    match rng.below(3) {
        0 => weights[rng.below(branches)] += left,
        1 => {
            let each = left / branches as u16;
            weights.iter_mut().for_each(|weight| *weight += each);
            weights[branches - 1] += left % branches as u16;
        }
        _ => {
            for weight in weights.iter_mut().skip(1) {
                let part = rng.between(0, left.into()) as u16;
                *weight += part;
                left -= part;
            }
            weights[0] += left;
        }
    }
    weights
}

fn edge(rng: &mut Rng, shape: &Shape, clocks: u8, locations: u8) -> Edge {
    let guards = if clocks == 0 { 0 } else { rng.between(shape.guards.0, shape.guards.1) };
    let branches = rng.between(shape.branches.0, shape.branches.1);
    let denominator = denominator(rng, branches);
    Edge {
        place: 0,
        source: index_below(rng, locations),
        action: any_byte(rng),
        denominator,
        guards: (0..guards).map(|_| guard_atom(rng, clocks)).collect(),
        branches: weights(rng, denominator, branches)
            .into_iter()
            .map(|weight| Branch { weight, target: index_below(rng, locations), mask: mask(rng, clocks) })
            .collect(),
    }
}

/// A valid model of the shape. Without clocks it has no invariant and guard atoms.
pub fn model(rng: &mut Rng, shape: &Shape) -> Model {
    let clocks = small_between(rng, shape.clocks);
    let locations = small_between(rng, shape.locations);
    let invariants = if clocks == 0 { 0 } else { rng.between(shape.invariants.0, shape.invariants.1) };
    let edges = rng.between(shape.edges.0, shape.edges.1);
    with_places(Model {
        clocks,
        initial: index_below(rng, locations),
        labels: (0..locations).map(|_| any_byte(rng)).collect(),
        invariants: (0..invariants).map(|_| invariant_atom(rng, clocks, locations)).collect(),
        edges: (0..edges).map(|_| edge(rng, shape, clocks, locations)).collect(),
    })
}

/// The document's printed model.
pub fn printed() -> Model {
    with_places(Model {
        clocks: 1,
        initial: 0,
        labels: vec![5, 9],
        invariants: vec![InvariantAtom { location: 0, clock: 0, comparison: 1, constant: 1 }],
        edges: vec![Edge {
            place: 0,
            source: 0,
            action: 3,
            denominator: 3,
            guards: vec![GuardAtom { clock: 0, comparison: 3, constant: 1 }],
            branches: vec![
                Branch { weight: 1, target: 1, mask: 0 },
                Branch { weight: 2, target: 0, mask: 1 },
            ],
        }],
    })
}

/// A small model with every kind of record.
pub fn sample() -> Model {
    with_places(Model {
        clocks: 3,
        initial: 1,
        labels: vec![0, 255, 7],
        invariants: vec![
            InvariantAtom { location: 0, clock: 2, comparison: 1, constant: 15 },
            InvariantAtom { location: 2, clock: 0, comparison: 0, constant: 1 },
            InvariantAtom { location: 0, clock: 1, comparison: 0, constant: 9 },
        ],
        edges: vec![
            Edge {
                place: 0,
                source: 0,
                action: 255,
                denominator: 60_000,
                guards: vec![
                    GuardAtom { clock: 0, comparison: 4, constant: 0 },
                    GuardAtom { clock: 2, comparison: 0, constant: 15 },
                ],
                branches: vec![
                    Branch { weight: 59_744, target: 2, mask: 7 },
                    Branch { weight: 256, target: 0, mask: 0 },
                ],
            },
            Edge {
                place: 0,
                source: 2,
                action: 0,
                denominator: 1,
                guards: vec![],
                branches: vec![Branch { weight: 1, target: 1, mask: 4 }],
            },
            Edge {
                place: 0,
                source: 1,
                action: 4,
                denominator: 300,
                guards: vec![GuardAtom { clock: 1, comparison: 2, constant: 3 }],
                branches: vec![
                    Branch { weight: 44, target: 0, mask: 1 },
                    Branch { weight: 255, target: 1, mask: 2 },
                    Branch { weight: 1, target: 2, mask: 5 },
                ],
            },
        ],
    })
}

/// The rooms that a model with so many edges is read with where all borders of the room are wanted.
fn rooms(edges: usize) -> Vec<usize> {
    let mut rooms = vec![0, 1, edges.saturating_sub(1), edges, edges + 1, 128, 160];
    rooms.sort();
    rooms.dedup();
    rooms
}

/// The cases of valid tables.
pub fn add_cases(cases: &mut Cases) {
    cases.begin_group(1);
    for model in [printed(), sample()] {
        for room in rooms(model.edges.len()) {
            cases.accepted_with_room(&model, room);
        }
    }
    for (shape, count) in [(TINY, 160), (SMALL, 300), (RICH, 60), (MIDDLE, 60), (LARGE, 16)] {
        for _ in 0..count {
            let model = model(&mut cases.rng, &shape);
            cases.accepted(&model);
        }
    }
    for shape in [TINY, SMALL, SMALL, SMALL, MIDDLE, MIDDLE] {
        let model = model(&mut cases.rng, &shape);
        for room in rooms(model.edges.len()) {
            cases.accepted_with_room(&model, room);
        }
    }
    add_corners(cases);
    for room in [128, 128, 128, 0, 1, 64, 127, 129, 160] {
        let model = model(&mut cases.rng, &LARGEST);
        cases.accepted_with_room(&model, room);
    }
}

/// Tables with one part at its least or its greatest size and the others small.
fn add_corners(cases: &mut Cases) {
    for clocks in 0..=MOST_CLOCKS {
        for locations in [1, 2, MOST_LOCATIONS - 1, MOST_LOCATIONS] {
            let shape = Shape { clocks: (clocks, clocks), locations: (locations, locations), ..SMALL };
            for initial in [0, locations - 1] {
                let mut model = model(&mut cases.rng, &shape);
                model.initial = initial;
                cases.accepted(&model);
            }
        }
    }
    let alone = Shape { clocks: (1, MOST_CLOCKS), invariants: (0, 0), edges: (0, 0), ..TINY };
    let corners = [
        (Shape { invariants: (MOST_INVARIANTS, MOST_INVARIANTS), ..alone }, 4),
        (Shape { invariants: (MOST_INVARIANTS - 1, MOST_INVARIANTS - 1), ..alone }, 2),
        (Shape { edges: (MOST_EDGES, MOST_EDGES), guards: (0, 0), branches: (1, 1), ..alone }, 8),
        (Shape { edges: (MOST_EDGES - 1, MOST_EDGES - 1), guards: (0, 0), branches: (1, 1), ..alone }, 3),
        (Shape { edges: (3, 3), guards: (MOST_GUARDS, MOST_GUARDS), branches: (1, 1), ..alone }, 6),
        (Shape { edges: (3, 3), guards: (0, 0), branches: (MOST_BRANCHES, MOST_BRANCHES), ..alone }, 6),
        (Shape { clocks: (0, 0), edges: (0, 4), ..alone }, 6),
        (alone, 4),
    ];
    for (shape, count) in corners {
        for _ in 0..count {
            let model = model(&mut cases.rng, &shape);
            cases.accepted(&model);
        }
    }
}
