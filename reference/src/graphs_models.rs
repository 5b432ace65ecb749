// Models for the command `graphs`: models in which edges have equal shares by different fractions beside shares that
// are nearly equal, models with branches cut in two and edges put in a second time, and two models with as many edges
// as a table may have.

use crate::block_models::{fan, labelled, shuffle, step};
use crate::generate::mask;
use crate::graph_models::{guard, invariant, AT_LEAST, AT_MOST, EQUAL, LESS};
use crate::records::with_places;
use crate::rng::Rng;
use crate::table::{Edge, GuardAtom, Model, LARGEST_DENOMINATOR, MOST_BRANCHES, MOST_EDGES, MOST_LOCATIONS};

/// A fraction: a weight over a denominator.
type Fraction = (u16, u16);

/// Fractions near each other: in each list the first two are equal, the last one is another.
const NEAR: [&[Fraction]; 4] = [
    &[
        (1, 3),
        (2, 6),
        (7, 21),
        (3_333, 9_999),
        (20_000, 60_000),
        (19_999, 60_000),
        (3_334, 10_000),
        (3_333, 10_000),
    ],
    &[(1, 2), (3, 6), (256, 512), (29_999, 59_998), (30_000, 60_000), (30_000, 59_999), (29_999, 60_000)],
    &[(3, 7), (6, 14), (25_713, 59_997), (300, 700), (25_714, 60_000), (4_286, 10_000), (4_285, 10_000)],
    &[(2, 3), (4, 6), (6_666, 9_999), (40_000, 60_000), (40_001, 60_000), (6_666, 10_000), (6_667, 10_000)],
];

/// Labels: the start, the locations that are compared, the two ends.
const START: u8 = 9;
const COMPARED: u8 = 0;
const ENDS: [u8; 2] = [1, 2];

/// A model whose start leads to locations that are compared. Each of these has edges of one action with one guard,
/// and each edge gives a fraction to one end and the rest to the other.
pub struct Fractions {
    pub model: Model,
    /// The fractions of each location that is compared; the first of them is location 1.
    of: Vec<Vec<Fraction>>,
}

impl Fractions {
    /// Whether two of the locations, both entered with all clocks 0, share a block: where each fraction of one is one
    /// of the other. They are compared as cross products are.
    pub fn alike(&self, first: u8, second: u8) -> bool {
        let within = |one: &[Fraction], other: &[Fraction]| {
            one.iter().all(|&fraction| other.iter().any(|&another| equal(fraction, another)))
        };
        let [first, second] = [first, second].map(|location| &self.of[usize::from(location) - 1]);
        within(first, second) && within(second, first)
    }

    /// The locations that are compared.
    pub fn compared(&self) -> std::ops::RangeInclusive<u8> {
        1..=self.of.len() as u8
    }
}

fn equal((part, whole): Fraction, (other_part, other_whole): Fraction) -> bool {
    u32::from(part) * u32::from(other_whole) == u32::from(other_part) * u32::from(whole)
}

/// A model of this sort by chance. Each end is two locations, which nothing leaves: one label is one class.
pub fn fractions(rng: &mut Rng) -> Fractions {
    let near = rng.pick(&NEAR);
    let mut of = vec![vec![near[0]], vec![near[1]], vec![near[near.len() - 1]]];
    while of.len() < rng.between(5, MOST_BRANCHES) {
        of.push((0..rng.between(1, 3)).map(|_| rng.pick(near)).collect());
    }
    let clocks = rng.below(4) as u8;
    let compared = of.len() as u8;
    let ends = [[compared + 1, compared + 2], [compared + 3, compared + 4]];
    let largest = rng.between(1, 3) as u8;
    let guards: Vec<GuardAtom> = match rng.below(5) {
        0 => vec![],
        some if clocks > 0 => vec![guard(0, [EQUAL, AT_LEAST, AT_MOST, LESS][some - 1], largest)],
        _ => vec![],
    };
    let mut edges = Vec::new();
    for (index, fractions) in of.iter().enumerate() {
        for &fraction in fractions {
            edges.push(to_ends(rng, index as u8 + 1, &guards, fraction, ends, clocks));
        }
    }
    edges.push(fan(clocks, 1..=compared));
    shuffle(rng, &mut edges);
    let mut invariants = Vec::new();
    if clocks > 0 && rng.chance(1, 2) {
        invariants.extend((0..=compared).map(|location| invariant(location, 0, AT_MOST, largest)));
    }
    let compared_labels = vec![COMPARED; compared.into()];
    let labels = [&[START][..], &compared_labels, &ENDS.map(|label| [label; 2]).concat()].concat();
    Fractions { model: labelled(clocks, &labels, invariants, edges), of }
}

/// An edge that gives the fraction to one end and the rest to the other, in pieces: to either location of the end,
/// with any resets, some of them twice to the same.
fn to_ends(
    rng: &mut Rng,
    source: u8,
    guards: &[GuardAtom],
    (part, whole): Fraction,
    ends: [[u8; 2]; 2],
    clocks: u8,
) -> Edge {
    let mut branches = Vec::new();
    for (weight, end) in [(part, ends[0]), (whole - part, ends[1])] {
        let mut left = weight;
        let mut lead = (rng.pick(&end), mask(rng, clocks));
        for _ in 0..rng.below(3) {
            if left > 1 {
                let piece = rng.between(1, usize::from(left) - 1) as u16;
                branches.push((piece, lead.0, lead.1));
                left -= piece;
                if rng.chance(1, 2) {
                    lead = (rng.pick(&end), mask(rng, clocks));
                }
            }
        }
        branches.push((left, lead.0, lead.1));
    }
    shuffle(rng, &mut branches);
    step(source, 1, guards, &branches)
}

/// The model with some branches cut in two, both of which land in the same region, and some edges put in a second
/// time over another denominator, at times with shares a little different. The regions stay, not their numbers.
pub fn varied(rng: &mut Rng, mut model: Model) -> Model {
    for edge in &mut model.edges {
        if rng.chance(1, 3) {
            cut(rng, edge);
        }
    }
    for index in 0..model.edges.len() {
        if model.edges.len() < MOST_EDGES && rng.chance(1, 3) {
            let again = again(rng, &model.edges[index]);
            let place = rng.between(0, model.edges.len());
            model.edges.insert(place, again);
        }
    }
    with_places(model)
}

/// Makes the weights so many times as large, and W too, where that is within the limits. The shares stay.
fn scale(edge: &mut Edge, times: u16) {
    if times <= LARGEST_DENOMINATOR / edge.denominator {
        edge.denominator *= times;
        edge.branches.iter_mut().for_each(|branch| branch.weight *= times);
    }
}

/// Cuts a branch in two, with room for it.
fn cut(rng: &mut Rng, edge: &mut Edge) {
    let index = rng.below(edge.branches.len());
    if edge.branches[index].weight == 1 {
        scale(edge, 2);
    }
    let mut piece = edge.branches[index];
    if piece.weight > 1 && edge.branches.len() < MOST_BRANCHES {
        piece.weight = rng.between(1, usize::from(piece.weight) - 1) as u16;
        edge.branches[index].weight -= piece.weight;
        let place = rng.between(0, edge.branches.len());
        edge.branches.insert(place, piece);
    }
}

/// The edge once more, over another denominator where there is room for that. At times one part of W goes to another
/// branch.
fn again(rng: &mut Rng, edge: &Edge) -> Edge {
    let mut again = edge.clone();
    scale(&mut again, rng.between(2, 5) as u16);
    shuffle(rng, &mut again.branches);
    let last = again.branches.len() - 1;
    if rng.chance(1, 3) && again.branches[0].weight > 1 && last > 0 {
        again.branches[0].weight -= 1;
        again.branches[last].weight += 1;
    }
    again
}

/// How many regions the model `heavy` has: its clock has 26 classes, and nine locations are reached.
pub const HEAVY_REGIONS: usize = 26 * 9;
/// The location at which all its edges begin.
pub const HEAVY_SOURCE: u8 = MOST_LOCATIONS - 1;

/// A model with all edges at its initial location, which is the last: 128 actions, and eight branches each to the first
/// eight locations without resets, all eight shares of an edge different. Nothing leaves those eight, and the other
/// locations are not reached; one of them has the only atom, for the sake of M.
pub fn heavy() -> Model {
    let edges = (0..MOST_EDGES).map(|number| {
        // From 36, the sum of 1 to 8, to the largest.
        let denominator = 36 + (usize::from(LARGEST_DENOMINATOR) - 36) * number / (MOST_EDGES - 1);
        let part = denominator / 36;
        let branches: Vec<(u16, u8, u8)> = (0..MOST_BRANCHES)
            .map(|branch| {
                let last = branch == MOST_BRANCHES - 1;
                let weight = if last { denominator - 28 * part } else { (branch + 1) * part };
                (weight as u16, ((branch + number) % MOST_BRANCHES) as u8, 0)
            })
            .collect();
        step(HEAVY_SOURCE, number as u8, &[], &branches)
    });
    let labels = (0..MOST_LOCATIONS).map(|location| location % 3).collect();
    let invariants = vec![invariant(MOST_BRANCHES as u8, 0, AT_MOST, 12)];
    with_places(Model { clocks: 1, initial: HEAVY_SOURCE, labels, invariants, edges: edges.collect() })
}

/// The sources of eight edges that follow each other, over and over.
const MIXED_SOURCES: [u8; 8] = [1, 1, 0, 1, 0, 0, 0, 1];
/// How many edges each of the two sources has.
const EACH: usize = MOST_EDGES / 2;

/// A model whose edges are those of locations 0 and 1 mixed, one of location 1 first. Both have the same 64 edges but
/// for the cuts of their branches, the denominators and the order, which is reversed, and but for the last edge of
/// location 0, which at location 1 gives a little more to location 2. It needs clock 0 at 1. So regions of the two with
/// equal clocks share a block where clock 0 is over; elsewhere they come by delay to where this edge parts them.
pub fn mixed() -> Model {
    let mut rising = 0..EACH;
    let mut falling = (0..EACH).rev();
    let edges = (0..MOST_EDGES).map(|number| match MIXED_SOURCES[number % MIXED_SOURCES.len()] {
        0 => mixed_at_0(rising.next().expect("each source has as many edges")),
        _ => mixed_at_1(falling.next().expect("each source has as many edges")),
    });
    labelled(2, &[0, 0, 1], Vec::new(), edges.collect())
}

/// What an edge of the model `mixed` gives where, in sixtieths: share, target and mask, three of them. Among the four
/// edges of the last action the shares of location 2 are all different: 26, 21, 16 and 27.
fn mixed_leads(edge: usize) -> [(u16, u8, u8); 3] {
    let shares = [10 + edge % 7, 20 + edge % 5, 30 - edge % 7 - edge % 5];
    let masks = [edge, edge / 3, edge / 5];
    [0, 1, 2].map(|lead| (shares[lead] as u16, ((edge + lead) % 3) as u8, (masks[lead] % 4) as u8))
}

/// The edge over 60, its leads taken in turn: cut in 3, 3 and 2 pieces.
fn mixed_at_0(edge: usize) -> Edge {
    let leads = mixed_leads(edge);
    let branches: Vec<(u16, u8, u8)> = (0..MOST_BRANCHES)
        .map(|branch| {
            let (share, target, mask) = leads[branch % 3];
            // Pieces of 1 and 2, and the rest.
            let piece = match branch {
                0..=2 => 1,
                3 | 4 => 2,
                5 => share - 1,
                _ => share - 3,
            };
            (piece, target, mask)
        })
        .collect();
    step(0, (edge / 4) as u8, &mixed_guards(edge), &branches)
}

/// The edge over some times 60, its leads one after the other from the last: cut in 4, 1 and 2 pieces.
fn mixed_at_1(edge: usize) -> Edge {
    let times = LARGEST_DENOMINATOR / 60 - 15 * edge as u16;
    let [first, second, third] = mixed_leads(edge).map(|(share, target, mask)| (share * times, target, mask));
    let more = u16::from(edge == EACH - 1);
    let quarter = third.0 / 4;
    let branches = [
        (quarter, third.1, third.2),
        (quarter - 1, third.1, third.2),
        (quarter + 1, third.1, third.2),
        (third.0 - 3 * quarter + more, third.1, third.2),
        second,
        (first.0 / 3, first.1, first.2),
        (first.0 - first.0 / 3 - more, first.1, first.2),
    ];
    step(1, (edge / 4) as u8, &mixed_guards(edge), &branches)
}

fn mixed_guards(edge: usize) -> Vec<GuardAtom> {
    match edge % 5 {
        0 => vec![],
        1 => vec![guard(0, LESS, 1)],
        2 => vec![guard(1, AT_LEAST, 1)],
        3 => vec![guard(0, EQUAL, 1)],
        _ => vec![guard(1, AT_MOST, 0)],
    }
}
