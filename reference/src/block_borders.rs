// Small models in which it is known which locations, entered with all clocks 0, share a block and which do not,
// and what parts them: both sides of each condition of a bisimulation.
//
// Location 0 is the start. It has a label of its own and leads to the locations that are compared.

use crate::block_models::{chain, fan, labelled, step};
use crate::block_subject::{Subject, MOST_BY_PAIRS};
use crate::generate;
use crate::graph_models::{guard, invariant, AT_LEAST, AT_MOST, EQUAL, LESS};
use crate::pairs::{self, Relation};
use crate::table::{Edge, InvariantAtom, Model};

/// The label of the start.
const START: u8 = 99;

/// What parts two regions first of all once their blocks are merged.
#[derive(Clone, Copy, PartialEq, Eq, Debug)]
pub enum Cause {
    Label,
    Delay,
    Action,
    Shares,
}

use Cause::{Action, Delay, Label, Shares};

pub struct Border {
    pub subject: Subject,
    /// Pairs of locations that share a block.
    pub alike: Vec<(u8, u8)>,
    /// Pairs of locations that do not.
    pub different: Vec<(u8, u8, Cause)>,
}

impl Border {
    fn new(model: Model, alike: &[(u8, u8)], different: &[(u8, u8, Cause)]) -> Border {
        let subject = Subject::of(model).expect("a small model");
        let border = Border { subject, alike: alike.to_vec(), different: different.to_vec() };
        border.check();
        border
    }

    /// The regions of a pair of locations.
    pub fn regions(&self, first: u8, second: u8) -> [usize; 2] {
        [self.subject.at(first), self.subject.at(second)]
    }

    /// The last blocks with those of two regions made one.
    pub fn merged(&self, regions: [usize; 2]) -> Vec<u64> {
        let last = self.subject.last();
        let [kept, merged] = regions.map(|region| last[region]);
        last.iter().map(|&block| u64::from(if block == merged { kept } else { block })).collect()
    }

    /// The pairs must share a block or not, and merged blocks must fail for the cause.
    fn check(&self) {
        for &(first, second) in &self.alike {
            let [one, other] = self.regions(first, second);
            assert!(self.subject.shares_block(one, other), "locations {first} and {second} are alike");
        }
        for &(first, second, cause) in &self.different {
            let regions = self.regions(first, second);
            assert!(!self.subject.shares_block(regions[0], regions[1]), "{first} and {second} differ");
            if self.subject.count() <= MOST_BY_PAIRS {
                let relation = Relation::of(&self.merged(regions));
                let faults = pairs::faults(&self.subject.graph, &relation);
                let found = match cause {
                    Label => faults.labels,
                    Delay => faults.delay,
                    Action => faults.action,
                    Shares => faults.shares,
                };
                assert!(found, "{first} and {second} fail for {faults:?}, not for {cause:?}");
            }
        }
    }
}

/// All models of this file.
pub fn all() -> Vec<Border> {
    let mut all = vec![
        printed(),
        nothing(),
        loops(),
        labels(),
        longer_delay(),
        delay_one_way(),
        delay_and_back(),
        across_resets(),
        thirds(),
        near_one(),
        halves(),
        same_denominators(),
        positions(),
        same_action(),
        one_for_several(),
        sums_of_classes(),
        parted_later(),
        never_available(),
        extreme_bytes(),
        eight_branches(),
    ];
    all.extend([1, 2, 3, 5, 8].map(two_chains));
    all.extend([1, 2, 3, 10, 39, 64].map(uniform_chain));
    all
}

/// A model without clocks: the start, then these locations with their labels.
fn without_clocks(labels: &[u8], compared: u8, edges: Vec<Edge>) -> Model {
    with_clocks(0, labels, compared, Vec::new(), edges)
}

/// A model whose start leads to the first locations. No time passes at the start.
fn with_clocks(
    clocks: u8,
    labels: &[u8],
    compared: u8,
    mut invariants: Vec<InvariantAtom>,
    mut edges: Vec<Edge>,
) -> Model {
    if clocks > 0 {
        invariants.push(invariant(0, 0, AT_MOST, 0));
    }
    edges.insert(edges.len() / 2, fan(clocks, 1..=compared));
    labelled(clocks, &[&[START], labels].concat(), invariants, edges)
}

/// The document's printed model: three blocks, one round.
fn printed() -> Border {
    let border = Border::new(generate::printed(), &[], &[]);
    assert_eq!(border.subject.history[1], [0, 0, 1, 2, 2], "the document prints these blocks");
    assert_eq!(border.subject.rounds(), 1, "the document prints one round");
    border
}

/// One region, one block, no rounds.
fn nothing() -> Border {
    Border::new(labelled(0, &[0], Vec::new(), Vec::new()), &[], &[])
}

/// Loops of one, two and three locations of the same label: all alike, in no round.
fn loops() -> Border {
    let to = |source: u8, target: u8| step(source, 1, &[], &[(1, target, 0)]);
    let edges = vec![to(1, 1), to(2, 3), to(3, 2), to(4, 5), to(5, 6), to(6, 4)];
    let border = Border::new(
        without_clocks(&[0; 6], 4, edges),
        &[(1, 2), (2, 4), (1, 3), (1, 5), (1, 6), (3, 6)],
        &[],
    );
    assert_eq!(border.subject.rounds(), 0, "round 0 stays");
    border
}

/// Equal but for the label.
fn labels() -> Border {
    Border::new(
        without_clocks(&[0, 1, 0, 255, 254], 5, Vec::new()),
        &[(1, 3)],
        &[(1, 2, Label), (4, 5, Label), (1, 4, Label)],
    )
}

/// An edge at the end of a short delay, of a long one, and from 1 on: alike, though one step of delay leads to
/// other places. Where time goes on after the edge has gone, delay parts.
fn longer_delay() -> Border {
    let invariants = vec![
        invariant(1, 0, AT_MOST, 1),
        invariant(2, 0, AT_MOST, 5),
        invariant(3, 0, AT_MOST, 5),
        invariant(4, 0, AT_MOST, 5),
        invariant(5, 0, LESS, 5),
    ];
    let end = |source: u8, comparison: u8, constant: u8| {
        step(source, 1, &[guard(0, comparison, constant)], &[(1, 6, 1)])
    };
    let edges =
        vec![end(4, EQUAL, 1), end(3, AT_LEAST, 1), end(2, EQUAL, 5), end(1, EQUAL, 1), end(5, EQUAL, 5)];
    Border::new(
        with_clocks(1, &[0, 0, 0, 0, 0, 1], 6, invariants, edges),
        &[(1, 2), (1, 3), (2, 3)],
        &[(1, 4, Delay), (2, 4, Delay), (1, 5, Delay), (1, 6, Label)],
    )
}

/// A location from which an edge can be waited for, and one from which it cannot: all that the second reaches
/// the first reaches too.
fn delay_one_way() -> Border {
    let invariants = vec![invariant(1, 0, AT_MOST, 1)];
    let edges = vec![step(1, 1, &[guard(0, EQUAL, 1)], &[(1, 3, 1)])];
    Border::new(
        with_clocks(1, &[0, 0, 1], 3, invariants, edges),
        &[],
        &[(1, 2, Delay), (2, 1, Delay), (1, 3, Label)],
    )
}

/// An edge that comes, goes and comes back: how often it does so counts, how long it is away does not, and
/// whether time goes on after the last time counts.
fn delay_and_back() -> Border {
    let at = |source: u8, constant: u8| step(source, 1, &[guard(0, EQUAL, constant)], &[(1, 6, 1)]);
    let edges =
        vec![at(1, 1), at(1, 2), at(2, 0), at(2, 1), at(3, 1), at(3, 3), at(4, 0), at(4, 1), at(5, 2)];
    let invariants = vec![invariant(4, 0, AT_MOST, 1)];
    Border::new(
        with_clocks(1, &[0, 0, 0, 0, 0, 1], 6, invariants, edges),
        &[(1, 3)],
        &[(1, 2, Action), (3, 4, Action), (2, 4, Delay), (1, 5, Delay), (3, 5, Delay)],
    )
}

/// Branches with different resets that land in one class count together (locations 1 and 2). Where the class
/// depends on the clock they do not (3 and 4).
fn across_resets() -> Border {
    let at_one = guard(0, EQUAL, 1);
    let mut invariants: Vec<InvariantAtom> =
        (1..=4).map(|location| invariant(location, 0, AT_MOST, 1)).collect();
    invariants.push(invariant(6, 0, AT_MOST, 1));
    let edges = vec![
        step(1, 1, &[at_one], &[(1, 5, 0), (1, 5, 1), (1, 5, 2)]),
        step(2, 1, &[at_one], &[(1, 5, 3)]),
        step(3, 1, &[at_one], &[(1, 6, 0), (1, 6, 1)]),
        step(4, 1, &[at_one], &[(1, 6, 1)]),
        step(6, 2, &[at_one], &[(1, 6, 0)]),
    ];
    Border::new(
        with_clocks(2, &[0, 0, 0, 0, 1, 1], 6, invariants, edges),
        &[(1, 2)],
        &[(3, 4, Delay), (1, 4, Delay)],
    )
}

/// Locations with one edge each, of one action, that gives these weights to two labels.
fn weights(of: &[(u16, u16)]) -> Model {
    let compared = of.len() as u8;
    let (first, second) = (compared + 1, compared + 2);
    let edges = of.iter().enumerate().map(|(index, &(one, other))| {
        let branches = [(one, first, 0), (other, second, 0)];
        step(index as u8 + 1, 1, &[], &branches)
    });
    let labels = [vec![0; of.len()], vec![1, 2]].concat();
    without_clocks(&labels, compared, edges.collect())
}

/// 1/3 and what is nearly 1/3.
fn thirds() -> Border {
    Border::new(
        weights(&[
            (1, 2),
            (2, 4),
            (20_000, 40_000),
            (3_333, 6_667),
            (19_999, 40_001),
            (20_001, 39_999),
            (19_999, 39_998),
            (2, 1),
        ]),
        &[(1, 2), (1, 3), (2, 3), (1, 7), (3, 7)],
        &[(1, 4, Shares), (3, 5, Shares), (3, 6, Shares), (5, 6, Shares), (1, 8, Shares), (7, 5, Shares)],
    )
}

/// Shares whose cross products differ by 1.
fn near_one() -> Border {
    Border::new(
        weights(&[(59_998, 1), (59_999, 1), (59_997, 1), (1, 59_999), (1, 59_998), (59_996, 4), (14_999, 1)]),
        &[(6, 7)],
        &[(1, 2, Shares), (2, 3, Shares), (1, 3, Shares), (4, 5, Shares), (1, 4, Shares), (2, 6, Shares)],
    )
}

/// One half over small and large denominators.
fn halves() -> Border {
    Border::new(
        weights(&[
            (1, 1),
            (29_999, 29_999),
            (30_000, 30_000),
            (29_999, 30_001),
            (29_999, 30_000),
            (30_000, 29_999),
            (256, 256),
        ]),
        &[(1, 2), (2, 3), (3, 7)],
        &[(3, 4, Shares), (3, 5, Shares), (5, 6, Shares), (1, 6, Shares)],
    )
}

/// Equal weights over different denominators, equal denominators with different weights: equal shares of one
/// class only.
fn same_denominators() -> Border {
    let edges = vec![
        step(1, 1, &[], &[(1, 5, 0), (1, 6, 0), (1, 7, 0)]),
        step(2, 1, &[], &[(1, 5, 0), (1, 6, 0), (2, 7, 0)]),
        step(3, 1, &[], &[(1, 5, 0), (2, 6, 0)]),
        step(4, 1, &[], &[(2, 7, 0), (1, 6, 0), (1, 5, 0)]),
    ];
    Border::new(
        without_clocks(&[0, 0, 0, 0, 1, 2, 3], 4, edges),
        &[(2, 4)],
        &[(1, 2, Shares), (1, 3, Shares), (1, 4, Shares)],
    )
}

/// Edges that match at another place of the table, and edges of equal places that do not.
fn positions() -> Border {
    let to = |source: u8, action: u8, target: u8| step(source, action, &[], &[(1, target, 0)]);
    let edges = vec![
        to(1, 1, 5),
        to(2, 2, 6),
        to(3, 1, 6),
        to(1, 2, 6),
        to(4, 1, 5),
        to(3, 2, 5),
        to(2, 1, 5),
        step(5, 3, &[], &[(2, 5, 0)]),
    ];
    Border::new(
        without_clocks(&[0, 0, 0, 0, 1, 2], 4, edges),
        &[(1, 2)],
        &[(1, 3, Shares), (1, 4, Action), (4, 2, Action)],
    )
}

/// Several edges of one action with different shares: each needs its own answer. Location 3 has one of the two,
/// so it is answered but does not answer.
fn same_action() -> Border {
    let to = |source: u8, one: u16, other: u16| step(source, 1, &[], &[(one, 5, 0), (other, 6, 0)]);
    let edges = vec![
        to(1, 1, 1),
        to(1, 1, 3),
        to(2, 3, 9),
        to(2, 2, 2),
        to(3, 1, 1),
        to(4, 5, 5),
        to(4, 3, 1),
        to(2, 7, 7),
    ];
    Border::new(
        without_clocks(&[0, 0, 0, 0, 1, 2], 4, edges),
        &[(1, 2)],
        &[(1, 3, Shares), (3, 1, Shares), (1, 4, Shares), (3, 4, Shares)],
    )
}

/// One edge answers several of the other side.
fn one_for_several() -> Border {
    let edges = vec![
        step(1, 1, &[], &[(1, 4, 0)]),
        step(1, 1, &[], &[(2, 4, 0), (3, 5, 0)]),
        step(1, 1, &[], &[(60_000, 5, 0)]),
        step(2, 1, &[], &[(7, 5, 0)]),
        step(3, 1, &[], &[(1, 4, 0)]),
        step(3, 1, &[], &[(1, 6, 0)]),
        step(3, 1, &[], &[(1, 5, 0)]),
    ];
    Border::new(
        without_clocks(&[0, 0, 0, 1, 1, 2], 6, edges),
        &[(1, 2), (4, 5)],
        &[(1, 3, Shares), (2, 3, Shares), (3, 2, Shares)],
    )
}

/// Weights are summed over all regions of a class, wherever they stand among the branches.
fn sums_of_classes() -> Border {
    let edges = vec![
        step(1, 1, &[], &[(1, 4, 0), (1, 6, 0), (1, 5, 0), (3, 6, 0)]),
        step(2, 1, &[], &[(2, 6, 0), (1, 4, 0)]),
        step(3, 1, &[], &[(1, 5, 0), (1, 6, 0), (1, 4, 0)]),
    ];
    Border::new(
        without_clocks(&[0, 0, 0, 1, 1, 2], 3, edges),
        &[(1, 2), (4, 5)],
        &[(1, 3, Shares), (2, 3, Shares)],
    )
}

/// Equal shares over round 1, but the class landed in is parted in round 2.
fn parted_later() -> Border {
    let edges = vec![
        step(1, 1, &[], &[(1, 3, 0), (1, 4, 0)]),
        step(2, 1, &[], &[(1, 3, 0), (2, 4, 0)]),
        step(3, 1, &[], &[(1, 5, 0)]),
        step(4, 1, &[], &[(1, 6, 0)]),
        step(5, 1, &[], &[(1, 7, 0)]),
        step(6, 1, &[], &[(1, 6, 0)]),
    ];
    let model = without_clocks(&[0, 0, 1, 1, 1, 1, 2], 2, edges);
    let border = Border::new(model, &[(4, 6)], &[(1, 2, Shares), (3, 4, Shares), (5, 6, Shares)]);
    assert_eq!(border.subject.rounds(), 3, "the heads part in the third round");
    border
}

/// An edge that is never available, as its guard never holds where time can go or a target breaks its
/// invariant, does not count.
fn never_available() -> Border {
    let invariants = vec![invariant(1, 0, AT_MOST, 1), invariant(2, 0, AT_MOST, 1), invariant(5, 0, LESS, 1)];
    let at_one = guard(0, EQUAL, 1);
    let edges = vec![
        step(1, 1, &[at_one], &[(1, 4, 0), (1, 5, 0)]),
        step(2, 1, &[guard(0, EQUAL, 2)], &[(1, 4, 0)]),
        step(3, 1, &[at_one], &[(1, 4, 0), (1, 5, 1)]),
    ];
    Border::new(
        with_clocks(1, &[0, 0, 0, 1, 1], 5, invariants, edges),
        &[(1, 2), (4, 5)],
        &[(1, 3, Delay), (2, 3, Delay)],
    )
}

/// The least and the greatest action and label.
fn extreme_bytes() -> Border {
    let to = |source: u8, action: u8| step(source, action, &[], &[(1, 5, 0)]);
    let edges = vec![to(1, 0), to(2, 255), to(3, 255), to(4, 254)];
    Border::new(
        without_clocks(&[255, 255, 255, 255, 0], 5, edges),
        &[(2, 3)],
        &[(1, 2, Action), (2, 4, Action), (2, 5, Label)],
    )
}

/// Eight branches against one, and eight that differ in the last.
fn eight_branches() -> Border {
    let mut eight = [(7_500, 4, 0); 8];
    let mut edges = vec![step(1, 1, &[], &eight), step(2, 1, &[], &[(1, 4, 0)])];
    eight[7] = (7_500, 5, 0);
    edges.push(step(3, 1, &[], &eight));
    Border::new(without_clocks(&[0, 0, 0, 1, 2], 3, edges), &[(1, 2)], &[(1, 3, Shares), (3, 2, Shares)])
}

/// Two chains of so many steps of equal labels, whose ends have different labels: the heads part in the last
/// round.
fn two_chains(steps: u8) -> Border {
    let other = steps + 1;
    let mut labels = vec![0; 2 * usize::from(other)];
    labels[usize::from(steps)] = 1;
    labels[2 * usize::from(steps) + 1] = 2;
    let mut edges = Vec::new();
    for location in (1..=steps).rev() {
        edges.push(step(location, 1, &[], &[(1, location + 1, 0)]));
        edges.push(step(location + other, 1, &[], &[(1, location + other + 1, 0)]));
    }
    edges.push(step(0, 0, &[], &[(1, 1, 0), (1, 1 + other, 0)]));
    let model = labelled(0, &[vec![START], labels].concat(), Vec::new(), edges);
    let border = Border::new(model, &[], &[(1, 1 + other, Shares)]);
    assert_eq!(border.subject.rounds(), steps.into(), "the heads part in round {steps}");
    border
}

/// A chain of equal labels: from its end on each round parts one location more, N - 1 rounds in all.
fn uniform_chain(locations: u8) -> Border {
    let border = Border::new(chain(locations, 0), &[], &[]);
    assert_eq!(border.subject.rounds(), usize::from(locations) - 1, "a chain has as many rounds as steps");
    border
}
