// One graph as a sequence of numbers, as the command `graphs` writes it, and such a sequence read back.
//
// The sequence is made from the model's regions and the rules for them, without the graph's links. What is read back
// is made from the numbers alone: it must be what the links say.

use crate::explore::Layout;
use crate::links::{Graph, Landing, Step};
use crate::region::Region;
use crate::table::{Edge, Model};
use std::collections::{BTreeMap, BTreeSet};

/// The number that says that no region follows by delay.
const NONE: u16 = u16::MAX;

/// Numbers of two bytes, one after the other.
struct Writer {
    numbers: Vec<u16>,
}

impl Writer {
    fn put(&mut self, number: usize) {
        self.numbers.push(u16::try_from(number).expect("all numbers have two bytes"));
    }

    fn put_all(&mut self, numbers: &[usize]) {
        numbers.iter().for_each(|&number| self.put(number));
    }
}

/// The numbers of a model with these regions, all of them by number, and these names for them.
pub fn numbers(model: &Model, regions: &[Region], namings: &[Vec<usize>]) -> Vec<u16> {
    let layout = Layout::of(model);
    let mut writer = Writer { numbers: Vec::new() };
    writer.put(regions.len());
    writer.put(model.labels.len());
    for (&label, edges) in model.labels.iter().zip(&layout.edges) {
        writer.put_all(&[label.into(), edges.len()]);
        edges.iter().for_each(|edge| put_edge(&mut writer, edge));
    }
    let number = |region: Region| regions.iter().position(|&other| other == region).expect("all regions");
    let class = |region: Region| {
        let same = |other: &Region| other.whole == region.whole && other.rank == region.rank;
        regions.iter().position(same).expect("all regions")
    };
    let mut resets = BTreeSet::new();
    for &region in regions {
        writer.put_all(&[region.location.into(), class(region)]);
        writer.put(layout.delay(region).map_or(NONE.into(), number));
        let available = layout.available_edges(region);
        writer.put(available.len());
        for (edge, targets) in available {
            let edges = &layout.edges[usize::from(region.location)];
            let rank = edges.iter().position(|&other| std::ptr::eq(other, edge));
            writer.put(rank.expect("an available edge begins here"));
            for (branch, target) in edge.branches.iter().zip(targets) {
                resets.insert([class(region), branch.mask.into(), class(target)]);
            }
        }
    }
    writer.put(resets.len());
    resets.iter().for_each(|reset| writer.put_all(reset));
    writer.put(namings.len());
    namings.iter().for_each(|names| writer.put_all(names));
    writer.numbers
}

fn put_edge(writer: &mut Writer, edge: &Edge) {
    writer.put_all(&[edge.action.into(), edge.denominator.into(), edge.branches.len()]);
    for branch in &edge.branches {
        writer.put_all(&[branch.weight.into(), branch.target.into(), branch.mask.into()]);
    }
}

/// What a sequence of numbers says.
pub struct ReadBack {
    labels: Vec<u8>,
    next: Vec<Option<usize>>,
    steps: Vec<Vec<Step>>,
    pub namings: Vec<Vec<usize>>,
}

/// A branch as written: its weight, its target's location, its mask.
type BranchRead = (u64, usize, usize);

/// An edge as written: its action, its denominator, its branches.
type EdgeRead = (u8, u64, Vec<BranchRead>);

/// A region as written: its location, its clock class, what follows by delay, the ranks of its available edges.
type RegionRead = (usize, usize, Option<usize>, Vec<usize>);

/// Numbers not yet read.
struct Reader<'a> {
    numbers: &'a [u16],
}

impl Reader<'_> {
    fn take(&mut self) -> usize {
        let (&first, rest) = self.numbers.split_first().expect("the numbers of a graph end early");
        self.numbers = rest;
        first.into()
    }

    /// So many items.
    fn list<T>(&mut self, count: usize, item: impl Fn(&mut Self) -> T) -> Vec<T> {
        (0..count).map(|_| item(self)).collect()
    }

    /// As many items as the next number says.
    fn counted<T>(&mut self, item: impl Fn(&mut Self) -> T) -> Vec<T> {
        let count = self.take();
        self.list(count, item)
    }

    fn branch(&mut self) -> BranchRead {
        (self.take() as u64, self.take(), self.take())
    }

    fn edge(&mut self) -> EdgeRead {
        (self.take() as u8, self.take() as u64, self.counted(Reader::branch))
    }

    fn location(&mut self) -> (u8, Vec<EdgeRead>) {
        (self.take() as u8, self.counted(Reader::edge))
    }

    fn region(&mut self) -> RegionRead {
        let (location, class, next) = (self.take(), self.take(), self.take());
        let next = Some(next).filter(|&next| next != usize::from(NONE));
        (location, class, next, self.counted(Reader::take))
    }

    fn reset(&mut self) -> [usize; 3] {
        [self.take(), self.take(), self.take()]
    }
}

/// Reads the numbers of one graph, with nothing left over.
pub fn read_back(numbers: &[u16]) -> ReadBack {
    let mut reader = Reader { numbers };
    let count = reader.take();
    let locations = reader.counted(Reader::location);
    let regions = reader.list(count, Reader::region);
    let resets = reader.counted(Reader::reset);
    let namings = reader.counted(|reader| reader.list(count, Reader::take));
    assert!(reader.numbers.is_empty(), "numbers are left over after a graph");
    assert!(resets.windows(2).all(|pair| pair[0] < pair[1]), "resets are not sorted, or one stands twice");
    let after: BTreeMap<[usize; 2], usize> =
        resets.iter().map(|&[class, mask, after]| ([class, mask], after)).collect();
    assert_eq!(after.len(), resets.len(), "a reset leads to two clock classes");
    let mut used = BTreeSet::new();
    let mut steps = Vec::new();
    for (location, class, _, ranks) in &regions {
        assert!(ranks.windows(2).all(|pair| pair[0] < pair[1]), "available edges do not rise");
        let mut landing = |&(weight, target, mask): &BranchRead| {
            used.insert([*class, mask]);
            let class = after[&[*class, mask]];
            let mut there =
                (0..count).filter(|&region| (regions[region].0, regions[region].1) == (target, class));
            let landing = Landing { weight, target: there.next().expect("a branch leads to a region") };
            assert_eq!(there.next(), None, "two regions have one location and one clock class");
            landing
        };
        let mut step = |&rank: &usize| {
            let (action, denominator, branches) = &locations[*location].1[rank];
            let landings = branches.iter().map(&mut landing).collect();
            Step { action: *action, denominator: *denominator, landings }
        };
        steps.push(ranks.iter().map(&mut step).collect());
    }
    assert_eq!(used.len(), resets.len(), "a reset is listed that no branch makes");
    let labels = regions.iter().map(|&(location, ..)| locations[location].0).collect();
    let next = regions.iter().map(|&(_, _, next, _)| next).collect();
    ReadBack { labels, next, steps, namings }
}

impl ReadBack {
    /// It must be the graph, link by link.
    pub fn check(&self, graph: &Graph) {
        assert_eq!(self.labels, graph.labels, "labels are read back otherwise");
        assert_eq!(self.next, graph.next, "delay is read back otherwise");
        assert_eq!(self.steps, graph.steps, "available edges are read back otherwise");
    }
}
