// The rounds, made quickly: in each round only those regions are looked at whose delay or edges lead into a block
// that is new since the round before.
//
// A block that splits keeps its number for its largest part, and each other part gets a new one; the regions of
// these parts have moved. A region that leads to a moved one, by some delay or by an edge, is touched. It now
// leads into a block of this round's new numbers, and one that is not touched leads into none of them, so the two
// part. Regions that are not touched have the description that they had, so what was related stays so. Touched
// regions of one block are compared by their descriptions: the set of blocks that they reach by delay, and the
// set of their edges, an edge being its action and its shares. The numbers given here say only which regions are
// related; at the end blocks are numbered by their lowest region.
//
// A moved region is in a block of at most half the size of the one it was in, so it moves at most twelve times.

use crate::hash::HashMap;
use crate::net::{greatest_common, Net, Shape};
use crate::rounds::{by_label, numbered, Blocks, Rounds};
use crate::sets::Sets;
use crate::table::MOST_BRANCHES;

/// Runs the rounds. The count is the least k whose round equals the next.
pub fn run(net: &Net) -> Rounds {
    let mut refinement = Refinement::new(net, &by_label(&net.labels));
    let mut count = 0;
    while refinement.next_round() {
        count += 1;
    }
    Rounds { last: refinement.blocks(), count }
}

/// All rounds from 0 to the first that equals the next.
pub fn history(net: &Net) -> Vec<Blocks> {
    let mut refinement = Refinement::new(net, &by_label(&net.labels));
    let mut all = vec![refinement.blocks()];
    while refinement.next_round() {
        all.push(refinement.blocks());
    }
    all
}

/// Whether regions of equal block have equal labels and meet both conditions over these blocks.
pub fn is_bisimulation(net: &Net, blocks: &[u32]) -> bool {
    let labelled = numbered(blocks.iter().zip(&net.labels));
    labelled == blocks && !Refinement::new(net, blocks).next_round()
}

/// For each region a list of regions, all lists in one.
struct Lists {
    items: Vec<u32>,
    starts: Vec<usize>,
}

impl Lists {
    /// The lists of so many regions, from pairs of a region and an item of its list.
    fn of(count: usize, pairs: impl Iterator<Item = (u32, u32)> + Clone) -> Lists {
        let mut starts = vec![0; count + 1];
        for (region, _) in pairs.clone() {
            starts[region as usize + 1] += 1;
        }
        for region in 0..count {
            starts[region + 1] += starts[region];
        }
        let mut items = vec![0; starts[count]];
        let mut ends = starts.clone();
        for (region, item) in pairs {
            items[ends[region as usize]] = item;
            ends[region as usize] += 1;
        }
        Lists { items, starts }
    }

    fn at(&self, region: u32) -> &[u32] {
        &self.items[self.starts[region as usize]..self.starts[region as usize + 1]]
    }
}

/// What happens to a block: so many new parts leave it.
struct Split {
    block: u32,
    leaving: Vec<Vec<u32>>,
}

/// The blocks of a round, and what has moved since the round before.
struct Refinement<'a> {
    net: &'a Net,
    /// The regions from which delay leads straight to each region.
    delays_from: Lists,
    /// The regions with an edge that lands in each region.
    lands_from: Lists,
    /// How many delays there are from each region to the last.
    delays_left: Vec<u32>,
    block: Vec<u32>,
    members: Vec<Vec<u32>>,
    /// The regions whose block is new. At first all are.
    moved: Vec<u32>,
    sets: Sets,
    /// The set of blocks that each region reaches by delay.
    reached: Vec<u32>,
    /// The round in which each region was last touched.
    touched_in: Vec<u32>,
    round: u32,
}

impl<'a> Refinement<'a> {
    /// Begins with blocks numbered from 0.
    fn new(net: &'a Net, blocks: &[u32]) -> Refinement<'a> {
        let count = net.count();
        let regions = 0..count as u32;
        let delays = |region: u32| net.next[region as usize].map(|next| (next, region));
        let lands = |region: u32| net.landings(region as usize).iter().map(move |&target| (target, region));
        let mut members = Vec::new();
        for (region, &block) in blocks.iter().enumerate() {
            if members.len() <= block as usize {
                members.push(Vec::new());
            }
            members[block as usize].push(region as u32);
        }
        Refinement {
            net,
            delays_from: Lists::of(count, regions.clone().filter_map(delays)),
            lands_from: Lists::of(count, regions.clone().flat_map(lands)),
            delays_left: delays_left(net),
            block: blocks.to_vec(),
            members,
            moved: regions.collect(),
            sets: Sets::new(),
            reached: vec![Sets::EMPTY; count],
            touched_in: vec![0; count],
            round: 0,
        }
    }

    /// The blocks, numbered from 0 by their lowest region.
    fn blocks(&self) -> Blocks {
        numbered(self.block.iter())
    }

    /// Makes the next round. False if it equals this one.
    fn next_round(&mut self) -> bool {
        self.round += 1;
        let touched = self.touched();
        let splits = self.splits(touched);
        self.moved.clear();
        for Split { block, leaving } in &splits {
            for part in leaving {
                let fresh = self.members.len() as u32;
                for &region in part {
                    self.block[region as usize] = fresh;
                }
                self.moved.extend(part);
                self.members.push(part.clone());
            }
            self.members[*block as usize].retain(|&region| self.block[region as usize] == *block);
        }
        !splits.is_empty()
    }

    /// The regions that lead to a moved one by some delay, zero included, or by an edge. The sets of blocks that
    /// they reach by delay are brought up to date.
    fn touched(&mut self) -> Vec<u32> {
        let mut touched = Vec::new();
        // What comes later by delay is taken first, as its set is asked for.
        self.moved.sort_unstable_by_key(|&region| self.delays_left[region as usize]);
        let mut waiting = Vec::new();
        for index in 0..self.moved.len() {
            let start = self.moved[index];
            if self.touched_in[start as usize] != self.round {
                waiting.push(start);
            }
            while let Some(region) = waiting.pop() {
                self.update_reached(region);
                self.touched_in[region as usize] = self.round;
                touched.push(region);
                waiting.extend(self.delays_from.at(region));
            }
        }
        for &target in &self.moved {
            for &region in self.lands_from.at(target) {
                if self.touched_in[region as usize] != self.round {
                    self.touched_in[region as usize] = self.round;
                    touched.push(region);
                }
            }
        }
        if self.sets.are_many() {
            self.begin_sets_again();
        }
        touched
    }

    /// Brings the set of blocks reached by delay up to date, from the set of the region that follows.
    fn update_reached(&mut self, region: u32) {
        let next = self.net.next[region as usize];
        let after = next.map_or(Sets::EMPTY, |next| self.reached[next as usize]);
        self.reached[region as usize] = self.sets.with(after, self.block[region as usize]);
    }

    fn begin_sets_again(&mut self) {
        self.sets = Sets::new();
        let mut all: Vec<u32> = (0..self.net.count() as u32).collect();
        all.sort_unstable_by_key(|&region| self.delays_left[region as usize]);
        for region in all {
            self.update_reached(region);
        }
    }

    /// What happens to each block that has touched regions, if something does.
    fn splits(&self, mut touched: Vec<u32>) -> Vec<Split> {
        let block = |region: u32| self.block[region as usize];
        // Alone in its block, a region can part from nobody.
        touched.retain(|&region| self.members[block(region) as usize].len() > 1);
        touched.sort_unstable_by_key(|&region| block(region));
        let mut edges = Edges::new(self.net, &self.block);
        let of_one_block = touched.chunk_by(|&first, &second| block(first) == block(second));
        of_one_block.filter_map(|touched| self.split(block(touched[0]), touched, &mut edges)).collect()
    }

    /// What happens to a block with these touched regions: its largest part stays.
    fn split(&self, block: u32, touched: &[u32], edges: &mut Edges) -> Option<Split> {
        let members = &self.members[block as usize];
        let mut parts = self.parts(touched, edges);
        parts.sort_by_key(|part| part.len());
        let untouched = members.len() - touched.len();
        if parts.last().is_some_and(|largest| largest.len() > untouched) {
            parts.pop();
            if untouched > 0 {
                let stays_behind = |region: &&u32| self.touched_in[**region as usize] != self.round;
                parts.push(members.iter().filter(stays_behind).copied().collect());
            }
        }
        (!parts.is_empty()).then_some(Split { block, leaving: parts })
    }

    /// The touched regions of a block by description. Edges are looked at only where delay does not decide.
    fn parts(&self, touched: &[u32], edges: &mut Edges) -> Vec<Vec<u32>> {
        let reached = |region: u32| self.reached[region as usize];
        let mut by_delay = touched.to_vec();
        by_delay.sort_unstable_by_key(|&region| reached(region));
        let mut parts = Vec::new();
        for alike in by_delay.chunk_by(|&first, &second| reached(first) == reached(second)) {
            if let [alone] = *alike {
                parts.push(vec![alone]);
                continue;
            }
            let mut by_edges: Vec<(u32, u32)> =
                alike.iter().map(|&region| (edges.of(region as usize), region)).collect();
            by_edges.sort_unstable();
            let alike = by_edges.chunk_by(|first, second| first.0 == second.0);
            parts.extend(alike.map(|part| part.iter().map(|&(_, region)| region).collect()));
        }
        parts
    }
}

/// How many delays there are from each region to the last. Delay never comes back to a region.
fn delays_left(net: &Net) -> Vec<u32> {
    let mut left: Vec<Option<u32>> = vec![None; net.count()];
    let mut path = Vec::new();
    for start in 0..net.count() {
        let mut here = Some(start);
        while let Some(region) = here.filter(|&region| left[region].is_none()) {
            path.push(region);
            here = net.next[region].map(|next| next as usize);
        }
        let mut delays = here.and_then(|region| left[region]).map_or(0, |delays| delays + 1);
        while let Some(region) = path.pop() {
            left[region] = Some(delays);
            delays += 1;
        }
    }
    left.into_iter().flatten().collect()
}

/// An edge over blocks: its action, then block and weight of each share in one number, blocks rising, weights
/// without a common divisor, then zeros. Equal actions and equal shares give equal steps.
type Step = [u32; 1 + MOST_BRANCHES];

/// Sets of steps under numbers: equal sets, and no others, have equal numbers. They hold for one round.
struct Edges<'a> {
    net: &'a Net,
    block: &'a [u32],
    /// The numbers by kind and blocks landed in, slot by slot.
    by_landings: HashMap<Vec<u32>, u32>,
    by_steps: HashMap<Vec<Step>, u32>,
    /// The block in which each slot of the region at hand lands.
    landed: Vec<u32>,
}

impl<'a> Edges<'a> {
    fn new(net: &'a Net, block: &'a [u32]) -> Edges<'a> {
        let (by_landings, by_steps) = (HashMap::default(), HashMap::default());
        Edges { net, block, by_landings, by_steps, landed: Vec::new() }
    }

    /// The number of a region's set of steps.
    fn of(&mut self, region: usize) -> u32 {
        let landings = self.net.landings(region);
        let mut key = Vec::with_capacity(1 + landings.len());
        key.push(self.net.kind_of[region]);
        key.extend(landings.iter().map(|&target| self.block[target as usize]));
        if let Some(&number) = self.by_landings.get(&key) {
            return number;
        }
        let steps = self.steps(self.net.kind_of[region], &key[1..]);
        let fresh = self.by_steps.len() as u32;
        let number = *self.by_steps.entry(steps).or_insert(fresh);
        self.by_landings.insert(key, number);
        number
    }

    /// The steps of a kind whose slots land in these blocks, without order and without repetition.
    fn steps(&mut self, kind: u32, blocks: &[u32]) -> Vec<Step> {
        let kind = &self.net.kinds[kind as usize];
        for (&slot, &block) in kind.slots.iter().zip(blocks) {
            let slot = usize::from(slot);
            if self.landed.len() <= slot {
                self.landed.resize(slot + 1, 0);
            }
            self.landed[slot] = block;
        }
        let mut steps: Vec<Step> = kind.shapes.iter().map(|shape| step(shape, &self.landed)).collect();
        steps.sort_unstable();
        steps.dedup();
        steps
    }
}

/// A shape over the blocks in which the slots land.
fn step(shape: &Shape, landed: &[u32]) -> Step {
    let mut shares = [(0, 0); MOST_BRANCHES];
    let mut count = 0;
    for &(slot, weight) in &shape.parts {
        let block = landed[usize::from(slot)];
        let place = shares[..count].partition_point(|&(other, _)| other < block);
        if place < count && shares[place].0 == block {
            shares[place].1 += weight;
        } else {
            shares.copy_within(place..count, place + 1);
            shares[place] = (block, weight);
            count += 1;
        }
    }
    let shares = &shares[..count];
    let common = shares.iter().fold(0, |common, &(_, weight)| greatest_common(common, weight));
    let mut step = [0; 1 + MOST_BRANCHES];
    step[0] = shape.action.into();
    for (field, &(block, weight)) in step[1..].iter_mut().zip(shares) {
        *field = block << 16 | weight / common;
    }
    step
}
