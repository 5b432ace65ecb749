// What must hold of each listing, and what was found in it. The text is read back and compared with the
// partition call and with the model: the regions with the entries, the blocks with the block lists, delay and
// steps with what the model's lowest region of each block does, each share by the two borders between which
// it is rounded to what is printed, and which belong to even numbers alone. The totals are checked in
// listing_foot.rs.

use crate::explore::Layout;
use crate::listing_foot::{self, Totals};
use crate::listing_parse::{parse, BlockLines, Listing, RegionLine, StepLine};
use crate::partition::{self, Question};
use crate::region::{Region, CLOCKS, ENTRY};
use crate::table::{self, Edge, Model, LARGEST_CONSTANT};
use std::collections::HashMap;

/// What was found in listings, by how often.
#[derive(Default)]
pub struct Findings {
    /// Lines of each kind.
    pub regions: usize,
    pub blocks: usize,
    pub delays: usize,
    pub steps: usize,
    /// Blocks that time does not leave though it passes there.
    pub staying: usize,
    /// Delay lines and step lines whose blocks are met in another order than they are printed in.
    pub delays_in_order: usize,
    pub steps_in_order: usize,
    /// Step lines of 8 blocks; lines in which a block is landed in by several branches; repeated actions.
    pub of_eight: usize,
    pub summed: usize,
    pub repeated: usize,
    /// Shares that print 0, and that print 10000 though not all land there.
    pub zeros: usize,
    pub nearly_whole: usize,
    pub halves: Halves,
    pub totals: Totals,
    /// Blocks of which another region has other edges, or the same ones otherwise.
    pub otherwise: usize,
    /// Listings by the number of clocks, and by the digits of the last region's number.
    pub clocks: [usize; CLOCKS + 1],
    pub digits: [usize; 4],
    /// Listings with an integer part of 15.
    pub fifteen: usize,
}

/// Shares at exact halves of a ten-thousandth and beside them. In a pair the first is about shares after an even
/// number, which an exact half goes down to, and the second about those after an odd one, which it goes up from.
#[derive(Default)]
pub struct Halves {
    pub exact: [usize; 2],
    /// Exact halves that the branches landing in a block make together, none of them alone.
    pub together: [usize; 2],
    /// Shares off a half by a thousandth of it at most, below it and above it.
    pub hardly_below: [usize; 2],
    pub hardly_above: [usize; 2],
    /// Exact halves that print 0.
    pub zeros: usize,
    /// Step lines of several blocks, all at exact halves.
    pub lines: usize,
}

/// A listing with the model that it is about.
struct Subject<'a> {
    model: &'a Model,
    layout: Layout<'a>,
    listing: &'a Listing,
    regions: Vec<Region>,
    blocks: HashMap<u64, u32>,
}

/// Checks the listing of an accepted table with so many bytes lent, and counts what is in it.
pub fn check(table: &[u8], lent: usize, text: &str, findings: &mut Findings) {
    let model = table::read(table).expect("the table is accepted");
    let listing = parse(text).expect("the text has the form of a listing");
    check_partition(table, lent, &listing);
    let regions: Vec<Region> = listing.regions.iter().map(region_of).collect();
    let named = regions.iter().zip(&listing.regions);
    let blocks = named.map(|(region, line)| (region.packed(), line.block)).collect();
    let layout = Layout::of(&model);
    let subject = Subject { model: &model, layout, listing: &listing, regions, blocks };
    let members = subject.members();
    for (block, regions) in members.iter().enumerate() {
        subject.check_block(block as u32, regions[0], findings);
    }
    listing_foot::check(&model, &listing, &mut findings.totals);
    subject.note(&members, findings);
}

/// The region of a line. Clocks that the model does not have hold 0.
fn region_of(line: &RegionLine) -> Region {
    let mut region = Region::start(line.location);
    for (clock, &(whole, rank)) in line.clocks.iter().enumerate() {
        region.whole[clock] = whole;
        region.rank[clock] = rank;
    }
    region
}

/// N, the blocks, the rounds, the regions and the partition must be those of the partition call.
fn check_partition(table: &[u8], lent: usize, listing: &Listing) {
    let count = listing.regions.len();
    let mut entries = vec![0; lent];
    let mut lists = [vec![0; count], vec![0; count]];
    let answer = partition::call(&Question::Partition, table, &mut entries, &mut lists);
    let numbers = [count, listing.blocks.len(), listing.rounds].map(|number| number as u64);
    assert_eq!(answer, Ok(numbers.to_vec()), "the first line says otherwise than the partition call");
    for (region, line) in listing.regions.iter().enumerate() {
        assert_eq!(u64::from(line.block), lists[0][region], "region {region} is listed in another block");
        let entry = &entries[region * ENTRY..(region + 1) * ENTRY];
        assert_eq!(region_of(line).entry(), entry, "region {region} is listed otherwise");
    }
}

impl<'a> Subject<'a> {
    /// The regions of each block. Blocks are numbered by their lowest regions, and as large as their lines say.
    fn members(&self) -> Vec<Vec<usize>> {
        let mut members: Vec<Vec<usize>> = Vec::new();
        for (region, line) in self.listing.regions.iter().enumerate() {
            assert_eq!(line.clocks.len(), usize::from(self.model.clocks), "a region line has each clock");
            if line.block as usize == members.len() {
                members.push(Vec::new());
            }
            members[line.block as usize].push(region);
        }
        let listed = self.listing.blocks.iter().map(|block| block.size);
        assert!(listed.eq(members.iter().map(Vec::len)), "the sizes of the blocks");
        members
    }

    fn block_of(&self, region: Region) -> u32 {
        self.blocks[&region.packed()]
    }

    /// The lines of a block must say what its lowest region does.
    fn check_block(&self, block: u32, lowest: usize, findings: &mut Findings) {
        let lines = &self.listing.blocks[block as usize];
        let region = self.regions[lowest];
        assert_eq!(
            lines.label,
            self.model.labels[usize::from(region.location)],
            "the label of block {block}"
        );
        self.check_delay(block, region, lines, findings);
        let edges = self.layout.available_edges(region);
        assert_eq!(lines.steps.len(), edges.len(), "block {block} has a step line for each available edge");
        for (line, (edge, targets)) in lines.steps.iter().zip(&edges) {
            let landed: Vec<u32> = targets.iter().map(|&target| self.block_of(target)).collect();
            check_step(line, edge, &landed, findings);
        }
        let actions: Vec<u8> = lines.steps.iter().map(|line| line.action).collect();
        findings.repeated +=
            (1..actions.len()).filter(|&index| actions[..index].contains(&actions[index])).count();
    }

    /// Each block met on the way must be listed, rising, and no other. Time never comes back to a block that it
    /// has left: from there it would have to leave it again as before, and so on without end.
    fn check_delay(&self, block: u32, start: Region, lines: &BlockLines, findings: &mut Findings) {
        let mut met = Vec::new();
        let mut here = start;
        while let Some(next) = self.layout.delay(here) {
            let reached = self.block_of(next);
            if met.last().unwrap_or(&block) != &reached {
                assert!(reached != block && !met.contains(&reached), "time comes back to block {reached}");
                met.push(reached);
            }
            here = next;
        }
        findings.staying += usize::from(met.is_empty() && here != start);
        let Some(listed) = &lines.delay else {
            assert!(met.is_empty(), "block {block} lacks its delay line");
            return;
        };
        assert!(!listed.is_empty() && rises(listed), "the blocks of a delay line rise");
        assert!(listed.len() == met.len() && met.iter().all(|reached| listed.contains(reached)));
        findings.delays_in_order += usize::from(&met != listed);
    }

    /// Counts the lines of each kind, and what belongs to a whole listing.
    fn note(&self, members: &[Vec<usize>], findings: &mut Findings) {
        let blocks = &self.listing.blocks;
        findings.regions += self.regions.len();
        findings.blocks += blocks.len();
        findings.delays += blocks.iter().filter(|block| block.delay.is_some()).count();
        findings.steps += blocks.iter().map(|block| block.steps.len()).sum::<usize>();
        findings.clocks[usize::from(self.model.clocks)] += 1;
        findings.digits[(self.regions.len() - 1).to_string().len() - 1] += 1;
        let at_fifteen = |region: &Region| region.whole.contains(&LARGEST_CONSTANT);
        findings.fifteen += usize::from(self.regions.iter().any(at_fifteen));
        findings.otherwise += members.iter().filter(|regions| self.are_otherwise(regions)).count();
    }

    /// Whether one of these regions has its actions in another order or another number of times than the first.
    fn are_otherwise(&self, regions: &[usize]) -> bool {
        let actions = |region: usize| -> Vec<u8> {
            let edges = self.layout.available_edges(self.regions[region]);
            edges.iter().map(|(edge, _)| edge.action).collect()
        };
        let first = actions(regions[0]);
        regions[1..].iter().any(|&region| actions(region) != first)
    }
}

fn rises(list: &[u32]) -> bool {
    list.windows(2).all(|pair| pair[0] < pair[1])
}

/// A step line must have the blocks in which the branches land, rising, each with its share; the shares sum to
/// a whole but for the rounding. Two shares sum to it exactly: what one of them gains the other loses.
fn check_step(line: &StepLine, edge: &Edge, landed: &[u32], findings: &mut Findings) {
    assert_eq!(line.action, edge.action, "the action of a step line");
    let listed: Vec<u32> = line.shares.iter().map(|&(block, _)| block).collect();
    assert!(rises(&listed), "the blocks of a step line rise");
    assert!(landed.iter().all(|block| listed.contains(block)), "each block landed in is listed");
    let mut at_half = 0;
    for &(block, share) in &line.shares {
        let branches = edge.branches.iter().zip(landed).filter(|&(_, &into)| into == block);
        let weights: Vec<u64> = branches.map(|(branch, _)| u64::from(branch.weight)).collect();
        assert!(!weights.is_empty(), "a block is listed in which nothing lands");
        check_share(weights.iter().sum(), edge.denominator.into(), share, findings);
        at_half += usize::from(findings.halves.note(&weights, edge.denominator.into()));
    }
    let sum: u64 = line.shares.iter().map(|&(_, share)| share).sum();
    assert!(2 * sum.abs_diff(10_000) <= listed.len() as u64, "shares sum to {sum}");
    assert!(listed.len() != 2 || sum == 10_000, "two shares sum to {sum}");
    findings.halves.lines += usize::from(at_half > 1 && at_half == listed.len());
    findings.of_eight += usize::from(listed.len() == 8);
    findings.summed += usize::from(listed.len() < landed.len());
    findings.steps_in_order += usize::from(!landed.windows(2).all(|pair| pair[0] <= pair[1]));
}

/// A share is printed as s where it lies between s - 1/2 and s + 1/2. Both borders belong to s where s is even, and
/// neither does where s is odd.
fn check_share(weight: u64, denominator: u64, share: u64, findings: &mut Findings) {
    let twice = 20_000 * weight;
    let low = (2 * share * denominator).saturating_sub(denominator);
    let high = (2 * share + 1) * denominator;
    let at_border = twice == low || twice == high;
    let fits = low <= twice && twice <= high && (share % 2 == 0 || !at_border);
    assert!(fits, "{weight} of {denominator} is listed as {share}");
    findings.zeros += usize::from(share == 0);
    findings.nearly_whole += usize::from(share == 10_000 && weight < denominator);
}

/// How far a share is above the half after the last whole ten-thousandth, below it if less than 0, in parts of which
/// a half has as many as the denominator says.
fn above_half(weight: u64, denominator: u64) -> i64 {
    2 * (10_000 * weight % denominator) as i64 - denominator as i64
}

impl Halves {
    /// Counts the share that these weights make together. Returns whether it is an exact half.
    fn note(&mut self, weights: &[u64], denominator: u64) -> bool {
        let weight: u64 = weights.iter().sum();
        let side = (10_000 * weight / denominator % 2) as usize;
        let hardly = denominator as i64 / 1_000;
        match above_half(weight, denominator) {
            0 => {
                let alone = weights.iter().any(|&weight| above_half(weight, denominator) == 0);
                self.exact[side] += 1;
                self.together[side] += usize::from(!alone);
                self.zeros += usize::from(10_000 * weight < denominator);
                return true;
            }
            above if above < 0 => self.hardly_below[side] += usize::from(-above <= hardly),
            above => self.hardly_above[side] += usize::from(above <= hardly),
        }
        false
    }
}
