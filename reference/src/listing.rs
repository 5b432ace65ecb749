// The listing: the text that the program prints for a table. A refusal prints its line. Shares are rounded as
// document 02 asks in Job 7, and at the foot stand the totals that it asks for in Job 1; all else is as in document 01.

use crate::explore::{self, MOST_REGIONS};
use crate::links::{Graph, Step};
use crate::refine;
use crate::region::{Region, ENTRY};
use crate::rounds::{self, Rounds};
use crate::table::{self, Refusal};
use std::cmp::Ordering;
use std::collections::{BTreeMap, BTreeSet};

/// How many entries the program lends.
pub const ENTRIES_OF_PROGRAM: usize = 2_048;
/// A whole in the parts in which shares are printed.
const WHOLE: u64 = 10_000;

/// What is printed for a table with so many bytes lent for entries, all bytes of it.
pub fn printed(table: &[u8], lent: usize) -> Vec<u8> {
    listing(table, lent).unwrap_or_else(refused).into_bytes()
}

/// The same without the totals: a refusal's line is the same, and a listing ends with its last block.
pub fn printed_without_totals(table: &[u8], lent: usize) -> Vec<u8> {
    without_totals(table, lent).unwrap_or_else(refused).into_bytes()
}

/// The line of a refusal that a call gave.
pub fn refused(refusal: Refusal) -> String {
    refusal_line(refusal.number.into(), refusal.place as u64)
}

/// The line of a refusal, given by its numbers.
pub fn refusal_line(number: u64, place: u64) -> String {
    format!("refused {number} place {place}\n")
}

/// The listing of a table with so many bytes lent for entries, or a refusal of 1 to 15.
pub fn listing(table: &[u8], lent: usize) -> Result<String, Refusal> {
    let subject = Subject::of(table, lent)?;
    Ok(subject.text() + &totals(&subject.graph.labels, &subject.rounds.last))
}

/// The same without the totals.
pub fn without_totals(table: &[u8], lent: usize) -> Result<String, Refusal> {
    Subject::of(table, lent).map(|subject| subject.text())
}

/// What a listing is about.
struct Subject {
    regions: Vec<Region>,
    clocks: usize,
    graph: Graph,
    rounds: Rounds,
}

impl Subject {
    fn of(table: &[u8], lent: usize) -> Result<Subject, Refusal> {
        let model = table::read(table)?;
        let mut entries = vec![0; lent.min(MOST_REGIONS * ENTRY)];
        let net = explore::net(&model, &mut entries)?;
        let graph = Graph::of(&model, &net.regions);
        let rounds = refine::run(&net);
        Ok(Subject { regions: net.regions, clocks: model.clocks.into(), graph, rounds })
    }

    /// All of the listing but the totals: the first line, the regions, the blocks.
    fn text(&self) -> String {
        let blocks = &self.rounds.last;
        let members = members(blocks);
        let count = self.regions.len();
        let mut text = format!("regions {count} blocks {} rounds {}\n", members.len(), self.rounds.count);
        for (number, region) in self.regions.iter().enumerate() {
            text.push_str(&region_line(number, *region, blocks[number], self.clocks));
        }
        for (block, members) in members.iter().enumerate() {
            text.push_str(&block_lines(block as u32, members, &self.graph, blocks));
        }
        text
    }
}

/// The regions of each block, rising.
fn members(blocks: &[u32]) -> Vec<Vec<usize>> {
    let mut members = vec![Vec::new(); rounds::count_of(blocks)];
    for (region, &block) in blocks.iter().enumerate() {
        members[block as usize].push(region);
    }
    members
}

/// A line: its fields parted by one blank.
fn line(fields: &[String]) -> String {
    fields.join(" ") + "\n"
}

fn region_line(number: usize, region: Region, block: u32, clocks: usize) -> String {
    let mut fields = vec![format!("region {number} {} {block}", region.location)];
    fields.extend((0..clocks).map(|clock| clock_field(region, clock)));
    line(&fields)
}

fn clock_field(region: Region, clock: usize) -> String {
    match (region.is_over(clock), region.rank[clock]) {
        (true, _) => ">".to_string(),
        (false, 0) => region.whole[clock].to_string(),
        (false, rank) => format!("{}+{rank}", region.whole[clock]),
    }
}

/// The lines of a block. Its lowest region speaks for it.
fn block_lines(block: u32, members: &[usize], graph: &Graph, blocks: &[u32]) -> String {
    let lowest = members[0];
    let mut text = line(&[format!("block {block} {} {}", graph.labels[lowest], members.len())]);
    let reached = reached(lowest, graph, blocks);
    if !reached.is_empty() {
        let mut fields = vec![format!("delay {block}")];
        fields.extend(reached.iter().map(u32::to_string));
        text.push_str(&line(&fields));
    }
    for step in &graph.steps[lowest] {
        text.push_str(&step_line(block, step, blocks));
    }
    text
}

/// The other blocks that a region reaches by any delay, rising.
fn reached(region: usize, graph: &Graph, blocks: &[u32]) -> BTreeSet<u32> {
    let mut reached = BTreeSet::new();
    let mut here = region;
    while let Some(next) = graph.next[here] {
        reached.insert(blocks[next]);
        here = next;
    }
    reached.remove(&blocks[region]);
    reached
}

fn step_line(block: u32, step: &Step, blocks: &[u32]) -> String {
    let mut weights: BTreeMap<u32, u64> = BTreeMap::new();
    for landing in &step.landings {
        *weights.entry(blocks[landing.target]).or_default() += landing.weight;
    }
    let mut fields = vec![format!("step {block} {}", step.action)];
    let share = |(target, weight): (&u32, &u64)| format!("{target}:{}", parts(*weight, step.denominator));
    fields.extend(weights.iter().map(share));
    line(&fields)
}

/// A share in ten-thousandths, the nearest: what divides out or one more. An exact half goes to the even one of the
/// two (document 02, Job 7), so that 1 of 20,000 is 0 and 3 of 20,000 is 2.
fn parts(weight: u64, denominator: u64) -> u64 {
    let (below, left) = (WHOLE * weight / denominator, WHOLE * weight % denominator);
    match (2 * left).cmp(&denominator) {
        Ordering::Less => below,
        Ordering::Equal => below + below % 2,
        Ordering::Greater => below + 1,
    }
}

/// The totals (document 02, Job 1), from the label and the block of each region: for each label that a region bears,
/// labels rising, how many regions bear it and how many blocks these are in, and then the sums of both.
fn totals(labels: &[u8], blocks: &[u32]) -> String {
    let mut borne: BTreeMap<u8, (usize, BTreeSet<u32>)> = BTreeMap::new();
    for (&label, &block) in labels.iter().zip(blocks) {
        let (regions, within) = borne.entry(label).or_default();
        *regions += 1;
        within.insert(block);
    }
    let (mut text, mut all) = (String::new(), (0, 0));
    for (label, (regions, within)) in borne {
        text.push_str(&total_line(&format!("label {label}"), regions, within.len()));
        all = (all.0 + regions, all.1 + within.len());
    }
    text + &total_line("all", all.0, all.1)
}

fn total_line(whose: &str, regions: usize, blocks: usize) -> String {
    line(&[format!("{whose} regions {regions} blocks {blocks}")])
}
