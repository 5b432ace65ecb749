// Proposed partitions: bisimulations and others, from the rounds of a model, under any numbers.

use crate::block_subject::Subject;
use crate::region::Region;
use crate::rng::Rng;
use crate::rounds::{self, Blocks};
use std::collections::{HashMap, HashSet};

/// Blocks as a proposal.
pub fn of_blocks(blocks: &[u32]) -> Vec<u64> {
    blocks.iter().map(|&block| block.into()).collect()
}

/// The same partition under other numbers: turned round, all equal in their low or their high half, all powers
/// of 256 apart, or any.
pub fn renamed(rng: &mut Rng, proposal: &[u64]) -> Vec<u64> {
    let blocks = rounds::numbered(proposal.iter());
    let count = rounds::count_of(&blocks) as u64;
    let low = rng.pick(&[0, 7, (1 << 32) - 1]);
    match rng.below(7) {
        0 => of_blocks(&blocks).iter().map(|block| count - 1 - block).collect(),
        1 | 2 => of_blocks(&blocks).iter().map(|block| (block << 32) + low).collect(),
        3 => of_blocks(&blocks).iter().map(|block| u64::MAX - block).collect(),
        4 => of_blocks(&blocks).iter().map(|block| (1 << 63) + (block << 8)).collect(),
        5 => of_blocks(&blocks).iter().map(|block| (block << 16) + 1).collect(),
        _ => at_random(rng, &blocks),
    }
}

/// A number by chance for each block, all different.
fn at_random(rng: &mut Rng, blocks: &[u32]) -> Vec<u64> {
    let mut taken = HashSet::new();
    let mut names = HashMap::new();
    for &block in blocks {
        names.entry(block).or_insert_with(|| loop {
            let name = if rng.chance(1, 2) { rng.next() } else { rng.next() % 5_000 };
            if taken.insert(name) {
                return name;
            }
        });
    }
    blocks.iter().map(|block| names[block]).collect()
}

/// Each region by itself: always a bisimulation.
pub fn identity(subject: &Subject) -> Vec<u64> {
    (0..subject.count() as u64).collect()
}

/// The last blocks with one region put by itself.
pub fn split_off(rng: &mut Rng, subject: &Subject) -> Vec<u64> {
    let alone = some_companion(rng, subject);
    let fresh = subject.blocks() as u64;
    let mut proposal = of_blocks(subject.last());
    proposal[alone] = fresh;
    proposal
}

/// A region, not alone in its block where there is such a one.
fn some_companion(rng: &mut Rng, subject: &Subject) -> usize {
    let last = subject.last();
    let shared: Vec<usize> = (0..subject.count())
        .filter(|&region| last.iter().filter(|&&block| block == last[region]).count() > 1)
        .collect();
    if shared.is_empty() {
        rng.below(subject.count())
    } else {
        rng.pick(&shared)
    }
}

/// The coarsest bisimulation that puts one region apart from its block.
pub fn finer(rng: &mut Rng, subject: &Subject) -> Vec<u64> {
    settled(subject, rounds::numbered(split_off(rng, subject).into_iter()))
}

/// What would be the last blocks if all labels were equal: it meets both conditions.
pub fn without_labels(subject: &Subject) -> Vec<u64> {
    settled(subject, vec![0; subject.count()])
}

/// The coarsest refinement of blocks that meets both conditions.
fn settled(subject: &Subject, mut blocks: Blocks) -> Vec<u64> {
    loop {
        let next = rounds::next_round(&subject.graph, &blocks);
        if next == blocks {
            return of_blocks(&blocks);
        }
        blocks = next;
    }
}

/// The last blocks with two of them made one, if there are two: no bisimulation.
pub fn merged(rng: &mut Rng, subject: &Subject) -> Option<Vec<u64>> {
    let (kept, lost) = two_blocks(rng, subject)?;
    let merge = |&block: &u32| u64::from(if block == lost { kept } else { block });
    Some(subject.last().iter().map(merge).collect())
}

/// The last blocks with one region moved to another block, if there are two: no bisimulation.
pub fn moved(rng: &mut Rng, subject: &Subject) -> Option<Vec<u64>> {
    let (kept, left) = two_blocks(rng, subject)?;
    let region = subject.last().iter().position(|&block| block == left)?;
    let mut proposal = of_blocks(subject.last());
    proposal[region] = kept.into();
    Some(proposal)
}

/// Two different blocks, of one label and parted as late as can be where chance says so.
fn two_blocks(rng: &mut Rng, subject: &Subject) -> Option<(u32, u32)> {
    let last = subject.last();
    let rounds = subject.rounds();
    if rounds > 0 && rng.chance(3, 4) {
        let before = &subject.history[if rng.chance(1, 2) { 0 } else { rounds - 1 }];
        let first = rng.below(last.len());
        let parted = |&other: &usize| before[other] == before[first] && last[other] != last[first];
        let others: Vec<usize> = (0..last.len()).filter(parted).collect();
        if !others.is_empty() {
            return Some((last[first], last[rng.pick(&others)]));
        }
    }
    let blocks = subject.blocks();
    if blocks < 2 {
        return None;
    }
    let kept = rng.below(blocks);
    let lost = (kept + rng.between(1, blocks - 1)) % blocks;
    Some((kept as u32, lost as u32))
}

/// The blocks of a round before the last, if there is one: no bisimulation.
pub fn earlier(rng: &mut Rng, subject: &Subject) -> Option<Vec<u64>> {
    let rounds = subject.rounds();
    (rounds > 0).then(|| of_blocks(&subject.history[rng.below(rounds)]))
}

/// Any numbers below so many.
pub fn any_below(rng: &mut Rng, subject: &Subject, most: usize) -> Vec<u64> {
    (0..subject.count()).map(|_| rng.below(most) as u64).collect()
}

/// Regions of equal origin and equal clocks.
pub fn by_origin(subject: &Subject, origin: &[u8]) -> Vec<u64> {
    let key = |region: &Region| {
        let from = origin[usize::from(region.location)];
        (from, region.whole, region.rank)
    };
    of_blocks(&rounds::numbered(subject.regions.iter().map(key)))
}
