// Rounds by signatures, plainly: each round is made from the one before and from nothing else. The calls make their
// rounds more quickly; the collections of cases hold those to these.
//
// Over the blocks of one round each region gets a description of the blocks that it
// reaches by delay and of its edges' shares in each block. Two regions meet both conditions, both ways, exactly
// when their descriptions are equal: equal sets of blocks reached, and equal sets of edges, an edge being its
// action and its shares. A share is kept as a reduced fraction, so that equal shares are equal pairs of
// numbers.

use crate::links::{Graph, Step};
use std::collections::HashMap;
use std::hash::Hash;

/// The block of each region. Blocks are numbered from 0 by their lowest region.
pub type Blocks = Vec<u32>;

/// The share that an edge gives to a block: the block, and a reduced fraction.
type Share = (u32, u64, u64);

/// What an edge gives to the blocks landed in, blocks rising, under its action.
type StepSignature = (u8, Vec<Share>);

/// What tells a region from others of the same round: its block, the number of the set of blocks that it
/// reaches by delay, and its edges without order and without repetition.
type Signature = (u32, u32, Vec<StepSignature>);

/// The last round and the count of rounds.
pub struct Rounds {
    pub last: Blocks,
    pub count: usize,
}

/// Blocks of regions with equal keys.
pub fn numbered<K: Hash + Eq>(keys: impl Iterator<Item = K>) -> Blocks {
    let mut numbers = HashMap::new();
    let mut blocks = Vec::new();
    for key in keys {
        let fresh = numbers.len() as u32;
        blocks.push(*numbers.entry(key).or_insert(fresh));
    }
    blocks
}

/// How many blocks there are.
pub fn count_of(blocks: &[u32]) -> usize {
    blocks.iter().max().map_or(0, |&highest| highest as usize + 1)
}

/// Round 0: regions of equal label.
pub fn by_label(labels: &[u8]) -> Blocks {
    numbered(labels.iter())
}

/// The round after one with these blocks.
pub fn next_round(graph: &Graph, blocks: &[u32]) -> Blocks {
    let mut sizes = vec![0; count_of(blocks)];
    for &block in blocks {
        sizes[block as usize] += 1;
    }
    let reached = reached_sets(graph, blocks);
    let signature = |region: usize| -> Signature {
        let block = blocks[region];
        if sizes[block as usize] == 1 {
            // Alone in its block, it can part from nobody.
            return (block, 0, Vec::new());
        }
        (block, reached[region], steps_signature(&graph.steps[region], blocks))
    };
    numbered((0..graph.count()).map(signature))
}

/// For each region the number of the set of blocks that it reaches by delay, its own included. Equal sets have
/// equal numbers.
fn reached_sets(graph: &Graph, blocks: &[u32]) -> Vec<u32> {
    let mut sets: Vec<Vec<u32>> = Vec::new();
    let mut known: HashMap<Vec<u32>, u32> = HashMap::new();
    let mut numbers = vec![0; blocks.len()];
    for &region in &graph.later_first {
        let block = blocks[region];
        let after = graph.next[region].map(|next| numbers[next]);
        let set = after.map_or(&[][..], |number: u32| &sets[number as usize]);
        numbers[region] = match (set.binary_search(&block), after) {
            (Ok(_), Some(number)) => number,
            (Ok(position) | Err(position), _) => {
                let mut larger = set.to_vec();
                larger.insert(position, block);
                let fresh = sets.len() as u32;
                let number = *known.entry(larger.clone()).or_insert(fresh);
                if number == fresh {
                    sets.push(larger);
                }
                number
            }
        };
    }
    numbers
}

/// The edges of a region over blocks, without order and without repetition.
fn steps_signature(steps: &[Step], blocks: &[u32]) -> Vec<StepSignature> {
    let mut found: Vec<StepSignature> =
        steps.iter().map(|step| (step.action, shares(step, blocks))).collect();
    found.sort_unstable();
    found.dedup();
    found
}

/// The shares of an edge, blocks rising. A block in which nothing lands is left out.
fn shares(step: &Step, blocks: &[u32]) -> Vec<Share> {
    let mut parts: Vec<(u32, u64)> =
        step.landings.iter().map(|landing| (blocks[landing.target], landing.weight)).collect();
    parts.sort_unstable();
    parts.dedup_by(|part, kept| {
        let same = part.0 == kept.0;
        if same {
            kept.1 += part.1;
        }
        same
    });
    let reduced = |(block, weight): (u32, u64)| {
        let common = greatest_common(weight, step.denominator);
        (block, weight / common, step.denominator / common)
    };
    parts.into_iter().map(reduced).collect()
}

/// The greatest common divisor.
fn greatest_common(first: u64, second: u64) -> u64 {
    match second {
        0 => first,
        _ => greatest_common(second, first % second),
    }
}

/// All rounds from 0 to the first that equals the next.
pub fn history(graph: &Graph) -> Vec<Blocks> {
    let mut all = vec![by_label(&graph.labels)];
    loop {
        let next = next_round(graph, &all[all.len() - 1]);
        if all.last() == Some(&next) {
            return all;
        }
        all.push(next);
    }
}

/// Whether regions of equal block have equal labels and meet both conditions over these blocks.
pub fn is_bisimulation(graph: &Graph, blocks: &[u32]) -> bool {
    let labelled = numbered(blocks.iter().zip(&graph.labels));
    labelled == blocks && next_round(graph, blocks) == blocks
}
