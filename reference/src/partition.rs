// The partition call, the pair call and the judging call, refusals 16 to 19, and what the calls leave in the
// two lent block lists.

use crate::explore;
use crate::net::Net;
use crate::refine;
use crate::rounds;
use crate::table::{self, Refusal};

/// What is asked of a table: its partition, whether two regions share a block, or whether a proposed partition
/// is a bisimulation. The numbers are any.
#[derive(Clone, PartialEq, Eq, Hash, Debug)]
pub enum Question {
    Partition,
    Pair([u64; 2]),
    Judge(Vec<u64>),
}

/// The result of one of the three calls: N, the count of blocks and the count of rounds; 1 or 0; or 1.
pub type Answer = Result<Vec<u64>, Refusal>;

/// The two block lists of a case. The judging call has none and leaves them alone.
pub type Lists = [Vec<u64>; 2];

/// Calls with a question. The lent bytes hold the entries afterwards, also after 16 to 19.
pub fn call(question: &Question, table: &[u8], lent: &mut [u8], [first, second]: &mut Lists) -> Answer {
    match question {
        Question::Partition => partition(table, lent, [first, second]).map(|numbers| numbers.to_vec()),
        Question::Pair(asked) => {
            pair(table, lent, [first, second], *asked).map(|shared| vec![u64::from(shared)])
        }
        Question::Judge(proposal) => judge(table, lent, proposal).map(|()| vec![1]),
    }
}

/// The partition call: N, the count of blocks and the count of rounds.
pub fn partition(table: &[u8], lent: &mut [u8], lists: [&mut [u64]; 2]) -> Result<[u64; 3], Refusal> {
    let net = explored(table, lent)?;
    refuse_short(&net, &lists)?;
    let rounds = refine::run(&net);
    write_blocks(&rounds.last, lists);
    let blocks = rounds::count_of(&rounds.last);
    Ok([net.count(), blocks, rounds.count].map(|number| number as u64))
}

/// The pair call: whether the two regions share a block.
pub fn pair(table: &[u8], lent: &mut [u8], lists: [&mut [u64]; 2], asked: [u64; 2]) -> Result<bool, Refusal> {
    let net = explored(table, lent)?;
    refuse_short(&net, &lists)?;
    if asked.iter().any(|&region| region >= net.count() as u64) {
        return refuse(19);
    }
    let blocks = refine::run(&net).last;
    write_blocks(&blocks, lists);
    let [first, second] = asked.map(|region| blocks[region as usize]);
    Ok(first == second)
}

/// The judging call: nothing but acceptance.
pub fn judge(table: &[u8], lent: &mut [u8], proposal: &[u64]) -> Result<(), Refusal> {
    let net = explored(table, lent)?;
    if proposal.len() != net.count() {
        return refuse(17);
    }
    if !refine::is_bisimulation(&net, &rounds::numbered(proposal.iter())) {
        return refuse(18);
    }
    Ok(())
}

/// All regions of a table with their links, or a refusal of 1 to 15. The lent bytes hold the entries.
fn explored(table: &[u8], lent: &mut [u8]) -> Result<Net, Refusal> {
    explore::net(&table::read(table)?, lent)
}

/// A refusal of 14 on has place 0.
fn refuse<T>(number: u32) -> Result<T, Refusal> {
    Err(Refusal { number, place: 0 })
}

/// Refusal 16 where one of the two lists is shorter than N.
fn refuse_short(net: &Net, lists: &[&mut [u64]; 2]) -> Result<(), Refusal> {
    if lists.iter().any(|list| list.len() < net.count()) {
        return refuse(16);
    }
    Ok(())
}

/// Puts the blocks into the first N numbers of both lists. The numbers after them stay.
fn write_blocks(blocks: &[u32], lists: [&mut [u64]; 2]) {
    for list in lists {
        for (number, &block) in list.iter_mut().zip(blocks) {
            *number = block.into();
        }
    }
}
