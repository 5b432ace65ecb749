// The calls as the proved library offers them to C: a table, lent slices and numbers go in, numbers come out,
// and the lent slices hold afterwards what the document says. Tests and benchmarks that link both libraries
// make each call on both sides with the same arguments.

use crate::explore;
use crate::listing;
use crate::partition;
use crate::place::{self, State};
use crate::table::Refusal;

/// What a call answers. A number that does not apply to the call is 0; after a refusal all numbers but the
/// refusal's own and its place are 0. Refusal 0 is none.
#[derive(Clone, Copy, PartialEq, Eq, Debug, Default)]
pub struct Answer {
    pub refusal: u64,
    pub place: u64,
    /// N; the region of a state; 1 where regions share a block or a proposal is accepted.
    pub value: u64,
    pub blocks: u64,
    pub rounds: u64,
}

impl Answer {
    /// The answer of a call that gives one number, or its refusal.
    fn of(outcome: Result<u64, Refusal>) -> Answer {
        match outcome {
            Ok(value) => Answer { value, ..Answer::default() },
            Err(refusal) => Answer::refused(refusal),
        }
    }

    fn refused(refusal: Refusal) -> Answer {
        Answer { refusal: refusal.number.into(), place: refusal.place as u64, ..Answer::default() }
    }
}

/// The graph call: the value is N.
pub fn graph(table: &[u8], entries: &mut [u8]) -> Answer {
    Answer::of(explore::graph(table, entries).map(|count| count as u64))
}

/// The state call: the value is the number of the state's region.
pub fn place(table: &[u8], entries: &mut [u8], location: u64, values: [u64; 4], denominator: u64) -> Answer {
    let state = State { location, values, denominator };
    Answer::of(place::place(table, entries, &state).map(|region| region as u64))
}

/// The partition call: the value is N, with the count of blocks and the count of rounds.
pub fn reduce(table: &[u8], entries: &mut [u8], first: &mut [u64], second: &mut [u64]) -> Answer {
    match partition::partition(table, entries, [first, second]) {
        Ok([value, blocks, rounds]) => Answer { value, blocks, rounds, ..Answer::default() },
        Err(refusal) => Answer::refused(refusal),
    }
}

/// The pair call: the value is 1 if regions r and s share a block and 0 if not.
pub fn pair(
    table: &[u8],
    entries: &mut [u8],
    first: &mut [u64],
    second: &mut [u64],
    r: u64,
    s: u64,
) -> Answer {
    Answer::of(partition::pair(table, entries, [first, second], [r, s]).map(u64::from))
}

/// The judging call: the value is 1.
pub fn judge(table: &[u8], entries: &mut [u8], proposal: &[u64]) -> Answer {
    Answer::of(partition::judge(table, entries, proposal).map(|()| 1))
}

/// All that is printed for a table with so many bytes lent for entries: the listing, or a refusal's line.
pub fn listing(table: &[u8], entries_len: usize) -> Vec<u8> {
    listing::printed(table, entries_len)
}

/// The same without the totals at the foot of a listing.
pub fn listing_without_totals(table: &[u8], entries_len: usize) -> Vec<u8> {
    listing::printed_without_totals(table, entries_len)
}

/// The line of a refusal.
pub fn refusal_line(number: u64, place: u64) -> Vec<u8> {
    listing::refusal_line(number, place).into_bytes()
}
