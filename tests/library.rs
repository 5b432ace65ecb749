//! The calls of `include/terkwabu.h` for the Rust programs of this repository that link the static library.
//!
//! A slice goes over as a pointer and a length. The pointer of a Rust slice is aligned, valid and not null, that of an empty one too,
//! and Rust lends nothing twice: what the header asks of its slices holds for all that these functions can be given.

/// A buffer of so many bytes is enough for every part of a listing, and for every refusal's line.
pub const PART_BYTES: usize = 65536;

/// The answer of each call. `refusal` is 0 where nothing is refused; what does not apply is 0.
#[repr(C)]
#[derive(Clone, Copy, PartialEq, Eq, Debug, Default)]
pub struct Answer {
    pub refusal: u64,
    pub place: u64,
    pub value: u64,
    pub blocks: u64,
    pub rounds: u64,
}

extern "C" {
    fn terkwabu_graph(table: *const u8, table_len: usize, entries: *mut u8, entries_len: usize) -> Answer;

    fn terkwabu_place(
        table: *const u8,
        table_len: usize,
        entries: *mut u8,
        entries_len: usize,
        location: u64,
        v0: u64,
        v1: u64,
        v2: u64,
        v3: u64,
        denominator: u64,
    ) -> Answer;

    fn terkwabu_reduce(
        table: *const u8,
        table_len: usize,
        entries: *mut u8,
        entries_len: usize,
        first: *mut u64,
        first_len: usize,
        second: *mut u64,
        second_len: usize,
    ) -> Answer;

    fn terkwabu_pair(
        table: *const u8,
        table_len: usize,
        entries: *mut u8,
        entries_len: usize,
        first: *mut u64,
        first_len: usize,
        second: *mut u64,
        second_len: usize,
        r: u64,
        s: u64,
    ) -> Answer;

    fn terkwabu_judge(
        table: *const u8,
        table_len: usize,
        entries: *mut u8,
        entries_len: usize,
        proposal: *const u64,
        proposal_len: usize,
    ) -> Answer;

    fn terkwabu_part(
        table: *const u8,
        table_len: usize,
        entries: *const u8,
        entries_len: usize,
        list: *const u64,
        list_len: usize,
        regions: u64,
        blocks: u64,
        rounds: u64,
        part: u64,
        buffer: *mut u8,
        buffer_len: usize,
    ) -> Answer;

    fn terkwabu_refusal_line(number: u64, place: u64, buffer: *mut u8, buffer_len: usize) -> Answer;
}

/// Explores the regions of a table into the entries.
pub fn graph(table: &[u8], entries: &mut [u8]) -> Answer {
    unsafe { terkwabu_graph(table.as_ptr(), table.len(), entries.as_mut_ptr(), entries.len()) }
}

/// Finds the region of a state.
pub fn place(table: &[u8], entries: &mut [u8], location: u64, values: [u64; 4], denominator: u64) -> Answer {
    let [v0, v1, v2, v3] = values;
    let (room, length) = (entries.as_mut_ptr(), entries.len());
    unsafe { terkwabu_place(table.as_ptr(), table.len(), room, length, location, v0, v1, v2, v3, denominator) }
}

/// Leaves the blocks of all regions in both lists.
pub fn reduce(table: &[u8], entries: &mut [u8], first: &mut [u64], second: &mut [u64]) -> Answer {
    unsafe {
        terkwabu_reduce(
            table.as_ptr(),
            table.len(),
            entries.as_mut_ptr(),
            entries.len(),
            first.as_mut_ptr(),
            first.len(),
            second.as_mut_ptr(),
            second.len(),
        )
    }
}

/// The same, and whether regions `r` and `s` share a block.
pub fn pair(table: &[u8], entries: &mut [u8], first: &mut [u64], second: &mut [u64], r: u64, s: u64) -> Answer {
    unsafe {
        terkwabu_pair(
            table.as_ptr(),
            table.len(),
            entries.as_mut_ptr(),
            entries.len(),
            first.as_mut_ptr(),
            first.len(),
            second.as_mut_ptr(),
            second.len(),
            r,
            s,
        )
    }
}

/// Judges a proposed partition.
pub fn judge(table: &[u8], entries: &mut [u8], proposal: &[u64]) -> Answer {
    let (room, length) = (entries.as_mut_ptr(), entries.len());
    unsafe { terkwabu_judge(table.as_ptr(), table.len(), room, length, proposal.as_ptr(), proposal.len()) }
}

/// Puts a part of the listing into the buffer. `reduced` is the answer of `reduce`, `list` either list that it left.
pub fn part(table: &[u8], entries: &[u8], list: &[u64], reduced: Answer, part: u64, buffer: &mut [u8]) -> Answer {
    unsafe {
        terkwabu_part(
            table.as_ptr(),
            table.len(),
            entries.as_ptr(),
            entries.len(),
            list.as_ptr(),
            list.len(),
            reduced.value,
            reduced.blocks,
            reduced.rounds,
            part,
            buffer.as_mut_ptr(),
            buffer.len(),
        )
    }
}

/// Puts the line of a refusal into the buffer.
pub fn refusal_line(number: u64, place: u64, buffer: &mut [u8]) -> Answer {
    unsafe { terkwabu_refusal_line(number, place, buffer.as_mut_ptr(), buffer.len()) }
}
