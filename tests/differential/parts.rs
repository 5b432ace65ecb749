//! What a partition call leads to: the listing, part by part, or the line of a refusal.

use crate::calls::Room;
use crate::lent::{bytes, Lent};
use crate::library::{self, Answer, PART_BYTES};

/// Holds what follows a partition call to the independent implementation. What that call left must then be as it was. The answer is how
/// many parts there were.
pub fn hold(room: &Room, reduced: Answer, number: u64) -> Result<u64, String> {
    let buffer = &mut bytes(number, 5, PART_BYTES);
    let before = room.clone();
    let parts = match reduced.refusal {
        0 => hold_parts(room, reduced, number, buffer),
        1..=15 => hold_refusal(room, reduced, buffer).map(|()| 0),
        _ => Ok(0),
    };
    match room.difference(&before) {
        Some(difference) => Err(format!("after calls for parts there is {difference}")),
        None => parts,
    }
}

/// Every part of the listing, and numbers past the last one. For some parts shorter buffers are lent too.
fn hold_parts(room: &Room, reduced: Answer, number: u64, buffer: &mut Lent<u8>) -> Result<u64, String> {
    let (table, entries) = (room.table.slice(), room.entries.slice());
    let list = if number % 2 == 0 { room.first.slice() } else { room.second.slice() };
    let call = |counts: Answer, part: u64, lent: &mut [u8]| library::part(table, entries, list, counts, part, lent);
    let listing = reference::calls::listing(table, entries.len());
    let parts = cut(&listing);
    for (part, expected) in (0..).zip(&parts) {
        let name = format!("part {part}");
        if (number + part) % 4 == 0 {
            hold_short(&name, expected, buffer, |lent| call(reduced, part, lent))?;
        }
        hold_text(&name, expected, PART_BYTES, buffer, |lent| call(reduced, part, lent))?;
    }
    let count = parts.len() as u64;
    for part in [count, count + 1, u64::MAX] {
        let answer = call(reduced, part, buffer.slice_mut());
        check(answer, Answer::default(), &[], buffer, &format!("part {part}, past the last one"))?;
    }
    for counts in impossible(reduced, list.len()) {
        for part in [0, counts.value + counts.blocks + 1] {
            let answer = call(counts, part, buffer.slice_mut());
            check(answer, Answer::default(), &[], buffer, &format!("part {part} with the counts of {counts:?}"))?;
        }
    }
    Ok(count)
}

/// Counts that cannot be those of what is lent: too many regions, more than the list holds, no block, more blocks than regions. Neither a
/// first line nor totals may come of them.
fn impossible(reduced: Answer, list: usize) -> [Answer; 4] {
    [
        Answer { value: 4097, ..reduced },
        Answer { value: list as u64 + 1, ..reduced },
        Answer { blocks: 0, ..reduced },
        Answer { blocks: reduced.value + 1, ..reduced },
    ]
}

/// The line of a refusal; and where reading refuses, that a part is refused alike.
fn hold_refusal(room: &Room, reduced: Answer, buffer: &mut Lent<u8>) -> Result<(), String> {
    let Answer { refusal, place, .. } = reduced;
    let line = reference::calls::refusal_line(refusal, place);
    let call = |lent: &mut [u8]| library::refusal_line(refusal, place, lent);
    hold_short("the refusal's line", &line, buffer, call)?;
    hold_text("the refusal's line", &line, PART_BYTES, buffer, call)?;
    if refusal <= 13 {
        let counts = Answer { value: 1, blocks: 1, ..Answer::default() };
        for part in [0, counts.value + counts.blocks + 1] {
            let answer = library::part(room.table.slice(), room.entries.slice(), &[0], counts, part, buffer.slice_mut());
            check(answer, reduced, &[], buffer, &format!("part {part} of a refused table"))?;
        }
    }
    Ok(())
}

/// A listing cut into parts: its first line, the line of each region, the lines of each block, the totals.
fn cut(listing: &[u8]) -> Vec<&[u8]> {
    let goes_on = |part: &[u8], line: &[u8]| {
        let of_block = line.starts_with(b"delay ") || line.starts_with(b"step ");
        let of_totals = line.starts_with(b"label ") || line.starts_with(b"all ");
        of_block || of_totals && part.starts_with(b"label ")
    };
    let mut parts = Vec::new();
    let (mut start, mut end) = (0, 0);
    for line in listing.split_inclusive(|&byte| byte == b'\n') {
        if end > start && !goes_on(&listing[start..end], line) {
            parts.push(&listing[start..end]);
            start = end;
        }
        end += line.len();
    }
    parts.push(&listing[start..end]);
    parts
}

/// Buffers that are too short, by all and by one byte, and one that is just long enough.
fn hold_short(name: &str, text: &[u8], buffer: &mut Lent<u8>, call: impl Fn(&mut [u8]) -> Answer) -> Result<(), String> {
    for length in [0, text.len() - 1] {
        let answer = call(&mut buffer.slice_mut()[..length]);
        let wanted = Answer { place: text.len() as u64, ..Answer::default() };
        check(answer, wanted, &[], buffer, &format!("{name}, {length} bytes lent"))?;
    }
    hold_text(name, text, text.len(), buffer, call)
}

/// A buffer of this length that is not too short.
fn hold_text(name: &str, text: &[u8], length: usize, buffer: &mut Lent<u8>, call: impl Fn(&mut [u8]) -> Answer) -> Result<(), String> {
    let answer = call(&mut buffer.slice_mut()[..length]);
    let wanted = Answer { value: text.len() as u64, ..Answer::default() };
    check(answer, wanted, text, buffer, &format!("{name}, {length} bytes lent"))
}

/// The answer must be the wanted one, and the written bytes all that changed.
fn check(answer: Answer, wanted: Answer, written: &[u8], buffer: &mut Lent<u8>, what: &str) -> Result<(), String> {
    if answer != wanted {
        return Err(format!("{what}: the answer is {answer:?}, not {wanted:?}"));
    }
    let front = String::from_utf8_lossy(&buffer.slice()[..written.len()]).into_owned();
    if !buffer.took_only(written) {
        let text = String::from_utf8_lossy(written);
        return Err(format!("{what}: the buffer has {front:?} at its front, not {text:?}, or changed elsewhere"));
    }
    Ok(())
}
