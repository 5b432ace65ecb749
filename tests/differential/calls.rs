//! One ask, put to the library and to the independent implementation on equal copies of everything that is lent.

use crate::lent::{bytes, numbers, Lent};
use crate::library::{self, Answer};
use reference::asks::{Ask, What};

/// All that one call is given in memory, with watched margins. What a call does not take is empty.
#[derive(Clone)]
pub struct Room {
    pub table: Lent<u8>,
    pub entries: Lent<u8>,
    pub first: Lent<u64>,
    pub second: Lent<u64>,
    pub proposal: Lent<u64>,
}

impl Room {
    /// The memory for an ask. The fill depends on the ask's number.
    pub fn of(ask: &Ask, number: u64) -> Room {
        let (first, second) = match ask.what {
            What::Reduce { first, second } | What::Pair { first, second, .. } => (first, second),
            _ => (0, 0),
        };
        let proposal = match &ask.what {
            What::Judge { proposal } => &proposal[..],
            _ => &[],
        };
        Room {
            table: bytes(number, 0, ask.table.len()).holding(&ask.table),
            entries: bytes(number, 1, ask.entries),
            first: numbers(number, 2, first),
            second: numbers(number, 3, second),
            proposal: numbers(number, 4, proposal.len()).holding(proposal),
        }
    }

    /// Which memory differs from the other copy, and where.
    pub fn difference(&self, other: &Room) -> Option<String> {
        let all = [
            ("table", self.table.difference(&other.table)),
            ("entries", self.entries.difference(&other.entries)),
            ("first list", self.first.difference(&other.first)),
            ("second list", self.second.difference(&other.second)),
            ("proposal", self.proposal.difference(&other.proposal)),
        ];
        let found = all.iter().find_map(|(name, place)| place.map(|place| (name, place)));
        found.map(|(name, place)| format!("a difference in the {name}, at {place} from the lent slice's begin"))
    }
}

/// What both answered, and the memory as our call left it.
pub struct Outcome {
    pub ours: Answer,
    pub reference: Answer,
    pub room: Room,
}

/// Puts the ask to both. The second value says what differs, if something does.
pub fn put(ask: &Ask, number: u64) -> (Outcome, Option<String>) {
    let mut room = Room::of(ask, number);
    let mut copy = room.clone();
    let ours = ask_library(&ask.what, &mut room);
    let reference = ask_reference(&ask.what, &mut copy);
    let difference = if ours == reference { room.difference(&copy) } else { Some(String::from("the answers differ")) };
    (Outcome { ours, reference, room }, difference)
}

fn ask_library(what: &What, room: &mut Room) -> Answer {
    let (table, entries) = (room.table.slice(), room.entries.slice_mut());
    let (first, second) = (room.first.slice_mut(), room.second.slice_mut());
    match *what {
        What::Graph => library::graph(table, entries),
        What::Place { location, values, denominator } => library::place(table, entries, location, values, denominator),
        What::Reduce { .. } => library::reduce(table, entries, first, second),
        What::Pair { r, s, .. } => library::pair(table, entries, first, second, r, s),
        What::Judge { .. } => library::judge(table, entries, room.proposal.slice()),
    }
}

fn ask_reference(what: &What, room: &mut Room) -> Answer {
    use reference::calls;
    let (table, entries) = (room.table.slice(), room.entries.slice_mut());
    let (first, second) = (room.first.slice_mut(), room.second.slice_mut());
    let answer = match *what {
        What::Graph => calls::graph(table, entries),
        What::Place { location, values, denominator } => calls::place(table, entries, location, values, denominator),
        What::Reduce { .. } => calls::reduce(table, entries, first, second),
        What::Pair { r, s, .. } => calls::pair(table, entries, first, second, r, s),
        What::Judge { .. } => calls::judge(table, entries, room.proposal.slice()),
    };
    let calls::Answer { refusal, place, value, blocks, rounds } = answer;
    Answer { refusal, place, value, blocks, rounds }
}
