// The answer lines: what a call gives, as one line of text, and what it leaves in the lent tables.

use crate::partition::{self as blocks, Lists, Question};
use crate::table::{Edge, Model, Refusal};

/// What reading a table gives.
pub type Answer = Result<Model, Refusal>;

/// The digest of a sequence of numbers.
struct Digest {
    value: u64,
}

impl Digest {
    fn new() -> Digest {
        Digest { value: 0 }
    }

    fn add(&mut self, number: u64) {
        self.value = (self.value * 257 + number + 1) % 4_294_967_291;
    }

    fn count(&mut self, count: usize) {
        self.add(count as u64);
    }
}

/// The answer without the digest of the lists. Edges from number `room` on stay out of the digest.
pub fn line(answer: &Answer, room: usize) -> String {
    match answer {
        Err(refusal) => format!("refused {} place {}", refusal.number, refusal.place),
        Ok(model) => format!(
            "model {} {} {} atoms {} edges {} digest {}",
            model.clocks,
            model.labels.len(),
            model.initial,
            model.invariants.len(),
            model.edges.len(),
            model_digest(model, room)
        ),
    }
}

fn model_digest(model: &Model, room: usize) -> u64 {
    let mut digest = Digest::new();
    for &label in &model.labels {
        digest.add(label.into());
    }
    for atom in &model.invariants {
        for number in [atom.location, atom.clock, atom.comparison, atom.constant] {
            digest.add(number.into());
        }
    }
    for edge in model.edges.iter().take(room) {
        for number in edge_numbers(edge) {
            digest.add(number);
        }
        digest.count(edge.guards.len());
        for guard in &edge.guards {
            for number in [guard.clock, guard.comparison, guard.constant] {
                digest.add(number.into());
            }
        }
        digest.count(edge.branches.len());
        for branch in &edge.branches {
            digest.add(branch.weight.into());
            digest.add(branch.target.into());
            digest.add(branch.mask.into());
        }
    }
    digest.value
}

/// What the lists say of an edge: place, source, action, denominator.
fn edge_numbers(edge: &Edge) -> [u64; 4] {
    [edge.place as u64, edge.source.into(), edge.action.into(), edge.denominator.into()]
}

/// The digest of the lists of `room` numbers each after the call: that of the places alone where the table is
/// refused, and all four where it is accepted.
pub fn lent_digest(answer: &Answer, room: usize, fill: u8) -> u64 {
    let mut digest = Digest::new();
    match answer {
        Err(_) => add_places(&mut digest, &[], room, fill),
        Ok(model) => {
            add_places(&mut digest, &model.edges, room, fill);
            for list in 1..4 {
                add_parts(&mut digest, &model.edges, room, list);
            }
        }
    }
    digest.value
}

/// Adds the list of places: the edges take the first numbers, and those after them stay as they were filled.
fn add_places(digest: &mut Digest, edges: &[Edge], room: usize, fill: u8) {
    for number in 0..room {
        let before = u64::from(fill) + 1024 * number as u64;
        digest.add(edges.get(number).map_or(before, |edge| edge_numbers(edge)[0]));
    }
}

/// Adds one of the other lists: that number of each edge, and 0 after the last edge.
fn add_parts(digest: &mut Digest, edges: &[Edge], room: usize, list: usize) {
    for number in 0..room {
        digest.add(edges.get(number).map_or(0, |edge| edge_numbers(edge)[list]));
    }
}

/// The answer of the graph call, with the digest of all lent bytes after the call.
pub fn graph_line(answer: &Result<usize, Refusal>, lent: &[u8]) -> String {
    entries_line("graph", answer, lent)
}

/// The answer of the state call, with the digest of all lent bytes after the call.
pub fn state_line(answer: &Result<usize, Refusal>, lent: &[u8]) -> String {
    entries_line("state", answer, lent)
}

/// The answer of a call whose result is one number, named by a word.
fn entries_line(word: &str, answer: &Result<usize, Refusal>, lent: &[u8]) -> String {
    let numbers = answer.map(|number| vec![number as u64]);
    format!("{} entries {}", result(word, &numbers), bytes_digest(lent))
}

/// The answer of one of the three calls on blocks, with the digest of all lent bytes after the call and, but
/// for the judging call, that of the two block lists.
pub fn blocks_line(question: &Question, answer: &blocks::Answer, lent: &[u8], lists: &Lists) -> String {
    let (word, has_lists) = match question {
        Question::Partition => ("blocks", true),
        Question::Pair(_) => ("pair", true),
        Question::Judge(_) => ("judged", false),
    };
    let line = format!("{} entries {}", result(word, answer), bytes_digest(lent));
    if has_lists {
        format!("{line} lists {}", lists_digest(lists))
    } else {
        line
    }
}

/// The numbers of a result after its word, or the refusal.
fn result(word: &str, answer: &Result<Vec<u64>, Refusal>) -> String {
    match answer {
        Ok(numbers) => numbers.iter().fold(word.to_string(), |text, number| format!("{text} {number}")),
        Err(refusal) => format!("refused {} place {}", refusal.number, refusal.place),
    }
}

fn bytes_digest(bytes: &[u8]) -> u64 {
    let mut digest = Digest::new();
    for &byte in bytes {
        digest.add(byte.into());
    }
    digest.value
}

/// The digest of all numbers of the first list and then of the second, each modulo 2^32.
fn lists_digest(lists: &Lists) -> u64 {
    let mut digest = Digest::new();
    for &number in lists.iter().flatten() {
        digest.add(number % (1 << 32));
    }
    digest.value
}

/// The answer of the listing: its length in bytes and the digest of all of them.
pub fn listing_line(text: &[u8]) -> String {
    format!("listing {} digest {}", text.len(), bytes_digest(text))
}
