// The collection of stored cases for the test program: which there are for the reading of tables, how they
// are written, what they expect, and the checks that the collection makes on itself. The cases of the graph
// call are collected in graph_cases.rs and follow these, then come those of the state call, collected in
// place_cases.rs, those of the calls on blocks, collected in partition_cases.rs, pair_cases.rs and
// judge_cases.rs, and those of the listing, collected in listing_cases.rs.

use crate::answer::{self, Answer};
use crate::block_cases::{BlockCases, CALL_JUDGE, CALL_PAIR, CALL_PARTITION};
use crate::borders;
use crate::damage;
use crate::generate;
use crate::graph_cases;
use crate::judge_cases;
use crate::listing_cases;
use crate::meetings;
use crate::pair_cases;
use crate::partition_cases;
use crate::place_cases;
use crate::records::Records;
use crate::rng::Rng;
use crate::table::{self, Model, Refusal};
use crate::vectors::{self, Vectors, GRAPH};
use std::collections::HashSet;
use std::fs;

/// The number of the call that reads a table.
const CALL_READ_TABLE: u8 = 1;
/// The most edges that the lists have room for.
const LARGEST_ROOM: usize = 160;
/// The longest table of a case, in bytes.
const LONGEST: usize = 17_000;
/// What the written cases may take, in bytes.
const BUDGET: usize = 2_500_000;
/// What the cases of all calls may take, in bytes.
const WHOLE_BUDGET: usize = 5_000_000;
/// The fewest cases.
const FEWEST: usize = 2_500;
/// The file of vectors that is about exploring. Reading accepts all its tables, and the cases of the graph call
/// have them.
const EXPLORING: &str = "graph.jsonl";

pub struct Cases {
    /// The source of chance of the group at hand.
    pub rng: Rng,
    /// The tables added so far; a table comes twice only to be read with another room.
    seen: HashSet<Vec<u8>>,
    count: usize,
    input: Vec<u8>,
    output: String,
    /// How often each refusal was given; acceptance stands at 0.
    tally: [usize; 14],
}

impl Cases {
    fn new() -> Cases {
        Cases {
            rng: Rng::for_group(0),
            seen: HashSet::new(),
            count: 0,
            input: Vec::new(),
            output: String::new(),
            tally: [0; 14],
        }
    }

    /// Starts a group of cases, with its own source of chance.
    pub fn begin_group(&mut self, group: u64) {
        self.rng = Rng::for_group(group);
    }

    /// Adds a table whose answer is not foretold, with some room for edges, unless it is there already.
    pub fn add(&mut self, table: &[u8]) {
        if self.seen.contains(table) {
            return;
        }
        let answer = table::read(table);
        let edges = match &answer {
            Ok(model) => model.edges.len(),
            Err(_) => self.rng.below(8),
        };
        let room = self.some_room(edges);
        self.put(table, answer, room);
    }

    /// Adds a table that must be refused so.
    pub fn refused(&mut self, table: &[u8], number: u32, place: usize) {
        self.foretold(table, Some(Refusal { number, place }));
    }

    /// Adds a table that must be refused so, or accepted.
    pub fn foretold(&mut self, table: &[u8], refusal: Option<Refusal>) {
        let found = table::read(table).err();
        assert_eq!(found, refusal, "the table {} has another answer than foretold", in_hex(table));
        self.add(table);
    }

    /// Adds the table of a valid model, which the reader must give back as it was.
    pub fn accepted(&mut self, model: &Model) {
        let room = self.some_room(model.edges.len());
        self.accepted_with_room(model, room);
    }

    /// Adds the table of a valid model with this room for edges.
    pub fn accepted_with_room(&mut self, model: &Model, room: usize) {
        let table = Records::of(model).bytes();
        let answer = table::read(&table);
        assert_eq!(answer.as_ref(), Ok(model), "the table {} is not read as written", in_hex(&table));
        self.put(&table, answer, room);
    }

    /// A room for edges: mostly 128, else one of the borders, at times any.
    fn some_room(&mut self, edges: usize) -> usize {
        match self.rng.below(20) {
            0..=9 => 128,
            10 => 0,
            11 => 1,
            12 | 13 => edges,
            14 | 15 => edges.saturating_sub(1),
            16 | 17 => edges + 1,
            18 => LARGEST_ROOM,
            _ => self.rng.between(0, LARGEST_ROOM),
        }
    }

    fn put(&mut self, table: &[u8], answer: Answer, room: usize) {
        assert!(table.len() <= LONGEST, "a table of {} bytes is too long for a case", table.len());
        assert!(room <= LARGEST_ROOM, "a room of {room} is too large for a case");
        let fill = if self.rng.chance(1, 4) { self.rng.pick(&[0, 1, 165, 255]) } else { self.rng.byte() };
        self.seen.insert(table.to_vec());
        let mut head = [0; 16];
        head[0] = CALL_READ_TABLE;
        head[1] = fill;
        head[2..4].copy_from_slice(&(room as u16).to_le_bytes());
        head[4..8].copy_from_slice(&(table.len() as u32).to_le_bytes());
        self.input.extend_from_slice(&head);
        self.input.extend_from_slice(table);
        let lent = answer::lent_digest(&answer, room, fill);
        self.output.push_str(&format!("{} lent {lent}\n", answer::line(&answer, room)));
        self.tally[answer.map_or_else(|refusal| refusal.number as usize, |_| 0)] += 1;
        self.count += 1;
    }

    /// The collection must be large and varied enough, and not too large.
    fn check(&self) {
        assert!(self.count >= FEWEST, "only {} cases", self.count);
        assert!(self.input.len() + 4 < BUDGET, "{} bytes of cases", self.input.len() + 4);
        assert!(self.tally[0] >= 400, "only {} accepted tables", self.tally[0]);
        assert!(self.tally[1] >= 4, "refusal 1 occurs {} times", self.tally[1]);
        for (number, &times) in self.tally.iter().enumerate().skip(2) {
            assert!(times >= 20, "refusal {number} occurs {times} times");
        }
    }

    fn summary(&self) -> String {
        let mut text =
            format!("cases {}, bytes {}, accepted {}", self.count, self.input.len() + 4, self.tally[0]);
        for (number, times) in self.tally.iter().enumerate().skip(1) {
            text.push_str(&format!(", refusal {number}: {times}"));
        }
        text
    }
}

pub fn in_hex(table: &[u8]) -> String {
    table.iter().map(|byte| format!("{byte:02x}")).collect()
}

/// A call on blocks: its number, the maker of its cases, and their summary.
type OnBlocks = (u8, fn(&Vectors) -> Result<BlockCases, String>, fn(&BlockCases) -> String);

const ON_BLOCKS: [OnBlocks; 3] = [
    (CALL_PARTITION, partition_cases::make, partition_cases::summary),
    (CALL_PAIR, pair_cases::make, pair_cases::summary),
    (CALL_JUDGE, judge_cases::make, judge_cases::summary),
];

/// The highest call whose cases can be written.
pub const HIGHEST_CALL: u8 = listing_cases::CALL_LISTING;

/// The cases of several calls, one call after the other, and their summaries.
struct Whole {
    count: usize,
    input: Vec<u8>,
    output: String,
    summaries: Vec<String>,
}

impl Whole {
    /// Takes the cases of a call.
    fn take(&mut self, count: usize, input: &[u8], output: &str, summary: String) {
        self.count += count;
        self.input.extend_from_slice(input);
        self.output.push_str(output);
        self.summaries.push(summary);
    }
}

/// Makes all cases of the reading of tables.
fn make(vectors: &Vectors) -> Cases {
    let mut cases = Cases::new();
    generate::add_cases(&mut cases);
    borders::add_cases(&mut cases);
    meetings::add_cases(&mut cases);
    damage::add_cases(&mut cases);
    add_vectors(&mut cases, vectors);
    cases.check();
    cases
}

/// Makes all cases up to a call. The tables of a folder, if one is given, join those of the listing.
fn make_all(vectors: &Vectors, highest_call: u8, tables: Option<&str>) -> Result<Whole, String> {
    let mut whole = Whole { count: 0, input: Vec::new(), output: String::new(), summaries: Vec::new() };
    let cases = make(vectors);
    whole.take(cases.count, &cases.input, &cases.output, cases.summary());
    if highest_call >= graph_cases::CALL_GRAPH {
        let graph = graph_cases::make(vectors)?;
        whole.take(graph.count, &graph.input, &graph.output, graph.summary());
    }
    if highest_call >= place_cases::CALL_PLACE {
        let place = place_cases::make(vectors)?;
        whole.take(place.count, &place.input, &place.output, place.summary());
    }
    for (call, make, summary) in ON_BLOCKS {
        if highest_call >= call {
            let blocks = make(vectors)?;
            whole.take(blocks.count, &blocks.input, &blocks.output, summary(&blocks));
        }
    }
    if highest_call >= listing_cases::CALL_LISTING {
        let listing = listing_cases::make(vectors, tables)?;
        whole.take(listing.count, &listing.input, &listing.output, listing.summary());
    }
    Ok(whole)
}

/// Makes all cases up to a call and writes them to the two files. Summaries go to standard error.
pub fn write(
    vectors_folder: &str,
    input_file: &str,
    output_file: &str,
    highest_call: u8,
    tables: Option<&str>,
) -> Result<(), String> {
    let whole = make_all(&vectors::load(vectors_folder)?, highest_call, tables)?;
    let input = [(whole.count as u32).to_le_bytes().to_vec(), whole.input].concat();
    assert!(input.len() < WHOLE_BUDGET, "{} bytes of cases in all", input.len());
    fs::write(input_file, input).map_err(|error| format!("{input_file}: {error}"))?;
    fs::write(output_file, &whole.output).map_err(|error| format!("{output_file}: {error}"))?;
    for summary in whole.summaries {
        eprintln!("{summary}");
    }
    Ok(())
}

/// Adds each distinct table of the outside vectors of the graph call, held to the vector's answer, but for the file
/// about exploring.
fn add_vectors(cases: &mut Cases, vectors: &Vectors) {
    cases.begin_group(9);
    for file in vectors.files.iter().filter(|file| file.name != EXPLORING) {
        for vector in file.of_call(GRAPH) {
            cases.foretold(&vector.table, vector.reading());
        }
    }
}
