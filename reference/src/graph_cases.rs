// The collection of cases of the graph call: which there are, how they are written, what they expect, and
// the checks that the collection makes on itself.

use crate::answer;
use crate::cases::in_hex;
use crate::explore::{self, Exploration, MOST_REGIONS};
use crate::generate::{self, LARGE, MIDDLE, SMALL};
use crate::graph_borders;
use crate::graph_models::{by_chance, by_chance_of};
use crate::records::{with_places, Records};
use crate::region::ENTRY;
use crate::rng::Rng;
use crate::table::{self, Model, Refusal};
use crate::vectors::{Vectors, GRAPH};
use std::collections::HashSet;

/// The number of the graph call.
pub const CALL_GRAPH: u8 = 2;
/// The longest table of a case, and the most bytes lent for entries.
const LONGEST_TABLE: usize = 17_000;
const MOST_LENT: usize = 37_000;
/// What all cases together may take: bytes of input, bytes lent, regions explored.
const INPUT_BUDGET: usize = 1_200_000;
const LENT_BUDGET: usize = 12_000_000;
const REGION_BUDGET: usize = 600_000;
/// The fewest cases.
const FEWEST: usize = 1_400;

/// The answer of the graph call.
pub type Answer = Result<usize, Refusal>;

pub struct GraphCases {
    /// The source of chance of the group at hand.
    pub rng: Rng,
    /// The tables added so far, with the bytes lent.
    seen: HashSet<(Vec<u8>, usize)>,
    pub count: usize,
    pub input: Vec<u8>,
    pub output: String,
    /// How often each refusal was given; acceptance stands at 0.
    tally: [usize; 16],
    /// Graphs given in full with more than 20 regions, with more than 500, with 4,096.
    above_20: usize,
    above_500: usize,
    of_most: usize,
    lent: usize,
    explored: usize,
}

impl GraphCases {
    fn new() -> GraphCases {
        GraphCases {
            rng: Rng::for_group(0),
            seen: HashSet::new(),
            count: 0,
            input: Vec::new(),
            output: String::new(),
            tally: [0; 16],
            above_20: 0,
            above_500: 0,
            of_most: 0,
            lent: 0,
            explored: 0,
        }
    }

    /// Starts a group of cases, with its own source of chance.
    pub fn begin_group(&mut self, group: u64) {
        self.rng = Rng::for_group(group);
    }

    /// Adds a table with so many bytes lent, unless it is there already.
    pub fn add(&mut self, table: &[u8], lent: usize) {
        if !self.seen.insert((table.to_vec(), lent)) {
            return;
        }
        assert!(table.len() <= LONGEST_TABLE, "a table of {} bytes is too long for a case", table.len());
        assert!(lent <= MOST_LENT, "{lent} lent bytes are too many for a case");
        let fill = if self.rng.chance(1, 4) { self.rng.pick(&[0, 1, 165, 255]) } else { self.rng.byte() };
        let mut head = [0; 16];
        head[0] = CALL_GRAPH;
        head[1] = fill;
        head[4..8].copy_from_slice(&(table.len() as u32).to_le_bytes());
        head[8..12].copy_from_slice(&(lent as u32).to_le_bytes());
        self.input.extend_from_slice(&head);
        self.input.extend_from_slice(table);
        let mut entries: Vec<u8> = (0..lent).map(|index| (usize::from(fill) + 7 * index) as u8).collect();
        let answer = explore::graph(table, &mut entries);
        self.output.push_str(&answer::graph_line(&answer, &entries));
        self.output.push('\n');
        self.note(answer, lent);
    }

    /// Counts a case.
    fn note(&mut self, answer: Answer, lent: usize) {
        self.count += 1;
        self.lent += lent;
        match answer {
            Ok(count) => {
                self.tally[0] += 1;
                self.above_20 += usize::from(count > 20);
                self.above_500 += usize::from(count > 500);
                self.of_most += usize::from(count == MOST_REGIONS);
                self.explored += count;
            }
            Err(refusal) => {
                self.tally[refusal.number as usize] += 1;
                if refusal.number == 15 {
                    self.explored += explore::limit_of(lent);
                }
            }
        }
    }

    /// Adds a table with so many bytes lent that must have this answer.
    pub fn foretold(&mut self, table: &[u8], lent: usize, answer: Answer) {
        let found = explore::graph(table, &mut vec![0; lent]);
        assert_eq!(found, answer, "the table {} has another answer than foretold", in_hex(table));
        self.add(table, lent);
    }

    /// Adds a model of N regions with so many bytes lent: N where they are enough, otherwise refusal 15.
    pub fn regions(&mut self, model: &Model, count: usize, lent: usize) {
        let fits = count <= MOST_REGIONS && count * ENTRY <= lent;
        let answer = if fits { Ok(count) } else { Err(Refusal { number: 15, place: 0 }) };
        self.foretold(&written(model), lent, answer);
    }

    /// The collection must be large and varied enough, and not too large.
    fn check(&self) {
        assert!(self.count >= FEWEST, "only {} graph cases", self.count);
        assert!(self.input.len() < INPUT_BUDGET, "{} bytes of graph cases", self.input.len());
        assert!(self.lent < LENT_BUDGET, "{} bytes lent", self.lent);
        assert!(self.explored < REGION_BUDGET, "{} regions explored", self.explored);
        assert!(self.above_20 >= 300, "only {} graphs with more than 20 regions", self.above_20);
        assert!(self.above_500 >= 40, "only {} graphs with more than 500 regions", self.above_500);
        assert!(self.of_most >= 4, "only {} graphs with 4,096 regions", self.of_most);
        for (number, &times) in self.tally.iter().enumerate().skip(1) {
            let fewest = if number < 14 { 1 } else { 40 };
            assert!(times >= fewest, "refusal {number} occurs {times} times among the graph cases");
        }
    }

    pub fn summary(&self) -> String {
        let mut text = format!("graph cases {}, bytes {}", self.count, self.input.len());
        text.push_str(&format!(", lent {}, explored {}, graphs {}", self.lent, self.explored, self.tally[0]));
        text.push_str(&format!(" (above 20: {}, above 500: {}", self.above_20, self.above_500));
        text.push_str(&format!(", of 4096: {})", self.of_most));
        for (number, times) in self.tally.iter().enumerate().skip(1) {
            text.push_str(&format!(", refusal {number}: {times}"));
        }
        text
    }
}

/// The table of a model, which the reader must give back as it was.
pub fn written(model: &Model) -> Vec<u8> {
    let table = Records::of(model).bytes();
    assert_eq!(
        table::read(&table).as_ref(),
        Ok(model),
        "the table {} is not read as written",
        in_hex(&table)
    );
    table
}

/// N if it is at most 4,096; none if it is more or region 0 breaks its invariant.
pub fn count_of(model: &Model) -> Option<usize> {
    match explore::explore(model, MOST_REGIONS) {
        Exploration::Whole(net) => Some(net.count()),
        Exploration::Cut(_) | Exploration::NoStart => None,
    }
}

/// Makes all cases of the graph call.
pub fn make(vectors: &Vectors) -> Result<GraphCases, String> {
    let mut cases = GraphCases::new();
    graph_borders::add_cases(&mut cases);
    add_by_chance(&mut cases);
    add_without_fractions(&mut cases);
    add_large_tables(&mut cases);
    add_vectors(&mut cases, vectors)?;
    cases.check();
    Ok(cases)
}

/// How many models by chance there are for each size of the graph, given by its greatest number of regions.
const SIZES: [(usize, usize); 6] =
    [(2, 25), (20, 110), (100, 200), (500, 150), (2_000, 75), (MOST_REGIONS, 10)];
/// How many of them have more regions than any call allows.
const TOO_LARGE: usize = 8;

/// Models by chance, so many of each size.
fn add_by_chance(cases: &mut GraphCases) {
    cases.begin_group(31);
    let mut wanted = SIZES.map(|(_, models)| models);
    let mut too_large = TOO_LARGE;
    while too_large > 0 || wanted.iter().any(|&models| models > 0) {
        let model = by_chance(&mut cases.rng);
        match count_of(&model) {
            None if too_large > 0 => {
                too_large -= 1;
                let lent = cases.rng.pick(&[MOST_REGIONS * ENTRY, MOST_LENT]);
                cases.add(&written(&model), lent);
            }
            None => {}
            Some(count) => {
                let size = SIZES.iter().position(|&(greatest, _)| count <= greatest);
                let size = size.expect("4,096 is the greatest size");
                if wanted[size] > 0 {
                    wanted[size] -= 1;
                    let lent = some_lent(&mut cases.rng, count);
                    cases.regions(&model, count, lent);
                }
            }
        }
    }
}

/// So many bytes for a model of N regions: mostly what it takes, else a little more or less, at times any
/// number that is too small.
pub fn some_lent(rng: &mut Rng, count: usize) -> usize {
    let exact = count * ENTRY;
    let lent = match rng.below(20) {
        0..=9 => exact,
        10 | 11 => exact + rng.between(1, ENTRY - 1),
        12 | 13 => exact + rng.between(ENTRY, 40 * ENTRY),
        14 | 15 => exact - ENTRY,
        16 | 17 => exact - 1,
        _ => rng.below(exact),
    };
    lent.min(MOST_LENT)
}

/// Models by chance without clocks, and with M = 0: a clock at 0 goes over at the first delay.
fn add_without_fractions(cases: &mut GraphCases) {
    cases.begin_group(32);
    for round in 0..60 {
        let clocks = if round < 20 { 0 } else { cases.rng.between(1, 4) as u8 };
        let locations = if round % 4 == 0 { 64 } else { cases.rng.between(1, 12) as u8 };
        let mut model = by_chance_of(&mut cases.rng, clocks, 0, locations);
        model.edges.truncate(table::MOST_EDGES);
        if round % 5 == 0 {
            // A chain through all locations, so that all of them are reached where nothing forbids it.
            model.invariants.clear();
            for (number, edge) in model.edges.iter_mut().take(locations.into()).enumerate() {
                edge.source = number as u8;
                edge.guards.clear();
                edge.branches[0].target = (number as u8 + 1) % locations;
            }
        }
        let model = with_places(model);
        if let Some(count) = count_of(&model) {
            let lent = some_lent(&mut cases.rng, count);
            cases.regions(&model, count, lent);
        }
    }
}

/// Tables of many records, made without care for the graph.
fn add_large_tables(cases: &mut GraphCases) {
    cases.begin_group(33);
    for (shape, models) in [(SMALL, 30), (MIDDLE, 20), (LARGE, 8)] {
        for _ in 0..models {
            let model = generate::model(&mut cases.rng, &shape);
            let lent = cases.rng.between(0, 600 * ENTRY);
            cases.add(&written(&model), lent);
        }
    }
}

/// Adds each distinct line of the outside vectors of the graph call whose table gets past the reader, with the
/// bytes lent there, held to the vector's answer. If more bytes are lent than a case may lend, there is still
/// room for every region that a call may give.
fn add_vectors(cases: &mut GraphCases, vectors: &Vectors) -> Result<(), String> {
    cases.begin_group(34);
    for vector in vectors.of_call(GRAPH)? {
        if vector.reading().is_none() {
            cases.foretold(&vector.table, vector.lent.min(MOST_LENT), vector.number());
        }
    }
    Ok(())
}
