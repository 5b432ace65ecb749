// The collection of cases of the listing: how they are written, what they expect, models by chance, and the
// checks that the collection makes on itself.

use crate::answer;
use crate::block_borders;
use crate::block_chance::drawn;
use crate::cases::in_hex;
use crate::explore::{self, MOST_REGIONS};
use crate::generate::{self, LARGE, LARGEST, MIDDLE, RICH, SMALL, TINY};
use crate::graph_cases::{count_of, written};
use crate::graph_models::by_chance;
use crate::listing::{self, ENTRIES_OF_PROGRAM};
use crate::listing_borders;
use crate::listing_check::{self, Findings, Halves};
use crate::listing_foot::{self, Totals};
use crate::listing_halves;
use crate::listing_models::{branching, coloured, halved, many_edges, renamed, wide};
use crate::listing_totals;
use crate::region::ENTRY;
use crate::rng::Rng;
use crate::table::{self, Model, Refusal};
use crate::vectors::{Vectors, LISTING};
use std::collections::HashSet;
use std::fs;
use std::path::PathBuf;

/// The number of the listing.
pub const CALL_LISTING: u8 = 7;
/// The longest table of a case, and the most bytes lent for entries.
const LONGEST_TABLE: usize = 17_000;
pub const MOST_LENT: usize = 37_000;
/// The bytes that the program lends.
pub const LENT_OF_PROGRAM: usize = ENTRIES_OF_PROGRAM * ENTRY;
/// What the cases made here may take: bytes of input, bytes of listings, regions explored.
const INPUT_BUDGET: usize = 700_000;
const TEXT_BUDGET: usize = 8_000_000;
const REGION_BUDGET: usize = 400_000;
/// The fewest cases.
const FEWEST: usize = 1_600;
/// Names of listings by the number of clocks, and by the digits of the last region's number.
const BY_CLOCKS: [&str; 5] = ["no clocks", "1 clock", "2 clocks", "3 clocks", "4 clocks"];
const BY_DIGITS: [&str; 4] = ["1 digit", "2 digits", "3 digits", "4 digits"];

pub struct ListingCases {
    /// The source of chance of the group at hand.
    pub rng: Rng,
    /// The tables added so far, with the bytes lent.
    seen: HashSet<(Vec<u8>, usize)>,
    pub count: usize,
    pub input: Vec<u8>,
    pub output: String,
    /// How often each refusal was given; listings stand at 0.
    tally: [usize; 16],
    /// Listings of 1,000 regions or more, and of 4,096.
    of_thousands: usize,
    of_most: usize,
    text: usize,
    explored: usize,
    findings: Findings,
}

impl ListingCases {
    fn new() -> ListingCases {
        ListingCases {
            rng: Rng::for_group(0),
            seen: HashSet::new(),
            count: 0,
            input: Vec::new(),
            output: String::new(),
            tally: [0; 16],
            of_thousands: 0,
            of_most: 0,
            text: 0,
            explored: 0,
            findings: Findings::default(),
        }
    }

    /// Starts a group of cases, with its own source of chance.
    pub fn begin_group(&mut self, group: u64) {
        self.rng = Rng::for_group(group);
    }

    /// Adds a table with so many bytes lent, unless it is there already.
    pub fn add(&mut self, table: &[u8], lent: usize) {
        if self.seen.insert((table.to_vec(), lent)) {
            self.put(table, lent);
        }
    }

    /// Adds a table for which this must be printed.
    pub fn foretold(&mut self, table: &[u8], lent: usize, text: &str) {
        let found = listing::printed(table, lent);
        let found = String::from_utf8_lossy(&found);
        assert_eq!(found, text, "the table {} is printed otherwise than foretold", in_hex(table));
        self.add(table, lent);
    }

    /// Adds a table that must be refused so.
    pub fn refused(&mut self, table: &[u8], lent: usize, number: u32, place: usize) {
        self.foretold(table, lent, &format!("refused {number} place {place}\n"));
    }

    /// Adds a model, with what the program lends, in whose listing these lines must stand, one after the other.
    pub fn with_lines(&mut self, model: &Model, lines: &str) {
        let table = written(model);
        let text = listing::listing(&table, LENT_OF_PROGRAM).expect("a listing");
        let found = text.contains(&format!("\n{lines}"));
        assert!(found, "{lines:?} does not stand in the listing of {}:\n{text}", in_hex(&table));
        self.add(&table, LENT_OF_PROGRAM);
    }

    /// Adds a model of N regions: a listing where so many bytes are enough, otherwise refusal 15.
    pub fn regions(&mut self, model: &Model, count: usize, lent: usize) {
        let table = written(model);
        if count > explore::limit_of(lent) {
            return self.refused(&table, lent, 15, 0);
        }
        let text = listing::listing(&table, lent).expect("a listing");
        assert!(text.starts_with(&format!("regions {count} blocks ")), "{count} regions are foretold");
        self.add(&table, lent);
    }

    fn put(&mut self, table: &[u8], lent: usize) {
        assert!(table.len() <= LONGEST_TABLE, "a table of {} bytes is too long for a case", table.len());
        assert!(lent <= MOST_LENT, "{lent} lent bytes are too many for a case");
        let fill = if self.rng.chance(1, 4) { self.rng.pick(&[0, 1, 165, 255]) } else { self.rng.byte() };
        let mut head = [0; 16];
        head[0] = CALL_LISTING;
        head[1] = fill;
        head[4..8].copy_from_slice(&(table.len() as u32).to_le_bytes());
        head[8..12].copy_from_slice(&(lent as u32).to_le_bytes());
        self.input.extend_from_slice(&head);
        self.input.extend_from_slice(table);
        let answer = listing::listing(table, lent);
        let text = answer.clone().unwrap_or_else(listing::refused);
        self.output.push_str(&answer::listing_line(text.as_bytes()));
        self.output.push('\n');
        self.note(table, lent, &answer, text.len());
    }

    /// Checks and counts a case.
    fn note(&mut self, table: &[u8], lent: usize, answer: &Result<String, Refusal>, length: usize) {
        self.count += 1;
        self.text += length;
        listing_foot::check_printed(table, lent);
        match answer {
            Ok(text) => {
                let before = self.findings.regions;
                listing_check::check(table, lent, text, &mut self.findings);
                let regions = self.findings.regions - before;
                self.tally[0] += 1;
                self.explored += regions;
                self.of_thousands += usize::from(regions >= 1_000);
                self.of_most += usize::from(regions == MOST_REGIONS);
            }
            Err(refusal) => {
                self.tally[refusal.number as usize] += 1;
                if refusal.number == 15 {
                    self.explored += explore::limit_of(lent);
                }
            }
        }
    }

    /// The collection must be large and varied enough, and not too large.
    fn check(&self) {
        assert!(self.count >= FEWEST, "only {} listing cases", self.count);
        assert!(self.input.len() < INPUT_BUDGET, "{} bytes of listing cases", self.input.len());
        assert!(self.text < TEXT_BUDGET, "{} bytes of listings", self.text);
        assert!(self.explored < REGION_BUDGET, "{} regions explored", self.explored);
        for (number, &times) in self.tally.iter().enumerate() {
            let fewest = match number {
                0 => 1_000,
                1 => 2,
                2..=13 => 4,
                _ => 30,
            };
            assert!(times >= fewest, "refusal {number} occurs {times} times among the listing cases");
        }
        for (name, times, fewest) in self.demands() {
            assert!(times >= fewest, "{name} in listings: only {times}");
        }
    }

    /// What must occur in the listings, and how often at least.
    fn demands(&self) -> Vec<(&'static str, usize, usize)> {
        let found = &self.findings;
        let mut demands = vec![
            ("listings of 1,000 regions or more", self.of_thousands, 25),
            ("listings of 4,096 regions", self.of_most, 3),
            ("region lines", found.regions, 50_000),
            ("block lines", found.blocks, 10_000),
            ("delay lines", found.delays, 5_000),
            ("step lines", found.steps, 15_000),
            ("blocks that time stays in", found.staying, 500),
            ("delay lines put in order", found.delays_in_order, 300),
            ("step lines put in order", found.steps_in_order, 2_000),
            ("step lines of 8 blocks", found.of_eight, 100),
            ("step lines with sums", found.summed, 2_000),
            ("repeated actions", found.repeated, 1_000),
            ("shares of 0", found.zeros, 100),
            ("shares of nearly a whole", found.nearly_whole, 50),
            ("blocks with other edges", found.otherwise, 200),
            ("listings with 15", found.fifteen, 40),
        ];
        demands.extend(demands_on_halves(&found.halves));
        demands.extend(demands_on_totals(&found.totals));
        demands.extend(BY_CLOCKS.iter().zip(found.clocks).map(|(&name, times)| (name, times, 80)));
        demands.extend(BY_DIGITS.iter().zip(found.digits).map(|(&name, times)| (name, times, 25)));
        demands
    }

    pub fn summary(&self) -> String {
        let mut text = format!("listing cases {}, bytes {}", self.count, self.input.len());
        text.push_str(&format!(", explored {}, listings {}", self.explored, self.tally[0]));
        text.push_str(&format!(", bytes listed {}", self.text));
        let found: Vec<String> =
            self.demands().iter().map(|(name, times, _)| format!("{name}: {times}")).collect();
        text.push_str(&format!(" ({})", found.join(", ")));
        for (number, times) in self.tally.iter().enumerate().skip(1) {
            text.push_str(&format!(", refusal {number}: {times}"));
        }
        text
    }
}

/// How often shares at exact halves and beside them must occur, on either side of a rule that tells even numbers from
/// odd ones.
fn demands_on_halves(halves: &Halves) -> [(&'static str, usize, usize); 10] {
    [
        ("halves gone down", halves.exact[0], 2_000),
        ("halves gone up", halves.exact[1], 2_000),
        ("halves of sums gone down", halves.together[0], 200),
        ("halves of sums gone up", halves.together[1], 200),
        ("shares hardly below a half after an even number", halves.hardly_below[0], 50),
        ("shares hardly below a half after an odd number", halves.hardly_below[1], 50),
        ("shares hardly above a half after an even number", halves.hardly_above[0], 50),
        ("shares hardly above a half after an odd number", halves.hardly_above[1], 50),
        ("halves that print 0", halves.zeros, 100),
        ("step lines of halves", halves.lines, 1_000),
    ]
}

/// How often what the totals are about must occur.
fn demands_on_totals(totals: &Totals) -> [(&'static str, usize, usize); 15] {
    [
        ("label lines", totals.all_lines(), 3_000),
        ("label lines of each label", totals.fewest_lines(), 3),
        ("listings of one label", totals.of_one, 400),
        ("listings of 64 labels", totals.of_most, 8),
        ("listings with labels put in order", totals.in_order, 300),
        ("listings with labels met falling", totals.falling, 50),
        ("listings whose first label is the largest", totals.first_is_last, 200),
        ("labels that no region bears", totals.left_out, 300),
        ("locations never reached of a label that is borne", totals.unreached, 300),
        ("labels of several locations", totals.of_locations, 500),
        ("labels of many blocks", totals.of_many_blocks, 150),
        ("labels of one block of many regions", totals.of_one_block, 250),
        ("labels of several blocks, fewer than regions", totals.between, 500),
        ("labels whose blocks are apart", totals.apart, 300),
        ("labels of 1,000 regions or more", totals.of_thousands, 20),
    ]
}

/// Makes all cases of the listing. The tables of a folder, if one is given, come last.
pub fn make(vectors: &Vectors, tables: Option<&str>) -> Result<ListingCases, String> {
    let mut cases = ListingCases::new();
    listing_borders::add_cases(&mut cases);
    listing_halves::add_cases(&mut cases);
    add_block_borders(&mut cases);
    add_by_chance(&mut cases);
    add_halved(&mut cases);
    add_many_edges(&mut cases);
    add_large_tables(&mut cases);
    add_damaged(&mut cases);
    listing_totals::add_cases(&mut cases);
    add_vectors(&mut cases, vectors)?;
    cases.check();
    if let Some(folder) = tables {
        add_tables(&mut cases, folder)?;
    }
    Ok(cases)
}

/// The models whose blocks are foretold.
fn add_block_borders(cases: &mut ListingCases) {
    cases.begin_group(95);
    for border in block_borders::all() {
        let count = border.subject.count();
        for lent in [LENT_OF_PROGRAM, count * ENTRY] {
            let text = listing::listing(&border.subject.table, lent).expect("a small model");
            let (blocks, rounds) = (border.subject.blocks(), border.subject.rounds());
            let first = format!("regions {count} blocks {blocks} rounds {rounds}\n");
            assert!(text.starts_with(&first), "{first:?} is foretold");
            cases.add(&border.subject.table, lent);
        }
    }
}

/// How many models by chance there are for each size of the graph, given by its fewest and most regions: plain
/// ones, which share many blocks, and coloured ones.
const SIZES: [(usize, usize, usize, usize); 8] = [
    (1, 2, 15, 25),
    (3, 12, 110, 70),
    (13, 40, 140, 90),
    (41, 120, 80, 90),
    (121, 500, 30, 60),
    (501, 999, 5, 14),
    (1_000, ENTRIES_OF_PROGRAM, 4, 10),
    (ENTRIES_OF_PROGRAM + 1, MOST_REGIONS, 2, 5),
];

/// Models by chance, so many of each size.
fn add_by_chance(cases: &mut ListingCases) {
    cases.begin_group(96);
    for (fewest, most, plain, any) in SIZES {
        for _ in 0..plain {
            let subject = drawn(&mut cases.rng, fewest, most).subject;
            let model = table::read(&subject.table).expect("the table of a model");
            let model = renamed(&mut cases.rng, model);
            let lent = some_lent(&mut cases.rng, subject.count());
            cases.regions(&model, subject.count(), lent);
        }
        for _ in 0..any {
            let (model, count) = coloured_of(&mut cases.rng, fewest, most);
            let lent = some_lent(&mut cases.rng, count);
            cases.regions(&model, count, lent);
        }
    }
}

/// A coloured model by chance with so many regions.
fn coloured_of(rng: &mut Rng, fewest: usize, most: usize) -> (Model, usize) {
    loop {
        let plain = rng.chance(1, 2);
        let model = if plain { by_chance(rng) } else { branching(rng) };
        let fits = |count: &usize| (fewest..=most).contains(count);
        if let Some(count) = count_of(&model).filter(fits) {
            let model = if plain { coloured(rng, model) } else { model };
            return (model, count);
        }
    }
}

/// Models by chance with weights at exact halves, so many of each size.
fn add_halved(cases: &mut ListingCases) {
    cases.begin_group(103);
    for (fewest, most, models) in [(3, 12, 25), (13, 40, 25), (41, 120, 15)] {
        for _ in 0..models {
            let (model, count) = coloured_of(&mut cases.rng, fewest, most);
            let model = halved(&mut cases.rng, model);
            let lent = some_lent(&mut cases.rng, count);
            cases.regions(&model, count, lent);
        }
    }
}

/// So many bytes for a model of N regions: mostly what the program lends, else what the model takes, a little
/// more or less, at times any number that is too small.
fn some_lent(rng: &mut Rng, count: usize) -> usize {
    let exact = count * ENTRY;
    let program = if count > ENTRIES_OF_PROGRAM { MOST_REGIONS * ENTRY } else { LENT_OF_PROGRAM };
    let lent = match rng.below(24) {
        0..=12 => program,
        13..=16 => exact,
        17 => exact + rng.between(1, ENTRY - 1),
        18 => exact + rng.between(ENTRY, 40 * ENTRY),
        19 => MOST_LENT,
        20 => LENT_OF_PROGRAM,
        21 => exact - ENTRY,
        22 => exact - 1,
        _ => rng.below(exact),
    };
    lent.min(MOST_LENT)
}

/// Models by chance with many edges at each location, and with edges to eight blocks.
fn add_many_edges(cases: &mut ListingCases) {
    cases.begin_group(97);
    for (clocks, locations, edges, models) in [
        (0, 1, 128, 3),
        (0, 8, 16, 6),
        (1, 2, 64, 4),
        (1, 6, 8, 10),
        (2, 3, 10, 10),
        (3, 1, 9, 6),
        (4, 1, 5, 4),
    ] {
        for _ in 0..models {
            let model = many_edges(&mut cases.rng, clocks, locations, edges);
            let count = count_of(&model).expect("small constants");
            let lent = some_lent(&mut cases.rng, count);
            cases.regions(&model, count, lent);
        }
    }
    for round in 0..30 {
        let model = wide(&mut cases.rng, round % 5);
        let count = count_of(&model).expect("no constants");
        let lent = some_lent(&mut cases.rng, count);
        cases.regions(&model, count, lent);
    }
}

/// Tables of many records, made without care for the graph.
fn add_large_tables(cases: &mut ListingCases) {
    cases.begin_group(98);
    for (shape, models) in [(TINY, 40), (SMALL, 70), (RICH, 30), (MIDDLE, 30), (LARGE, 5), (LARGEST, 1)] {
        for _ in 0..models {
            let model = generate::model(&mut cases.rng, &shape);
            let entries = cases.rng.pick(&[200, 600, ENTRIES_OF_PROGRAM]);
            cases.add(&written(&model), entries * ENTRY);
        }
    }
}

/// Small tables with one byte changed, or cut.
fn add_damaged(cases: &mut ListingCases) {
    cases.begin_group(99);
    for round in 0..200 {
        let mut table = written(&generate::model(&mut cases.rng, &SMALL));
        let position = cases.rng.below(table.len());
        match round % 8 {
            0 => table.truncate(position),
            1 => table.push(cases.rng.byte()),
            _ => table[position] = generate::any_byte(&mut cases.rng),
        }
        cases.add(&table, 300 * ENTRY);
    }
}

/// Adds each distinct line of the outside vectors of the listing, held to its text. If more bytes are lent than a
/// case may lend, there is still room for every region that a call may give.
fn add_vectors(cases: &mut ListingCases, vectors: &Vectors) -> Result<(), String> {
    cases.begin_group(100);
    for vector in vectors.of_call(LISTING)? {
        let (table, lent) = (&vector.table, vector.lent.min(MOST_LENT));
        let same = vector.prints(&listing::printed(table, lent));
        assert!(same, "the table {} is printed otherwise than foretold", in_hex(table));
        cases.add(table, lent);
    }
    Ok(())
}

/// The files of a folder, by name; nothing else that is there.
fn files_of(folder: &str) -> Result<Vec<PathBuf>, String> {
    let trouble = |error: std::io::Error| format!("{folder}: {error}");
    let mut files = Vec::new();
    for entry in fs::read_dir(folder).map_err(trouble)? {
        let entry = entry.map_err(trouble)?;
        if entry.file_type().map_err(trouble)?.is_file() {
            files.push(entry.path());
        }
    }
    files.sort();
    Ok(files)
}

/// Each file of a folder as a table, with what the program lends, also where it is there already.
fn add_tables(cases: &mut ListingCases, folder: &str) -> Result<(), String> {
    cases.begin_group(101);
    for file in files_of(folder)? {
        let table = fs::read(&file).map_err(|error| format!("{}: {error}", file.display()))?;
        if table.len() > LONGEST_TABLE {
            return Err(format!("{}: more than {LONGEST_TABLE} bytes", file.display()));
        }
        cases.put(&table, LENT_OF_PROGRAM);
    }
    Ok(())
}
