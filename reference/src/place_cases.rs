// The collection of cases of the state call: which there are, how they are written, what they expect, and the
// checks that the collection makes on itself.

use crate::answer;
use crate::cases::in_hex;
use crate::explore::{self, Exploration, MOST_REGIONS};
use crate::graph_cases::{written, Answer};
use crate::graph_models::{by_chance, by_chance_of};
use crate::place::{self, State};
use crate::place_borders;
use crate::place_states::{breaks_invariant, check_moves, neighbour, some_region, spoiled, state_in};
use crate::region::{Clocks, Region, ENTRY};
use crate::rng::Rng;
use crate::table::{Model, Refusal};
use crate::vectors::{Ask, Vectors, PLACE};
use std::collections::HashSet;

/// The number of the state call.
pub const CALL_PLACE: u8 = 3;
/// The longest table of a case, and the most bytes lent for entries.
const LONGEST_TABLE: usize = 17_000;
const MOST_LENT: usize = 37_000;
/// What all cases together may take: bytes of input, bytes lent, regions explored.
const INPUT_BUDGET: usize = 800_000;
const LENT_BUDGET: usize = 6_000_000;
const REGION_BUDGET: usize = 500_000;
/// The fewest cases.
const FEWEST: usize = 2_800;

pub struct PlaceCases {
    /// The source of chance of the group at hand.
    pub rng: Rng,
    /// The tables added so far, with the bytes lent and the state.
    seen: HashSet<(Vec<u8>, usize, State)>,
    pub count: usize,
    pub input: Vec<u8>,
    pub output: String,
    /// How often each refusal was given; acceptance stands at 0.
    tally: [usize; 22],
    lent: usize,
    explored: usize,
}

/// A model with its table and all its regions by number.
pub struct Ground {
    pub model: Model,
    pub table: Vec<u8>,
    pub clocks: Clocks,
    pub regions: Vec<Region>,
}

impl Ground {
    /// The model with its regions, if there are at most 4,096 and region 0 is one.
    pub fn of(model: Model) -> Option<Ground> {
        match explore::explore(&model, MOST_REGIONS) {
            Exploration::Whole(net) => {
                let (table, clocks) = (written(&model), Clocks::of(&model));
                Some(Ground { table, clocks, model, regions: net.regions })
            }
            Exploration::Cut(_) | Exploration::NoStart => None,
        }
    }

    /// How many bytes the entries take.
    pub fn exact(&self) -> usize {
        self.regions.len() * ENTRY
    }

    /// The number of a region, or 21 if it was not reached.
    pub fn number(&self, region: Region) -> Answer {
        self.regions.iter().position(|&reached| reached == region).ok_or(refusal(21))
    }

    /// A region of the graph by chance.
    pub fn some_reached(&self, rng: &mut Rng) -> Region {
        rng.pick(&self.regions)
    }
}

/// A refusal of 14 on.
pub fn refusal(number: u32) -> Refusal {
    Refusal { number, place: 0 }
}

impl PlaceCases {
    fn new() -> PlaceCases {
        PlaceCases {
            rng: Rng::for_group(0),
            seen: HashSet::new(),
            count: 0,
            input: Vec::new(),
            output: String::new(),
            tally: [0; 22],
            lent: 0,
            explored: 0,
        }
    }

    /// Starts a group of cases, with its own source of chance.
    pub fn begin_group(&mut self, group: u64) {
        self.rng = Rng::for_group(group);
    }

    /// Adds a table with so many bytes lent and a state, unless they are there already.
    pub fn add(&mut self, table: &[u8], lent: usize, state: State) {
        if !self.seen.insert((table.to_vec(), lent, state)) {
            return;
        }
        assert!(table.len() <= LONGEST_TABLE, "a table of {} bytes is too long for a case", table.len());
        assert!(lent <= MOST_LENT, "{lent} lent bytes are too many for a case");
        let fill = if self.rng.chance(1, 4) { self.rng.pick(&[0, 1, 165, 255]) } else { self.rng.byte() };
        self.put_input(table, lent, state, fill);
        let mut entries: Vec<u8> = (0..lent).map(|index| (usize::from(fill) + 7 * index) as u8).collect();
        let answer = place::place(table, &mut entries, &state);
        self.output.push_str(&answer::state_line(&answer, &entries));
        self.output.push('\n');
        self.tally[answer.map_or_else(|refusal| refusal.number as usize, |_| 0)] += 1;
        self.count += 1;
        self.lent += lent;
        if !matches!(answer, Err(Refusal { number: 1..=14, .. })) {
            self.explored += explore::limit_of(lent);
        }
    }

    /// Writes the head, the state's six numbers and the table.
    fn put_input(&mut self, table: &[u8], lent: usize, state: State, fill: u8) {
        let mut head = [0; 16];
        head[0] = CALL_PLACE;
        head[1] = fill;
        head[4..8].copy_from_slice(&(table.len() as u32).to_le_bytes());
        head[8..12].copy_from_slice(&(lent as u32).to_le_bytes());
        self.input.extend_from_slice(&head);
        self.input.extend_from_slice(&state.location.to_le_bytes());
        for value in state.values {
            self.input.extend_from_slice(&value.to_le_bytes());
        }
        self.input.extend_from_slice(&state.denominator.to_le_bytes());
        self.input.extend_from_slice(table);
    }

    /// Adds a table with so many bytes lent and a state that must have this answer.
    pub fn foretold(&mut self, table: &[u8], lent: usize, state: State, answer: Answer) {
        let found = place::place(table, &mut vec![0; lent], &state);
        assert_eq!(found, answer, "the table {} answers {state:?} otherwise than foretold", in_hex(table));
        self.add(table, lent, state);
    }

    /// Adds a state whose answer is foretold where the entries have room: with mostly what they take, else a
    /// little more or less. Where they have no room it is 15.
    pub fn placed(&mut self, ground: &Ground, state: State, answer: Answer) {
        let lent = some_lent(&mut self.rng, ground.exact());
        self.placed_with(ground, lent, state, answer);
    }

    /// The same with the bytes lent given.
    pub fn placed_with(&mut self, ground: &Ground, lent: usize, state: State, answer: Answer) {
        if !matches!(answer, Err(Refusal { number: 20, .. })) {
            check_moves(state, ground.clocks);
            let broken = breaks_invariant(&state, &ground.model);
            assert!(!broken || answer == Err(refusal(21)), "{state:?} breaks its invariant and is accepted");
        }
        let answer = if ground.exact() <= lent { answer } else { Err(refusal(15)) };
        self.foretold(&ground.table, lent, state, answer);
    }

    /// Adds a state by chance in a region: the answer is the region's number, or 21 if it was not reached.
    pub fn in_region(&mut self, ground: &Ground, region: Region) {
        let state = state_in(&mut self.rng, region, ground.clocks);
        self.placed(ground, state, ground.number(region));
    }

    /// The collection must be large and varied enough, and not too large.
    fn check(&self) {
        assert!(self.count >= FEWEST, "only {} state cases", self.count);
        assert!(self.input.len() < INPUT_BUDGET, "{} bytes of state cases", self.input.len());
        assert!(self.lent < LENT_BUDGET, "{} bytes lent", self.lent);
        assert!(self.explored < REGION_BUDGET, "{} regions explored", self.explored);
        assert!(self.tally[0] >= 1_000, "only {} accepted states", self.tally[0]);
        for (number, &times) in self.tally.iter().enumerate().skip(1) {
            let fewest = match number {
                1..=13 => 3,
                14 | 15 => 40,
                20 | 21 => 250,
                _ => 0,
            };
            assert!(times >= fewest, "refusal {number} occurs {times} times among the state cases");
        }
    }

    pub fn summary(&self) -> String {
        let mut text = format!("state cases {}, bytes {}", self.count, self.input.len());
        text.push_str(&format!(", lent {}, explored at most {}", self.lent, self.explored));
        text.push_str(&format!(", accepted {}", self.tally[0]));
        for (number, times) in self.tally.iter().enumerate().skip(1).filter(|&(_, &times)| times > 0) {
            text.push_str(&format!(", refusal {number}: {times}"));
        }
        text
    }
}

/// So many bytes for a graph that takes `exact` bytes.
pub fn some_lent(rng: &mut Rng, exact: usize) -> usize {
    let lent = match rng.below(40) {
        0..=23 => exact,
        24..=29 => exact + rng.between(1, ENTRY - 1),
        30..=37 => exact + rng.between(ENTRY, 10 * ENTRY),
        38 => exact - rng.between(1, ENTRY),
        _ => rng.below(exact),
    };
    lent.min(MOST_LENT)
}

/// Makes all cases of the state call.
pub fn make(vectors: &Vectors) -> Result<PlaceCases, String> {
    let mut cases = PlaceCases::new();
    place_borders::add_cases(&mut cases);
    add_by_chance(&mut cases);
    add_without_clocks(&mut cases);
    add_vectors(&mut cases, vectors)?;
    cases.check();
    Ok(cases)
}

/// How many models by chance there are for each size of the graph, given by its greatest number of regions.
const SIZES: [(usize, usize); 5] = [(5, 20), (20, 60), (60, 60), (150, 40), (300, 10)];
/// The longest table of a model by chance, in bytes.
const LONGEST_BY_CHANCE: usize = 160;

/// Models by chance, so many of each size.
fn add_by_chance(cases: &mut PlaceCases) {
    cases.begin_group(51);
    let mut wanted = SIZES.map(|(_, models)| models);
    while wanted.iter().any(|&models| models > 0) {
        let Some(ground) = Ground::of(by_chance(&mut cases.rng)) else {
            continue;
        };
        let size = SIZES.iter().position(|&(greatest, _)| ground.regions.len() <= greatest);
        if let Some(size) = size.filter(|&size| wanted[size] > 0 && ground.table.len() <= LONGEST_BY_CHANCE) {
            wanted[size] -= 1;
            add_states(cases, &ground);
        }
    }
}

/// States of one model: in reached regions, in any region, beside a reached one, breaking an invariant, and
/// spoiled.
fn add_states(cases: &mut PlaceCases, ground: &Ground) {
    for _ in 0..4 {
        let region = ground.some_reached(&mut cases.rng);
        cases.in_region(ground, region);
    }
    let region = some_region(&mut cases.rng, &ground.model);
    cases.in_region(ground, region);
    let region = ground.some_reached(&mut cases.rng);
    let state = state_in(&mut cases.rng, region, ground.clocks);
    let beside = neighbour(&mut cases.rng, state, ground.clocks.count);
    check_moves(beside, ground.clocks);
    cases.add(&ground.table, ground.exact(), beside);
    if cases.rng.chance(1, 2) {
        let spoiled = spoiled(&mut cases.rng, state, &ground.model);
        cases.placed(ground, spoiled, Err(refusal(20)));
    }
    if !ground.model.invariants.is_empty() {
        let breaking = breaking(&mut cases.rng, ground);
        cases.placed(ground, breaking, Err(refusal(21)));
    }
}

/// A state that breaks an atom of an invariant, by as little as its denominator allows. Its region would be a
/// reached one, where the location has one, but for this clock.
pub fn breaking(rng: &mut Rng, ground: &Ground) -> State {
    let atom = rng.pick(&ground.model.invariants);
    let there = |region: &Region| region.location == atom.location;
    let reached: Vec<Region> = ground.regions.iter().copied().filter(there).collect();
    let region = if reached.is_empty() { Region::start(atom.location) } else { rng.pick(&reached) };
    let mut state = state_in(rng, region, ground.clocks);
    let bound = u64::from(atom.constant) * state.denominator;
    state.values[usize::from(atom.clock)] = bound + u64::from(atom.comparison);
    state
}

/// Models by chance without clocks: only the location counts.
fn add_without_clocks(cases: &mut PlaceCases) {
    cases.begin_group(52);
    for _ in 0..12 {
        let locations = cases.rng.between(1, 8) as u8;
        let model = by_chance_of(&mut cases.rng, 0, 0, locations);
        let ground = Ground::of(model).expect("no more regions than locations");
        for location in [0, locations - 1] {
            cases.in_region(&ground, Region::start(location));
        }
        let state = state_in(&mut cases.rng, ground.regions[0], ground.clocks);
        let spoiled = spoiled(&mut cases.rng, state, &ground.model);
        cases.placed(&ground, spoiled, Err(refusal(20)));
    }
}

/// Adds each distinct line of the outside vectors of the state call, with the bytes lent there, held to the vector's
/// answer. If more bytes are lent than a case may lend, there is still room for every region.
fn add_vectors(cases: &mut PlaceCases, vectors: &Vectors) -> Result<(), String> {
    cases.begin_group(53);
    for vector in vectors.of_call(PLACE)? {
        if let Ask::State(state) = vector.ask {
            cases.foretold(&vector.table, vector.lent.min(MOST_LENT), state, vector.number());
        }
    }
    Ok(())
}
