// Models of which it is known what the totals of their listings are: halls that lead to rooms, some of them never
// entered; gates one after the other; rings of one label; all labels; large graphs; and refusals, which have no totals.

use crate::block_models::{chain, labelled, large, shuffle, step};
use crate::explore::{self, MOST_REGIONS};
use crate::generate::any_byte;
use crate::graph_cases::written;
use crate::graph_models::{all_of, all_regions, guard, invariant, AT_LEAST, AT_MOST, EQUAL, LESS};
use crate::listing;
use crate::listing_cases::{ListingCases, LENT_OF_PROGRAM};
use crate::records::with_places;
use crate::region::ENTRY;
use crate::rng::Rng;
use crate::table::{Edge, InvariantAtom, Model, LARGEST_CONSTANT, MOST_BRANCHES, MOST_LOCATIONS};
use std::cmp::Reverse;
use std::collections::HashSet;

/// Adds all cases of this file.
pub fn add_cases(cases: &mut ListingCases) {
    cases.begin_group(104);
    borders(cases);
    every_label(cases);
    one_label(cases);
    never_reached(cases);
    known_gates(cases);
    cases.begin_group(105);
    halls_by_chance(cases);
    gates_by_chance(cases);
    cases.begin_group(106);
    limits(cases);
    refusals(cases);
}

/// What a part of a model adds to the totals of a label: regions and blocks.
pub type Total = (u8, usize, usize);

/// The totals that these parts make together: a line for each label, rising, and that of all.
pub fn foot(parts: &[Total]) -> String {
    let mut text = String::new();
    for label in 0..=u8::MAX {
        let own: Vec<Total> = parts.iter().copied().filter(|part| part.0 == label).collect();
        if !own.is_empty() {
            text.push_str(&format!("label {label} {}\n", sums(&own)));
        }
    }
    text + &format!("all {}\n", sums(parts))
}

fn sums(parts: &[Total]) -> String {
    let regions: usize = parts.iter().map(|part| part.1).sum();
    let blocks: usize = parts.iter().map(|part| part.2).sum();
    format!("regions {regions} blocks {blocks}")
}

/// A model with what the parts of it add to the totals.
type Foretold = (Model, Vec<Total>);

fn regions_of(totals: &[Total]) -> usize {
    totals.iter().map(|part| part.1).sum()
}

/// Adds a model whose listing must end with these totals, or refusal 15 where so many bytes are too few.
fn put(cases: &mut ListingCases, (model, totals): &Foretold, lent: usize) {
    let table = written(model);
    if regions_of(totals) > explore::limit_of(lent) {
        return cases.refused(&table, lent, 15, 0);
    }
    let text = listing::without_totals(&table, lent).expect("a listing");
    cases.foretold(&table, lent, &(text + &foot(totals)));
}

/// Adds a model with what the program lends.
fn put_plain(cases: &mut ListingCases, foretold: &Foretold) {
    put(cases, foretold, LENT_OF_PROGRAM);
}

/// A location that is left by nothing. It may have an edge to itself, of some action, and time may pass there through
/// so many regions.
#[derive(Clone, Copy)]
struct Room {
    label: u8,
    action: Option<u8>,
    regions: usize,
    door: Door,
}

/// How a room is entered, with all clocks reset: from the hall; by no edge; by an edge whose guard never holds; by an
/// edge that breaks the room's invariant.
#[derive(Clone, Copy, PartialEq, Eq)]
enum Door {
    Open,
    Missing,
    Locked,
    Broken,
}

/// A room of one region without an edge.
fn room(label: u8) -> Room {
    Room { label, action: None, regions: 1, door: Door::Open }
}

/// The initial location, its place among the others, and M.
#[derive(Clone, Copy)]
struct Hall {
    clocks: u8,
    largest: u8,
    label: u8,
    regions: usize,
    place: u8,
}

/// A hall of one region, without clocks.
fn plain_hall(label: u8) -> Hall {
    Hall { clocks: 0, largest: 0, label, regions: 1, place: 0 }
}

/// The action of the doors. No room has it.
const DOOR: u8 = 200;

impl Hall {
    /// How many regions time passes through from 0 to over.
    fn longest(&self) -> usize {
        if self.clocks == 0 {
            1
        } else {
            2 * usize::from(self.largest) + 2
        }
    }

    /// The location of a room, rooms being numbered from 0.
    fn location(&self, room: usize) -> u8 {
        let room = room as u8;
        room + u8::from(room >= self.place)
    }

    /// The invariant that lets time pass through so many regions: up to c there are 2 c + 1, below c there are 2 c.
    fn bound(&self, location: u8, regions: usize) -> Option<InvariantAtom> {
        let comparison = if regions % 2 == 1 { AT_MOST } else { LESS };
        (regions < self.longest()).then(|| invariant(location, 0, comparison, (regions / 2) as u8))
    }

    /// The hall with its rooms. All its regions do the same and are a block: nothing else has the doors' action. Rooms
    /// of one label and one action, or none, are a block. All clocks are equal at all times.
    fn with(&self, rooms: &[Room]) -> Foretold {
        let mut labels: Vec<u8> = rooms.iter().map(|room| room.label).collect();
        labels.insert(self.place.into(), self.label);
        let mut totals = vec![(self.label, self.regions, 1)];
        let mut seen = HashSet::new();
        for room in rooms.iter().filter(|room| room.door == Door::Open) {
            totals.push((room.label, room.regions, seen.insert((room.label, room.action)).into()));
        }
        let invariants = self.invariants(rooms);
        let model =
            Model { clocks: self.clocks, initial: self.place, labels, invariants, edges: self.edges(rooms) };
        (with_places(model), totals)
    }

    fn invariants(&self, rooms: &[Room]) -> Vec<InvariantAtom> {
        let mut invariants: Vec<InvariantAtom> = self.bound(self.place, self.regions).into_iter().collect();
        for (index, room) in rooms.iter().enumerate() {
            match room.door {
                Door::Broken => invariants.push(invariant(self.location(index), 0, LESS, 0)),
                _ => invariants.extend(self.bound(self.location(index), room.regions)),
            }
        }
        invariants
    }

    /// The edges: one that is never available, and from which M comes; the doors; those of the rooms.
    fn edges(&self, rooms: &[Room]) -> Vec<Edge> {
        let never = guard(0, LESS, 0);
        let into = |index: usize| (1, self.location(index), all_of(self.clocks));
        let mut edges = Vec::new();
        if self.clocks > 0 {
            let at_largest = guard(self.clocks - 1, AT_LEAST, self.largest);
            edges.push(step(self.place, DOOR, &[never, at_largest], &[(1, self.place, 0)]));
        }
        let open: Vec<usize> = (0..rooms.len()).filter(|&index| rooms[index].door == Door::Open).collect();
        for together in open.chunks(MOST_BRANCHES) {
            let branches: Vec<(u16, u8, u8)> = together.iter().map(|&index| into(index)).collect();
            edges.push(step(self.place, DOOR, &[], &branches));
        }
        for (index, room) in rooms.iter().enumerate() {
            match room.door {
                Door::Locked => edges.push(step(self.place, DOOR, &[never], &[into(index)])),
                Door::Broken => edges.push(step(self.place, DOOR, &[], &[into(index)])),
                Door::Open | Door::Missing => {}
            }
            let at = self.location(index);
            edges.extend(room.action.map(|action| step(at, action, &[], &[(1, at, 0)])));
        }
        edges
    }
}

/// Locations one after the other, each with its label and the time at which it is left for the next with all clocks
/// reset; nobody stays longer. The last one is left by nothing. A region at which a location is left, and those before
/// it, are a block each, and no two locations have one in common: it takes another number of steps to the last one.
fn gates(clocks: u8, gates: &[(u8, u8)], last: u8) -> Foretold {
    let (mut edges, mut invariants, mut totals) = (Vec::new(), Vec::new(), Vec::new());
    for (location, &(label, time)) in (0..).zip(gates) {
        edges.push(step(location, 1, &[guard(0, EQUAL, time)], &[(1, location + 1, all_of(clocks))]));
        invariants.push(invariant(location, 0, AT_MOST, time));
        totals.push((label, 2 * usize::from(time) + 1, if time == 0 { 1 } else { 2 }));
    }
    let largest = gates.iter().map(|gate| gate.1).max().unwrap_or_default();
    totals.push((last, 2 * usize::from(largest) + 2, 1));
    let labels: Vec<u8> = gates.iter().map(|gate| gate.0).chain([last]).collect();
    (labelled(clocks, &labels, invariants, edges), totals)
}

/// So many locations, a multiple of the labels, which go round. Each leads to the next at any time, with all clocks
/// reset, and the last to the first. Locations of one label are a block, time passing through all their regions.
fn ring(clocks: u8, largest: u8, labels: &[u8], locations: u8) -> Foretold {
    let to_next = |location: u8| {
        let at_largest = guard(0, AT_LEAST, largest);
        let next = (1, (location + 1) % locations, all_of(clocks));
        let before = step(location, 1, &[guard(0, LESS, largest)], &[next]);
        if clocks == 0 {
            vec![step(location, 1, &[], &[next])]
        } else {
            vec![before, step(location, 1, &[at_largest], &[next])]
        }
    };
    let edges = (0..locations).flat_map(to_next).collect();
    let all: Vec<u8> = labels.iter().copied().cycle().take(locations.into()).collect();
    let each =
        usize::from(locations) / labels.len() * if clocks == 0 { 1 } else { 2 * usize::from(largest) + 2 };
    let totals = labels.iter().map(|&label| (label, each, 1)).collect();
    (labelled(clocks, &all, Vec::new(), edges), totals)
}

/// The orders of three things.
const ORDERS: [[usize; 3]; 6] = [[0, 1, 2], [0, 2, 1], [1, 0, 2], [1, 2, 0], [2, 0, 1], [2, 1, 0]];

/// Labels around the borders: by themselves, and three of them in each order.
fn borders(cases: &mut ListingCases) {
    for label in [0, 1, 9, 10, 99, 100, 127, 128, 199, 200, 253, 254, 255] {
        put_plain(cases, &Hall { clocks: 1, ..plain_hall(label) }.with(&[]));
        put_plain(cases, &gates(1, &[(label, 1)], 255 - label));
    }
    for labels in [[0, 254, 255], [0, 1, 255], [9, 10, 100], [99, 100, 0]] {
        for order in ORDERS {
            let [first, second, third] = order.map(|index| labels[index]);
            put_plain(cases, &plain_hall(first).with(&[room(second), room(third)]));
            put_plain(cases, &gates(1, &[(first, 1), (second, 2)], third));
        }
    }
}

/// 64 locations of different labels: rising, falling, and in any order. Four models have all labels.
fn every_label(cases: &mut ListingCases) {
    for (round, order) in [0, 1, 2, 2, 2, 2, 2, 2].into_iter().enumerate() {
        let first = (round % 4) as u8;
        let mut labels: Vec<u8> = (0..MOST_LOCATIONS).map(|number| 4 * number + first).collect();
        match order {
            0 => {}
            1 => labels.reverse(),
            _ => shuffle(&mut cases.rng, &mut labels),
        }
        let rooms: Vec<Room> = labels[1..].iter().map(|&label| room(label)).collect();
        put_plain(cases, &plain_hall(labels[0]).with(&rooms));
    }
    let falling: Vec<u8> = (0..MOST_LOCATIONS).map(|number| 255 - number).collect();
    let timed: Vec<(u8, u8)> = falling[1..].iter().map(|&label| (label, label % 3)).collect();
    put_plain(cases, &gates(1, &timed, falling[0]));
    put_plain(cases, &ring(0, 0, &falling, MOST_LOCATIONS));
}

/// One label: a block with many regions, many blocks with one region, both; and few labels in turn.
fn one_label(cases: &mut ListingCases) {
    for (label, locations) in [(0, 1), (7, 2), (254, 10), (255, 64), (0, 64)] {
        put_plain(cases, &ring(0, 0, &[label], locations));
        put_plain(cases, &gates(1, &vec![(label, 0); usize::from(locations) - 1], label));
    }
    for (clocks, largest, locations) in [(1, 15, 1), (1, 1, 9), (2, 3, 4), (4, 2, 3)] {
        put_plain(cases, &ring(clocks, largest, &[90], locations));
        put_plain(cases, &ring(clocks, largest, &[255, 0, 77], 3 * locations));
    }
    for locations in [2, 10, 64] {
        let count = usize::from(locations);
        put_plain(cases, &(chain(locations, 0), vec![(0, count, count)]));
        let rooms = vec![room(5); count - 1];
        put_plain(cases, &plain_hall(5).with(&rooms));
        let different: Vec<Room> =
            (0..locations - 1).map(|action| Room { action: Some(action), ..room(5) }).collect();
        put_plain(cases, &plain_hall(5).with(&different));
    }
}

/// Locations never reached: their labels have no line, unless regions elsewhere bear them, and add to none.
fn never_reached(cases: &mut ListingCases) {
    for door in [Door::Missing, Door::Locked, Door::Broken] {
        for (hall, reached, other) in
            [(5, 6, 4), (5, 6, 7), (0, 255, 254), (255, 254, 0), (3, 3, 3), (8, 9, 8), (8, 9, 9)]
        {
            let shut = Room { door, ..room(other) };
            let hall = Hall { clocks: 1, largest: 1, regions: 4, ..plain_hall(hall) };
            put_plain(cases, &hall.with(&[room(reached), shut]));
            put_plain(cases, &Hall { place: 2, ..hall }.with(&[shut, room(reached), shut]));
        }
    }
    for initial in [0, 1, 31, 62, 63] {
        let mut rooms: Vec<Room> = (0..MOST_LOCATIONS - 1).map(|label| room(label / 2)).collect();
        rooms.iter_mut().for_each(|room| room.door = Door::Missing);
        put_plain(cases, &Hall { place: initial, ..plain_hall(initial) }.with(&rooms));
    }
}

/// The document's model has a gate. Gates of one time, of all times, and of labels that come again.
fn known_gates(cases: &mut ListingCases) {
    for time in 0..=LARGEST_CONSTANT {
        put_plain(cases, &gates(1 + time % 4, &[(5, time)], 9));
        put_plain(cases, &gates(1, &[(9, time), (5, LARGEST_CONSTANT - time), (9, 1)], 5));
    }
    let all: Vec<(u8, u8)> = (0..=LARGEST_CONSTANT).map(|time| (200 - 10 * (time % 7), time)).collect();
    put_plain(cases, &gates(1, &all, 200));
    put_plain(cases, &gates(2, &all, 0));
}

/// Labels from which a model draws its own: all, those at the borders, one, neighbours, a few.
fn palette(rng: &mut Rng) -> Vec<u8> {
    match rng.below(6) {
        0 | 1 => (0..=u8::MAX).collect(),
        2 => vec![0, 1, 254, 255],
        3 => vec![any_byte(rng)],
        4 => {
            let first = rng.below(253) as u8;
            vec![first, first + 1, first + 2]
        }
        _ => (0..rng.between(2, 6)).map(|_| any_byte(rng)).collect(),
    }
}

/// Halls with rooms of any labels, actions and sizes, entered or not. In every fourth the labels fall.
fn halls_by_chance(cases: &mut ListingCases) {
    for round in 0..110 {
        let rng = &mut cases.rng;
        let labels = palette(rng);
        let clocks = rng.pick(&[0, 1, 1, 2, 3, 4]);
        let largest = rng.pick(&[0, 1, 1, 2, 3, 9, LARGEST_CONSTANT]);
        let rooms = rng.between(1, if round % 10 == 0 { 30 } else { 9 });
        let place = rng.below(rooms + 1) as u8;
        let mut hall = Hall { clocks, largest, label: rng.pick(&labels), regions: 1, place };
        hall.regions = rng.between(1, hall.longest());
        let mut rooms: Vec<Room> = (0..rooms).map(|_| some_room(rng, &hall, &labels)).collect();
        if round % 4 == 0 {
            rooms.sort_by_key(|room| Reverse(room.label));
            hall.label = rooms[0].label.saturating_add(1);
        }
        let foretold = hall.with(&rooms);
        let lent = some_lent(rng, regions_of(&foretold.1));
        put(cases, &foretold, lent);
    }
}

fn some_room(rng: &mut Rng, hall: &Hall, labels: &[u8]) -> Room {
    let doors = [Door::Open, Door::Open, Door::Open, Door::Missing, Door::Locked, Door::Broken];
    let shut = if hall.clocks == 0 { &doors[..4] } else { &doors[..] };
    let door = if rng.chance(1, 2) { Door::Open } else { rng.pick(shut) };
    let action = rng.pick(&[None, None, Some(0), Some(1), Some(255)]);
    let regions = if rng.chance(1, 3) { hall.longest() } else { rng.between(1, hall.longest()) };
    Room { label: rng.pick(labels), action, regions, door }
}

/// Gates of any labels and times.
fn gates_by_chance(cases: &mut ListingCases) {
    for round in 0..50 {
        let rng = &mut cases.rng;
        let labels = palette(rng);
        let longest = rng.pick(&[0, 1, 2, 5, LARGEST_CONSTANT]);
        let count = rng.between(1, if round % 10 == 0 { 25 } else { 7 });
        let list: Vec<(u8, u8)> =
            (0..count).map(|_| (rng.pick(&labels), rng.between(0, longest.into()) as u8)).collect();
        let foretold = gates(rng.between(1, 4) as u8, &list, rng.pick(&labels));
        let lent = some_lent(rng, regions_of(&foretold.1));
        put(cases, &foretold, lent);
    }
}

/// So many bytes for a model of N regions: what the program lends, just enough, a little more or less.
fn some_lent(rng: &mut Rng, count: usize) -> usize {
    let exact = count * ENTRY;
    rng.pick(&[LENT_OF_PROGRAM, LENT_OF_PROGRAM, LENT_OF_PROGRAM, exact, exact, exact + ENTRY - 1, exact - 1])
}

/// Graphs around the program's entries and around 4,096 regions.
fn limits(cases: &mut ListingCases) {
    // 64 locations of 32 regions each.
    let hall = Hall { clocks: 1, largest: LARGEST_CONSTANT, label: 255, regions: 32, place: 0 };
    let rooms: Vec<Room> =
        (0..MOST_LOCATIONS - 1).map(|number| Room { regions: 32, ..room(4 * number) }).collect();
    let full = hall.with(&rooms);
    assert_eq!(regions_of(&full.1), 2_048, "a full hall");
    for lent in [LENT_OF_PROGRAM, LENT_OF_PROGRAM - 1] {
        put(cases, &full, lent);
    }
    put_plain(cases, &Hall { regions: 31, ..hall }.with(&rooms));
    put_plain(cases, &ring(1, LARGEST_CONSTANT, &[0], MOST_LOCATIONS));
    let of_one = [254];
    for (locations, count, labels) in [
        (1, 2_047, &LABELS_IN_TURN[..]),
        (1, 2_048, &LABELS_IN_TURN),
        (1, 2_048, &of_one),
        (1, 2_049, &LABELS_IN_TURN),
        (2, 4_095, &LABELS_IN_TURN),
        (2, MOST_REGIONS, &LABELS_IN_TURN),
        (2, MOST_REGIONS, &of_one),
        (2, 4_097, &LABELS_IN_TURN),
    ] {
        put_large(cases, locations, count, labels);
    }
}

/// Labels that the locations of a large model bear in turn.
const LABELS_IN_TURN: [u8; 3] = [255, 0, 128];

/// Adds a large model of two clocks, with 2,048 or 4,096 entries, whose locations bear these labels in turn. It is
/// known how many regions each label has, not how many blocks.
fn put_large(cases: &mut ListingCases, locations: u8, count: usize, labels: &[u8]) {
    let lent = if locations > 1 { MOST_REGIONS * ENTRY } else { LENT_OF_PROGRAM };
    let mut model = large(2, LARGEST_CONSTANT, locations, count);
    let mut sizes = vec![all_regions(2, LARGEST_CONSTANT); locations.into()];
    while sizes.len() < model.labels.len() {
        let missing = count - sizes.iter().sum::<usize>();
        sizes.push(missing.min(2 * usize::from(LARGEST_CONSTANT) + 2));
    }
    for (own, &label) in model.labels.iter_mut().zip(labels.iter().cycle()) {
        *own = label;
    }
    let table = written(&with_places(model));
    if count > explore::limit_of(lent) {
        return cases.refused(&table, lent, 15, 0);
    }
    let text = listing::listing(&table, lent).expect("a listing");
    for (index, label) in labels.iter().enumerate() {
        let regions: usize = sizes.iter().skip(index).step_by(labels.len()).sum();
        let line = format!("\nlabel {label} regions {regions} blocks ");
        assert!(text.contains(&line), "{line:?} is foretold");
    }
    cases.add(&table, lent);
}

/// Refusals of models with labels: one line, and nothing after it.
fn refusals(cases: &mut ListingCases) {
    for label in [0, 9, 128, 254, 255] {
        let hall = Hall { clocks: 1, largest: 2, label, regions: 6, place: 1 };
        let rooms = [Room { regions: 5, ..room(label / 2) }, room(label)];
        let (model, totals) = hall.with(&rooms);
        let table = written(&model);
        let count = regions_of(&totals);
        for entries in [0, 1, count - 1] {
            cases.refused(&table, entries * ENTRY, 15, 0);
        }
        let mut broken = model.clone();
        broken.invariants.push(invariant(hall.place, 0, LESS, 0));
        for lent in [LENT_OF_PROGRAM, 0] {
            cases.refused(&written(&with_places(broken.clone())), lent, 14, 0);
        }
        let end = table.len() - 1;
        cases.refused(&table[..end], LENT_OF_PROGRAM, 2, end);
        cases.refused(&[&table[..], &[label]].concat(), LENT_OF_PROGRAM, 13, end + 1);
        cases.refused(&[&table[..end], &[2, label]].concat(), LENT_OF_PROGRAM, 5, end);
    }
}
