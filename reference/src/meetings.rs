// Cases in which one record meets several conditions at once, so that a wrong order of the conditions
// shows, and cases in which two records are faulty, so that a wrong order of the records shows.
//
// A record is put into a setting (a place in a table that by itself makes conditions hold, such as being
// one too many) and gets every choice of faults in its own bytes. The lowest number must be given.

use crate::cases::Cases;
use crate::generate::{self, RICH};
use crate::records::{self, Records};
use crate::rng::Rng;
use crate::table::{
    Branch, GuardAtom, InvariantAtom, Model, Refusal, BRANCH, EDGE, END, GUARD, INVARIANT, MOST_BRANCHES,
    MOST_EDGES, MOST_GUARDS, MOST_INVARIANTS,
};

/// Adds all cases of this file.
pub fn add_cases(cases: &mut Cases) {
    cases.begin_group(3);
    for (clocks, locations) in [(2, 3), (1, 1), (4, 5)] {
        let frame = Frame { clocks, locations };
        invariants(cases, &frame);
        edges(cases, &frame);
        guards(cases, &frame);
        branches(cases, &frame);
        ends(cases, &frame);
        headers_and_locations(cases, &frame);
        unknown_kinds(cases, &frame);
    }
    two_records(cases);
}

/// The clocks and locations of the tables at hand.
struct Frame {
    clocks: u8,
    locations: u8,
}

impl Frame {
    /// The header and the first so many locations.
    fn begun(&self, locations: u8) -> Vec<u8> {
        let mut bytes = records::header(self.clocks, self.locations, self.locations - 1);
        for label in 0..locations {
            bytes.extend(records::location(label));
        }
        bytes
    }

    /// The header and all locations.
    fn start(&self) -> Vec<u8> {
        self.begun(self.locations)
    }

    fn invariant(&self) -> Vec<u8> {
        let (location, clock) = (self.locations - 1, self.clocks - 1);
        records::invariant(InvariantAtom { location, clock, comparison: 1, constant: 15 })
    }

    fn edge(&self) -> Vec<u8> {
        records::edge(self.locations - 1, 200, 3)
    }

    fn guard(&self) -> Vec<u8> {
        records::guard(GuardAtom { clock: self.clocks - 1, comparison: 4, constant: 15 })
    }

    fn branch(&self, weight: u16) -> Vec<u8> {
        records::branch(Branch { weight, target: self.locations - 1, mask: (1 << self.clocks) - 1 })
    }

    /// An edge with its one branch; the weight is right where it is 3.
    fn whole_edge(&self, weight: u16) -> Vec<u8> {
        [self.edge(), self.branch(weight)].concat()
    }

    /// A location that is not there.
    fn no_location(&self, rng: &mut Rng) -> u8 {
        rng.pick(&[self.locations, self.locations + 1, 128, 255])
    }

    /// A clock that is not there.
    fn no_clock(&self, rng: &mut Rng) -> u8 {
        rng.pick(&[self.clocks, self.clocks + 1, 128, 255])
    }
}

/// A place in a table: the bytes before, the bytes after that make the table whole where nothing is
/// wrong, and the conditions that the place itself brings about. A place of none is the record's own.
struct Setting {
    before: Vec<u8>,
    after: Vec<u8>,
    met: Vec<(u32, Option<usize>)>,
}

impl Setting {
    fn new(before: Vec<u8>, after: Vec<u8>, numbers: &[u32]) -> Setting {
        Setting { before, after, met: numbers.iter().map(|&number| (number, None)).collect() }
    }

    /// The same with refusal 12 for the edge at this place.
    fn with_bad_sum(mut self, place: usize) -> Setting {
        self.met.push((12, Some(place)));
        self
    }
}

/// A fault in a record's own bytes.
struct Fault {
    number: u32,
    position: usize,
    bytes: Vec<u8>,
}

impl Fault {
    fn new(number: u32, position: usize, bytes: &[u8]) -> Fault {
        Fault { number, position, bytes: bytes.to_vec() }
    }
}

/// The lowest of the conditions.
fn lowest(met: &[(u32, Option<usize>)], here: usize) -> Option<Refusal> {
    let lowest = met.iter().min_by_key(|(number, _)| *number)?;
    Some(Refusal { number: lowest.0, place: lowest.1.unwrap_or(here) })
}

/// Adds a record in a setting with every choice of faults: the whole table, at times the table that
/// stops after the record, and at times the table that stops within it.
fn meet(cases: &mut Cases, setting: &Setting, record: &[u8], faults: impl Fn(&mut Rng) -> Vec<Fault>) {
    let here = setting.before.len();
    let count = faults(&mut cases.rng).len();
    for choice in 0..1u32 << count {
        let mut record = record.to_vec();
        let mut met = setting.met.clone();
        for (number, fault) in faults(&mut cases.rng).into_iter().enumerate() {
            if choice & (1 << number) != 0 {
                record[fault.position..fault.position + fault.bytes.len()].copy_from_slice(&fault.bytes);
                met.push((fault.number, None));
            }
        }
        let refusal = lowest(&met, here);
        let stopped = [setting.before.clone(), record.clone()].concat();
        cases.foretold(&[stopped.clone(), setting.after.clone()].concat(), refusal);
        if cases.rng.chance(1, 3) {
            match refusal {
                Some(refusal) => cases.refused(&stopped, refusal.number, refusal.place),
                None => cases.refused(&stopped, 2, stopped.len()),
            }
        }
        if cases.rng.chance(1, 3) {
            let length = cases.rng.between(1, record.len() - 1);
            cases.refused(&stopped[..here + length], 4, here);
        }
    }
}

/// Invariant atoms: 4, 5, 7, 8, 9 and 11.
fn invariants(cases: &mut Cases, frame: &Frame) {
    let start = frame.start();
    let rest = [frame.whole_edge(3), records::end()].concat();
    let full = [start.clone(), frame.invariant().repeat(MOST_INVARIANTS)].concat();
    let settings = [
        Setting::new(start.clone(), rest.clone(), &[]),
        Setting::new([start.clone(), frame.invariant()].concat(), rest.clone(), &[]),
        Setting::new(full.clone(), rest.clone(), &[11]),
        Setting::new([full, frame.whole_edge(3)].concat(), rest.clone(), &[5, 11]),
        Setting::new([start.clone(), frame.edge()].concat(), rest.clone(), &[5]),
        Setting::new([start.clone(), frame.edge(), frame.guard()].concat(), rest.clone(), &[5]),
        Setting::new([start.clone(), frame.whole_edge(3)].concat(), rest.clone(), &[5]),
        Setting::new([start.clone(), frame.whole_edge(4)].concat(), rest.clone(), &[5]),
        Setting::new(frame.begun(frame.locations - 1), rest.clone(), &[5]),
        Setting::new(Vec::new(), rest, &[5]),
    ];
    for setting in &settings {
        meet(cases, setting, &frame.invariant(), |rng| {
            vec![
                Fault::new(7, 1, &[frame.no_location(rng)]),
                Fault::new(7, 2, &[frame.no_clock(rng)]),
                Fault::new(8, 3, &[rng.pick(&[2, 3, 4, 5, 255])]),
                Fault::new(9, 4, &[rng.pick(&[16, 17, 255])]),
            ]
        });
    }
}

/// Edges: 4, 5, 7, 10, 11 and 12.
fn edges(cases: &mut Cases, frame: &Frame) {
    let start = frame.start();
    let rest = [frame.branch(3), records::end()].concat();
    let place = start.len();
    let nearly = [start.clone(), frame.whole_edge(3).repeat(MOST_EDGES - 1)].concat();
    let full = [nearly.clone(), frame.whole_edge(3)].concat();
    let settings = [
        Setting::new(start.clone(), rest.clone(), &[]),
        Setting::new([start.clone(), frame.whole_edge(3)].concat(), rest.clone(), &[]),
        Setting::new([start.clone(), frame.whole_edge(4)].concat(), rest.clone(), &[]).with_bad_sum(place),
        Setting::new([start.clone(), frame.whole_edge(2)].concat(), rest.clone(), &[]).with_bad_sum(place),
        Setting::new([start.clone(), frame.edge()].concat(), rest.clone(), &[]).with_bad_sum(place),
        Setting::new([start.clone(), frame.edge(), frame.guard()].concat(), rest.clone(), &[])
            .with_bad_sum(place),
        Setting::new([start.clone(), frame.whole_edge(3), frame.whole_edge(1)].concat(), rest.clone(), &[])
            .with_bad_sum(place + 10),
        Setting::new(nearly.clone(), rest.clone(), &[]),
        Setting::new(full, rest.clone(), &[11]),
        Setting::new([nearly.clone(), frame.whole_edge(4)].concat(), rest.clone(), &[11])
            .with_bad_sum(nearly.len()),
        Setting::new([nearly.clone(), frame.edge()].concat(), rest.clone(), &[11]).with_bad_sum(nearly.len()),
        Setting::new(frame.begun(frame.locations - 1), rest.clone(), &[5]),
        Setting::new(Vec::new(), rest, &[5]),
    ];
    for setting in &settings {
        // Several times with other values, but not in the tables of 128 edges.
        let times = if setting.before.len() < 1_000 { 4 } else { 1 };
        for _ in 0..times {
            meet(cases, setting, &frame.edge(), |rng| {
                let source = frame.no_location(rng);
                let denominator: u16 = rng.pick(&[0, 60_001, 65_535]);
                vec![Fault::new(7, 1, &[source]), Fault::new(10, 3, &denominator.to_le_bytes())]
            });
        }
    }
}

/// Guard atoms: 4, 5, 7, 8, 9 and 11.
fn guards(cases: &mut Cases, frame: &Frame) {
    let start = [frame.start(), frame.invariant()].concat();
    let edge = [start.clone(), frame.edge()].concat();
    let rest = [frame.branch(3), records::end()].concat();
    let full = [edge.clone(), frame.guard().repeat(MOST_GUARDS)].concat();
    let settings = [
        Setting::new(edge.clone(), rest.clone(), &[]),
        Setting::new([edge.clone(), frame.guard().repeat(MOST_GUARDS - 1)].concat(), rest.clone(), &[]),
        Setting::new(full.clone(), rest.clone(), &[11]),
        Setting::new(
            [start.clone(), frame.whole_edge(3), full[start.len()..].to_vec()].concat(),
            rest.clone(),
            &[11],
        ),
        Setting::new([full, frame.branch(3)].concat(), records::end(), &[5, 11]),
        Setting::new([edge.clone(), frame.branch(3)].concat(), records::end(), &[5]),
        Setting::new(
            [edge.clone(), frame.branch(1)].concat(),
            [frame.branch(2), records::end()].concat(),
            &[5],
        ),
        Setting::new(start, rest.clone(), &[5]),
        Setting::new(frame.begun(frame.locations - 1), rest.clone(), &[5]),
        Setting::new(Vec::new(), rest, &[5]),
    ];
    for setting in &settings {
        meet(cases, setting, &frame.guard(), |rng| {
            vec![
                Fault::new(7, 1, &[frame.no_clock(rng)]),
                Fault::new(8, 2, &[rng.pick(&[5, 6, 128, 255])]),
                Fault::new(9, 3, &[rng.pick(&[16, 17, 255])]),
            ]
        });
    }
}

/// Branches: 4, 5, 7, 10 and 11. Whether the sum is right is no matter of theirs.
fn branches(cases: &mut Cases, frame: &Frame) {
    let start = [frame.start(), frame.invariant()].concat();
    let edge = [start.clone(), frame.edge()].concat();
    let wide = [start.clone(), records::edge(0, 0, MOST_BRANCHES as u16 + 2)].concat();
    let full = [wide.clone(), frame.branch(1).repeat(MOST_BRANCHES)].concat();
    let over = [edge.clone(), frame.branch(60_000).repeat(MOST_BRANCHES)].concat();
    let settings = [
        Setting::new(edge.clone(), records::end(), &[]),
        Setting::new([wide.clone(), frame.branch(1).repeat(MOST_BRANCHES - 1)].concat(), records::end(), &[]),
        Setting::new(full, records::end(), &[11]),
        Setting::new(over, [frame.whole_edge(3), records::end()].concat(), &[11]),
        Setting::new(start, records::end(), &[5]),
        Setting::new(frame.begun(frame.locations - 1), records::end(), &[5]),
        Setting::new(Vec::new(), records::end(), &[5]),
    ];
    for setting in &settings {
        meet(cases, setting, &frame.branch(3), |rng| {
            let bit = rng.between(frame.clocks.into(), 7);
            vec![
                Fault::new(7, 3, &[frame.no_location(rng)]),
                Fault::new(7, 4, &[(1 << bit) | rng.below(2) as u8]),
                Fault::new(10, 1, &[0, 0]),
            ]
        });
    }
}

/// End records: 5, 12 and 13.
fn ends(cases: &mut Cases, frame: &Frame) {
    let start = frame.start();
    let place = start.len();
    let edge = frame.edge();
    let settings = [
        Setting::new(start.clone(), Vec::new(), &[]),
        Setting::new([start.clone(), frame.whole_edge(3)].concat(), Vec::new(), &[]),
        Setting::new([start.clone(), frame.whole_edge(4)].concat(), Vec::new(), &[]).with_bad_sum(place),
        Setting::new([start.clone(), frame.whole_edge(2)].concat(), Vec::new(), &[]).with_bad_sum(place),
        Setting::new([start.clone(), edge.clone()].concat(), Vec::new(), &[]).with_bad_sum(place),
        Setting::new([start.clone(), edge, frame.guard()].concat(), Vec::new(), &[]).with_bad_sum(place),
        Setting::new([start.clone(), frame.whole_edge(3), frame.whole_edge(1)].concat(), Vec::new(), &[])
            .with_bad_sum(place + 10),
        Setting::new(frame.begun(frame.locations - 1), Vec::new(), &[5]),
        Setting::new(frame.begun(0), Vec::new(), &[5]),
        Setting::new(Vec::new(), Vec::new(), &[5]),
    ];
    let second = [start, records::end()].concat();
    let tails: [&[u8]; 6] = [&[], &[0], &[7], &[255], &[0; 50], &second];
    for setting in &settings {
        let here = setting.before.len();
        for tail in tails {
            let mut met = setting.met.clone();
            if !tail.is_empty() {
                met.push((13, Some(here + 1)));
            }
            let table = [setting.before.clone(), records::end(), tail.to_vec()].concat();
            cases.foretold(&table, lowest(&met, here));
        }
    }
}

/// Tables that break off in each state of reading, all of them without a fault that decides so far.
fn broken_off(frame: &Frame) -> Vec<Vec<u8>> {
    let start = frame.start();
    let edge = [start.clone(), frame.edge()].concat();
    let mut list = vec![
        start.clone(),
        [start.clone(), frame.invariant()].concat(),
        [start.clone(), frame.invariant().repeat(MOST_INVARIANTS)].concat(),
        edge.clone(),
        [edge.clone(), frame.guard()].concat(),
        [edge.clone(), frame.guard().repeat(MOST_GUARDS)].concat(),
        [edge.clone(), frame.branch(3)].concat(),
        [edge.clone(), frame.branch(4)].concat(),
        [edge, frame.branch(9).repeat(MOST_BRANCHES)].concat(),
        [start, frame.whole_edge(3).repeat(MOST_EDGES)].concat(),
    ];
    list.extend((1..frame.locations.min(3)).map(|locations| frame.begun(locations)));
    list
}

/// A second header, with or without numbers out of range, and a location too many: 5, or 4 where it is cut.
fn headers_and_locations(cases: &mut Cases, frame: &Frame) {
    let rest = [frame.start(), frame.whole_edge(3), records::end()].concat();
    let mut list = broken_off(frame);
    list.push(frame.begun(0));
    for before in list {
        let here = before.len();
        for header in [[1, frame.clocks, frame.locations, 0], [1, 5, 0, 65], [1, 255, 255, 255]] {
            cases.refused(&[before.clone(), header.to_vec(), rest.clone()].concat(), 5, here);
        }
        cases.refused(&[before.clone(), vec![1, 255, 0]].concat(), 4, here);
        if here >= frame.start().len() {
            cases.refused(&[before.clone(), records::location(3), rest.clone()].concat(), 5, here);
            cases.refused(&[before.clone(), vec![2]].concat(), 4, here);
        } else {
            cases.refused(&[before.clone(), vec![2]].concat(), 4, here);
        }
        cases.refused(&before, 2, here);
    }
}

/// Kinds that do not exist, in each state of reading, with bytes after them or none.
fn unknown_kinds(cases: &mut Cases, frame: &Frame) {
    for before in broken_off(frame) {
        let here = before.len();
        for kind in [0, 8, 255] {
            cases.refused(&[before.clone(), vec![kind]].concat(), 3, here);
        }
        let kind = cases.rng.pick(&[0, 8, 9, 10, 11, 12, 16, 127, 128, 255]);
        let rest = [vec![kind, 0, 0, 0, 0], frame.branch(3), records::end()].concat();
        cases.refused(&[before, rest].concat(), 3, here);
    }
}

/// Two faulty records in one table: the first decides, whatever the numbers.
fn two_records(cases: &mut Cases) {
    for _ in 0..320 {
        let model = generate::model(&mut cases.rng, &RICH);
        let mut records = Records::of(&model);
        let mut met: Vec<(usize, Refusal)> = Vec::new();
        for _ in 0..2 {
            let index = cases.rng.between(1, records.list.len() - 2);
            if let Some(refusal) = spoil(&mut cases.rng, &model, &mut records, index) {
                met.push(refusal);
            }
        }
        // A record spoilt twice meets both conditions; the lowest number decides there.
        met.sort_by_key(|(index, refusal)| (*index, refusal.number));
        let table = records.bytes();
        match met.first() {
            Some((_, refusal)) => cases.refused(&table, refusal.number, refusal.place),
            None => cases.add(&table),
        }
    }
}

/// Spoils one record. The result says at which record that shows, and how; none for a location.
pub fn spoil(rng: &mut Rng, model: &Model, records: &mut Records, index: usize) -> Option<(usize, Refusal)> {
    let place = records.place(index);
    let kind = records.list[index][0];
    let faults = match kind {
        INVARIANT => vec![(1, 255, 7), (2, model.clocks, 7), (3, 2, 8), (4, 16, 9)],
        EDGE => vec![(1, 255, 7), (4, 255, 10)],
        GUARD => vec![(1, model.clocks, 7), (2, 5, 8), (3, 16, 9)],
        BRANCH => vec![(3, 255, 7), (4, 1 << model.clocks, 7), (0, 0, 12)],
        _ => return None,
    };
    let (position, value, number) = rng.pick(&faults);
    if number != 12 {
        records.list[index][position] = value;
        return Some((index, Refusal { number, place }));
    }
    // A weight raised by one: its edge no longer has its sum, which shows at the next edge or at the end.
    let edge = (0..index).rev().find(|&other| records.list[other][0] == EDGE)?;
    let finish = (index..records.list.len()).find(|&other| matches!(records.list[other][0], EDGE | END))?;
    let weight = u16::from_le_bytes([records.list[index][1], records.list[index][2]]) + 1;
    records.list[index][1..3].copy_from_slice(&weight.to_le_bytes());
    Some((finish, Refusal { number: 12, place: records.place(edge) }))
}
