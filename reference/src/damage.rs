// Damaged tables: cuts, changed bytes, records put in, left out, doubled and exchanged, and tables made
// by chance, from plain bytes to nearly valid sequences of records.

use crate::cases::Cases;
use crate::generate::{self, Shape, LARGE, LARGEST, MIDDLE, RICH, SMALL, TINY};
use crate::meetings;
use crate::records::{self, Records};
use crate::rng::Rng;
use crate::table::{body_length, Branch, Model, BRANCH, EDGE, END, GUARD, HEADER, INVARIANT, LOCATION};

/// Adds all cases of this file.
pub fn add_cases(cases: &mut Cases) {
    cases.begin_group(4);
    cuts(cases);
    cases.begin_group(5);
    changed_bytes(cases);
    cases.begin_group(6);
    moved_records(cases);
    cases.begin_group(7);
    byte_strings(cases);
    cases.begin_group(8);
    record_sequences(cases);
}

/// A table cut at a byte: 2 where a record would begin, otherwise 4 at the record that is cut.
fn cut(cases: &mut Cases, records: &Records, length: usize) {
    let table = &records.bytes()[..length];
    let begins = (0..records.list.len()).map(|index| records.place(index)).filter(|&place| place <= length);
    let place = begins.max().unwrap_or(0);
    let number = if place == length { 2 } else { 4 };
    cases.refused(table, number, place);
}

/// Cuts at every byte of some tables and at some bytes of large ones.
fn cuts(cases: &mut Cases) {
    let middle = Shape {
        clocks: (3, 3),
        invariants: (4, 6),
        edges: (7, 7),
        guards: (1, 4),
        branches: (1, 4),
        ..MIDDLE
    };
    let models = [
        generate::printed(),
        generate::sample(),
        generate::model(&mut cases.rng, &RICH),
        generate::model(&mut cases.rng, &middle),
    ];
    for model in &models {
        let records = Records::of(model);
        for length in 0..records.bytes().len() {
            cut(cases, &records, length);
        }
    }
    for _ in 0..8 {
        let records = Records::of(&generate::model(&mut cases.rng, &LARGEST));
        let length = cases.rng.between(1, records.bytes().len() - 1);
        cut(cases, &records, length);
    }
}

/// Changes of one byte: every position of small tables, some positions of others, all values of some bytes.
fn changed_bytes(cases: &mut Cases) {
    for model in [generate::printed(), generate::sample()] {
        let table = Records::of(&model).bytes();
        for position in 0..table.len() {
            let old = table[position];
            let mut values =
                vec![0, 1, 7, 16, 255, old.wrapping_add(1), old.wrapping_sub(1), old ^ 128, cases.rng.byte()];
            values.sort();
            values.dedup();
            for value in values {
                if value != old {
                    changed(cases, &table, position, value);
                }
            }
        }
    }
    for (shape, count) in [(TINY, 60), (SMALL, 240), (RICH, 160), (MIDDLE, 120), (LARGE, 6), (LARGEST, 6)] {
        for _ in 0..count {
            let table = Records::of(&generate::model(&mut cases.rng, &shape)).bytes();
            let table = with_changed_byte(&mut cases.rng, table);
            cases.add(&table);
        }
    }
    // All values of: the first byte, an invariant atom's kind and comparison, a guard atom's comparison
    // and constant, a branch's mask.
    let table = Records::of(&generate::printed()).bytes();
    for position in [0, 8, 11, 20, 21, 31] {
        for value in 0..=255 {
            changed(cases, &table, position, value);
        }
    }
}

/// The table with one byte changed by chance, to a small number as often as to any.
pub fn with_changed_byte(rng: &mut Rng, mut table: Vec<u8>) -> Vec<u8> {
    let position = rng.below(table.len());
    table[position] = if rng.chance(1, 2) { rng.byte() } else { rng.below(17) as u8 };
    table
}

fn changed(cases: &mut Cases, table: &[u8], position: usize, value: u8) {
    let mut table = table.to_vec();
    table[position] = value;
    cases.add(&table);
}

/// A well-formed record of a kind that names only what the model has, if it has any.
fn fitting_record(rng: &mut Rng, kind: u8, clocks: u8, locations: u8) -> Vec<u8> {
    let some_clocks = clocks.max(1);
    match kind {
        HEADER => records::header(clocks, locations, generate::index_below(rng, locations)),
        LOCATION => records::location(generate::any_byte(rng)),
        INVARIANT => records::invariant(generate::invariant_atom(rng, some_clocks, locations)),
        EDGE => records::edge(generate::index_below(rng, locations), rng.byte(), rng.between(1, 9) as u16),
        GUARD => records::guard(generate::guard_atom(rng, some_clocks)),
        BRANCH => records::branch(Branch {
            weight: rng.between(1, 9) as u16,
            target: generate::index_below(rng, locations),
            mask: generate::mask(rng, clocks),
        }),
        _ => records::end(),
    }
}

/// Records put in at each place, left out, doubled, exchanged; kinds overwritten.
fn moved_records(cases: &mut Cases) {
    let mut models: Vec<Model> = vec![generate::printed(), generate::sample()];
    models.push(generate::model(&mut cases.rng, &SMALL));
    for model in &models {
        let records = Records::of(model);
        let locations = model.labels.len() as u8;
        for index in 0..records.list.len() {
            for kind in HEADER..=END {
                let record = fitting_record(&mut cases.rng, kind, model.clocks, locations);
                cases.add(&records.with_record(index, record).bytes());
            }
            let unknown = cases.rng.pick(&[0, 8, 9, 255]);
            cases.refused(&records.with_record(index, vec![unknown]).bytes(), 3, records.place(index));
            for kind in [0, 8, 128, 255] {
                cases.refused(&records.with_byte(index, 0, kind).bytes(), 3, records.place(index));
            }
            cases.add(&records.without(index).bytes());
            cases.add(&records.with_record(index, records.list[index].clone()).bytes());
            if index + 1 < records.list.len() {
                let mut exchanged = records.clone();
                exchanged.list.swap(index, index + 1);
                cases.add(&exchanged.bytes());
            }
        }
    }
    for _ in 0..250 {
        let records = Records::of(&generate::model(&mut cases.rng, &RICH));
        let table = with_moved_records(&mut cases.rng, records);
        cases.add(&table);
    }
}

/// The table with one or two records moved by chance.
pub fn with_moved_records(rng: &mut Rng, mut records: Records) -> Vec<u8> {
    for _ in 0..rng.between(1, 2) {
        let from = rng.below(records.list.len());
        let record = records.list.remove(from);
        let to = rng.below(records.list.len() + 1);
        records.list.insert(to, record);
    }
    records.bytes()
}

/// The table with damage near its end: among the last 400 records, or behind them.
pub fn with_late_damage(rng: &mut Rng, model: &Model) -> Vec<u8> {
    let mut records = Records::of(model);
    let whole = records.bytes();
    let count = records.list.len();
    let index = rng.between(count.saturating_sub(400).max(1), count - 1);
    match rng.below(10) {
        0 => whole[..records.place(index)].to_vec(),
        1 => whole[..records.place(index) + 1].to_vec(),
        2 | 3 => {
            meetings::spoil(rng, model, &mut records, index);
            records.bytes()
        }
        // A guard atom, a branch or an edge more, which is one too many where the model has as many as may be.
        4..=6 => records.with_record(index, records.list[index].clone()).bytes(),
        7 => records.with_record(count - 1, records::edge(model.initial, 0, 1)).bytes(),
        8 => records.with_byte(index, 0, rng.pick(&[0, 1, 2, 3, 7, 8, 255])).bytes(),
        _ => [whole, vec![7; rng.between(1, 60)]].concat(),
    }
}

/// Byte strings by chance: any bytes, small bytes, and either after a valid beginning.
fn byte_strings(cases: &mut Cases) {
    for round in 0..240 {
        let table = byte_string(&mut cases.rng, round % 2 == 0, round % 4 >= 2);
        cases.add(&table);
    }
}

/// A byte string by chance: any bytes or small ones, alone or after a valid beginning.
pub fn byte_string(rng: &mut Rng, small: bool, after_beginning: bool) -> Vec<u8> {
    let length = rng.between(1, 48);
    let mut table: Vec<u8> =
        (0..length).map(|_| if small { rng.below(9) as u8 } else { rng.byte() }).collect();
    if after_beginning {
        let whole = Records::of(&generate::model(rng, &SMALL));
        let kept = rng.between(1, whole.list.len() - 1);
        table.splice(0..0, whole.bytes()[..whole.place(kept)].to_vec());
    }
    table
}

/// Sequences of well-formed records by chance.
fn record_sequences(cases: &mut Cases) {
    for _ in 0..500 {
        let table = record_sequence(&mut cases.rng);
        cases.add(&table);
    }
}

/// A sequence of well-formed records by chance. The next kind is mostly one that the order allows, its
/// numbers are mostly in range, and edges are mostly given the branches that they ask for.
pub fn record_sequence(rng: &mut Rng) -> Vec<u8> {
    let (clocks, locations) = (rng.below(5) as u8, rng.between(1, 4) as u8);
    let mut table = records::header(clocks, locations, rng.below(locations.into()) as u8);
    for _ in 0..locations {
        table.extend(records::location(rng.byte()));
    }
    let mut last = LOCATION;
    for _ in 0..rng.between(1, 14) {
        let usual: &[u8] = match last {
            LOCATION | INVARIANT => &[INVARIANT, EDGE, EDGE, END],
            EDGE | GUARD => &[GUARD, BRANCH, BRANCH, BRANCH],
            _ => &[BRANCH, EDGE, EDGE, END],
        };
        let kind = if rng.chance(1, 30) { rng.between(1, 7) as u8 } else { rng.pick(usual) };
        let mut record = fitting_record(rng, kind, clocks, locations);
        let body = body_length(kind).unwrap_or(0);
        if body > 0 && rng.chance(1, 30) {
            record[rng.between(1, body)] = rng.byte();
        }
        if kind == EDGE && rng.chance(3, 4) {
            // An edge together with a whole share, so that the sequence often gets beyond it.
            let weight = u16::from_le_bytes([record[3], record[4]]);
            record.extend(records::branch(Branch { weight, target: 0, mask: 0 }));
            last = BRANCH;
        } else {
            last = kind;
        }
        table.extend(record);
        if kind == END {
            break;
        }
    }
    table
}
