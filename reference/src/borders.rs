// Cases on both sides of each border: every number that has a range, every maximum, every sum, the count
// of locations, the first record, the end and the length of the table. All answers are foretold from how
// the table was made.

use crate::cases::Cases;
use crate::generate::{self, Shape, LARGEST, RICH, SMALL, TINY};
use crate::records::{self, Records};
use crate::table::{
    Branch, GuardAtom, InvariantAtom, Model, BRANCH, EDGE, GUARD, INVARIANT, LARGEST_DENOMINATOR, LOCATION,
    LONGEST_TABLE, MOST_BRANCHES, MOST_CLOCKS, MOST_EDGES, MOST_GUARDS, MOST_INVARIANTS, MOST_LOCATIONS,
};

/// Adds all cases of this file.
pub fn add_cases(cases: &mut Cases) {
    cases.begin_group(2);
    let mut bases = vec![generate::printed(), generate::sample()];
    for clocks in 0..=MOST_CLOCKS {
        let shape = Shape { clocks: (clocks, clocks), ..RICH };
        bases.push(generate::model(&mut cases.rng, &shape));
    }
    for locations in [1, MOST_LOCATIONS] {
        let shape = Shape { locations: (locations, locations), ..RICH };
        bases.push(generate::model(&mut cases.rng, &shape));
    }
    for base in &bases {
        header_numbers(cases, base);
        fields(cases, base);
        bytes_after_end(cases, base);
    }
    for base in [generate::sample(), generate::model(&mut cases.rng, &RICH)] {
        sums(cases, &base);
        counts_of_an_edge(cases, &base);
    }
    location_counts(cases);
    counts_of_a_table(cases);
    largest_tables(cases);
    first_records(cases);
    longest_tables(cases);
}

/// The first, the middle and the last of a list, each once.
fn first_middle_last(list: &[usize]) -> Vec<usize> {
    if list.is_empty() {
        return Vec::new();
    }
    let mut chosen = vec![list[0], list[list.len() / 2], list[list.len() - 1]];
    chosen.dedup();
    chosen
}

/// One byte of a record with values that are in range.
fn good(cases: &mut Cases, records: &Records, index: usize, position: usize, values: &[u8]) {
    for &value in values {
        cases.foretold(&records.with_byte(index, position, value).bytes(), None);
    }
}

/// One byte of a record with values that are out of range: this refusal, where the record begins.
fn bad(cases: &mut Cases, records: &Records, index: usize, position: usize, values: &[u8], number: u32) {
    for &value in values {
        cases.refused(&records.with_byte(index, position, value).bytes(), number, records.place(index));
    }
}

/// The header's three numbers. More clocks than the model uses do no harm.
fn header_numbers(cases: &mut Cases, base: &Model) {
    let records = Records::of(base);
    let count = base.labels.len() as u8;
    let clocks: Vec<u8> = (base.clocks..=MOST_CLOCKS).collect();
    good(cases, &records, 0, 1, &clocks);
    bad(cases, &records, 0, 1, &[5, 6, 16, 128, 255], 6);
    good(cases, &records, 0, 2, &[count]);
    bad(cases, &records, 0, 2, &[0, 65, 66, 128, 255], 6);
    good(cases, &records, 0, 3, &[0, count - 1]);
    bad(cases, &records, 0, 3, &[count, count + 1, 64, 255], 6);
    // One location more or less than the header says, whatever the initial location.
    if count < MOST_LOCATIONS {
        let mut more = records.with_byte(0, 2, count + 1);
        cases.refused(&more.bytes(), 5, records.place(usize::from(count) + 1));
        more.list[0][3] = count;
        cases.refused(&more.bytes(), 5, records.place(usize::from(count) + 1));
    }
    if count > 1 {
        let less = records.with_byte(0, 2, count - 1);
        cases.refused(&less.with_byte(0, 3, count - 1).bytes(), 6, 0);
        cases.refused(&less.with_byte(0, 3, 0).bytes(), 5, records.place(count.into()));
    }
    // A header with several numbers out of range.
    cases.refused(&records.with_byte(0, 1, 5).with_byte(0, 2, 0).bytes(), 6, 0);
    cases.refused(&records.with_byte(0, 1, 5).with_byte(0, 3, 255).bytes(), 6, 0);
    cases.refused(&records.with_byte(0, 2, 255).with_byte(0, 3, 254).bytes(), 6, 0);
}

/// The bytes of invariant atoms, edges, guard atoms and branches, at the first, middle and last of each.
fn fields(cases: &mut Cases, base: &Model) {
    let records = Records::of(base);
    let (clocks, count) = (base.clocks, base.labels.len() as u8);
    let locations = [0, count - 1];
    let no_locations = [count, count + 1, 64, 255];
    let some_clocks: Vec<u8> = if clocks == 0 { vec![] } else { vec![0, clocks - 1] };
    let no_clocks = [clocks, clocks + 1, 128, 255];
    let constants = [0, 1, 14, 15];
    let no_constants = [16, 17, 31, 128, 255];
    for index in first_middle_last(&records.of_kind(LOCATION)) {
        good(cases, &records, index, 1, &[0, 1, 127, 128, 255]);
    }
    for index in first_middle_last(&records.of_kind(INVARIANT)) {
        good(cases, &records, index, 1, &locations);
        bad(cases, &records, index, 1, &no_locations, 7);
        good(cases, &records, index, 2, &some_clocks);
        bad(cases, &records, index, 2, &no_clocks, 7);
        good(cases, &records, index, 3, &[0, 1]);
        bad(cases, &records, index, 3, &[2, 3, 4, 5, 128, 255], 8);
        good(cases, &records, index, 4, &constants);
        bad(cases, &records, index, 4, &no_constants, 9);
    }
    for index in first_middle_last(&records.of_kind(EDGE)) {
        good(cases, &records, index, 1, &locations);
        bad(cases, &records, index, 1, &no_locations, 7);
        good(cases, &records, index, 2, &[0, 1, 128, 255]);
        // Denominators out of range, whatever the branches say: 0, from 60,001, up to 65,535.
        let zero = records.with_byte(index, 3, 0).with_byte(index, 4, 0);
        cases.refused(&zero.bytes(), 10, records.place(index));
        let above = records.with_byte(index, 4, 0xea);
        bad(cases, &above, index, 3, &[0x61, 0x62, 0xff], 10);
        let high = records.with_byte(index, 4, 0xff);
        bad(cases, &high, index, 3, &[0, 1, 0x60, 0xff], 10);
    }
    for index in first_middle_last(&records.of_kind(GUARD)) {
        good(cases, &records, index, 1, &some_clocks);
        bad(cases, &records, index, 1, &no_clocks, 7);
        good(cases, &records, index, 2, &[0, 1, 2, 3, 4]);
        bad(cases, &records, index, 2, &[5, 6, 7, 128, 255], 8);
        good(cases, &records, index, 3, &constants);
        bad(cases, &records, index, 3, &no_constants, 9);
    }
    let all = (1u8 << clocks) - 1;
    let mut masks = vec![0, all];
    masks.extend((0..clocks).map(|bit| 1 << bit));
    let mut no_masks = vec![255, !all];
    no_masks.extend((clocks..8).map(|bit| 1 << bit));
    no_masks.extend((clocks..8).map(|bit| (1 << bit) | all));
    for index in first_middle_last(&records.of_kind(BRANCH)) {
        good(cases, &records, index, 3, &locations);
        bad(cases, &records, index, 3, &no_locations, 7);
        good(cases, &records, index, 4, &masks);
        bad(cases, &records, index, 4, &no_masks, 7);
        let zero = records.with_byte(index, 1, 0).with_byte(index, 2, 0);
        cases.refused(&zero.bytes(), 10, records.place(index));
    }
    if clocks == 0 {
        // Without clocks no atom can be named at all.
        let edge = records.of_kind(EDGE)[0];
        let atom = records::invariant(InvariantAtom { location: 0, clock: 0, comparison: 0, constant: 0 });
        cases.refused(&records.with_record(edge, atom).bytes(), 7, records.place(edge));
        let atom = records::guard(GuardAtom { clock: 0, comparison: 3, constant: 0 });
        cases.refused(&records.with_record(edge + 1, atom).bytes(), 7, records.place(edge + 1));
    }
}

/// Bytes after the end record: one, several, a second end, a second table.
fn bytes_after_end(cases: &mut Cases, base: &Model) {
    let table = Records::of(base).bytes();
    let length = table.len();
    let many = vec![0; 40 + cases.rng.below(60)];
    let tails: [&[u8]; 8] = [&[0], &[1], &[7], &[8], &[255], &[7, 7], &many, &table];
    for tail in tails {
        cases.refused(&[&table, tail].concat(), 13, length);
    }
}

/// The model with other weights at one edge. Targets and masks are taken over as far as they go.
fn with_weights(base: &Model, edge: usize, denominator: u16, weights: &[u16]) -> Model {
    let mut model = base.clone();
    let old = base.edges[edge].branches.clone();
    model.edges[edge].denominator = denominator;
    model.edges[edge].branches = weights
        .iter()
        .enumerate()
        .map(|(number, &weight)| Branch { weight, ..old[number % old.len()] })
        .collect();
    records::with_places(model)
}

/// Adds a model whose only faults may be in the weights and counts of one edge.
fn weighed(cases: &mut Cases, model: &Model, edge: usize) {
    let records = Records::of(model);
    let table = records.bytes();
    let place = model.edges[edge].place;
    let branch = |number: usize| place + 5 + 4 * model.edges[edge].guards.len() + 5 * number;
    let weights: Vec<u16> = model.edges[edge].branches.iter().map(|branch| branch.weight).collect();
    let denominator = model.edges[edge].denominator;
    let too_many = (weights.len() > MOST_BRANCHES).then_some(MOST_BRANCHES);
    let empty = weights.iter().position(|&weight| weight == 0);
    if denominator == 0 || denominator > LARGEST_DENOMINATOR {
        cases.refused(&table, 10, place);
    } else if empty.is_some() && too_many.is_none_or(|number| empty <= Some(number)) {
        cases.refused(&table, 10, branch(empty.unwrap_or(0)));
    } else if let Some(number) = too_many {
        cases.refused(&table, 11, branch(number));
    } else if weights.iter().map(|&weight| u64::from(weight)).sum::<u64>() != denominator.into() {
        cases.refused(&table, 12, place);
    } else {
        cases.accepted(model);
    }
}

/// Denominators and weights: on, just below and just above the sum; sums that only wrapping arithmetic
/// takes for the denominator; weights of 0; edges without branches.
fn sums(cases: &mut Cases, base: &Model) {
    let lists: &[(u16, &[u16])] = &[
        (1, &[1]),
        (1, &[2]),
        (1, &[]),
        (1, &[1, 1]),
        (1, &[0]),
        (1, &[0, 1]),
        (1, &[1, 0]),
        (1, &[256]),
        (1, &[257]),
        (2, &[1]),
        (2, &[2]),
        (2, &[1, 1]),
        (3, &[1, 2]),
        (3, &[1, 1]),
        (3, &[2, 2]),
        (3, &[3, 0]),
        (3, &[1, 0, 2]),
        (3, &[259]),
        (3, &[65_535, 4]),
        (3, &[2, 65_535, 2]),
        (8, &[1, 1, 1, 1, 1, 1, 1, 1]),
        (8, &[1, 1, 1, 1, 1, 1, 1]),
        (8, &[1, 1, 1, 1, 1, 1, 1, 2]),
        (9, &[1, 1, 1, 1, 1, 1, 1, 1]),
        (256, &[1]),
        (256, &[256]),
        (256, &[255, 1]),
        (258, &[258]),
        (258, &[513]),
        (259, &[3]),
        (512, &[256, 256]),
        (59_904, &[59_904]),
        (59_999, &[59_999]),
        (59_999, &[60_000]),
        (60_000, &[60_000]),
        (60_000, &[59_999]),
        (60_000, &[60_001]),
        (60_000, &[65_535]),
        (60_000, &[]),
        (60_000, &[59_999, 1]),
        (60_000, &[1, 59_999]),
        (60_000, &[60_000, 1]),
        (60_000, &[30_000, 30_000]),
        (60_000, &[30_000, 29_999]),
        (60_000, &[30_000, 30_001]),
        (60_000, &[60_000, 60_000]),
        (60_000, &[65_535, 60_001]),
        (60_000, &[7_500, 7_500, 7_500, 7_500, 7_500, 7_500, 7_500, 7_500]),
        (60_000, &[7_500, 7_500, 7_500, 7_500, 7_500, 7_500, 7_500, 7_499]),
        (60_000, &[7_501, 7_500, 7_500, 7_500, 7_500, 7_500, 7_500, 7_500]),
        (60_000, &[65_535, 65_535, 65_535, 65_535, 65_535, 65_535, 65_535, 65_535]),
        (60_001, &[60_001]),
        (60_001, &[60_000]),
        (60_001, &[]),
        (65_535, &[65_535]),
        (65_535, &[65_534, 1]),
        (65_528, &[65_535, 65_535, 65_535, 65_535, 65_535, 65_535, 65_535, 65_535]),
        (0, &[]),
        (0, &[1]),
        (0, &[0]),
        (0, &[65_535, 1]),
    ];
    let edges: Vec<usize> = (0..base.edges.len()).collect();
    for edge in first_middle_last(&edges) {
        for &(denominator, weights) in lists {
            weighed(cases, &with_weights(base, edge, denominator, weights), edge);
        }
        for wraps in 1..=7u32 {
            for denominator in [1, 5, 300, 60_000] {
                let mut left = 65_536 * wraps + u32::from(denominator);
                let mut weights = Vec::new();
                while left > 0 {
                    let weight = left.min(65_535);
                    weights.push(weight as u16);
                    left -= weight;
                }
                if weights.len() <= MOST_BRANCHES {
                    weighed(cases, &with_weights(base, edge, denominator, &weights), edge);
                }
            }
        }
        // An edge without branches, with and without guard atoms, and a table that stops there.
        let mut model = with_weights(base, edge, 7, &[]);
        let last_guard = model.edges[edge].guards.len();
        weighed(cases, &model, edge);
        let table = Records::of(&model).bytes();
        let stop = model.edges[edge].place + 5 + 4 * last_guard;
        cases.refused(&table[..stop], 2, stop);
        model.edges[edge].guards.clear();
        weighed(cases, &records::with_places(model), edge);
    }
}

/// Guard atoms and branches of one edge around their maxima.
fn counts_of_an_edge(cases: &mut Cases, base: &Model) {
    let edges: Vec<usize> = (0..base.edges.len()).collect();
    for edge in first_middle_last(&edges) {
        for count in [0, 1, MOST_GUARDS - 1, MOST_GUARDS, MOST_GUARDS + 1, MOST_GUARDS + 2] {
            let mut model = base.clone();
            let atoms = (0..count).map(|_| generate::guard_atom(&mut cases.rng, base.clocks));
            model.edges[edge].guards = atoms.collect();
            let model = records::with_places(model);
            if count <= MOST_GUARDS {
                cases.accepted(&model);
            } else {
                let place = model.edges[edge].place + 5 + 4 * MOST_GUARDS;
                cases.refused(&Records::of(&model).bytes(), 11, place);
            }
        }
        for count in [1, MOST_BRANCHES - 1, MOST_BRANCHES, MOST_BRANCHES + 1, MOST_BRANCHES + 2, 20] {
            let even = vec![100; count];
            weighed(cases, &with_weights(base, edge, 100 * count as u16, &even), edge);
            weighed(cases, &with_weights(base, edge, 100 * MOST_BRANCHES as u16, &even), edge);
            weighed(cases, &with_weights(base, edge, 1, &even), edge);
        }
    }
}

/// Locations around their least and greatest number, by the header and by the records.
fn location_counts(cases: &mut Cases) {
    for said in [1, 2, 3, MOST_LOCATIONS - 1, MOST_LOCATIONS] {
        let shape = Shape { locations: (said, said), ..SMALL };
        for _ in 0..2 {
            let model = generate::model(&mut cases.rng, &shape);
            cases.accepted(&model);
            let records = Records::of(&model);
            let after = usize::from(said) + 1;
            // One too many: at the end of the locations.
            let more = records.with_record(after, records::location(9));
            cases.refused(&more.bytes(), 5, more.place(after));
            // One too few: whatever comes next is out of order.
            let fewer = records.without(after - 1);
            cases.refused(&fewer.bytes(), 5, fewer.place(after - 1));
            // None at all.
            let mut none = records.clone();
            none.list.drain(1..after);
            cases.refused(&none.bytes(), 5, none.place(1));
            // The table stops before enough locations.
            for stop in [1, after - 1] {
                let table = &records.bytes()[..records.place(stop)];
                cases.refused(table, 2, table.len());
            }
        }
    }
    let model =
        generate::model(&mut cases.rng, &Shape { locations: (MOST_LOCATIONS, MOST_LOCATIONS), ..SMALL });
    let records = Records::of(&model).with_record(1, records::location(1));
    cases.refused(&records.with_byte(0, 2, MOST_LOCATIONS + 1).bytes(), 6, 0);
    cases.refused(&records.with_byte(0, 2, MOST_LOCATIONS + 1).with_byte(0, 3, MOST_LOCATIONS).bytes(), 6, 0);
    cases.refused(&[records::header(0, 1, 0), records::end()].concat(), 5, 4);
    cases.foretold(&[records::header(0, 1, 0), records::location(0), records::end()].concat(), None);
}

/// Invariant atoms and edges of the table around their maxima.
fn counts_of_a_table(cases: &mut Cases) {
    for count in [MOST_INVARIANTS - 1, MOST_INVARIANTS, MOST_INVARIANTS + 1, MOST_INVARIANTS + 2, 200] {
        for locations in [1, 2, MOST_LOCATIONS] {
            let shape = Shape {
                clocks: (1, MOST_CLOCKS),
                locations: (locations, locations),
                invariants: (count, count),
                ..SMALL
            };
            let model = generate::model(&mut cases.rng, &shape);
            if count <= MOST_INVARIANTS {
                cases.accepted(&model);
            } else {
                let records = Records::of(&model);
                let place = records.place(1 + usize::from(locations) + MOST_INVARIANTS);
                cases.refused(&records.bytes(), 11, place);
            }
        }
    }
    for count in [MOST_EDGES - 1, MOST_EDGES, MOST_EDGES + 1, MOST_EDGES + 2, 200] {
        for fat in [1, 1, 3] {
            let shape = Shape { edges: (count, count), guards: (0, fat), branches: (1, fat), ..TINY };
            let model = generate::model(&mut cases.rng, &shape);
            if count <= MOST_EDGES {
                cases.accepted(&model);
            } else {
                let place = model.edges[MOST_EDGES].place;
                cases.refused(&Records::of(&model).bytes(), 11, place);
                // Without the surplus the same table is read to its end.
                let mut fitting = model.clone();
                fitting.edges.truncate(MOST_EDGES);
                cases.accepted(&fitting);
            }
        }
    }
    // 129 edges of which the last has no branches; 128 of which the last has none.
    let shape = Shape { edges: (MOST_EDGES + 1, MOST_EDGES + 1), guards: (0, 0), branches: (1, 1), ..TINY };
    let mut model = generate::model(&mut cases.rng, &shape);
    model.edges[MOST_EDGES].branches.clear();
    cases.refused(&Records::of(&model).bytes(), 11, model.edges[MOST_EDGES].place);
    model.edges.truncate(MOST_EDGES);
    model.edges[MOST_EDGES - 1].branches.clear();
    cases.refused(&Records::of(&model).bytes(), 12, model.edges[MOST_EDGES - 1].place);
}

/// The largest table with one fault, mostly near its end.
fn largest_tables(cases: &mut Cases) {
    let model = generate::model(&mut cases.rng, &LARGEST);
    let records = Records::of(&model);
    let length = records.bytes().len();
    let last = records.list.len() - 1;
    let first_edge = records.of_kind(EDGE)[0];
    let last_edge = records.of_kind(EDGE)[MOST_EDGES - 1];
    let place = records.place(last_edge);
    let mut refused =
        |changed: Records, number: u32, place: usize| cases.refused(&changed.bytes(), number, place);

    let atom = InvariantAtom { location: 63, clock: 3, comparison: 1, constant: 15 };
    refused(records.with_record(first_edge, records::invariant(atom)), 11, records.place(first_edge));
    let part = Branch { weight: 1, target: 63, mask: 15 };
    refused(records.with_record(last, records::branch(part)), 11, length - 1);
    let atom = GuardAtom { clock: 3, comparison: 4, constant: 15 };
    refused(records.with_record(last_edge + 9, records::guard(atom)), 11, records.place(last_edge + 9));
    let whole = records::branch(Branch { weight: 60_000, target: 0, mask: 0 });
    let more = records.with_record(last, records::edge(63, 0, 60_000));
    refused(more.with_record(last + 1, whole), 11, length - 1);

    refused(records.with_byte(first_edge - 1, 4, 16), 9, records.place(first_edge - 1));
    refused(records.with_byte(last_edge, 1, 64), 7, place);
    refused(records.with_byte(last_edge + 8, 2, 5), 8, records.place(last_edge + 8));
    refused(records.with_byte(last - 1, 3, 64), 7, records.place(last - 1));
    refused(records.with_byte(last - 1, 4, 16), 7, records.place(last - 1));
    refused(records.with_byte(last - 1, 1, 0).with_byte(last - 1, 2, 0), 10, records.place(last - 1));
    refused(records.without(last - 1), 12, place);
    refused(records.without(last), 2, length - 1);
    refused(records.with_record(last + 1, vec![0]), 13, length);
    refused(records.with_byte(last, 0, 0), 3, length - 1);
    refused(records.with_byte(last, 0, 1), 4, length - 1);
    refused(records.with_byte(0, 1, 3), 7, {
        let named = |record: &Vec<u8>| match record[0] {
            INVARIANT => record[2] == 3,
            GUARD => record[1] == 3,
            BRANCH => record[4] & 8 != 0,
            _ => false,
        };
        records.place(records.list.iter().position(named).unwrap_or(0))
    });
}

/// The points that the document names, and each kind as the first and only record.
fn first_records(cases: &mut Cases) {
    cases.refused(&[], 2, 0);
    cases.refused(&[7], 5, 0);
    for kind in [0, 8, 9, 10, 11, 12, 127, 128, 254, 255] {
        cases.refused(&[kind], 3, 0);
        cases.refused(&[kind, 1, 2, 0], 3, 0);
        cases.refused(&[vec![kind], Records::of(&generate::printed()).bytes()].concat(), 3, 0);
    }
    for (kind, body) in [(1, 3), (2, 1), (3, 4), (4, 4), (5, 3), (6, 4)] {
        for length in 0..body {
            cases.refused(&[vec![kind], vec![0; length]].concat(), 4, 0);
            cases.refused(&[vec![kind], vec![255; length]].concat(), 4, 0);
        }
        if kind > 1 {
            cases.refused(&[vec![kind], vec![0; body]].concat(), 5, 0);
            cases.refused(&[vec![kind], vec![255; body]].concat(), 5, 0);
            cases.refused(&[vec![kind], vec![1; body], vec![7]].concat(), 5, 0);
        }
    }
    cases.refused(&[1, 0, 1, 0], 2, 4);
    cases.refused(&[1, 5, 1, 0], 6, 0);
    cases.refused(&[1, 4, 1, 0], 2, 4);
    cases.refused(&[1, 0, 0, 0], 6, 0);
    cases.refused(&[1, 0, 1, 1], 6, 0);
    cases.refused(&[1, 4, 64, 63], 2, 4);
    cases.refused(&[1, 4, 64, 64], 6, 0);
    cases.refused(&[1, 4, 65, 64], 6, 0);
}

/// Tables around the greatest length: of zero bytes, beginning with a valid table, of far too many branches.
fn longest_tables(cases: &mut Cases) {
    let zeros = |table: &[u8], length: usize| [table.to_vec(), vec![0; length - table.len()]].concat();
    cases.refused(&zeros(&[], LONGEST_TABLE), 3, 0);
    cases.refused(&zeros(&[], LONGEST_TABLE + 1), 1, 0);
    let small = Records::of(&generate::sample()).bytes();
    cases.refused(&zeros(&small, LONGEST_TABLE), 13, small.len());
    cases.refused(&zeros(&small, LONGEST_TABLE + 1), 1, 0);
    cases.refused(&zeros(&small, 17_000), 1, 0);
    let largest = Records::of(&generate::model(&mut cases.rng, &LARGEST)).bytes();
    cases.refused(&zeros(&largest, LONGEST_TABLE), 13, largest.len());
    cases.refused(&zeros(&largest, LONGEST_TABLE + 1), 1, 0);
    let many = records::branch(Branch { weight: 1, target: 0, mask: 0 }).repeat(4_000);
    let edges = [records::header(0, 1, 0), records::location(0), records::edge(0, 0, 1), many].concat();
    cases.refused(&edges[..LONGEST_TABLE], 11, 11 + 5 * MOST_BRANCHES);
    cases.refused(&edges[..LONGEST_TABLE + 1], 1, 0);
}
