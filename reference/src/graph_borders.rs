// Cases of the graph call whose answers are foretold from how the model was made: each comparison at each
// place of a clock, invariants, edges into a broken invariant, resets among equal and different fractions,
// the lent bytes around what a graph takes, the limit of 4,096, and refusals 1 to 14.
//
// As long as all clocks have been reset together they are equal, and a location's regions form a line: 0,
// between 0 and 1, 1, and so on up to M, then over. Place 2 c of the line is the constant c, place 2 M + 1
// is over. The counts below are made on that line, without regions.

use crate::generate;
use crate::graph_cases::{count_of, written, GraphCases};
use crate::graph_models::{
    all_of, all_regions, by_chance, by_chance_of, edge, free, guard, invariant, model, topped_up, AT_LEAST,
    AT_MOST, EQUAL, LESS, MORE,
};
use crate::records::{self, with_places, Records};
use crate::region::ENTRY;
use crate::table::{Branch, Refusal, LONGEST_TABLE, MOST_GUARDS, MOST_INVARIANTS};

/// Adds all cases of this file.
pub fn add_cases(cases: &mut GraphCases) {
    cases.begin_group(21);
    printed(cases);
    guards(cases);
    invariants(cases);
    constants_of_no_use(cases);
    cases.begin_group(22);
    broken_targets(cases);
    resets(cases);
    free_models(cases);
    cases.begin_group(23);
    lent_bytes(cases);
    limit(cases);
    cases.begin_group(24);
    no_start(cases);
    refused_tables(cases);
}

/// The places of the line for M.
fn line(largest: u8) -> std::ops::RangeInclusive<usize> {
    0..=2 * usize::from(largest) + 1
}

/// Whether a comparison with a constant holds at a place of the line.
fn holds(place: usize, comparison: u8, constant: u8) -> bool {
    let at = 2 * usize::from(constant);
    match comparison {
        LESS => place < at,
        AT_MOST => place <= at,
        MORE => place > at,
        AT_LEAST => place >= at,
        _ => place == at,
    }
}

/// The document's printed model, with five entries, with four, and with other numbers of bytes.
fn printed(cases: &mut GraphCases) {
    let model = generate::printed();
    for lent in [5 * ENTRY, 4 * ENTRY, 0, 1, 8, 9, 10, 35, 37, 44, 46, 53, 54, 2_048 * ENTRY] {
        cases.regions(&model, 5, lent);
    }
}

/// One guard atom: each comparison with each constant, for one to four equal clocks, with and without reset.
fn guards(cases: &mut GraphCases) {
    let mut round = 0;
    for largest in [0, 1, 2, 3, 15] {
        for constant in (0..=largest).filter(|&constant| largest < 15 || [0, 7, 14, 15].contains(&constant)) {
            for comparison in LESS..=EQUAL {
                for with_reset in [false, true] {
                    round += 1;
                    let clocks = 1 + round % 4;
                    let clock = (round / 4) % clocks;
                    let mask = if with_reset { all_of(clocks) } else { 0 };
                    let edges = vec![
                        edge(0, &[guard(clock, comparison, constant)], &[(1, mask)]),
                        edge(1, &[guard(clocks - 1, EQUAL, largest)], &[(1, 0)]),
                    ];
                    let first = line(largest).find(|&place| holds(place, comparison, constant));
                    let whole = line(largest).count();
                    let entered = match first {
                        Some(_) if with_reset => whole,
                        Some(first) => whole - first,
                        None => 0,
                    };
                    let count = whole + entered;
                    cases.regions(&model(clocks, 2, Vec::new(), edges), count, count * ENTRY);
                }
            }
        }
    }
}

/// Invariants of the initial location: strict and not, one and two atoms.
fn invariants(cases: &mut GraphCases) {
    let mut round = 0;
    for largest in [0, 1, 2, 3, 15] {
        for constant in (0..=largest).filter(|&constant| largest < 15 || [0, 1, 14, 15].contains(&constant)) {
            for comparison in [LESS, AT_MOST] {
                round += 1;
                let clocks = 1 + round % 4;
                let mut atoms = vec![invariant(0, round % clocks, comparison, constant)];
                if round % 3 == 0 {
                    atoms.insert(0, invariant(0, 0, AT_MOST, largest));
                }
                // The other location is entered at each place and is as the first, with M as its bound.
                atoms.push(invariant(1, clocks - 1, AT_MOST, largest));
                let edges = vec![edge(0, &[], &[(1, 0)])];
                let model = model(clocks, 2, atoms, edges);
                let here = line(largest).filter(|&place| holds(place, comparison, constant)).count();
                if here == 0 {
                    let no_start = Err(Refusal { number: 14, place: 0 });
                    cases.foretold(&written(&model), 3 * ENTRY, no_start);
                } else {
                    let count = here + line(largest).count() - 1;
                    cases.regions(&model, count, count * ENTRY);
                }
            }
        }
    }
}

/// Constants of atoms that are never looked at, or that always hold, count for M all the same.
fn constants_of_no_use(cases: &mut GraphCases) {
    for largest in [0, 1, 2, 5, 14, 15] {
        let count = line(largest).count();
        let lent = count * ENTRY + 4;
        let unreached = vec![invariant(1, 0, LESS, largest)];
        cases.regions(&model(1, 2, unreached, Vec::new()), count, lent);
        let unreached = vec![edge(1, &[guard(0, MORE, largest)], &[(0, 1)])];
        cases.regions(&model(2, 2, Vec::new(), unreached), count, lent);
        let other_clock = vec![edge(0, &[guard(3, LESS, largest)], &[(0, 0)])];
        cases.regions(&model(4, 1, Vec::new(), other_clock), count, lent);
        let bounded = vec![invariant(0, 1, AT_MOST, largest)];
        cases.regions(&model(2, 1, bounded, Vec::new()), count - 1, lent);
    }
    // Without a constant M is 0, and without clocks nothing follows.
    cases.regions(&model(3, 1, Vec::new(), Vec::new()), 2, 2 * ENTRY);
    cases.regions(&model(0, 1, Vec::new(), Vec::new()), 1, ENTRY);
    cases.regions(&model(0, 3, Vec::new(), vec![edge(0, &[], &[(0, 0), (2, 0), (0, 0)])]), 2, 2 * ENTRY);
}

/// Edges one of whose branches may land in a broken invariant. The edge vanishes whole: the branch that
/// would land in a new region, before or after the broken one, gives it no number.
fn broken_targets(cases: &mut GraphCases) {
    let mut round = 0;
    for largest in [1, 2, 3] {
        for bound in 0..=largest {
            for comparison in [LESS, AT_MOST] {
                for from in 0..=largest {
                    round += 1;
                    // Location 1 has the invariant. Location 2 is entered with clock 1 reset and lets no
                    // time pass, so that it has a region for each place where the edge is available.
                    let bounded = (1, 0);
                    let marks = (2, 2);
                    let branches = match round % 3 {
                        0 => vec![bounded, marks],
                        1 => vec![marks, bounded],
                        _ => vec![marks, bounded, marks],
                    };
                    let atoms = vec![
                        invariant(1, 0, comparison, bound),
                        invariant(2, 1, AT_MOST, 0),
                        invariant(1, 1, AT_MOST, largest),
                    ];
                    let edges = vec![edge(0, &[guard(round % 2, AT_LEAST, from)], &branches)];
                    let available = line(largest)
                        .filter(|&place| holds(place, AT_LEAST, from) && holds(place, comparison, bound))
                        .count();
                    let count = line(largest).count() + 2 * available;
                    cases.regions(&model(2, 3, atoms, edges), count, count * ENTRY + usize::from(round % 5));
                }
            }
        }
    }
    // A reset brings the branch back under the invariant; below 0 nothing helps.
    for (comparison, constant, entered) in [(AT_MOST, 0, 1), (LESS, 1, 2), (LESS, 0, 0)] {
        let atoms = vec![invariant(1, 0, comparison, constant)];
        let edges = vec![edge(0, &[guard(0, AT_LEAST, 2)], &[(1, 1)])];
        let count = line(2).count() + entered;
        cases.regions(&model(1, 2, atoms, edges), count, count * ENTRY);
    }
}

/// The number of regions of one location whose clocks are two groups of equal ones, the second never above
/// the first: pairs of places, and three orders of the fractions where both are between whole numbers (two
/// where the integer parts are equal).
fn two_groups(largest: u8) -> usize {
    let over = line(largest).count() - 1;
    let mut count = 0;
    for first in line(largest) {
        for second in line(largest).take_while(|&second| second <= first) {
            let both_between = first % 2 == 1 && second % 2 == 1 && first != over;
            count += match (both_between, first == second) {
                (true, true) => 2,
                (true, false) => 3,
                (false, _) => 1,
            };
        }
    }
    count
}

/// One reset of each choice of clocks at any time: equal fractions stay equal.
fn resets(cases: &mut GraphCases) {
    for largest in [0, 1, 2] {
        for clocks in 2..=4 {
            for mask in 1..=all_of(clocks) {
                let edges = vec![
                    edge(1, &[guard(0, AT_MOST, largest)], &[(1, 0)]),
                    edge(0, &[], &[(1, mask)]),
                    edge(0, &[], &[(1, mask), (0, 0)]),
                ];
                let whole = line(largest).count();
                let entered = if mask == all_of(clocks) { whole } else { two_groups(largest) };
                let count = whole + entered;
                cases.regions(&model(clocks, 2, Vec::new(), edges), count, count * ENTRY);
            }
        }
    }
}

/// Models that reach all regions: every order of fractions, every way to close up ranks.
fn free_models(cases: &mut GraphCases) {
    for (clocks, largest) in [
        (1, 0),
        (1, 1),
        (1, 15),
        (2, 0),
        (2, 1),
        (2, 2),
        (2, 5),
        (2, 15),
        (3, 0),
        (3, 1),
        (3, 2),
        (3, 3),
        (4, 0),
        (4, 1),
        (4, 2),
    ] {
        let count = all_regions(clocks, largest);
        cases.regions(&free(clocks, largest, 1), count, (count * ENTRY).min(36_864));
    }
    for (clocks, largest, locations) in [(2, 3, 3), (3, 1, 4), (4, 0, 3)] {
        let count = usize::from(locations) * all_regions(clocks, largest);
        cases.regions(&free(clocks, largest, locations), count, count * ENTRY);
        cases.regions(&free(clocks, largest, locations), count, count * ENTRY - 1);
    }
}

/// The lent bytes around what the graph takes, for models of different sizes.
fn lent_bytes(cases: &mut GraphCases) {
    let mut models = vec![model(2, 1, vec![invariant(0, 1, AT_MOST, 0)], Vec::new())];
    for greatest in [2, 3, 5, 8, 12, 20, 20, 50, 50, 50, 120, 120, 120, 300, 300, 300, 700, 700] {
        let found = loop {
            let model = by_chance(&mut cases.rng);
            if count_of(&model).is_some_and(|count| count <= greatest && 2 * count > greatest) {
                break model;
            }
        };
        models.push(found);
    }
    for model in &models {
        let count = count_of(model).expect("chosen by its count");
        let exact = count * ENTRY;
        let partial = exact + cases.rng.between(1, ENTRY - 1);
        let some = cases.rng.below(exact);
        let more = exact + cases.rng.between(ENTRY, 400);
        for lent in [0, 8, 9, exact - ENTRY, exact - 1, exact, exact + 1, partial, exact + ENTRY, more, some]
        {
            cases.regions(model, count, lent);
        }
    }
}

/// Graphs of 4,095, 4,096 and 4,097 regions, and of many more.
fn limit(cases: &mut GraphCases) {
    for (clocks, largest, locations) in [(2, 15, 2), (3, 2, 10), (4, 1, 7)] {
        let base = free(clocks, largest, locations);
        let reached = usize::from(locations) * all_regions(clocks, largest);
        let topped = |count: usize| topped_up(base.clone(), largest, count - reached);
        cases.regions(&topped(4_095), 4_095, 36_855);
        for lent in [36_855, 36_863, 36_864, 37_000] {
            cases.regions(&topped(4_096), 4_096, lent);
        }
        for lent in [36_864, 37_000] {
            cases.regions(&topped(4_097), 4_097, lent);
        }
    }
    for (clocks, largest, locations, lent) in [(4, 15, 1, 37_000), (3, 15, 64, 36_872), (2, 9, 40, 36_873)] {
        let mut model = free(clocks, largest, 1);
        model.labels = vec![1; locations];
        for location in 1..locations as u8 {
            model.edges.push(edge(location - 1, &[], &[(location, 1)]));
        }
        // How many more than 4,096 there are does not matter.
        cases.regions(&with_places(model), 4_097, lent);
    }
}

/// Region 0 breaks its invariant: an atom below 0 at the initial location, alone or among others, with any
/// number of bytes lent (none too: 14 comes before 15). Below 0 at another location does not matter.
fn no_start(cases: &mut GraphCases) {
    let refusal = Err(Refusal { number: 14, place: 0 });
    for lent in [0, 8, 9, 45, 36_864] {
        let mut model = generate::printed();
        model.invariants.push(invariant(0, 0, LESS, 0));
        cases.foretold(&written(&with_places(model)), lent, refusal);
    }
    for round in 0..48 {
        let (clocks, largest) = (cases.rng.between(1, 4) as u8, cases.rng.between(0, 3) as u8);
        let locations = cases.rng.between(2, 6) as u8;
        let mut model = by_chance_of(&mut cases.rng, clocks, largest, locations);
        let clock = cases.rng.below(clocks.into()) as u8;
        let index = cases.rng.between(0, model.invariants.len());
        let at_start = round % 6 != 5;
        let location = if at_start { model.initial } else { (model.initial + 1) % locations };
        model.invariants.insert(index, invariant(location, clock, LESS, 0));
        let model = with_places(model);
        let lent = match round % 4 {
            0 => 0,
            1 => cases.rng.below(ENTRY),
            2 => ENTRY,
            _ => cases.rng.between(0, 300),
        };
        if at_start {
            cases.foretold(&written(&model), lent, refusal);
        } else if let Some(count) = count_of(&model) {
            cases.regions(&model, count, count.min(1_000) * ENTRY);
        }
    }
}

/// Each refusal of 1 to 13 with bytes lent, which stay as they are, and before 14 and 15.
fn refused_tables(cases: &mut GraphCases) {
    for (round, (refusal, table)) in refused_list().into_iter().enumerate() {
        let lent = [45, 100, 0, 9][round % 4];
        cases.foretold(&table, lent, Err(refusal));
    }
}

/// Tables with the refusals of 1 to 13 that they must get, each number at least twice.
pub fn refused_list() -> Vec<(Refusal, Vec<u8>)> {
    let records = Records::of(&generate::printed());
    let whole = records.bytes();
    let place = |index: usize| records.place(index);
    let with = |index: usize, position: usize, value: u8| records.with_byte(index, position, value).bytes();
    let (atom, edge, guard, branch, end) = (3, 4, 5, 6, 8);
    let mut tables = vec![
        (1, 0, vec![0; LONGEST_TABLE + 1]),
        (1, 0, [&whole[..], &vec![7; LONGEST_TABLE + 1 - whole.len()]].concat()),
        (2, 0, Vec::new()),
        (2, place(end), whole[..place(end)].to_vec()),
        (3, place(guard), with(guard, 0, 8)),
        (3, 0, with(0, 0, 0)),
        (4, place(branch), whole[..place(branch) + 4].to_vec()),
        (4, 0, vec![1, 1, 1]),
        (5, 0, vec![7]),
        (5, place(edge), records.with_record(edge, records.list[0].clone()).bytes()),
        (6, 0, with(0, 1, 5)),
        (6, 0, with(0, 3, 2)),
        (7, place(guard), with(guard, 1, 1)),
        (7, place(branch), with(branch, 4, 2)),
        (8, place(atom), with(atom, 3, 2)),
        (8, place(guard), with(guard, 2, 5)),
        (9, place(atom), with(atom, 4, 16)),
        (9, place(guard), with(guard, 3, 255)),
        (10, place(edge), with(edge, 3, 0)),
        (10, place(branch), with(branch, 1, 0)),
        (12, place(edge), with(branch, 1, 2)),
        (12, place(edge), [&whole[..place(branch)], &[7]].concat()),
        (13, whole.len(), [&whole[..], &[0]].concat()),
        (13, whole.len(), [&whole[..], &whole[..]].concat()),
    ];
    let mut many = records.clone();
    for _ in 0..MOST_INVARIANTS {
        many.list.insert(atom, records.list[atom].clone());
    }
    tables.push((11, many.place(atom + MOST_INVARIANTS), many.bytes()));
    let mut many = records.clone();
    for _ in 0..MOST_GUARDS {
        many.list.insert(guard, records.list[guard].clone());
    }
    tables.push((11, many.place(guard + MOST_GUARDS), many.bytes()));
    // Faults after an atom below 0 at the initial location, which by itself would be 14.
    let below = records.with_record(atom, records::invariant(invariant(0, 0, LESS, 0)));
    tables.push((9, below.place(guard + 1), below.with_byte(guard + 1, 3, 16).bytes()));
    let nothing = records::branch(Branch { weight: 0, target: 0, mask: 0 });
    tables.push((10, below.place(end + 1), below.with_record(end + 1, nothing).bytes()));
    tables.into_iter().map(|(number, place, table)| (Refusal { number, place }, table)).collect()
}
