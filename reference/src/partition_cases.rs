// Which cases of the partition call there are.

use crate::block_borders;
use crate::block_cases::{some_lent, BlockCases, Demand, LONGEST_LIST, MOST_LENT};
use crate::block_chance::{drawn, early_refusals};
use crate::block_models::{chain, large, large_by_guards, retrying, ticking};
use crate::block_subject::{Lent, Subject};
use crate::explore::MOST_REGIONS;
use crate::heavy_models;
use crate::partition::Question;
use crate::vectors::{Vectors, PARTITION};

const DEMAND: Demand = Demand { fewest: 800, budget: 300_000, results: 430, refusals: &[(16, 120)] };

/// Makes all cases of the partition call.
pub fn make(vectors: &Vectors) -> Result<BlockCases, String> {
    let mut cases = BlockCases::new();
    cases.begin_group(61);
    borders(&mut cases);
    cases.begin_group(62);
    by_chance(&mut cases);
    cases.begin_group(63);
    many_rounds(&mut cases);
    many_regions(&mut cases);
    check_heavy();
    cases.begin_group(64);
    early_refusals(&mut cases, |_| Question::Partition);
    cases.begin_group(65);
    cases.add_vectors(vectors, PARTITION)?;
    cases.check("partition", &DEMAND);
    assert!(cases.above_1 >= 150, "only {} partitions with more than one round", cases.above_1);
    assert!(cases.above_100 >= 3, "only {} partitions with more than 100 rounds", cases.above_100);
    Ok(cases)
}

pub fn summary(cases: &BlockCases) -> String {
    let more = format!("above 1 round: {}, above 100: {}", cases.above_1, cases.above_100);
    cases.summary("partition", &more)
}

/// Lengths of the lists around N: enough, too short in one or in both.
fn lengths_around(count: usize) -> Vec<[usize; 2]> {
    let short = count - 1;
    vec![
        [count, count],
        [count + 1, count + 3],
        [short, count],
        [count, short],
        [short, short],
        [0, count + 9],
        [count + 9, 0],
        [count + 1, count / 2],
    ]
}

/// The models whose blocks are foretold, with lists around N.
fn borders(cases: &mut BlockCases) {
    for (round, border) in block_borders::all().into_iter().enumerate() {
        let exact = border.subject.exact();
        let lengths = lengths_around(border.subject.count());
        let other = lengths[1 + round % (lengths.len() - 1)];
        for lists in [lengths[0], lengths[2 + round % 2], other] {
            let spare = cases.rng.pick(&[0, 0, 1, 8, 9, 30]);
            let lent = Lent { entries: exact.entries + spare, lists };
            cases.ask(&border.subject, lent, &Question::Partition);
        }
    }
}

/// How many models by chance there are for each size of the graph, given by its fewest and most regions.
const SIZES: [(usize, usize, usize); 7] = [
    (1, 2, 20),
    (3, 12, 170),
    (13, 40, 180),
    (41, 120, 60),
    (121, 500, 20),
    (501, 2_000, 8),
    (2_001, MOST_REGIONS, 4),
];

/// Models by chance, so many of each size. One in six gets a list that is too short.
fn by_chance(cases: &mut BlockCases) {
    for (fewest, most, models) in SIZES {
        for _ in 0..models {
            let subject = drawn(&mut cases.rng, fewest, most).subject;
            let mut lent = some_lent(&mut cases.rng, &subject);
            if cases.rng.chance(1, 6) {
                let list = cases.rng.below(2);
                lent.lists[list] = if cases.rng.chance(1, 2) {
                    subject.count() - 1
                } else {
                    cases.rng.below(subject.count())
                };
            }
            cases.ask(&subject, lent, &Question::Partition);
        }
    }
}

/// Chains: as many rounds as there are steps.
fn many_rounds(cases: &mut BlockCases) {
    for (locations, label) in [(2, 1), (3, 1), (17, 1), (64, 1), (64, 0), (33, 255)] {
        let subject = Subject::of(chain(locations, label)).expect("a region a location");
        let rounds = usize::from(locations) - if label == 0 { 1 } else { 2 };
        assert_eq!(subject.rounds(), rounds, "a chain of {locations} parts step by step");
        cases.ask(&subject, subject.exact(), &Question::Partition);
    }
    for locations in [2, 9, 30, 64] {
        let subject = Subject::of(retrying(locations)).expect("a region a location");
        assert_eq!(subject.rounds(), usize::from(locations) - 1, "a chain of {locations} parts step by step");
        cases.ask(&subject, subject.exact(), &Question::Partition);
    }
    for (locations, largest) in
        [(1, 1), (1, 2), (2, 3), (1, 15), (4, 10), (5, 15), (8, 15), (10, 15), (20, 15)]
    {
        let subject = Subject::of(ticking(locations, largest)).expect("three regions a tick");
        let ticks = usize::from(locations) * usize::from(largest);
        assert!(subject.rounds() >= 2 * ticks - 2, "{} rounds of {ticks} ticks", subject.rounds());
        cases.ask(&subject, subject.exact(), &Question::Partition);
    }
}

/// Checks the rounds of small models of the heavy makes. They are no cases.
fn check_heavy() {
    for model in heavy_models::small() {
        Subject::of(model).expect("a small model");
    }
}

/// Graphs of some thousand regions, up to the most, with lists around N.
fn many_regions(cases: &mut BlockCases) {
    let models = [
        large(2, 15, 2, MOST_REGIONS),
        large(3, 2, 10, MOST_REGIONS),
        large(4, 1, 7, 4_095),
        large_by_guards(3, 4),
        large_by_guards(2, 15),
    ];
    for model in models {
        let subject = Subject::of(model).expect("at most 4,096 regions");
        let exact = subject.exact();
        let count = subject.count();
        cases.ask(&subject, exact, &Question::Partition);
        let long = Lent { entries: MOST_LENT, lists: [LONGEST_LIST; 2] };
        cases.ask(&subject, long, &Question::Partition);
        for lists in [[count - 1, count], [LONGEST_LIST, count - 1]] {
            cases.ask(&subject, Lent { entries: exact.entries, lists }, &Question::Partition);
        }
    }
}
