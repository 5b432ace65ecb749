// Which cases of the pair call there are.

use crate::block_borders;
use crate::block_cases::{numbers_beyond, some_lent, BlockCases, Demand, LONGEST_LIST, MOST_LENT};
use crate::block_chance::{drawn, early_refusals};
use crate::block_models::{chain, large, large_by_guards, retrying, ticking};
use crate::block_subject::{Lent, Subject};
use crate::explore::MOST_REGIONS;
use crate::partition::Question;
use crate::rng::Rng;
use crate::vectors::{Vectors, PAIR};

const DEMAND: Demand =
    Demand { fewest: 1_100, budget: 350_000, results: 600, refusals: &[(16, 60), (19, 150)] };

/// Makes all cases of the pair call.
pub fn make(vectors: &Vectors) -> Result<BlockCases, String> {
    let mut cases = BlockCases::new();
    cases.begin_group(71);
    borders(&mut cases);
    cases.begin_group(72);
    by_chance(&mut cases);
    cases.begin_group(73);
    many_rounds(&mut cases);
    many_regions(&mut cases);
    cases.begin_group(74);
    beyond(&mut cases);
    early_refusals(&mut cases, any_pair);
    cases.begin_group(75);
    cases.add_vectors(vectors, PAIR)?;
    cases.check("pair", &DEMAND);
    assert!(cases.alike >= 200, "only {} pairs that share a block", cases.alike);
    Ok(cases)
}

pub fn summary(cases: &BlockCases) -> String {
    cases.summary("pair", &format!("sharing a block: {}", cases.alike))
}

/// Two numbers, without regard to any model.
pub fn any_pair(rng: &mut Rng) -> Question {
    Question::Pair([0; 2].map(|_| rng.pick(&[0, 0, 1, 2, 5, 4_096, 1 << 32, u64::MAX])))
}

fn pair(first: usize, second: usize) -> Question {
    Question::Pair([first as u64, second as u64])
}

/// The pairs that are known to share a block or not, both ways round, and a region with itself.
fn borders(cases: &mut BlockCases) {
    for border in block_borders::all() {
        let subject = &border.subject;
        let known = border.alike.iter().map(|&(first, second)| (first, second, 1));
        let known = known.chain(border.different.iter().map(|&(first, second, _)| (first, second, 0)));
        for (first, second, shared) in known {
            let [one, other] = border.regions(first, second);
            for question in [pair(one, other), pair(other, one)] {
                let lent = subject.exact();
                cases.foretold(&subject.table, lent, &question, &Ok(vec![shared]));
            }
        }
        let last = subject.count() - 1;
        for question in [pair(0, 0), pair(last, last), pair(0, last)] {
            let lent = some_lent(&mut cases.rng, subject);
            cases.ask(subject, lent, &question);
        }
    }
}

/// A pair of a subject: equal, sharing a block, parted in the last round, or any.
pub fn some_pair(rng: &mut Rng, subject: &Subject) -> Question {
    let count = subject.count();
    let first = rng.below(count);
    let near = |blocks: &[u32]| -> Vec<usize> {
        (0..count).filter(|&other| other != first && blocks[other] == blocks[first]).collect()
    };
    let sharing = near(subject.last());
    let rounds = subject.rounds();
    let mut late: Vec<usize> = if rounds == 0 { Vec::new() } else { near(&subject.history[rounds - 1]) };
    late.retain(|other| !sharing.contains(other));
    let second = match rng.below(8) {
        0..=3 if !sharing.is_empty() => rng.pick(&sharing),
        2..=6 if !late.is_empty() => rng.pick(&late),
        4 => first,
        _ => rng.below(count),
    };
    pair(first, second)
}

/// How many models by chance there are for each size of the graph, given by its fewest and most regions.
const SIZES: [(usize, usize, usize); 5] =
    [(1, 2, 10), (3, 12, 80), (13, 40, 85), (41, 120, 25), (121, 500, 6)];

/// Models by chance, with two pairs each and at times a third, of a number beyond N or with a list too short.
fn by_chance(cases: &mut BlockCases) {
    for (fewest, most, models) in SIZES {
        for round in 0..models {
            let subject = drawn(&mut cases.rng, fewest, most).subject;
            for _ in 0..2 {
                let question = some_pair(&mut cases.rng, &subject);
                let lent = some_lent(&mut cases.rng, &subject);
                cases.ask(&subject, lent, &question);
            }
            if round % 2 == 0 {
                one_beyond(cases, &subject);
            } else if round % 4 == 1 {
                list_too_short(cases, &subject);
            }
        }
    }
}

/// One number, the first or the second, beyond N.
fn one_beyond(cases: &mut BlockCases, subject: &Subject) {
    let mut asked = [cases.rng.below(subject.count()) as u64; 2];
    let which = cases.rng.below(2);
    asked[which] = cases.rng.pick(&numbers_beyond(subject.count()));
    let lent = some_lent(&mut cases.rng, subject);
    cases.ask(subject, lent, &Question::Pair(asked));
}

/// A list too short: 16, also where a number is beyond N.
fn list_too_short(cases: &mut BlockCases, subject: &Subject) {
    let count = subject.count();
    let mut lent = subject.exact();
    let list = cases.rng.below(2);
    lent.lists[list] = if cases.rng.chance(1, 2) { count - 1 } else { cases.rng.below(count) };
    let asked = if cases.rng.chance(1, 2) { count as u64 } else { 0 };
    cases.ask(subject, lent, &Question::Pair([0, asked]));
}

/// Chains: their parts are told apart after many rounds.
fn many_rounds(cases: &mut BlockCases) {
    let models = [chain(64, 0), chain(64, 1), retrying(20), ticking(1, 15), ticking(5, 15), ticking(10, 15)];
    for model in models {
        let subject = Subject::of(model).expect("a short chain");
        let questions = [pair(0, 1), pair(0, subject.count() - 1)];
        for question in questions.into_iter().chain([0; 2].map(|_| some_pair(&mut cases.rng, &subject))) {
            cases.ask(&subject, subject.exact(), &question);
        }
    }
}

/// Graphs of some thousand regions.
fn many_regions(cases: &mut BlockCases) {
    for model in [large(2, 15, 2, MOST_REGIONS), large(3, 2, 10, MOST_REGIONS), large_by_guards(3, 4)] {
        let subject = Subject::of(model).expect("at most 4,096 regions");
        let count = subject.count();
        for _ in 0..2 {
            let question = some_pair(&mut cases.rng, &subject);
            cases.ask(&subject, subject.exact(), &question);
        }
        let long = Lent { entries: MOST_LENT, lists: [LONGEST_LIST; 2] };
        cases.ask(&subject, long, &pair(count - 1, count - 2));
        cases.ask(&subject, long, &pair(count - 1, count));
        let short = Lent { lists: [count, count - 1], ..long };
        cases.ask(&subject, short, &pair(count - 1, count));
    }
}

/// Each number beyond N in each place, alone and in both, with lists that do; 16 where they do not.
fn beyond(cases: &mut BlockCases) {
    for (round, border) in block_borders::all().into_iter().enumerate().step_by(8) {
        let subject = &border.subject;
        let count = subject.count();
        for number in numbers_beyond(count) {
            for asked in [[number, 0], [count as u64 - 1, number], [number, number]] {
                cases.ask(subject, subject.exact(), &Question::Pair(asked));
            }
        }
        let mut lent = subject.exact();
        lent.lists[round % 2] -= 1;
        cases.ask(subject, lent, &Question::Pair([count as u64, u64::MAX]));
        cases.ask(subject, lent, &Question::Pair([0, count as u64]));
    }
}
