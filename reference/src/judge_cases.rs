// Which cases of the judging call there are.

use crate::block_borders::{self, Border};
use crate::block_cases::{some_lent, BlockCases, Demand, MOST_LENT};
use crate::block_chance::{drawn, early_refusals, Drawn};
use crate::block_models::{chain, large, retrying, ticking};
use crate::block_subject::{Lent, Subject};
use crate::explore::MOST_REGIONS;
use crate::partition::Question;
use crate::proposals::{
    any_below, by_origin, earlier, finer, identity, merged, moved, of_blocks, renamed, split_off,
    without_labels,
};
use crate::rng::Rng;
use crate::vectors::{Vectors, JUDGE};

const DEMAND: Demand =
    Demand { fewest: 1_000, budget: 700_000, results: 400, refusals: &[(17, 80), (18, 300)] };

/// Makes all cases of the judging call.
pub fn make(vectors: &Vectors) -> Result<BlockCases, String> {
    let mut cases = BlockCases::new();
    cases.begin_group(81);
    borders(&mut cases);
    cases.begin_group(82);
    by_chance(&mut cases);
    cases.begin_group(83);
    many_rounds(&mut cases);
    many_regions(&mut cases);
    cases.begin_group(84);
    lengths(&mut cases);
    early_refusals(&mut cases, any_proposal);
    cases.begin_group(85);
    cases.add_vectors(vectors, JUDGE)?;
    cases.check("judging", &DEMAND);
    for (name, times) in causes(&cases) {
        assert!(times >= 25, "only {times} proposals fail {name}");
    }
    Ok(cases)
}

/// How many refused proposals of small models fail one demand only, by demand; and how many fail one way only.
fn causes(cases: &BlockCases) -> [(&'static str, usize); 5] {
    [
        ("by labels", cases.by_labels),
        ("by delay", cases.by_delay),
        ("by action", cases.by_action),
        ("by shares", cases.by_shares),
        ("one way", cases.one_way),
    ]
}

pub fn summary(cases: &BlockCases) -> String {
    let text: Vec<String> = causes(cases).iter().map(|(name, times)| format!("{name}: {times}")).collect();
    cases.summary("judging", &format!("refused 18 {}", text.join(", ")))
}

/// Some numbers, without regard to any model.
pub fn any_proposal(rng: &mut Rng) -> Question {
    let length = rng.pick(&[0, 1, 2, 5, 7]);
    Question::Judge((0..length).map(|_| rng.pick(&[0, 1, u64::MAX])).collect())
}

/// Adds a proposal with room by chance. It must be judged so where its length is N.
fn judged(cases: &mut BlockCases, subject: &Subject, proposal: Vec<u64>, accepted: bool) {
    assert_eq!(subject.accepts(&proposal), accepted, "{proposal:?} is judged otherwise than foretold");
    let lent = some_lent(&mut cases.rng, subject);
    put(cases, subject, lent, proposal);
}

fn put(cases: &mut BlockCases, subject: &Subject, lent: Lent, proposal: Vec<u64>) {
    cases.ask(subject, lent, &Question::Judge(proposal));
}

/// The models whose blocks are foretold: their last blocks, finer ones, blocks that should be apart made one.
fn borders(cases: &mut BlockCases) {
    for border in block_borders::all() {
        let subject = &border.subject;
        let last = of_blocks(subject.last());
        judged(cases, subject, last.clone(), true);
        let other = renamed(&mut cases.rng, &last);
        judged(cases, subject, other, true);
        let finer = finer(&mut cases.rng, subject);
        judged(cases, subject, finer, true);
        for &(first, second, _) in &border.different {
            let together = border.merged(border.regions(first, second));
            judged(cases, subject, together, false);
            pair_alone(cases, &border, border.regions(first, second));
        }
        if let Some(round) = earlier(&mut cases.rng, subject) {
            judged(cases, subject, round, false);
        }
        let lent = some_lent(&mut cases.rng, subject);
        put(cases, subject, lent, without_labels(subject));
    }
}

/// Only two regions related that differ: no bisimulation.
fn pair_alone(cases: &mut BlockCases, border: &Border, [kept, other]: [usize; 2]) {
    let mut proposal = identity(&border.subject);
    proposal[other] = proposal[kept];
    judged(cases, &border.subject, proposal, false);
}

/// How many models by chance there are for each size of the graph, given by its fewest and most regions.
const SIZES: [(usize, usize, usize); 4] = [(1, 2, 12), (3, 12, 90), (13, 40, 60), (41, 100, 8)];

/// Models by chance, with proposals of all sorts.
fn by_chance(cases: &mut BlockCases) {
    for (fewest, most, models) in SIZES {
        for round in 0..models {
            let drawn = drawn(&mut cases.rng, fewest, most);
            some_proposals(cases, &drawn, round);
        }
    }
}

/// Four or five proposals about one model: bisimulations, what is none, and what may be one.
fn some_proposals(cases: &mut BlockCases, drawn: &Drawn, round: usize) {
    let subject = &drawn.subject;
    if let Some(origin) = &drawn.origin {
        let proposal = by_origin(subject, origin);
        let proposal = renamed(&mut cases.rng, &proposal);
        judged(cases, subject, proposal, true);
    }
    let proposal = match round % 3 {
        0 => of_blocks(subject.last()),
        1 => finer(&mut cases.rng, subject),
        _ => renamed(&mut cases.rng, &of_blocks(subject.last())),
    };
    judged(cases, subject, proposal, true);
    let wrong = match round % 4 {
        0 => earlier(&mut cases.rng, subject),
        1 => moved(&mut cases.rng, subject),
        _ => merged(&mut cases.rng, subject),
    };
    if let Some(proposal) = wrong {
        let proposal = if round % 5 == 0 { renamed(&mut cases.rng, &proposal) } else { proposal };
        judged(cases, subject, proposal, false);
    }
    let open = match round % 8 {
        0..=2 => split_off(&mut cases.rng, subject),
        3..=5 => without_labels(subject),
        6 => any_below(&mut cases.rng, subject, 2),
        _ => vec![round as u64; subject.count()],
    };
    let lent = some_lent(&mut cases.rng, subject);
    put(cases, subject, lent, open);
}

/// Chains: nothing but equality relates their parts, and the rounds before the last are no bisimulations.
fn many_rounds(cases: &mut BlockCases) {
    for model in [chain(64, 0), chain(40, 1), retrying(40), ticking(1, 15), ticking(5, 15)] {
        let subject = Subject::of(model).expect("a short chain");
        judged(cases, &subject, of_blocks(subject.last()), true);
        for round in [0, subject.rounds() / 2, subject.rounds() - 1] {
            judged(cases, &subject, of_blocks(&subject.history[round]), false);
        }
    }
}

/// Graphs of 4,096 regions: the last blocks, two of them made one, and wrong lengths.
fn many_regions(cases: &mut BlockCases) {
    let first = Subject::of(large(2, 15, 2, MOST_REGIONS)).expect("4,096 regions");
    let second = Subject::of(large(3, 2, 10, MOST_REGIONS)).expect("4,096 regions");
    let proposal = renamed(&mut cases.rng, &of_blocks(first.last()));
    put(cases, &first, first.exact(), proposal);
    let proposal = merged(&mut cases.rng, &second).expect("more than one block");
    put(cases, &second, second.exact(), proposal);
    let lent = Lent { entries: MOST_LENT, lists: [0, 0] };
    let short = of_blocks(&first.last()[1..]);
    put(cases, &first, lent, short);
    let long = [of_blocks(second.last()), vec![0]].concat();
    put(cases, &second, lent, long);
}

/// Lengths that are not N: 17, whether the numbers are those of a bisimulation or not.
fn lengths(cases: &mut BlockCases) {
    for (round, border) in block_borders::all().into_iter().enumerate() {
        let subject = &border.subject;
        let count = subject.count();
        let last = of_blocks(subject.last());
        let zeros = vec![0; [0, count / 2, 2 * count, count + 9][round % 4]];
        for proposal in [last[1..].to_vec(), [&last[..], &last[..1]].concat(), zeros] {
            assert_ne!(proposal.len(), count, "the length is not N");
            put(cases, subject, subject.exact(), proposal);
        }
    }
}
