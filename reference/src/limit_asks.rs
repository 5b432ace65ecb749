// Asks at the limits, which the first numbers of every seed stand for: models of 4,095, 4,096, 4,097 and many more
// regions, models most of whose regions part, and models of hundreds and thousands of rounds. Chance chooses only
// which regions, states and proposals are asked about, and how much more than enough is lent.

use crate::asks::{long_entries, long_list, Ask, What};
use crate::block_models::{large, large_by_guards, ticking};
use crate::block_subject::Subject;
use crate::explore::MOST_REGIONS;
use crate::graph_cases::written;
use crate::graph_models::{free, topped_up};
use crate::heavy_models::{apart, laps, told, wheels};
use crate::place_cases::Ground;
use crate::place_states::state_in;
use crate::proposals::{earlier, merged, moved, of_blocks, renamed, split_off};
use crate::rng::Rng;
use crate::table::{Model, MOST_LOCATIONS};

/// What is asked of a model.
#[derive(Clone, Copy)]
enum Call {
    Graph,
    /// The same with a byte of entries too few.
    GraphShort,
    /// A state in one of the last regions.
    Place,
    Reduce,
    /// The same with a number too few in a list.
    ReduceShort,
    /// One of the last regions and one that shares its block, if there is one.
    PairAlike,
    /// One of the last regions and any other.
    Pair,
    /// A region that is not below N.
    PairBeyond,
    /// The last blocks.
    Judge,
    /// What is no bisimulation, if there are two blocks.
    JudgeWrong,
    /// The last blocks with one region put apart.
    JudgeFiner,
}

const ALL: [Call; 11] = [
    Call::Graph,
    Call::GraphShort,
    Call::Place,
    Call::Reduce,
    Call::ReduceShort,
    Call::PairAlike,
    Call::Pair,
    Call::PairBeyond,
    Call::Judge,
    Call::JudgeWrong,
    Call::JudgeFiner,
];

/// Where there are more than 4,096 regions: 15, whatever is asked.
const TOO_MANY: [Call; 6] =
    [Call::Graph, Call::Graph, Call::Place, Call::Reduce, Call::PairBeyond, Call::JudgeFiner];

/// Where there are so many rounds that a call takes long.
const SLOW: [Call; 3] = [Call::Reduce, Call::Judge, Call::JudgeWrong];

/// The models, and what is asked of each.
const PLAN: [(fn() -> Model, &[Call]); 19] = [
    (|| large(2, 15, 2, MOST_REGIONS), &ALL),
    (|| large(3, 2, 10, MOST_REGIONS), &ALL),
    (|| large(4, 1, 7, MOST_REGIONS), &ALL),
    (|| large(2, 15, 2, MOST_REGIONS - 1), &ALL),
    (|| large(2, 15, 2, MOST_REGIONS + 1), &TOO_MANY),
    (|| large(3, 2, 10, MOST_REGIONS + 1), &TOO_MANY),
    (|| large(4, 1, 7, MOST_REGIONS + 1), &TOO_MANY),
    (|| free(4, 15, 1), &TOO_MANY),
    (|| large_by_guards(3, 4), &ALL),
    (|| large_by_guards(2, 15), &ALL),
    (|| told(apart(15, 2)), &ALL),
    (|| large(3, 2, 5, 2_100), &ALL),
    (|| large(2, 12, 1, 1_001), &ALL),
    (|| ticking(10, 15), &ALL),
    (|| ticking(30, 15), &ALL),
    (|| wheels([5, 7, 9], Vec::new()), &ALL),
    (|| laps(MOST_LOCATIONS, 15), &ALL),
    (|| ticking(MOST_LOCATIONS, 15), &SLOW),
    (|| topped_up(wheels([7, 13, 15], Vec::new()), 15, 1), &SLOW),
];

/// The ask of this number, if it is one of these.
pub fn ask(rng: &mut Rng, number: u64) -> Option<Ask> {
    let mut left = usize::try_from(number).ok()?;
    for (model, calls) in PLAN {
        if left < calls.len() {
            return Some(ask_of(rng, model(), calls[left]));
        }
        left -= calls.len();
    }
    None
}

fn ask_of(rng: &mut Rng, model: Model, call: Call) -> Ask {
    let table = written(&model);
    let Some(ground) = Ground::of(model) else {
        return Ask { table, entries: long_entries(rng), what: beyond(call) };
    };
    let exact = ground.exact();
    let entries = match call {
        Call::GraphShort => exact - 1,
        _ if rng.chance(1, 2) => exact,
        _ => long_entries(rng),
    };
    Ask { table, entries, what: within(rng, &ground, call) }
}

/// What is asked of a model of at most 4,096 regions.
fn within(rng: &mut Rng, ground: &Ground, call: Call) -> What {
    let count = ground.regions.len();
    let lists = [0; 2].map(|_| if rng.chance(1, 2) { count } else { long_list(rng) });
    let last = last_or_late(rng, count);
    let subject = || Subject::unchecked(ground.model.clone()).expect("at most 4,096 regions");
    match call {
        Call::Graph | Call::GraphShort => What::Graph,
        Call::Place => {
            let state = state_in(rng, ground.regions[last], ground.clocks);
            What::Place { location: state.location, values: state.values, denominator: state.denominator }
        }
        Call::Reduce => What::Reduce { first: lists[0], second: lists[1] },
        Call::ReduceShort => What::Reduce { first: lists[0], second: count - 1 },
        Call::PairAlike => pair(lists, last, alike(rng, &subject(), last)),
        Call::Pair => pair(lists, rng.below(count), last),
        Call::PairBeyond => pair(lists, last, count + rng.below(2)),
        Call::Judge => What::Judge { proposal: renamed(rng, &of_blocks(subject().last())) },
        Call::JudgeWrong => What::Judge { proposal: wrong(rng, &subject()) },
        Call::JudgeFiner => What::Judge { proposal: split_off(rng, &subject()) },
    }
}

/// The last region, the one before it, or any of the later half.
fn last_or_late(rng: &mut Rng, count: usize) -> usize {
    let late = rng.between(count / 2, count - 1);
    rng.pick(&[count - 1, count - 1, count - 2, late])
}

fn pair([first, second]: [usize; 2], r: usize, s: usize) -> What {
    What::Pair { first, second, r: r as u64, s: s as u64 }
}

/// A region of the same block; another one where there is one.
fn alike(rng: &mut Rng, subject: &Subject, region: usize) -> usize {
    let shares = |&other: &usize| other != region && subject.shares_block(other, region);
    let others: Vec<usize> = (0..subject.count()).filter(shares).collect();
    if others.is_empty() {
        region
    } else {
        rng.pick(&others)
    }
}

/// A round before the last, one region moved, or two blocks made one.
fn wrong(rng: &mut Rng, subject: &Subject) -> Vec<u64> {
    let proposal = match rng.below(3) {
        0 => earlier(rng, subject),
        1 => moved(rng, subject),
        _ => merged(rng, subject),
    };
    proposal.unwrap_or_else(|| of_blocks(subject.last()))
}

/// What is asked of a model of more than 4,096 regions, with lists that would do.
fn beyond(call: Call) -> What {
    let (first, second) = (MOST_REGIONS, MOST_REGIONS + 104);
    match call {
        Call::Graph | Call::GraphShort => What::Graph,
        Call::Place => What::Place { location: 0, values: [0; 4], denominator: 1 },
        Call::Reduce | Call::ReduceShort => What::Reduce { first, second },
        Call::PairAlike | Call::Pair | Call::PairBeyond => pair([first, second], 0, MOST_REGIONS - 1),
        Call::Judge | Call::JudgeWrong | Call::JudgeFiner => {
            What::Judge { proposal: (0..MOST_REGIONS as u64).collect() }
        }
    }
}
