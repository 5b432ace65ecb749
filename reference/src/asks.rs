// Calls by chance, for a comparison of this implementation with the proved library: `ask` makes one call from a
// seed and a number. The makers of models, damage, states and proposals are those of the stored cases.
//
// The first numbers of each seed are asks at the limits (limit_asks.rs). The mix of the others, in parts of a
// hundred; `reference mix` counts what the asks of a seed meet.
//
//   tables    72  of a model, as made
//             25  damaged: cut 4, bytes changed 5, a record spoilt 5, records moved 3, from the list of refused
//                 tables 3, bytes by chance 1, records by chance 1, one of the longest tables damaged late 3
//              3  of a model whose region 0 breaks its invariant (14)
//   models    20  by chance                       11  by chance, coarse: few labels, actions and shares
//              8  by chance, up to 8 branches     12  twin locations
//              7  twin locations, one change      10  symmetric in two clocks
//              8  many edges at each location      4  wide: eight branches to different locations
//             10  of any shape: up to 64 locations, 128 edges, 8 guard atoms and constants of 15
//             10  chains, ticking chains, free models
//   weights   96  as made                          4  at exact halves of a ten-thousandth, over any multiple of 32
//   regions    4  of 1 or 2                       22  of 3 to 12
//             38  of 13 to 60                     24  of 61 to 200
//              8  of 201 to 500                    3  of 501 to 900
//              1  of more than 900, or of more than any call allows (15), a third of them of 4,090 to 4,100
//   calls     20  graph, 20 state, 25 partition, 18 pair, 17 judging
//   entries   exactly N, a little more, thousands more, a partial entry more or less, one less, any less, none
//   lists     exactly N, a little more, thousands more, one less, any less
//   pairs     sharing a block, parted in the last round, equal, any; 15 in a hundred beyond N
//   states    in a reached region, in any region, beside one, at borders (0, whole numbers, M, very large),
//             breaking an invariant, refused by 20
//   proposals the last round under other numbers, a round before it, one region moved or put apart, two blocks
//             made one, finer bisimulations, each region alone, without labels, any numbers, wrong lengths
//
// A table that is refused, or whose regions are too many, is asked about with any numbers.

use crate::block_models::{
    chain, coarse, large, retrying, spoiled as spoiled_model, symmetric, ticking, twins,
};
use crate::block_subject::Subject;
use crate::damage::{byte_string, record_sequence, with_changed_byte, with_late_damage, with_moved_records};
use crate::explore::{self, Exploration, MOST_REGIONS};
use crate::generate::{self, LARGE, LARGEST, MIDDLE, SMALL};
use crate::graph_borders::refused_list;
use crate::graph_cases;
use crate::graph_models::{by_chance, free, invariant, LESS};
use crate::judge_cases::any_proposal;
use crate::limit_asks;
use crate::listing_models::{branching, entered_late, halved, many_edges, wide};
use crate::meetings::spoil;
use crate::pair_cases::{any_pair, some_pair};
use crate::partition::Question;
use crate::place::State;
use crate::place_cases::{self, breaking, Ground};
use crate::place_states::{at_borders, neighbour, some_region, spoiled as spoiled_state, state_in};
use crate::proposals::{
    any_below, earlier, finer, identity, merged, moved, of_blocks, renamed, split_off, without_labels,
};
use crate::records::{with_places, Records};
use crate::region::ENTRY;
use crate::rng::Rng;
use crate::table::{self, Model};

/// What is asked of a table. Lengths of lists are in numbers.
#[derive(Clone, Debug)]
pub enum What {
    Graph,
    Place { location: u64, values: [u64; 4], denominator: u64 },
    Reduce { first: usize, second: usize },
    Pair { first: usize, second: usize, r: u64, s: u64 },
    Judge { proposal: Vec<u64> },
}

impl What {
    /// The place of the call in tables of calls: graph, place, reduce, pair, judge.
    pub fn call(&self) -> usize {
        match self {
            What::Graph => 0,
            What::Place { .. } => 1,
            What::Reduce { .. } => 2,
            What::Pair { .. } => 3,
            What::Judge { .. } => 4,
        }
    }
}

/// A call: the table, how many bytes are lent for entries, and what is asked.
#[derive(Clone, Debug)]
pub struct Ask {
    pub table: Vec<u8>,
    pub entries: usize,
    pub what: What,
}

/// The ask of a seed with a number: the same for the same two, whatever was asked before.
pub fn ask(seed: u64, number: u64) -> Ask {
    let mut rng = Rng::for_ask(seed, number);
    if let Some(ask) = limit_asks::ask(&mut rng, number) {
        return ask;
    }
    let table = some_table(&mut rng);
    let ground = table::read(&table).ok().and_then(Ground::of);
    let call = rng.below(100);
    let entries = match &ground {
        Some(ground) => entries_for(&mut rng, ground.regions.len(), call < GRAPH),
        None => rng.pick(&[0, 8, 9, 45, 900, 18_432, MOST_REGIONS * ENTRY, MOST_REGIONS * ENTRY + 136]),
    };
    let rng = &mut rng;
    let what = match call {
        0..GRAPH => What::Graph,
        GRAPH..PLACE => some_place(rng, ground.as_ref()),
        PLACE..REDUCE => some_reduce(rng, ground.as_ref()),
        REDUCE..PAIR => pair(rng, ground),
        _ => judge(rng, ground),
    };
    Ask { table, entries, what }
}

/// The calls' parts of a hundred, summed up.
const GRAPH: usize = 20;
const PLACE: usize = 40;
const REDUCE: usize = 65;
const PAIR: usize = 83;

/// The part of a hundred of all models that get weights at exact halves.
const HALVED: usize = 4;

/// A table by chance.
fn some_table(rng: &mut Rng) -> Vec<u8> {
    let mut model = some_model(rng);
    if rng.chance(HALVED, 100) {
        model = halved(rng, model);
    }
    let whole = Records::of(&model);
    match rng.below(100) {
        0..72 => whole.bytes(),
        72..75 => {
            let longest = generate::model(rng, &LARGEST);
            with_late_damage(rng, &longest)
        }
        75..78 => Records::of(&without_start(rng, model)).bytes(),
        78..82 => {
            let bytes = whole.bytes();
            let kept = rng.below(bytes.len());
            bytes[..kept].to_vec()
        }
        82..87 => (0..rng.between(1, 2)).fold(whole.bytes(), |table, _| with_changed_byte(rng, table)),
        87..92 => {
            let mut records = whole;
            let index = rng.below(records.list.len());
            spoil(rng, &model, &mut records, index);
            records.bytes()
        }
        92..95 => with_moved_records(rng, whole),
        95..98 => {
            let mut tables = refused_list();
            tables.swap_remove(rng.below(tables.len())).1
        }
        98 => {
            let (small, after_beginning) = (rng.chance(1, 2), rng.chance(1, 2));
            byte_string(rng, small, after_beginning)
        }
        _ => record_sequence(rng),
    }
}

/// The model, with a clock at least, whose initial location's invariant is never met.
fn without_start(rng: &mut Rng, mut model: Model) -> Model {
    model.clocks = model.clocks.max(1);
    model.invariants.truncate(table::MOST_INVARIANTS - 1);
    let atom = invariant(model.initial, rng.below(model.clocks.into()) as u8, LESS, 0);
    let place = rng.below(model.invariants.len() + 1);
    model.invariants.insert(place, atom);
    with_places(model)
}

/// The sizes of graphs by fewest and most regions, with their parts of a hundred. What is left is larger.
const SIZES: [(usize, usize, usize); 6] =
    [(1, 2, 4), (3, 12, 22), (13, 60, 38), (61, 200, 24), (201, 500, 8), (501, 900, 3)];

/// A model of a size by chance.
fn some_model(rng: &mut Rng) -> Model {
    let mut part = rng.below(100);
    for (fewest, most, parts) in SIZES {
        if part < parts {
            return sized(rng, |model| regions_up_to(model, most).is_some_and(|count| count >= fewest));
        }
        part -= parts;
    }
    if rng.chance(1, 3) {
        return near_the_limit(rng);
    }
    let (_, most, _) = SIZES[SIZES.len() - 1];
    sized(rng, |model| regions_up_to(model, most).is_none())
}

/// A model of about 4,096 regions, often just as many.
fn near_the_limit(rng: &mut Rng) -> Model {
    let (clocks, largest, locations) = rng.pick(&[(2, 15, 2), (3, 2, 10), (4, 1, 7)]);
    let count = if rng.chance(1, 2) { MOST_REGIONS } else { MOST_REGIONS - 6 + rng.below(11) };
    large(clocks, largest, locations, count)
}

/// A model of any kind that fits.
pub(crate) fn sized(rng: &mut Rng, fits: impl Fn(&Model) -> bool) -> Model {
    loop {
        let model = model_of_some_kind(rng);
        if fits(&model) {
            return model;
        }
    }
}

/// N if it is at most so many and region 0 is one.
pub(crate) fn regions_up_to(model: &Model, most: usize) -> Option<usize> {
    match explore::explore(model, most) {
        Exploration::Whole(net) => Some(net.count()),
        Exploration::Cut(_) | Exploration::NoStart => None,
    }
}

fn model_of_some_kind(rng: &mut Rng) -> Model {
    match rng.below(100) {
        0..20 => by_chance(rng),
        20..31 => coarse(rng),
        31..39 => branching(rng),
        39..51 => twins(rng).model,
        51..58 => {
            let twins = twins(rng).model;
            spoiled_model(rng, twins)
        }
        58..68 => symmetric(rng),
        68..76 => {
            let (clocks, locations, edges) =
                (rng.below(5) as u8, rng.between(1, 6) as u8, rng.between(2, 12));
            many_edges(rng, clocks, locations, edges)
        }
        76..80 => {
            let clocks = rng.below(3) as u8;
            wide(rng, clocks)
        }
        80..90 => {
            let shape = rng.pick(&[SMALL, SMALL, SMALL, MIDDLE, MIDDLE, LARGE]);
            generate::model(rng, &shape)
        }
        _ => structured(rng),
    }
}

/// A chain, a ticking chain, one that is entered late, or a free model.
fn structured(rng: &mut Rng) -> Model {
    match rng.below(5) {
        0 => chain(rng.between(1, 64) as u8, rng.below(2) as u8),
        1 => retrying(rng.between(1, 64) as u8),
        2 => ticking(rng.between(1, 6) as u8, rng.between(1, 15) as u8),
        3 => entered_late(rng.between(1, 15) as u8),
        _ => {
            let (clocks, largest) =
                rng.pick(&[(1, 15), (1, 7), (2, 1), (2, 3), (2, 6), (3, 1), (3, 2), (4, 1)]);
            free(clocks, largest, rng.between(1, 3) as u8)
        }
    }
}

/// So many bytes for the entries of N regions; less is lent more often where nothing else is asked.
fn entries_for(rng: &mut Rng, count: usize, alone: bool) -> usize {
    if rng.chance(1, 60) {
        return 0;
    }
    if rng.chance(1, 20) {
        return long_entries(rng);
    }
    if alone {
        graph_cases::some_lent(rng, count)
    } else {
        place_cases::some_lent(rng, count * ENTRY)
    }
}

/// As many bytes for entries as a call can fill, or more.
pub fn long_entries(rng: &mut Rng) -> usize {
    let most = MOST_REGIONS * ENTRY;
    rng.pick(&[most, most + 1, most + ENTRY, 40_000, 100_000])
}

/// As many numbers for a list as a call can fill, or more.
pub fn long_list(rng: &mut Rng) -> usize {
    rng.pick(&[MOST_REGIONS, MOST_REGIONS + 1, 4_200, 10_000])
}

/// The length of a block list for N regions.
fn list_for(rng: &mut Rng, count: usize) -> usize {
    match rng.below(30) {
        0..18 => count,
        18 | 19 => long_list(rng),
        20..25 => count + rng.between(1, 3),
        25..28 => count + rng.between(4, 40),
        28 => count - 1,
        _ => rng.below(count),
    }
}

/// The lengths of the two block lists.
fn lists(rng: &mut Rng, ground: Option<&Ground>) -> [usize; 2] {
    [0; 2].map(|_| match ground {
        Some(ground) => list_for(rng, ground.regions.len()),
        None => rng.pick(&[0, 5, 60, MOST_REGIONS, MOST_REGIONS + 4]),
    })
}

fn some_reduce(rng: &mut Rng, ground: Option<&Ground>) -> What {
    let [first, second] = lists(rng, ground);
    What::Reduce { first, second }
}

fn some_place(rng: &mut Rng, ground: Option<&Ground>) -> What {
    let state = match ground {
        Some(ground) => state_of(rng, ground),
        None => any_state(rng),
    };
    What::Place { location: state.location, values: state.values, denominator: state.denominator }
}

/// A state of a model.
fn state_of(rng: &mut Rng, ground: &Ground) -> State {
    let reached = ground.some_reached(rng);
    let state = state_in(rng, reached, ground.clocks);
    match rng.below(20) {
        0..10 => state,
        10 | 11 => {
            let region = some_region(rng, &ground.model);
            state_in(rng, region, ground.clocks)
        }
        12 | 13 => neighbour(rng, state, ground.clocks.count),
        14 | 15 => at_borders(rng, &ground.model),
        16 if !ground.model.invariants.is_empty() => breaking(rng, ground),
        _ => spoiled_state(rng, state, &ground.model),
    }
}

/// A state without regard to any model.
fn any_state(rng: &mut Rng) -> State {
    State {
        location: rng.pick(&[0, 0, 1, 2, 255, u64::MAX]),
        values: [0; 4].map(|_| rng.pick(&[0, 0, 1, 7, u64::MAX])),
        denominator: rng.pick(&[0, 1, 2, 1_000_000, 1_000_001]),
    }
}

fn pair(rng: &mut Rng, ground: Option<Ground>) -> What {
    let [first, second] = lists(rng, ground.as_ref());
    let question = match ground.and_then(|ground| Subject::unchecked(ground.model)) {
        Some(subject) if rng.chance(85, 100) => some_pair(rng, &subject),
        _ => any_pair(rng),
    };
    match question {
        Question::Pair([r, s]) => What::Pair { first, second, r, s },
        _ => unreachable!("a pair was asked for"),
    }
}

fn judge(rng: &mut Rng, ground: Option<Ground>) -> What {
    let proposal = match ground.and_then(|ground| Subject::unchecked(ground.model)) {
        Some(subject) => proposal(rng, &subject),
        None => match any_proposal(rng) {
            Question::Judge(proposal) => proposal,
            _ => unreachable!("a proposal was asked for"),
        },
    };
    What::Judge { proposal }
}

/// A proposal about a model. Where it has one block or no round the last blocks stand in for what is not there.
fn proposal(rng: &mut Rng, subject: &Subject) -> Vec<u64> {
    let last = || of_blocks(subject.last());
    let proposal = match rng.below(100) {
        0..30 => last(),
        30..45 => earlier(rng, subject).unwrap_or_else(last),
        45..57 => moved(rng, subject).unwrap_or_else(last),
        57..65 => merged(rng, subject).unwrap_or_else(last),
        65..73 => split_off(rng, subject),
        73..80 => finer(rng, subject),
        80..85 => identity(subject),
        85..90 => without_labels(subject),
        90..93 => any_below(rng, subject, 2),
        _ => return of_wrong_length(rng, subject),
    };
    if rng.chance(2, 3) {
        renamed(rng, &proposal)
    } else {
        proposal
    }
}

/// The last blocks cut, with one more or with many more.
fn of_wrong_length(rng: &mut Rng, subject: &Subject) -> Vec<u64> {
    let mut proposal = of_blocks(subject.last());
    match rng.below(4) {
        0 => proposal.truncate(proposal.len() - 1),
        1 => proposal.truncate(rng.below(proposal.len())),
        2 => proposal.push(0),
        _ => proposal.extend_from_within(..),
    }
    proposal
}
