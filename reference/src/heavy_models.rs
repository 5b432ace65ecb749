// Models that are hard for the partition call: near 4,096 regions with thousands of rounds, many edges and branches
// everywhere, long delays, and blocks that differ in little. `tables` gives them to benchmarks, and some are among the asks.

use crate::block_models::{labelled, large, large_by_guards, step, ticking};
use crate::explore::MOST_REGIONS;
use crate::graph_cases::written;
use crate::graph_models::{all_of, free, guard, invariant, AT_MOST, EQUAL, LESS, MORE};
use crate::table::{Edge, GuardAtom, InvariantAtom, Model, MOST_BRANCHES, MOST_EDGES, MOST_LOCATIONS};

/// The clocks: one that ticks, and three more.
const TICK: u8 = 0;
const OTHERS: [u8; 3] = [1, 2, 3];
/// The mask of all four.
const ALL: u8 = 15;
/// The action of all edges that move a model on.
const ON: u8 = 1;

/// The tables of the heavy models, with names.
pub fn tables() -> Vec<(&'static str, Vec<u8>)> {
    all().into_iter().map(|(name, model)| (name, written(&model))).collect()
}

/// All models of this file and the largest of the stored cases.
fn all() -> Vec<(&'static str, Model)> {
    vec![
        ("laps: a region split off in each round", laps(MOST_LOCATIONS, 15)),
        ("wheels: thousands of rounds at one location", wheels([7, 13, 15], Vec::new())),
        ("wheels with 121 edges of 8 branches more", wheels([7, 13, 15], looping(MOST_EDGES - 7))),
        ("wheels with 121 edges of 8 branches to sinks", wheels([9, 11, 13], sinking(MOST_EDGES - 7))),
        ("four clocks of different fractions, M = 15", apart(15, 2)),
        ("the same, each whole number told", told(apart(15, 2))),
        ("four clocks, 128 edges of 8 branches everywhere", crowded(4, 1)),
        ("three clocks, 128 edges of 8 branches everywhere", crowded(3, 4)),
        ("ticking: a chain of 64 locations", ticking(MOST_LOCATIONS, 15)),
        ("free, two clocks, M = 15", large(2, 15, 2, MOST_REGIONS)),
        ("free, three clocks, ten locations", large(3, 2, 10, MOST_REGIONS)),
        ("free, four clocks, seven locations", large(4, 1, 7, 4_095)),
        ("three clocks, each whole number told", large_by_guards(3, 4)),
        ("two clocks, each whole number told", large_by_guards(2, 15)),
    ]
}

/// Small ones of the same makes, for comparison with the plain rounds.
pub fn small() -> Vec<Model> {
    vec![
        laps(4, 2),
        laps(12, 5),
        wheels([2, 3, 5], Vec::new()),
        wheels([2, 3, 1], looping(9)),
        wheels([4, 3, 5], looping(30)),
        wheels([4, 3, 5], sinking(30)),
        apart(2, 1),
        told(apart(5, 1)),
        crowded(2, 2),
        crowded(3, 1),
    ]
}

/// A chain of locations in which no time passes, gone through three times for each tick: clocks 2 and 3 tell the
/// laps and clock 1 counts the ticks, which are made in the last location. At the last tick it ends, and from there
/// one region after the other parts from the rest.
pub fn laps(locations: u8, ticks: u8) -> Model {
    let (last, wait) = (locations - 2, locations - 1);
    let mut invariants: Vec<InvariantAtom> =
        (0..=last).map(|location| invariant(location, TICK, AT_MOST, 0)).collect();
    invariants.push(invariant(wait, TICK, AT_MOST, 1));
    let mut edges: Vec<Edge> =
        (0..last).map(|location| step(location, ON, &[], &[(1, location + 1, 0)])).collect();
    edges.push(step(last, ON, &[guard(2, MORE, 0)], &[(1, 0, 1 << 2)]));
    edges.push(step(last, ON, &[guard(2, EQUAL, 0), guard(3, MORE, 0)], &[(1, 0, 1 << 3)]));
    edges.push(step(last, ON, &[guard(2, EQUAL, 0), guard(3, EQUAL, 0)], &[(1, wait, 0)]));
    edges.push(step(wait, ON, &[guard(TICK, EQUAL, 1), guard(1, LESS, ticks)], &[(1, 0, 1 << TICK)]));
    labelled(4, &vec![0; locations.into()], invariants, edges)
}

/// Three clocks that each go round with their own period, at one location: at each tick those at the end of their
/// period are reset. Where all three are it ends. With periods without a common divisor that takes as many ticks as
/// their product, and three regions a tick. Other edges, if there are any, come before.
pub fn wheels(periods: [u8; 3], mut edges: Vec<Edge>) -> Model {
    let weights = [1, 1, 2, 3, 5, 8, 13, 21];
    for ended in 0..7 {
        let mut guards = vec![guard(TICK, EQUAL, 1)];
        let mut mask = 1 << TICK;
        for (index, clock) in OTHERS.into_iter().enumerate() {
            let at_end = ended & (1 << index) != 0;
            guards.push(guard(clock, if at_end { EQUAL } else { LESS }, periods[index]));
            mask |= u8::from(at_end) << clock;
        }
        edges.push(step(0, ON, &guards, &weights.map(|weight| (weight, 0, mask))));
    }
    let sinks = edges.iter().flat_map(|edge| &edge.branches).map(|branch| branch.target).max().unwrap_or(0);
    let mut invariants = vec![invariant(0, TICK, AT_MOST, 1)];
    invariants.extend((1..=sinks).map(|sink| invariant(sink, TICK, AT_MOST, 0)));
    labelled(4, &vec![0; usize::from(sinks) + 1], invariants, edges)
}

/// So many edges of location 0, always available, whose eight branches stay or begin anew, no two with equal shares.
fn looping(edges: usize) -> Vec<Edge> {
    let looping = |edge: usize| {
        let branch = |part: usize| (1 + (edge * part) as u16, 0, if part % 2 == 0 { 0 } else { ALL });
        step(0, 2, &[], &(0..MOST_BRANCHES).map(branch).collect::<Vec<_>>())
    };
    (1..=edges).map(looping).collect()
}

/// So many edges of location 0, always available, whose eight branches lead to different locations that nothing
/// leaves.
fn sinking(edges: usize) -> Vec<Edge> {
    let sinks = usize::from(MOST_LOCATIONS) - 1;
    let sinking = |edge: usize| {
        let branch = |part: usize| (1 + edge as u16, 1 + ((edge + 7 * part) % sinks) as u8, ALL);
        step(0, (edge % 9) as u8, &[], &(0..MOST_BRANCHES).map(branch).collect::<Vec<_>>())
    };
    (0..edges).map(sinking).collect()
}

/// A free model of one location with 128 edges of eight branches, all masks among them, most available everywhere.
fn crowded(clocks: u8, largest: u8) -> Model {
    let mut model = free(clocks, largest, 1);
    let all = all_of(clocks);
    while model.edges.len() < MOST_EDGES {
        let edge = model.edges.len();
        let branch = |part: usize| {
            (1 + (edge % (part + 2)) as u16, 0, (edge * 5 + part * (1 + edge / 16)) as u8 & all)
        };
        let branches: Vec<(u16, u8, u8)> = (0..MOST_BRANCHES).map(branch).collect();
        // Every eighth edge tells a whole number of a clock.
        let clock = (edge / 8) as u8 % clocks;
        let constant = (edge / 8) as u8 / clocks % (largest + 1);
        if edge % 8 == 0 {
            let action = 10 + 16 * clock + constant;
            model.edges.push(step(0, action, &[guard(clock, EQUAL, constant)], &branches));
        } else {
            model.edges.push(step(0, (edge % 5) as u8, &[], &branches));
        }
    }
    labelled(clocks, &model.labels, model.invariants, model.edges)
}

/// Four clocks begun one after the other within a time unit each, `choices` times as late at most, and then left
/// alone: long delays of regions with all orders of fractions, through up to M whole numbers of each clock.
pub fn apart(largest: u8, choices: u8) -> Model {
    let mut edges: Vec<Edge> = OTHERS
        .into_iter()
        .map(|clock| {
            let early =
                [guard(clock - 1, MORE, 0), guard(clock - 1, LESS, if clock == 1 { choices } else { 1 })];
            step(clock - 1, ON, &early, &[(1, clock, 1 << clock)])
        })
        .collect();
    edges.push(step(3, ON, &[guard(3, EQUAL, largest)], &[(1, 0, ALL)]));
    let invariants = vec![
        invariant(0, 0, LESS, choices),
        invariant(1, 1, LESS, 1),
        invariant(2, 2, LESS, 1),
        invariant(3, 3, AT_MOST, largest),
    ];
    labelled(4, &[0; 4], invariants, edges)
}

/// The model with an edge for each whole number of each clock at location 3, whose action tells the two.
pub fn told(mut model: Model) -> Model {
    for clock in 0..4 {
        for constant in 0..=15 {
            let at: [GuardAtom; 1] = [guard(clock, EQUAL, constant)];
            model.edges.push(step(3, 10 + 16 * clock + constant, &at, &[(1, 3, 0)]));
        }
    }
    labelled(model.clocks, &model.labels, model.invariants, model.edges)
}
