// States for the cases of the state call: in a wanted region, scaled, moved on, spoiled; and what must hold
// between a state and its region.
//
// A state is made from its region, not the other way round: the region says which clocks are over, the integer
// parts and the ranks, and chance chooses a denominator and fractions that rise with the ranks.

use crate::generate::index_below;
use crate::place::{State, LARGEST_STATE_DENOMINATOR};
use crate::region::{ranks_of, Clocks, Region, CLOCKS, OVER};
use crate::rng::Rng;
use crate::table::Model;
use std::collections::BTreeSet;

/// Values above this are not moved on or scaled.
const LARGEST_MOVED: u64 = 1 << 60;

/// A denominator of at least so much, with the borders more often than the others.
fn some_denominator(rng: &mut Rng, least: usize) -> u64 {
    let largest = LARGEST_STATE_DENOMINATOR as usize;
    let denominator = match rng.below(8) {
        0 => least,
        1 => largest,
        2 => rng.pick(&[999_999, 65_535, 65_536, 65_537, 524_288, 720_720]),
        3 | 4 => rng.between(least, least + 9),
        5 => rng.between(least, 1_000),
        _ => rng.between(least, largest),
    };
    denominator as u64
}

/// Zero and so many different non-zero fractions over the denominator, rising: the least, the greatest, or any.
fn rising(rng: &mut Rng, count: u64, denominator: u64) -> Vec<u64> {
    let mut fractions = BTreeSet::from([0]);
    match rng.below(5) {
        0 => fractions.extend(1..=count),
        1 => fractions.extend(denominator - count..denominator),
        _ => {
            while fractions.len() as u64 <= count {
                fractions.insert(rng.between(1, denominator as usize - 1) as u64);
            }
        }
    }
    fractions.into_iter().collect()
}

/// A value above M: just above, with a fraction among or between those of the other clocks, or very large. Some
/// very large ones would be within M if only their low half counted.
fn over_value(rng: &mut Rng, largest: u8, denominator: u64, fractions: &[u64]) -> u64 {
    let border = u64::from(largest) * denominator;
    let fraction = rng.pick(fractions);
    let below_border = rng.below(border as usize + 1) as u64;
    match rng.below(12) {
        0..=2 => border + 1,
        3 | 4 => border + 1 + rng.below(denominator as usize) as u64,
        5 | 6 => border + fraction.max(1),
        7 => border + denominator + fraction,
        8 => u64::MAX,
        9 => u64::MAX - rng.below(denominator as usize) as u64,
        10 => (1 << 32) + below_border,
        _ => (1 << 63) + below_border,
    }
}

/// A state by chance in a region, which need not be reached.
pub fn state_in(rng: &mut Rng, region: Region, clocks: Clocks) -> State {
    let highest = region.rank.into_iter().max().unwrap_or(0);
    let denominator = some_denominator(rng, usize::from(highest) + 1);
    state_over(rng, region, clocks, denominator)
}

/// The same with the denominator given, which is larger than each rank.
pub fn state_over(rng: &mut Rng, region: Region, clocks: Clocks, denominator: u64) -> State {
    let highest = region.rank.into_iter().max().unwrap_or(0);
    let fractions = rising(rng, highest.into(), denominator);
    let mut values = [0; CLOCKS];
    for clock in 0..clocks.count {
        values[clock] = if region.is_over(clock) {
            over_value(rng, clocks.largest, denominator, &fractions)
        } else {
            u64::from(region.whole[clock]) * denominator + fractions[usize::from(region.rank[clock])]
        };
    }
    State { location: region.location.into(), values, denominator }
}

/// Any region of any location of a model, reached or not. A clock at M has rank 0.
pub fn some_region(rng: &mut Rng, model: &Model) -> Region {
    let clocks = Clocks::of(model);
    let mut region = Region::start(index_below(rng, model.labels.len() as u8));
    for clock in 0..clocks.count {
        let whole = rng.between(0, usize::from(clocks.largest) + 1) as u8;
        if whole > clocks.largest {
            region.whole[clock] = OVER;
        } else {
            region.whole[clock] = whole;
            region.rank[clock] = if whole < clocks.largest { rng.below(CLOCKS + 1) as u8 } else { 0 };
        }
    }
    region.rank = ranks_of(region.rank);
    region
}

/// A state whose values lie at borders: around 0, around a whole number, around M, or very large.
pub fn at_borders(rng: &mut Rng, model: &Model) -> State {
    let clocks = Clocks::of(model);
    let denominator = some_denominator(rng, 1);
    let mut values = [0; CLOCKS];
    for value in &mut values[..clocks.count] {
        let any = rng.below(16) as u64;
        let border = rng.pick(&[0, 1, any, clocks.largest.into()]) * denominator;
        *value = match rng.below(8) {
            0 | 1 => border,
            2 | 3 => border + 1,
            4 | 5 => border.saturating_sub(1),
            6 => border + rng.below(denominator as usize) as u64,
            _ => rng.pick(&[u64::MAX, 1 << 63, 1 << 32, (1 << 32) + border]),
        };
    }
    State { location: index_below(rng, model.labels.len() as u8).into(), values, denominator }
}

/// The same state over a denominator that is so many times larger, if the state call takes it.
pub fn scaled(state: State, factor: u64) -> Option<State> {
    let denominator = state.denominator * factor;
    let small = state.values.iter().all(|&value| value <= u64::MAX / factor);
    (small && denominator <= LARGEST_STATE_DENOMINATOR).then(|| State {
        location: state.location,
        values: state.values.map(|value| value * factor),
        denominator,
    })
}

/// A state that differs in one number by 1, or by the denominator.
pub fn neighbour(rng: &mut Rng, mut state: State, clocks: usize) -> State {
    if clocks > 0 {
        let clock = rng.below(clocks);
        let step = rng.pick(&[1, 1, state.denominator]);
        let value = state.values[clock];
        state.values[clock] =
            if rng.chance(1, 2) { value.saturating_sub(step) } else { value.saturating_add(step) };
    }
    state
}

/// A state that gets 20: its location, its denominator or a clock beyond n is changed. Some of the numbers would
/// do if only their low bytes counted.
pub fn spoiled(rng: &mut Rng, mut state: State, model: &Model) -> State {
    let count = model.labels.len() as u64;
    let clocks = usize::from(model.clocks);
    match rng.below(if clocks < CLOCKS { 3 } else { 2 }) {
        0 => {
            let high = rng.pick(&[1 << 8, 1 << 16, 1 << 32, 1 << 63]);
            state.location = rng.pick(&[count, count + 1, 255, high, high + state.location, u64::MAX]);
        }
        1 => {
            let high = rng.pick(&[1 << 20, 1 << 32, 1 << 63]);
            state.denominator = rng.pick(&[0, 0, 1_000_001, high, high + state.denominator, u64::MAX]);
        }
        _ => {
            let clock = rng.between(clocks, CLOCKS - 1);
            let high = rng.pick(&[1 << 8, 1 << 32, 1 << 63]);
            state.values[clock] = rng.pick(&[1, 1, state.denominator, high, u64::MAX]);
        }
    }
    state
}

/// Whether the values break the invariant of the location, told without regions.
pub fn breaks_invariant(state: &State, model: &Model) -> bool {
    let atoms = model.invariants.iter().filter(|atom| u64::from(atom.location) == state.location);
    atoms.into_iter().any(|atom| {
        let value = u128::from(state.values[usize::from(atom.clock)]);
        let bound = u128::from(atom.constant) * u128::from(state.denominator);
        value > bound || (atom.comparison == 0 && value == bound)
    })
}

/// The state after a delay out of its region that leads no further than into the next one; none if every clock
/// is over. Over twice the denominator there is room for a delay shorter than any difference of fractions.
fn moved_on(state: State, clocks: Clocks) -> Option<State> {
    let denominator = 2 * state.denominator;
    let values = state.values.map(|value| 2 * value);
    let within = (0..clocks.count).filter(|&clock| !state.is_over(clock, clocks));
    let fractions: Vec<u64> = within.map(|clock| values[clock] % denominator).collect();
    let greatest = fractions.iter().max()?;
    let step = if fractions.contains(&0) { 1 } else { denominator - greatest };
    let mut moved = State { location: state.location, values, denominator };
    for value in &mut moved.values[..clocks.count] {
        *value += step;
    }
    Some(moved)
}

/// Checks a state of a model against regions: scaled it keeps its region, and delay and reset of the state lead
/// where delay and reset of its region lead.
pub fn check_moves(state: State, clocks: Clocks) {
    if state.values.iter().any(|&value| value > LARGEST_MOVED) {
        return;
    }
    let region = state.region(clocks);
    for factor in [2, 3, 10, 997, LARGEST_STATE_DENOMINATOR / state.denominator] {
        if let Some(same) = scaled(state, factor) {
            assert_eq!(same.region(clocks), region, "{state:?} changes its region over {}", same.denominator);
        }
    }
    let moved = moved_on(state, clocks).map(|moved| moved.region(clocks));
    assert_eq!(moved, region.delay(clocks), "{state:?} delays into another region than its own does");
    for mask in 0..1 << clocks.count {
        let mut reset = state;
        for clock in (0..clocks.count).filter(|clock| mask & (1 << clock) != 0) {
            reset.values[clock] = 0;
        }
        assert_eq!(reset.region(clocks), region.reset(mask), "{state:?} is reset into another region");
    }
}
