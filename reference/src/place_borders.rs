// Cases of the state call whose answers are foretold from how the state was made: both sides of M and of each
// integer part, the orders of up to four fractions, clocks that are over among them, large numbers of regions,
// each condition of refusal 20, and refusals 1 to 15 with states that would be refused too.

use crate::generate;
use crate::graph_borders::refused_list;
use crate::graph_cases::written;
use crate::graph_models::{
    all_of, all_regions, by_chance, by_chance_of, edge, free, guard, invariant, model, topped_up, AT_MOST,
    EQUAL, LESS, MORE,
};
use crate::place::{State, LARGEST_STATE_DENOMINATOR};
use crate::place_cases::{refusal, Ground, PlaceCases};
use crate::place_states::{scaled, spoiled, state_in, state_over};
use crate::records::with_places;
use crate::region::{ranks_of, Region, CLOCKS, ENTRY, OVER};
use crate::rng::Rng;
use crate::table::Model;

/// Adds all cases of this file.
pub fn add_cases(cases: &mut PlaceCases) {
    cases.begin_group(41);
    printed(cases);
    line(cases);
    very_large(cases);
    cases.begin_group(42);
    orders(cases);
    over_among(cases);
    stages(cases);
    cases.begin_group(43);
    large_numbers(cases);
    cases.begin_group(44);
    locations(cases);
    denominators(cases);
    clocks_beyond(cases);
    cases.begin_group(45);
    no_room(cases);
    no_start(cases);
    refused_tables(cases);
}

/// A state with the same value in the first clocks.
fn equal_clocks(location: u64, clocks: u8, value: u64, denominator: u64) -> State {
    let mut values = [0; CLOCKS];
    values[..usize::from(clocks)].fill(value);
    State { location, values, denominator }
}

/// The document's printed model. Its five regions are known: at location 0 the clock at 0, between 0 and 1, and
/// at 1; at location 1 the clock at 1 and over.
fn printed(cases: &mut PlaceCases) {
    let ground = Ground::of(generate::printed()).expect("the document prints five regions");
    for denominator in [1, 2, 3, 7, LARGEST_STATE_DENOMINATOR] {
        let one = denominator;
        for value in [0, 1, one - 1, one, one + 1, one + one / 2, 2 * one, u64::MAX] {
            let there = if value == 0 {
                [Ok(0), Err(refusal(21))]
            } else if value < one {
                [Ok(1), Err(refusal(21))]
            } else if value == one {
                [Ok(2), Ok(3)]
            } else {
                [Err(refusal(21)), Ok(4)]
            };
            for (location, answer) in there.into_iter().enumerate() {
                cases.placed(&ground, equal_clocks(location as u64, 1, value, denominator), answer);
            }
        }
    }
}

/// Models without resets that lead elsewhere: all clocks are equal, and the regions form a line in number order,
/// so that the number follows from the value: twice the integer part, one more with a fraction, 2 M + 1 for over.
fn line(cases: &mut PlaceCases) {
    let mut round = 0;
    for largest in [0, 1, 2, 15] {
        for denominator in [1, 2, 3, 1_000, 999_999, LARGEST_STATE_DENOMINATOR] {
            round += 1;
            let ground = on_a_line(1 + round % 4, largest);
            for whole in [0, 1, 2, u64::from(largest), u64::from(largest) + 1] {
                let at = whole * denominator;
                for value in [at.saturating_sub(1), at, at + 1] {
                    on_the_line(cases, &ground, value, denominator);
                }
            }
        }
    }
}

/// A model of so many clocks that are always equal, one location, and M.
fn on_a_line(clocks: u8, largest: u8) -> Ground {
    let edges = vec![edge(0, &[guard(clocks - 1, EQUAL, largest)], &[(0, all_of(clocks))])];
    let ground = Ground::of(model(clocks, 1, Vec::new(), edges)).expect("a line is short");
    assert_eq!(ground.regions.len(), 2 * usize::from(largest) + 2, "a line has a known length");
    ground
}

/// Adds a value of all clocks on the line.
fn on_the_line(cases: &mut PlaceCases, ground: &Ground, value: u64, denominator: u64) {
    let largest = u64::from(ground.clocks.largest);
    let number = if value > largest * denominator {
        2 * largest + 1
    } else {
        2 * (value / denominator) + u64::from(value % denominator > 0)
    };
    let state = equal_clocks(0, ground.clocks.count as u8, value, denominator);
    cases.placed(ground, state, Ok(number as usize));
}

/// Very large values are over, also where their low bytes would be within M.
fn very_large(cases: &mut PlaceCases) {
    for (clocks, largest) in [(1, 0), (2, 1), (3, 7), (4, 15)] {
        let ground = on_a_line(clocks, largest);
        for denominator in [1, 3, 65_537, LARGEST_STATE_DENOMINATOR] {
            let one = denominator;
            for value in [1 << 32, (1 << 32) + one, 1 << 63, (1 << 63) + one, u64::MAX - one, u64::MAX] {
                on_the_line(cases, &ground, value, denominator);
            }
        }
    }
    // A product of a value and M, or a sum of values, would not fit: exactness is asked for all the same.
    let ground = on_a_line(1, 15);
    for value in [u64::MAX / 15, u64::MAX / 15 + 1, u64::MAX / 1_000_000, u64::MAX / 1_000_000 + 1, 1 << 60] {
        on_the_line(cases, &ground, value, LARGEST_STATE_DENOMINATOR);
    }
}

/// All ways in which so many clocks may have ranks.
fn all_ranks(clocks: usize) -> Vec<[u8; CLOCKS]> {
    let mut found = Vec::new();
    for number in 0..(clocks + 1).pow(clocks as u32) {
        let mut ranks = [0; CLOCKS];
        let mut rest = number;
        for rank in &mut ranks[..clocks] {
            *rank = (rest % (clocks + 1)) as u8;
            rest /= clocks + 1;
        }
        if ranks_of(ranks) == ranks {
            found.push(ranks);
        }
    }
    found
}

/// All orders of four fractions and of three, equal and zero ones included, over the least denominator that
/// allows them or any other, and some of the states once more over a larger denominator.
fn orders(cases: &mut PlaceCases) {
    for (clocks, ways) in [(4, 150), (3, 26)] {
        let ground = Ground::of(free(clocks, 1, 1)).expect("all regions with M = 1 are few");
        let all = all_ranks(clocks.into());
        assert_eq!(all.len(), ways, "so many orders there are");
        for (round, rank) in all.into_iter().enumerate() {
            let region = Region { rank, ..Region::start(0) };
            let highest = rank.into_iter().max().unwrap_or(0);
            let state = match round % 3 {
                0 => state_over(&mut cases.rng, region, ground.clocks, u64::from(highest) + 1),
                _ => state_in(&mut cases.rng, region, ground.clocks),
            };
            cases.placed_with(&ground, ground.exact(), state, ground.number(region));
            let factor = cases.rng.pick(&[2, 3, 6, 1_000]);
            if let Some(same) = scaled(state, factor).filter(|_| round % 6 == 0) {
                cases.placed_with(&ground, ground.exact(), same, ground.number(region));
            }
        }
    }
}

/// All regions of location 0 with some clocks over and the others at integer part 0.
fn with_over(clocks: u8) -> Vec<Region> {
    let all = 0..usize::from(clocks);
    let mut found = Vec::new();
    for rank in all_ranks(clocks.into()) {
        for mask in 1..=all_of(clocks) {
            let over: Vec<usize> = all.clone().filter(|clock| mask & (1 << clock) != 0).collect();
            // A clock that is over has rank 0.
            if over.iter().all(|&clock| rank[clock] == 0) {
                let mut region = Region { rank, ..Region::start(0) };
                over.iter().for_each(|&clock| region.whole[clock] = OVER);
                found.push(region);
            }
        }
    }
    found
}

/// Orders of fractions with clocks at M and clocks that are over. The values of the latter have fractions too,
/// which must not count.
fn over_among(cases: &mut PlaceCases) {
    for (clocks, ways, part) in [(4, 149, 2), (3, 25, 1)] {
        let ground = Ground::of(free(clocks, 1, 1)).expect("all regions with M = 1 are few");
        let regions = with_over(clocks);
        assert_eq!(regions.len(), ways, "so many orders there are with a clock over");
        for &region in regions.iter().step_by(part) {
            over_between(cases, &ground, region);
        }
    }
}

/// A state whose clocks that are over have fractions between those of the others: these have the even ones of
/// ten, M + 0.1, M + 0.3 and so on are free for the clocks that are over. Clocks at 0 are at M at times.
fn over_between(cases: &mut PlaceCases, ground: &Ground, mut region: Region) {
    let mut state = State { location: 0, values: [0; CLOCKS], denominator: 10 };
    for clock in 0..ground.clocks.count {
        if region.is_over(clock) {
            state.values[clock] = 10 * cases.rng.between(1, 3) as u64 + 2 * cases.rng.below(5) as u64 + 1;
        } else if region.rank[clock] > 0 {
            state.values[clock] = 2 * u64::from(region.rank[clock]);
        } else if cases.rng.chance(1, 2) {
            region.whole[clock] = 1;
            state.values[clock] = 10;
        }
    }
    let factor = cases.rng.pick(&[1, 1, 7, 100_000]);
    let state = scaled(state, factor).expect("ten times 100,000 is allowed");
    cases.placed_with(ground, ground.exact(), state, ground.number(region));
}

/// Four clocks with large integer parts: they are reset one after the other, at times that are not whole, so
/// that few regions are reached though M is large.
fn stages(cases: &mut PlaceCases) {
    let mut models = 0;
    while models < 12 {
        let Some(ground) = Ground::of(staged(&mut cases.rng)) else {
            continue;
        };
        if ground.regions.len() > 400 {
            continue;
        }
        models += 1;
        for _ in 0..5 {
            // The last regions are those of the last stages.
            let last = ground.regions.len() - 1;
            let region = ground.regions[last - cases.rng.below(last / 2 + 1)];
            cases.in_region(&ground, region);
        }
    }
}

/// A model of four locations, the next one entered with some clocks reset while a clock is between two numbers.
fn staged(rng: &mut Rng) -> Model {
    let largest = rng.pick(&[3, 7, 15]);
    let mut edges = vec![edge(0, &[guard(0, EQUAL, largest)], &[(0, 15)])];
    for location in 0..3 {
        let clock = rng.below(CLOCKS) as u8;
        let from = rng.below(usize::from(largest)) as u8;
        let mask = rng.pick(&[1, 2, 4, 8, 3, 6, 12, 7, 14]);
        let between = [guard(clock, MORE, from), guard(clock, LESS, from + 1)];
        edges.push(edge(location, &between, &[(location + 1, mask)]));
    }
    model(4, 4, Vec::new(), edges)
}

/// Regions whose numbers do not fit a byte, up to the last of 4,096.
fn large_numbers(cases: &mut PlaceCases) {
    let reached = 7 * all_regions(4, 1);
    let most = topped_up(free(4, 1, 7), 1, 4_096 - reached);
    let middle = free(3, 2, 1);
    for (model, numbers) in [(most, vec![0, 256, 4_095]), (middle, vec![1, 127, 128, 255, 256, 257])] {
        let ground = Ground::of(model).expect("4,096 regions at most");
        for number in numbers {
            let region = ground.regions[number];
            let state = state_in(&mut cases.rng, region, ground.clocks);
            cases.placed_with(&ground, ground.exact(), state, Ok(number));
        }
    }
    // A chain through 64 locations, whose regions are numbered as they are: without clocks there are no others.
    let edges = (0..63).map(|location| edge(location, &[], &[(location + 1, 0)])).collect();
    let ground = Ground::of(model(0, 64, Vec::new(), edges)).expect("64 regions");
    for location in [0, 1, 62, 63] {
        cases.placed(&ground, equal_clocks(location, 0, 0, 1), Ok(location as usize));
    }
    for location in [64, 127, 255, 256, 256 + 63, u64::MAX] {
        cases.placed(&ground, equal_clocks(location, 0, 0, 1), Err(refusal(20)));
    }
}

/// Models for the conditions of 20: 0 to 4 clocks, 1 to 5 locations, whose region 0 is at location 0.
fn grounds_of_20() -> Vec<Ground> {
    (0..=4)
        .map(|clocks| {
            let edges = (0..clocks).map(|location| edge(location, &[], &[(location + 1, all_of(clocks))]));
            Ground::of(model(clocks, clocks + 1, Vec::new(), edges.collect())).expect("few regions")
        })
        .collect()
}

/// Locations on both sides of the count, and those whose low bytes name a location that is there.
fn locations(cases: &mut PlaceCases) {
    for ground in grounds_of_20() {
        let count = ground.model.labels.len() as u64;
        for location in 0..count {
            cases.placed(
                &ground,
                equal_clocks(location, 0, 0, 5),
                ground.number(Region::start(location as u8)),
            );
        }
        for location in [count, count + 1, 63, 64, 255, 256, 257, 1 << 16, 1 << 32, (1 << 32) + count - 1] {
            cases.placed(&ground, equal_clocks(location, 0, 0, 5), Err(refusal(20)));
        }
        for location in [1 << 63, u64::MAX - 255, u64::MAX] {
            cases.placed(&ground, equal_clocks(location, 0, 0, 1), Err(refusal(20)));
        }
    }
}

/// Denominators on both sides of their range, and those whose low bytes are in it.
fn denominators(cases: &mut PlaceCases) {
    for ground in grounds_of_20() {
        for denominator in [1, 2, 255, 256, 65_536, 999_999, LARGEST_STATE_DENOMINATOR] {
            cases.placed(&ground, equal_clocks(0, 0, 0, denominator), Ok(0));
        }
        let low = LARGEST_STATE_DENOMINATOR;
        for denominator in [0, low + 1, 1 << 20, 1 << 32, (1 << 32) + 1, (1 << 32) + low, 1 << 63, u64::MAX] {
            cases.placed(&ground, equal_clocks(0, 0, 0, denominator), Err(refusal(20)));
        }
        // A denominator of 0 or too large with values that would be over, or whole.
        let clocks = ground.model.clocks;
        for (value, denominator) in [(1, 0), (u64::MAX, 0), (low + 1, low + 1), (u64::MAX, u64::MAX)] {
            cases.placed(&ground, equal_clocks(0, clocks, value, denominator), Err(refusal(20)));
        }
    }
}

/// Each clock beyond n, with values from 1 on, alone and together with the other conditions.
fn clocks_beyond(cases: &mut PlaceCases) {
    for ground in grounds_of_20() {
        for clock in ground.clocks.count..CLOCKS {
            for value in [1, 9, 256, 1 << 32, 1 << 63, u64::MAX] {
                let mut state = equal_clocks(0, 0, 0, 9);
                state.values[clock] = value;
                cases.placed(&ground, state, Err(refusal(20)));
            }
            let mut state = equal_clocks(ground.model.labels.len() as u64, 0, 0, 0);
            state.values[clock] = 1;
            cases.placed(&ground, state, Err(refusal(20)));
        }
    }
}

/// Too few bytes lent: 15, whether the state would be accepted, 20 or 21. Some graphs exceed 4,096 regions.
fn no_room(cases: &mut PlaceCases) {
    let mut models = 0;
    while models < 12 {
        let Some(ground) = Ground::of(by_chance(&mut cases.rng)) else {
            continue;
        };
        if !(3..100).contains(&ground.regions.len()) || ground.table.len() > 150 {
            continue;
        }
        models += 1;
        let region = ground.some_reached(&mut cases.rng);
        let state = state_in(&mut cases.rng, region, ground.clocks);
        let number = ground.number(region);
        let spoiled = spoiled(&mut cases.rng, state, &ground.model);
        let short = cases.rng.between(1, ground.exact());
        cases.placed_with(&ground, ground.exact() - 1, state, number);
        cases.placed_with(&ground, ground.exact() - short, spoiled, Err(refusal(20)));
        cases.placed_with(&ground, ENTRY, spoiled, Err(refusal(20)));
        cases.placed_with(&ground, 0, state, number);
        // Region 0 is there in the first entry, and is not found: there is no room for all.
        let start = state_in(&mut cases.rng, ground.regions[0], ground.clocks);
        cases.placed_with(&ground, ground.exact() - ENTRY, start, Ok(0));
    }
    let table = Ground::of(free(2, 1, 1)).expect("few regions").table;
    let too_large = written(&free(4, 3, 1));
    for (table, lent) in [(too_large.clone(), 36_864), (too_large, 37_000), (table, 8)] {
        for state in [equal_clocks(0, 2, 0, 1), equal_clocks(1, 2, 0, 0)] {
            cases.foretold(&table, lent, state, Err(refusal(15)));
        }
    }
}

/// Region 0 breaks its invariant: 14, whatever the state and the bytes lent.
fn no_start(cases: &mut PlaceCases) {
    for round in 0..30 {
        let (clocks, largest) = (cases.rng.between(1, 4) as u8, cases.rng.between(0, 3) as u8);
        let mut model = by_chance_of(&mut cases.rng, clocks, largest, 2);
        let clock = cases.rng.below(clocks.into()) as u8;
        model.invariants.push(invariant(model.initial, clock, LESS, 0));
        model.invariants.push(invariant(1 - model.initial, clock, AT_MOST, largest));
        let table = written(&with_places(model));
        let state = match round % 3 {
            0 => equal_clocks(0, clocks, 1, 2),
            1 => equal_clocks(2, clocks, 0, 1),
            _ => equal_clocks(1, clocks, 0, 0),
        };
        let lent = [0, 8, 9, 90][round % 4];
        cases.foretold(&table, lent, state, Err(refusal(14)));
    }
}

/// Tables that get 1 to 13, with a state that would be accepted and with one that would be 20.
fn refused_tables(cases: &mut PlaceCases) {
    for (round, (refused, table)) in refused_list().into_iter().enumerate() {
        let lent = [45, 100, 0, 9][round % 4];
        for state in [equal_clocks(0, 1, 0, 1), equal_clocks(u64::MAX, 4, u64::MAX, 0)] {
            cases.foretold(&table, lent, state, Err(refused));
        }
    }
}
