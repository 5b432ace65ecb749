//! The models that are measured, one function a family. Each has close to 4,096 regions, the most that a model may have.

use crate::chance::Chance;
use crate::table::{Branch, Guard, Model, AT_LEAST, AT_MOST, EQUAL, LESS, MORE};

/// A family: its name and its table.
pub struct Family {
    pub name: &'static str,
    pub table: Vec<u8>,
}

pub fn all() -> Vec<Family> {
    let family = |name, model: Model| Family { name, table: model.table() };
    vec![
        family("link with retries", link(14, 6)),
        family("duty cycle", duty_cycle(8, 4, 11)),
        family("carrier sense", carrier_sense(5, 15)),
        family("handover", handover(20, 10)),
        family("colliding tags", tags(3, 4, 1)),
        family("random, few edges", random(247, 2, 30, 40, 12)),
        family("random, many edges", random(371, 2, 12, 128, 9)),
        family("random, four clocks", random(388, 4, 8, 20, 2)),
        family("alike stations", alike_stations(56, 5)),
        family("chain", chain(63, [9, 7])),
        family("wide chain", wide_chain([15, 13, 7], 18)),
        family("cross products", cross_products([15, 13, 7], 18)),
        family("equal actions", equal_actions([15, 13, 7], 120)),
        family("last edge", last_edge([13, 11, 9], 88)),
        family("long delays", long_delays([15, 11, 4], 15)),
        family("slowest", slowest([13, 11, 9], 120)),
        family("hub", hub(60, 66)),
        family("hub, two laps", two_laps(60, 64)),
        family("swapped", swapped(60, 33)),
        family("three orders", three_orders(60, 22)),
        family("alternating", alternating(60, 61)),
        family("exchanged", exchanged(57, 7)),
        family("equal sums", equal_sums(50, 24)),
        family("equal sums, parted", equal_sums_parted([13, 11, 9], 80)),
        family("many orders", many_orders(40)),
        family("spare edge", spare_edge([13, 11, 9], 120)),
        family("still anchor", still_anchor(30, 64)),
        family("thresholds", thresholds(40, 3)),
        family("positions", positions(60)),
        family("positions, two laps", positions_two_laps(60)),
        family("doubles", doubles(60, 38)),
        family("doubles, two laps", doubles_two_laps(60, 34)),
        family("doubles, parted", doubles_parted(60, 33)),
        family("equal signs", equal_signs(60, 12, 36)),
    ]
}

/// The mask with these clocks' bits.
fn mask(clocks: &[u8]) -> u8 {
    clocks.iter().map(|clock| 1 << clock).sum()
}

/// A link that sends, waits for an answer and retries: locations in a ring. Clock 0 is the time since it last went on or retried, clock 1
/// the time since it last began anew, clock 2 the time since the start, which nothing reads.
fn link(locations: u8, timeout: u8) -> Model {
    let labels: Vec<u8> = (0..locations).map(|location| location % 4).collect();
    let mut model = Model::new(3, &labels);
    for location in 0..locations {
        model.invariant(location, 0, AT_MOST, timeout);
        model.edge(location, 1, &[(0, AT_LEAST, 2)], &[(9, (location + 1) % locations, 1), (1, location, 3)]);
        model.edge(location, 2, &[(1, EQUAL, timeout - 1)], &[(1, (location + 2) % locations, 2)]);
    }
    model
}

/// A receiver that sleeps, wakes, listens for a unit and sleeps again; its cycle lasts from `cycle` to `cycle` + 1 units. A call comes
/// with a chance of 3/100, and frames of one to `frame` units follow, each damaged with 1/10 and then sent again. Clock 0 is the time
/// since it woke, clock 1 the time in the present frame, clock 2 the time since a frame last came through: after more than `lost` units it
/// listens for a whole cycle.
fn duty_cycle(cycle: u8, frame: u8, lost: u8) -> Model {
    let [listen, asleep, receive, search] = [0, 1, 2, 3];
    let mut model = Model::new(3, &[1, 0, 2, 1]);
    model.invariant(listen, 0, AT_MOST, 1);
    model.invariant(asleep, 0, AT_MOST, cycle + 1);
    model.invariant(receive, 1, AT_MOST, frame);
    model.invariant(search, 0, AT_MOST, cycle);
    let again = mask(&[1]);
    let afresh = mask(&[0, 1]);
    model.edge(asleep, 1, &[(0, AT_LEAST, cycle), (2, AT_MOST, lost)], &[(1, listen, afresh)]);
    model.edge(asleep, 1, &[(0, AT_LEAST, cycle), (2, MORE, lost)], &[(1, search, afresh)]);
    model.edge(listen, 2, &[(0, EQUAL, 1)], &[(97, asleep, 0), (3, receive, again)]);
    model.edge(search, 2, &[(0, EQUAL, cycle)], &[(9, asleep, again), (1, receive, again)]);
    model.edge(receive, 3, &[(1, AT_LEAST, 1), (0, LESS, cycle)], &[(9, asleep, mask(&[1, 2])), (1, receive, again)]);
    model.edge(receive, 3, &[(1, AT_LEAST, 1), (0, AT_LEAST, cycle)], &[(9, listen, mask(&[0, 1, 2])), (1, receive, again)]);
    model
}

/// A station that waits for a random number of slots, looks for one slot whether the channel is clear (7/10), and then sends for two or
/// three. After a busy channel or a collision (1/20) it waits anew, in each stage for up to twice as many slots as in the one before and
/// for at most eight. A frame older than `age` slots is dropped. Clock 0 is the time in the present phase, clock 1 the frame's age.
fn carrier_sense(stages: u8, age: u8) -> Model {
    let waits = |stage: u8| (2 << stage).min(8);
    // Location 0 has no frame. A stage has its waits, by their length, and then the look and the sending.
    let first = |stage: u8| (0..stage).map(|before| waits(before) + 2).sum::<u8>() + 1;
    let mut labels = vec![0];
    for stage in 0..stages {
        labels.extend(vec![1; usize::from(waits(stage))]);
        labels.extend([2, 3]);
    }
    let mut model = Model::new(2, &labels);
    let begin: Vec<Branch> = (0..waits(0)).map(|wait| (1, first(0) + wait, 3)).collect();
    model.edge(0, 1, &[], &begin);
    for stage in 0..stages {
        let look = first(stage) + waits(stage);
        let send = look + 1;
        let later = (stage + 1).min(stages - 1);
        for wait in 0..waits(stage) {
            let location = first(stage) + wait;
            model.invariant(location, 0, AT_MOST, wait + 1);
            model.edge(location, 2, &[(0, EQUAL, wait + 1)], &[(1, look, 1)]);
        }
        model.invariant(look, 0, AT_MOST, 1);
        model.invariant(send, 0, AT_MOST, 3);
        // One good outcome, and with weight 3 each of the waits to come; but an edge has no more than eight branches.
        let waits_to_come = waits(later).min(7);
        let or_wait = |weight: u16, target: u8, mask: u8| -> Vec<Branch> {
            let wait = |wait: u8| (3, first(later) + wait, 1);
            let good = (weight * u16::from(waits_to_come), target, mask);
            std::iter::once(good).chain((0..waits_to_come).map(wait)).collect()
        };
        model.edge(look, 3, &[(0, EQUAL, 1), (1, AT_MOST, age)], &or_wait(7, send, 1));
        model.edge(look, 4, &[(0, EQUAL, 1), (1, MORE, age)], &[(1, 0, 3)]);
        model.edge(send, 5, &[(0, AT_LEAST, 2)], &or_wait(57, 0, 3));
    }
    model
}

/// A sensor that moves between base stations in a ring and hears a beacon of its station every two units. The link is good, weak or gone;
/// from a weak one it may change to the next station once it has stayed for `stay` units, and gives the station up after eight units
/// without a good link. Clock 0 is the time since the beacon, clock 1 the stay, clock 2 the time since the link was good.
fn handover(stations: u8, stay: u8) -> Model {
    let mut labels = vec![0];
    labels.extend([1, 2, 3].repeat(stations.into()));
    let mut model = Model::new(3, &labels);
    let search = 0;
    model.invariant(search, 0, AT_MOST, 4);
    let good = |station: u8| 1 + 3 * (station % stations);
    let found: Vec<Branch> = (0..stations.min(8)).map(|station| (1, good(station), 7)).collect();
    model.edge(search, 4, &[(0, AT_LEAST, 2)], &found);
    for station in 0..stations {
        let [here, weak, change] = [0, 1, 2].map(|part| good(station) + part);
        model.invariant(here, 0, AT_MOST, 2);
        model.invariant(weak, 0, AT_MOST, 2);
        model.invariant(change, 0, AT_MOST, 1);
        let beacon = [(0, EQUAL, 2)];
        model.edge(here, 1, &beacon, &[(90, here, mask(&[0, 2])), (9, weak, mask(&[0, 2])), (1, search, 7)]);
        model.edge(weak, 1, &beacon, &[(40, here, mask(&[0, 2])), (50, weak, mask(&[0])), (10, search, 7)]);
        model.edge(weak, 2, &[(1, AT_LEAST, stay)], &[(1, change, mask(&[0]))]);
        model.edge(weak, 5, &[(2, AT_LEAST, 8)], &[(1, search, 7)]);
        model.edge(change, 3, &[(0, EQUAL, 1)], &[(19, good(station + 1), 7), (1, search, 7)]);
    }
    model
}

/// Equal tags on one channel that do not listen to each other, a clock each. A tag sleeps for one unit to `sleep`, then sends for `send`
/// units with a chance of 1/4 or sleeps again. A location is a set of senders; its label is how many there are, at most 2.
fn tags(tags: u8, sleep: u8, send: u8) -> Model {
    let sets = 1 << tags;
    let labels: Vec<u8> = (0..sets).map(|senders: u8| senders.count_ones().min(2) as u8).collect();
    let mut model = Model::new(tags, &labels);
    for senders in 0..sets {
        for tag in 0..tags {
            let own = mask(&[tag]);
            if senders & own == 0 {
                model.invariant(senders, tag, LESS, sleep);
                model.edge(senders, 1, &[(tag, AT_LEAST, 1)], &[(1, senders | own, own), (3, senders, own)]);
            } else {
                model.invariant(senders, tag, AT_MOST, send);
                model.edge(senders, 2, &[(tag, EQUAL, send)], &[(1, senders - own, own)]);
            }
        }
    }
    model
}

/// A model by chance: each edge has up to two guard atoms and one to four branches, each location a bound on one clock. The
/// seeds are chosen so that there are close to 4,096 regions.
fn random(seed: u64, clocks: u8, locations: u8, edges: u8, largest: u8) -> Model {
    let mut chance = Chance(seed);
    let labels: Vec<u8> = (0..locations).map(|_| chance.below(2)).collect();
    let mut model = Model::new(clocks, &labels);
    for location in 0..locations {
        model.invariant(location, chance.below(clocks), AT_MOST, 1 + chance.below(largest));
    }
    for edge in 0..edges {
        let guards: Vec<Guard> = (0..chance.below(3)).map(|_| (chance.below(clocks), chance.below(5), chance.below(largest + 1))).collect();
        let branches: Vec<Branch> = (0..1 + chance.below(4))
            .map(|_| (1 + u16::from(chance.below(3)), chance.below(locations), chance.below(1 << clocks)))
            .collect();
        model.edge(edge % locations, chance.below(3), &guards, &branches);
    }
    model
}

/// Stations that are all alike: from location 0 a call goes to one of them, which answers after one to `wait` units or is tried again.
/// Their regions share blocks, and so do those that differ in clock 1, the time since the last answer, which nothing reads.
fn alike_stations(stations: u8, wait: u8) -> Model {
    let mut labels = vec![0];
    labels.extend(vec![1; stations.into()]);
    let mut model = Model::new(2, &labels);
    let numbers: Vec<u8> = (1..=stations).collect();
    for group in numbers.chunks(8) {
        let branches: Vec<Branch> = group.iter().map(|&station| (1, station, 1)).collect();
        model.edge(0, 1, &[(0, AT_LEAST, 1)], &branches);
    }
    for station in 1..=stations {
        model.invariant(station, 0, AT_MOST, wait);
        model.edge(station, 2, &[(0, AT_LEAST, 1)], &[(9, 0, 3), (1, station, 1)]);
    }
    model
}

/// A counter that ticks: at `source` clock 0 runs from 0 to 1 and is then reset, and clock i + 1 is reset with it where it has come to
/// `periods[i]`. No two periods have a common divisor, so that all clocks are full at once only after as many ticks as the product of the
/// periods: there the counter stops. A tick has three regions: clock 0 at 0, between 0 and 1, and at 1.
///
/// `edges` adds the edges of one way to tick, given its guards and the mask of its resets.
fn counter(model: &mut Model, source: u8, periods: &[u8], mut edges: impl FnMut(&mut Model, &[Guard], u8)) {
    model.invariant(source, 0, AT_MOST, 1);
    let all = (1 << periods.len()) - 1;
    for full in 0..all {
        let mut guards = vec![(0, EQUAL, 1)];
        for (clock, &period) in (1..).zip(periods) {
            let comparison = if full >> (clock - 1) & 1 == 1 { EQUAL } else { LESS };
            guards.push((clock, comparison, period));
        }
        edges(model, &guards, full << 1 | 1);
    }
}

/// One region is split off in each round. Locations follow each other in no time, each one region; the last one ticks, and the counter
/// tells the passes apart. All regions look alike but the very last, so that each is told from the others only once the next one has been.
/// Between ticks an edge leads back to region 0, which is the last to be split off.
fn chain(locations: u8, periods: [u8; 2]) -> Model {
    let last = locations - 1;
    let mut model = Model::new(3, &vec![0; locations.into()]);
    for location in 0..last {
        model.invariant(location, 0, AT_MOST, 0);
        model.edge(location, 0, &[], &[(1, location + 1, 0)]);
    }
    model.edge(last, 0, &[(0, LESS, 1)], &[(1, 0, 7)]);
    counter(&mut model, last, &periods, |model, guards, mask| model.edge(last, 0, guards, &[(1, 0, mask)]));
    model
}

/// A location for branches that lead nowhere: one region, of another label.
fn add_end(model: &mut Model, end: u8) {
    model.invariant(end, 0, AT_MOST, 0);
}

/// A counter at one location with nearly as many edges and branches as there may be: at the end of a tick a region has `copies` edges of
/// eight branches, all with the same action, which lead on and to an end with different shares. Two ticks part only when the ticks after
/// them have; until then each edge has to be held against those of the other region until the one with the same shares is found.
fn wide_chain(periods: [u8; 3], copies: u16) -> Model {
    let mut model = Model::new(4, &[0, 1]);
    add_end(&mut model, 1);
    counter(&mut model, 0, &periods, |model, guards, mask| {
        for copy in 0..copies {
            let [on, end] = [(10 + copy, 0, mask), (50 - copy, 1, 15)];
            model.edge(0, 0, guards, &[on, end, on, end, on, end, on, end]);
        }
    });
    model
}

/// The same with large weights: each way to tick has its own denominator, so that equal shares are equal only by their cross products.
fn cross_products(periods: [u8; 3], copies: u16) -> Model {
    let mut model = Model::new(4, &[0, 1]);
    add_end(&mut model, 1);
    counter(&mut model, 0, &periods, |model, guards, mask| {
        let times = 1000 - u16::from(mask);
        for copy in 0..copies {
            model.edge(0, 0, guards, &[((10 + copy) * times, 0, mask), ((50 - copy) * times, 1, 15)]);
        }
    });
    model
}

/// A counter that does not stop, with `edges` edges of one action and different shares at the end of each tick, where any two regions are
/// compared edge by edge. The tick at which clocks 2 and 3 are both full has another action; what clock 1 says does not matter, so that
/// regions with all its values share blocks.
fn equal_actions(periods: [u8; 3], edges: u16) -> Model {
    let mut model = Model::new(4, &[0, 1]);
    add_end(&mut model, 1);
    for edge in 1..=edges {
        model.edge(0, 0, &[(0, EQUAL, 1)], &[(edge, 0, 15), (1000 - edge, 1, 15)]);
    }
    let told = mask(&[2, 3]);
    counter(&mut model, 0, &periods, |model, guards, mask| {
        model.edge(0, u8::from(mask & told == told), guards, &[(1, 0, mask)]);
    });
    let full: Vec<Guard> = (1..).zip(periods).map(|(clock, period)| (clock, EQUAL, period)).collect();
    model.edge(0, 1, &full, &[(1, 0, 15)]);
    model
}

/// A counter's model with eight ends of different labels. `edges` edges lead to all of them under these guards; they have one action and
/// differ among themselves only in the shares of the last two ends.
fn with_ends(edges: u16, guards: &[Guard]) -> Model {
    let ends = 1..=8;
    let mut model = Model::new(4, &[0, 1, 2, 3, 4, 5, 6, 7, 8]);
    ends.clone().for_each(|end| add_end(&mut model, end));
    for edge in 1..=edges {
        let weight = |end| match end {
            7 => edge,
            8 => 1000 - edge,
            _ => 10,
        };
        let branches: Vec<Branch> = ends.clone().map(|end| (weight(end), end, 15)).collect();
        model.edge(0, 0, guards, &branches);
    }
    model
}

/// A counter in which the beginning of each tick is told from all others in round 1, by an edge for each value of each clock, and its end
/// in round 2, by where its last edge leads; the `edges` edges before that one are the same everywhere. Hundreds of thousands of pairs
/// are then compared in one round, and differ only in the last edge.
fn last_edge(periods: [u8; 3], edges: u16) -> Model {
    let mut model = with_ends(edges, &[(0, EQUAL, 1)]);
    let values = (1..).zip(periods).flat_map(|(clock, period)| (0..period).map(move |value| (clock, value)));
    for (action, (clock, value)) in (1..).zip(values) {
        model.edge(0, action, &[(0, EQUAL, 0), (clock, EQUAL, value)], &[(1, 0, 15)]);
    }
    counter(&mut model, 0, &periods, |model, guards, mask| model.edge(0, 0, guards, &[(1, 0, mask)]));
    model
}

/// All of it at once: a counter of thousands of rounds, and at every region `edges` edges that have to be compared one by one, down to
/// their last branch.
fn slowest(periods: [u8; 3], edges: u16) -> Model {
    let mut model = with_ends(edges, &[]);
    counter(&mut model, 0, &periods, |model, guards, mask| model.edge(0, 0, guards, &[(1, 0, mask)]));
    model
}

/// Long delays: four clocks with four different fractions pass through 129 regions until all are above M, which is 15. There are `chains`
/// locations with such a chain, and a counter for thousands of rounds; from seven places of each chain an edge leads to different places
/// of the counter, so that the blocks reached by delay change through all rounds.
fn long_delays(periods: [u8; 3], chains: u8) -> Model {
    let [begin, second, third, tick, first] = [0, 1, 2, 3, 4];
    let mut model = Model::new(4, &vec![0; usize::from(first + chains)]);
    // One clock after the other is reset within one unit, so that no two have the same fraction.
    for location in [begin, second, third] {
        model.invariant(location, 0, LESS, 1);
    }
    model.edge(begin, 0, &[(0, MORE, 0)], &[(1, second, mask(&[1]))]);
    model.edge(second, 0, &[(1, MORE, 0)], &[(1, third, mask(&[2]))]);
    let into: Vec<Branch> = (0..chains).map(|chain| (1, first + chain, mask(&[3]))).collect();
    for branches in into.chunks(8) {
        model.edge(third, 0, &[(2, MORE, 0)], branches);
    }
    for chain in 0..chains {
        for number in 0..7 {
            let clock = 1 + (chain + number) % 3;
            let value = (chain + 3 * number) % periods[usize::from(clock - 1)];
            model.edge(first + chain, 0, &[(clock, EQUAL, value)], &[(1, tick, 15 - mask(&[clock]))]);
        }
    }
    counter(&mut model, tick, &periods, |model, guards, mask| model.edge(tick, 0, guards, &[(1, tick, mask)]));
    model
}

/// Clocks 0 to 2 at a location where each may be reset at any time, while clock 0 is below 5: 3,890 regions, which nothing tells apart.
/// No other constant of these models is above 5.
fn free_clocks(model: &mut Model, location: u8) {
    model.invariant(location, 0, LESS, 5);
    for clock in 0..3 {
        model.edge(location, 9, &[], &[(1, location, mask(&[clock]))]);
    }
}

/// Hubs: locations from `first` on in which no time passes. Each leads to the next and the last one nowhere, so that a round tells one
/// more of them from the others, the last one first.
fn add_hubs(model: &mut Model, first: u8, hubs: u8, mask: u8) {
    for hub in first..first + hubs {
        model.invariant(hub, 0, AT_MOST, 0);
    }
    for hub in first + 1..first + hubs {
        model.edge(hub - 1, 0, &[], &[(1, hub, mask)]);
    }
}

/// The branches of `edges` edges that lead to hubs from location 1 on, eight each.
fn to_hubs(hubs: u8, edges: u16) -> Vec<Vec<Branch>> {
    let branch = |edge: u16, part: u16| {
        let weight = 1 + (7 * edge + 3 * part * part + part * edge) % 50;
        (weight, 1 + ((5 * edge + 7 * part) % u16::from(hubs)) as u8, 7)
    };
    (0..edges).map(|edge| (0..8).map(|part| branch(edge, part)).collect()).collect()
}

/// Free clocks, hubs, and edges of one action that lead to the hubs: in each round all regions lead to something that has changed. The
/// edges are given as lists, of which a region has all those whose guards it meets.
fn with_hubs(hubs: u8, lists: &[(&[Guard], Vec<Vec<Branch>>)]) -> Model {
    let mut labels = vec![1; usize::from(hubs) + 1];
    labels[0] = 0;
    let mut model = Model::new(3, &labels);
    free_clocks(&mut model, 0);
    add_lists(&mut model, 0, lists);
    add_hubs(&mut model, 1, hubs, 7);
    model
}

/// Edges of one action, in lists, each with its guards.
fn add_lists(model: &mut Model, source: u8, lists: &[(&[Guard], Vec<Vec<Branch>>)]) {
    for (guards, edges) in lists {
        for branches in edges {
            model.edge(source, 0, guards, branches);
        }
    }
}

/// All regions have the same edges, in the same order.
fn hub(hubs: u8, edges: u16) -> Model {
    with_hubs(hubs, &[(&[], to_hubs(hubs, edges))])
}

/// The same edges where hubs begin at location 2, each to hubs of two laps: a fourth clock is kept for the first lap and reset for the
/// second.
fn to_both_laps(hubs: u8, edges: u16) -> Vec<Vec<Branch>> {
    let lapped = |(part, (weight, hub, mask)): (u8, Branch)| (weight, hub + 1, mask + part % 2 * 8);
    to_hubs(hubs, edges).into_iter().map(|branches| (0..).zip(branches).map(lapped).collect()).collect()
}

/// As `with_hubs`, with twice as many rounds: the fourth clock is above all constants in the first lap through the hubs and 0 in the
/// second. Location 0 only waits until that clock is above 5, and location 1 has the free clocks.
fn with_two_laps(hubs: u8, lists: &[(&[Guard], Vec<Vec<Branch>>)]) -> Model {
    let [wait, main, first] = [0, 1, 2];
    let mut labels = vec![1; usize::from(first + hubs)];
    labels[usize::from(wait)] = 2;
    labels[usize::from(main)] = 0;
    let mut model = Model::new(4, &labels);
    model.edge(wait, 0, &[(3, MORE, 5)], &[(1, main, 7)]);
    free_clocks(&mut model, main);
    add_lists(&mut model, main, lists);
    add_hubs(&mut model, first, hubs, 0);
    model.edge(first + hubs - 1, 0, &[(3, MORE, 0)], &[(1, first, 15)]);
    model
}

/// The hub with two laps.
fn two_laps(hubs: u8, edges: u16) -> Model {
    with_two_laps(hubs, &[(&[], to_both_laps(hubs, edges))])
}

/// The edges stand there twice, the second time in reverse order and under the opposite guard: between regions of the two halves, no edge
/// answers to the one in its own place.
fn swapped(hubs: u8, edges: u16) -> Model {
    let forward = to_hubs(hubs, edges);
    let backward = forward.iter().rev().cloned().collect();
    with_hubs(hubs, &[(&[(1, LESS, 2)], forward), (&[(1, AT_LEAST, 2)], backward)])
}

/// The edges stand there three times, each time in another order, with their branches in another order and their weights scaled by
/// another number: no edge is equal to the one that answers to it in any other way than by its shares.
fn three_orders(hubs: u8, edges: u16) -> Model {
    let first = to_hubs(hubs, edges);
    let turned = |edges: &[Vec<Branch>], places: usize, times: u16| -> Vec<Vec<Branch>> {
        let one = |branches: &Vec<Branch>| {
            let mut branches: Vec<Branch> = branches.iter().map(|&(weight, target, mask)| (times * weight, target, mask)).collect();
            branches.rotate_left(places);
            branches
        };
        edges.iter().map(one).collect()
    };
    let mut second = turned(&first, 3, 2);
    second.reverse();
    let mut third = turned(&first, 6, 3);
    third.rotate_left(usize::from(edges) / 3);
    with_hubs(hubs, &[(&[(1, LESS, 1)], first), (&[(1, AT_LEAST, 1), (1, LESS, 3)], second), (&[(1, AT_LEAST, 3)], third)])
}

/// Regions with clock 0 at a whole number have an edge more, so that the two kinds take turns along a delay. Which blocks are reached by
/// delay is the same for most regions of a kind, but not how often.
fn alternating(hubs: u8, edges: u16) -> Model {
    let mut model = with_hubs(hubs, &[(&[], to_hubs(hubs, edges))]);
    for value in 0..5 {
        model.edge(0, 1, &[(0, EQUAL, value)], &[(1, 0, 7)]);
    }
    model
}

/// Two locations for branches that keep one clock and reset the others: where that clock comes to `value` they exchange their blocks. No
/// time passes there; what tells them apart is an edge to `end`.
fn add_exchange(model: &mut Model, first: u8, clock: u8, value: u8, end: u8) {
    let at_zero = u8::from(clock == 0);
    for (location, comparison) in [(first, AT_LEAST), (first + 1, LESS)] {
        model.invariant(location, at_zero, AT_MOST, 0);
        model.edge(location, 5, &[(clock, comparison, value)], &[(1, end, 7)]);
    }
}

/// No edge stands there twice, but the same ones lead elsewhere. For each clock there are two locations that keep it and reset the others;
/// where it comes to 2 they exchange their blocks. An edge has six branches to these locations and two to hubs, and with it stand those
/// that have the weights of each pair exchanged: eight in all, `eights` times. So all regions have the same set of edges, in eight
/// orders, and an edge is never answered by the one with its number or with its weights.
fn exchanged(hubs: u8, eights: u16) -> Model {
    let mut labels = vec![0, 2, 2, 2, 2, 2, 2];
    labels.extend(vec![1; hubs.into()]);
    let mut model = Model::new(3, &labels);
    for eight in 0..eights {
        let pairs = [[10 + 3 * eight, 60 + eight], [100 + eight, 300 + eight], [20 + 5 * eight, 900 + eight]];
        for exchange in 0..8 {
            let mut branches = Vec::new();
            for (clock, [one, other]) in (0..).zip(pairs) {
                let keep = 7 - mask(&[clock]);
                let [one, other] = if exchange >> clock & 1 == 1 { [other, one] } else { [one, other] };
                branches.extend([(one, 1 + 2 * clock, keep), (other, 2 + 2 * clock, keep)]);
            }
            branches.extend([0, 1].map(|part| (5 + (7 * eight + 3 * part) % 40, 7 + ((5 * eight + 7 * part) % u16::from(hubs)) as u8, 7)));
            model.edge(0, 0, &[], &branches);
        }
    }
    free_clocks(&mut model, 0);
    for clock in 0..3 {
        add_exchange(&mut model, 1 + 2 * clock, clock, 2, 1);
    }
    add_hubs(&mut model, 7, hubs, 7);
    model.edge(0, 3, &[], &[(1, 7, 7)]);
    model
}

/// Weights for eight ends that are regions 2 to 9. All have the same sum, and also the same sum of each weight times
/// (v + 77)(v + 1003)(v + 2001) modulo 1,048,573, where v is the region: a key that is made of such sums does not tell edges with these
/// weights apart. They are the points near 0 of the lattice of all such changes to the last four weights; `BASIS` is its reduced basis.
fn equal_sum_weights(count: usize) -> Vec<[u16; 8]> {
    const BASIS: [[i32; 4]; 2] = [[-393, 617, -73, -151], [-572, 405, 864, -697]];
    const MIDDLE: i32 = 7400;
    let mut changes = Vec::new();
    for one in -12..=12 {
        for other in -8..=8 {
            let change = [0, 1, 2, 3].map(|end| one * BASIS[0][end] + other * BASIS[1][end]);
            if change.iter().all(|end| end.abs() < MIDDLE) {
                changes.push(change);
            }
        }
    }
    changes.sort_by_key(|change| change.map(i32::abs).into_iter().max());
    let weights = |change: &[i32; 4]| [0, 1, 2, 3, 4, 5, 6, 7].map(|end| (MIDDLE + if end < 4 { 0 } else { change[end - 4] }) as u16);
    changes[..count].iter().map(weights).collect()
}

/// The branches with these weights, to eight ends from location 1 on.
fn to_ends(weights: [u16; 8], mask: u8) -> Vec<Branch> {
    (1..).zip(weights).map(|(end, weight)| (weight, end, mask)).collect()
}

/// Free clocks, hubs that change in each round, and edges to eight ends of different labels, which stand there three times in different
/// orders. The shares are different, but the sums of all edges are equal (`equal_sum_weights`).
fn equal_sums(hubs: u8, edges: usize) -> Model {
    let mut labels = vec![0, 2, 3, 4, 5, 6, 7, 8, 9];
    labels.extend(vec![1; hubs.into()]);
    let mut model = Model::new(3, &labels);
    (1..=8).for_each(|end| add_end(&mut model, end));
    let first = equal_sum_weights(edges);
    let mut second = first.clone();
    second.reverse();
    let mut third = first.clone();
    third.rotate_left(edges / 3);
    let lists: [(&[Guard], _); 3] = [(&[(1, LESS, 1)], first), (&[(1, AT_LEAST, 1), (1, LESS, 3)], second), (&[(1, AT_LEAST, 3)], third)];
    for (guards, edges) in lists {
        for weights in edges {
            model.edge(0, 0, guards, &to_ends(weights, 7));
        }
    }
    model.edge(0, 3, &[], &[(1, 9, 7)]);
    free_clocks(&mut model, 0);
    add_hubs(&mut model, 9, hubs, 7);
    model
}

/// A counter that does not stop. At the beginning of a tick there are `edges` edges that are everywhere the same, and for each clock one
/// that tells its value; all have equal sums (`equal_sum_weights`). In one round 1,287 regions part from each other, and a key made of such
/// sums is the same for all.
fn equal_sums_parted(periods: [u8; 3], edges: usize) -> Model {
    let mut model = Model::new(4, &[0, 2, 3, 4, 5, 6, 7, 8, 9]);
    (1..=8).for_each(|end| add_end(&mut model, end));
    let begin = (0, EQUAL, 0);
    let values = (1..).zip(periods).flat_map(|(clock, period)| (0..period).map(move |value| (clock, EQUAL, value)));
    let guards: Vec<Vec<Guard>> = std::iter::repeat(vec![begin]).take(edges).chain(values.map(|value| vec![begin, value])).collect();
    for (guards, weights) in guards.iter().zip(equal_sum_weights(guards.len())) {
        model.edge(0, 0, guards, &to_ends(weights, 15));
    }
    counter(&mut model, 0, &periods, |model, guards, mask| model.edge(0, 0, guards, &[(1, 0, mask)]));
    let full: Vec<Guard> = (1..).zip(periods).map(|(clock, period)| (clock, EQUAL, period)).collect();
    model.edge(0, 0, &full, &[(1, 0, 15)]);
    model
}

/// As `exchanged`, with 32 orders in place of eight: seven pairs of locations exchange their blocks, at three values of clocks 1 and
/// 2 and at one of clock 0, so that the same set of edges stands there in 32 orders, which take turns from region to region. An edge has
/// two branches for each of four pairs, and with it stand those that have the weights of each pair exchanged: sixteen in all, four times.
/// None of them leads to a hub; but masks make the hubs' clocks of all regions' clocks, so that all are stirred where a hub changes.
fn many_orders(hubs: u8) -> Model {
    let pairs = [(0, 2), (1, 1), (2, 1), (1, 2), (2, 2), (1, 4), (2, 4)];
    let fours = [[0, 1, 2, 3], [3, 4, 5, 6], [5, 6, 0, 1], [2, 4, 6, 0]];
    let first_of = |pair: usize| 1 + 2 * pair as u8;
    let first_hub = first_of(pairs.len());
    let mut labels = vec![0];
    labels.extend(vec![2; 2 * pairs.len()]);
    labels.extend(vec![1; hubs.into()]);
    let mut model = Model::new(3, &labels);
    for (number, four) in (0..).zip(fours) {
        for exchange in 0..16 {
            let mut branches = Vec::new();
            for (part, pair) in (0..).zip(four) {
                let [one, other] = [10 + 3 * number + 100 * part, 60 + 7 * number + 100 * part];
                let [one, other] = if exchange >> part & 1 == 1 { [other, one] } else { [one, other] };
                let keep = 7 - mask(&[pairs[pair].0]);
                branches.extend([(one, first_of(pair), keep), (other, first_of(pair) + 1, keep)]);
            }
            model.edge(0, 0, &[], &branches);
        }
    }
    free_clocks(&mut model, 0);
    for (pair, (clock, value)) in pairs.into_iter().enumerate() {
        add_exchange(&mut model, first_of(pair), clock, value, 1);
    }
    add_hubs(&mut model, first_hub, hubs, 7);
    model.edge(0, 3, &[], &[(1, first_hub, 7)]);
    model
}

/// A list of branches in reverse order, with weights doubled.
fn doubled(branches: &[Branch]) -> Vec<Branch> {
    branches.iter().rev().map(|&(weight, target, mask)| (2 * weight, target, mask)).collect()
}

/// Edges in as many groups as there are pairs of guards in a list. Where the guard holds, a group's edges stand in one order; where its opposite
/// does, in the reverse order, with branches in reverse order and weights doubled.
fn grouped<'a>(all: &[Vec<Branch>], guards: &'a [[Guard; 2]]) -> Vec<(&'a [Guard], Vec<Vec<Branch>>)> {
    let mut lists: Vec<(&[Guard], Vec<Vec<Branch>>)> = Vec::new();
    for (group, [one, opposite]) in all.chunks(all.len() / guards.len()).zip(guards) {
        lists.push((std::slice::from_ref(one), group.to_vec()));
        lists.push((std::slice::from_ref(opposite), group.iter().rev().map(|branches| doubled(branches)).collect()));
    }
    lists
}

/// The values that the clocks of the hub's regions come to, each with its clock.
fn clock_values() -> impl Iterator<Item = (u8, u8)> {
    [(0, 1..5), (1, 1..6), (2, 1..6)].into_iter().flat_map(|(clock, all)| all.map(move |value| (clock, value)))
}

/// A group for each value of a clock, below it and from it on: 180 orders. Regions next to each other often differ in one group alone.
fn thresholds(hubs: u8, edges: u16) -> Model {
    let guards: Vec<[Guard; 2]> = clock_values().map(|(clock, value)| [(clock, LESS, value), (clock, AT_LEAST, value)]).collect();
    with_hubs(hubs, &grouped(&to_hubs(hubs, edges * guards.len() as u16), &guards))
}

/// Two guards for each value, with their opposites: below it, and up to it. A clock between two values has an order of its own too, so
/// that there are over a thousand orders, and few regions of one order.
fn position_guards() -> Vec<[Guard; 2]> {
    let pairs = |(clock, value)| [[(clock, LESS, value), (clock, AT_LEAST, value)], [(clock, AT_MOST, value), (clock, MORE, value)]];
    clock_values().flat_map(pairs).collect()
}

/// A group of one edge for each of these pairs.
fn positions(hubs: u8) -> Model {
    let guards = position_guards();
    with_hubs(hubs, &grouped(&to_hubs(hubs, guards.len() as u16), &guards))
}

/// The same with two laps.
fn positions_two_laps(hubs: u8) -> Model {
    let guards = position_guards();
    with_two_laps(hubs, &grouped(&to_both_laps(hubs, guards.len() as u16), &guards))
}

/// Edges that all regions have, and between them, for each pair of guards, a double of one of them: a region has it where the first guard
/// holds, or in every second pair the other one. Regions with different doubles are related, since an edge answers to its double. There are
/// at least as many edges as guards.
fn with_doubles<'a>(all: &[Vec<Branch>], guards: &'a [[Guard; 2]]) -> Vec<(&'a [Guard], Vec<Vec<Branch>>)> {
    let mut lists: Vec<(&[Guard], Vec<Vec<Branch>>)> = Vec::new();
    for (place, pair) in guards.iter().enumerate() {
        lists.push((std::slice::from_ref(&pair[place % 2]), vec![doubled(&all[place])]));
        let part = place * all.len() / guards.len()..(place + 1) * all.len() / guards.len();
        lists.push((&[], all[part].to_vec()));
    }
    lists
}

/// The hub with doubles: over a thousand sets of edges.
fn doubles(hubs: u8, edges: u16) -> Model {
    with_hubs(hubs, &with_doubles(&to_hubs(hubs, edges), &position_guards()))
}

/// The same with two laps.
fn doubles_two_laps(hubs: u8, edges: u16) -> Model {
    with_two_laps(hubs, &with_doubles(&to_both_laps(hubs, edges), &position_guards()))
}

/// The same with one edge more, which only regions with clock 1 below 3 have. It parts the regions of location 1 into 90 blocks, and a region
/// is seldom of the same block as the one before it. So an item is seldom compared with the one that the item before it was compared with.
fn doubles_parted(hubs: u8, edges: u16) -> Model {
    let guards = position_guards();
    let mut lists = with_doubles(&to_both_laps(hubs, edges), &guards);
    lists.push((&[(1, LESS, 3)], vec![vec![(1, 0, 15)]]));
    with_two_laps(hubs, &lists)
}

/// An edge with another last weight, so that the weights times 11 · 961^i, where i is the branch, have a sum that 4,093 divides.
fn without_sum(branches: &[Branch]) -> Vec<Branch> {
    let factors: Vec<u64> = std::iter::successors(Some(11), |factor| Some(factor * 961 % 4093)).take(branches.len()).collect();
    let (&(_, target, mask), others) = branches.split_last().expect("an edge has branches");
    let sum: u64 = others.iter().zip(&factors).map(|(branch, factor)| u64::from(branch.0) * factor).sum();
    let last = (1..4093).find(|&weight| (sum + weight * factors[others.len()]) % 4093 == 0).expect("a prime has inverses");
    let mut all = others.to_vec();
    all.push((last as u16, target, mask));
    all
}

/// Made against a sign of an item that is a sum of the weights and blocks of its edges: all regions of location 1 have the same sign, but
/// there are 125 sets of edges. For each of `groups` guards there is an edge, and where the guard does not hold one with weights twice as
/// large, which adds the same to the sign (`without_sum`). After them stand `edges` that all regions have, and last two equal edges, of
/// which each region has one: between regions with different ones, a quick look at the last place where they differ says nothing.
fn equal_signs(hubs: u8, groups: usize, edges: usize) -> Model {
    let guards = position_guards();
    let all: Vec<Vec<Branch>> = to_both_laps(hubs, (groups + edges + 1) as u16).iter().map(|branches| without_sum(branches)).collect();
    let twice = |branches: &[Branch]| branches.iter().map(|&(weight, target, mask)| (2 * weight, target, mask)).collect();
    let mut lists: Vec<(&[Guard], Vec<Vec<Branch>>)> = Vec::new();
    for (group, branches) in all[..groups].iter().enumerate() {
        let [one, opposite] = &guards[group * guards.len() / groups];
        lists.push((std::slice::from_ref(one), vec![branches.clone()]));
        lists.push((std::slice::from_ref(opposite), vec![twice(branches)]));
    }
    lists.push((&[], all[groups..groups + edges].to_vec()));
    for guard in &guards[guards.len() / 2] {
        lists.push((std::slice::from_ref(guard), vec![all[groups + edges].clone()]));
    }
    with_two_laps(hubs, &lists)
}

/// Eight ends from location `first_end` on, and `edges` edges to them with equal shares, but no two with the same weights. The first one is
/// available under a guard only. Regions with it and without it may be related, since the others answer to it, but are not plainly alike.
fn add_alike_edges(model: &mut Model, source: u8, first_end: u8, edges: u16, guard: Guard, mask: u8) {
    let ends = first_end..first_end + 8;
    ends.clone().for_each(|end| add_end(model, end));
    for edge in 1..=edges {
        let guards: &[Guard] = if edge == 1 { &[guard] } else { &[] };
        let branches: Vec<Branch> = ends.clone().map(|end| (edge, end, mask)).collect();
        model.edge(source, 0, guards, &branches);
    }
}

/// A counter of thousands of rounds with such edges. In each round the few regions that are stirred are compared with their block's anchor,
/// one of the first regions; it has the edge that most of them lack.
fn spare_edge(periods: [u8; 3], edges: u16) -> Model {
    let mut model = Model::new(4, &[0, 1, 2, 3, 4, 5, 6, 7, 8]);
    add_alike_edges(&mut model, 0, 1, edges, (2, AT_MOST, 1), 15);
    counter(&mut model, 0, &periods, |model, guards, mask| model.edge(0, 0, guards, &[(1, 0, mask)]));
    model
}

/// One region is never stirred, but related to thousands that are stirred in each round and lack an edge that it has: the anchor. The hubs
/// have clock 3 above all constants, and so have all regions at location 1 but the anchor, where it is 5: no mask makes the hubs' clocks
/// of its own. No edge of location 1 leads to a hub; but a mask makes the hubs' clocks of the others', so that they are stirred with them.
fn still_anchor(hubs: u8, edges: u16) -> Model {
    let [wait, main, first_end, first_hub] = [0, 1, 2, 10];
    let mut labels = vec![1, 0, 2, 3, 4, 5, 6, 7, 8, 9];
    labels.extend(vec![1; hubs.into()]);
    let mut model = Model::new(4, &labels);
    model.edge(wait, 0, &[(3, EQUAL, 5)], &[(1, main, 7)]);
    model.edge(wait, 0, &[(3, MORE, 5)], &[(1, first_hub, 7)]);
    free_clocks(&mut model, main);
    add_alike_edges(&mut model, main, first_end, edges, (1, LESS, 1), 7);
    add_hubs(&mut model, first_hub, hubs, 0);
    model
}
