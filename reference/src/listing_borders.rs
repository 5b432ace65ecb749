// Models of which it is known what is printed for them: rounding, the order within lines, the lines that are
// left out, the lowest region's part, large numbers, and each refusal.

use crate::block_models::{chain, labelled, large, large_by_guards, retrying, shuffle, step, ticking};
use crate::explore::MOST_REGIONS;
use crate::generate::{self, weights, LARGEST};
use crate::graph_borders::refused_list;
use crate::graph_cases::{count_of, written};
use crate::graph_models::{
    all_of, all_regions, by_chance_of, free, guard, invariant, AT_LEAST, AT_MOST, EQUAL, LESS,
};
use crate::listing_cases::{ListingCases, LENT_OF_PROGRAM, MOST_LENT};
use crate::listing_models::{denominator, entered_late};
use crate::listing_parse::check_strictness;
use crate::listing_totals::{foot, Total};
use crate::records::{with_places, Records};
use crate::region::ENTRY;
use crate::rng::Rng;
use crate::table::{Edge, Model, BRANCH, LARGEST_CONSTANT, MOST_BRANCHES, MOST_EDGES};
use std::collections::BTreeMap;

/// Adds all cases of this file.
pub fn add_cases(cases: &mut ListingCases) {
    cases.begin_group(91);
    printed(cases);
    no_clocks(cases);
    rounding(cases);
    permuted(cases);
    sums(cases);
    cases.begin_group(92);
    no_delay(cases);
    late_entries(cases);
    same_action(cases);
    lowest_decides(cases);
    shuffled_twins(cases);
    lines_of_one_clock(cases);
    cases.begin_group(93);
    many_rounds(cases);
    every_region(cases);
    limits(cases);
    cases.begin_group(94);
    refusals(cases);
}

/// What the document prints for its model.
const PRINTED: &str = "regions 5 blocks 3 rounds 1
region 0 0 0 0
region 1 0 0 0+1
region 2 0 1 1
region 3 1 2 1
region 4 1 2 >
block 0 5 2
delay 0 1
block 1 5 1
step 1 3 0:6667 2:3333
block 2 9 2
label 5 regions 3 blocks 2
label 9 regions 2 blocks 1
all regions 5 blocks 3
";

/// The document's model with five entries, with four, and with other numbers of bytes.
fn printed(cases: &mut ListingCases) {
    check_strictness(PRINTED);
    let table = written(&generate::printed());
    for lent in [5 * ENTRY, LENT_OF_PROGRAM, 5 * ENTRY + 1, 6 * ENTRY, MOST_LENT] {
        cases.foretold(&table, lent, PRINTED);
    }
    for lent in [4 * ENTRY, 5 * ENTRY - 1, ENTRY, ENTRY - 1, 0] {
        cases.refused(&table, lent, 15, 0);
    }
}

/// Models without clocks: a region line ends after the block.
fn no_clocks(cases: &mut ListingCases) {
    for label in [0, 7, 10, 99, 100, 255] {
        let table = written(&labelled(0, &[label], Vec::new(), Vec::new()));
        let text = format!("regions 1 blocks 1 rounds 0\nregion 0 0 0\nblock 0 {label} 1\n");
        cases.foretold(&table, LENT_OF_PROGRAM, &(text + &foot(&[(label, 1, 1)])));
    }
    for action in [0, 9, 10, 99, 100, 255] {
        let edges = vec![step(0, action, &[], &[(1, 0, 0)]), step(0, 255 - action, &[], &[(60_000, 0, 0)])];
        let table = written(&labelled(0, &[1], Vec::new(), edges));
        let mut text = "regions 1 blocks 1 rounds 0\nregion 0 0 0\nblock 0 1 1\n".to_string();
        text.push_str(&format!("step 0 {action} 0:10000\nstep 0 {} 0:10000\n", 255 - action));
        cases.foretold(&table, LENT_OF_PROGRAM, &(text + &foot(&[(1, 1, 1)])));
    }
}

/// A share in ten-thousandths: of all numbers that may be printed the one nearest to it, and of two equally near ones
/// the even one.
pub fn parts(weight: u64, denominator: u64) -> u64 {
    let distance = |number: u64| (10_000 * weight).abs_diff(number * denominator);
    (0..=10_000).min_by_key(|&number| (distance(number), number % 2)).expect("there are numbers")
}

/// A step of a star: the action, and its branches by weight and target.
pub type StarStep = (u8, Vec<(u16, u8)>);

/// A model without clocks whose location 0 leads to so many others, all of different labels, and what is
/// printed for it. The first step meets the others by number; the given steps follow.
fn star(others: u8, steps: &[StarStep]) -> (Model, String) {
    let labels: Vec<u8> = (0..=others).map(|location| 200 - location).collect();
    let first = (77, (1..=others).map(|location| (1, location)).collect());
    let steps = [&[first], steps].concat();
    let mut text = format!("regions {0} blocks {0} rounds 0\n", labels.len());
    for location in 0..=others {
        text.push_str(&format!("region {location} {location} {location}\n"));
    }
    text.push_str(&format!("block 0 {} 1\n", labels[0]));
    let mut edges = Vec::new();
    for (action, branches) in &steps {
        let masked: Vec<(u16, u8, u8)> = branches.iter().map(|&(weight, to)| (weight, to, 0)).collect();
        edges.push(step(0, *action, &[], &masked));
        text.push_str(&star_line(*action, branches));
    }
    for location in 1..=others {
        text.push_str(&format!("block {location} {} 1\n", labels[usize::from(location)]));
    }
    let totals: Vec<Total> = labels.iter().map(|&label| (label, 1, 1)).collect();
    text.push_str(&foot(&totals));
    (labelled(0, &labels, Vec::new(), edges), text)
}

/// The line of a step of a star.
fn star_line(action: u8, branches: &[(u16, u8)]) -> String {
    let mut sums: BTreeMap<u8, u64> = BTreeMap::new();
    for &(weight, target) in branches {
        *sums.entry(target).or_default() += u64::from(weight);
    }
    let denominator = sums.values().sum();
    let mut line = format!("step 0 {action}");
    for (target, weight) in sums {
        line.push_str(&format!(" {target}:{}", parts(weight, denominator)));
    }
    line + "\n"
}

/// Adds a star with what must be printed for it.
pub fn put_star(cases: &mut ListingCases, others: u8, steps: &[StarStep]) {
    let (model, text) = star(others, steps);
    cases.foretold(&written(&model), LENT_OF_PROGRAM, &text);
}

/// Shares of all sorts: each weight of each small denominator, weights around a half of a ten-thousandth, and weights
/// by chance.
fn rounding(cases: &mut ListingCases) {
    let points = [(1, 20_000), (3, 20_000), (1, 60_000), (7, 7)].map(|(weight, of)| parts(weight, of));
    assert_eq!(points, [0, 2, 0, 10_000], "the documents' points");
    let mut shares: Vec<Share> = Vec::new();
    for denominator in 1..=40 {
        shares.extend((1..=denominator).map(|weight| (weight, denominator)));
    }
    for denominator in AROUND_HALF {
        shares.extend(around_half(denominator).into_iter().map(|weight| (weight, denominator)));
    }
    while shares.len() % SHARES_IN_A_STAR != 0 {
        let denominator = denominator(&mut cases.rng, 1);
        shares.push((cases.rng.between(1, denominator.into()) as u16, denominator));
    }
    put_shares(cases, &shares);
}

/// A share: a weight and the denominator.
pub type Share = (u16, u16);

/// One edge of a star meets the other locations.
const SHARES_IN_A_STAR: usize = MOST_EDGES - 1;

/// Adds stars with steps that give these shares.
pub fn put_shares(cases: &mut ListingCases, shares: &[Share]) {
    for (table, shares) in shares.chunks(SHARES_IN_A_STAR).enumerate() {
        let steps: Vec<StarStep> =
            shares.iter().enumerate().map(|(index, &share)| share_step(table + index, share)).collect();
        put_star(cases, 2, &steps);
    }
}

/// The step that gives a share to one of two locations, and what is left to the other.
fn share_step(index: usize, (weight, denominator): Share) -> StarStep {
    let (one, other) = if index % 3 == 0 { (2, 1) } else { (1, 2) };
    let mut branches = vec![(weight, one)];
    if weight < denominator {
        branches.insert(index % 2, (denominator - weight, other));
    }
    ((index * 7) as u8, branches)
}

/// Denominators with exact halves, up to the largest one, and neighbours of such, whose shares come near to halves.
const AROUND_HALF: [u16; 36] = [
    32, 96, 160, 480, 800, 1_600, 3_999, 4_000, 4_001, 9_999, 10_000, 10_001, 12_000, 16_000, 19_999, 20_000,
    20_001, 28_000, 29_999, 30_000, 31_999, 32_000, 32_001, 36_000, 39_999, 40_000, 40_001, 44_000, 49_999,
    52_000, 56_000, 59_840, 59_968, 59_997, 59_999, 60_000,
];

/// Weights whose shares are half between two ten-thousandths, or the nearest to it below and above, after even numbers
/// and after odd ones; the least and the greatest weights.
fn around_half(denominator: u16) -> Vec<u16> {
    let whole = u32::from(denominator);
    let left = |weight: u16| 2 * (10_000 * u32::from(weight) % whole);
    let mut found = vec![1, 2, 3, 4, denominator - 3, denominator - 2, denominator - 1];
    for parity in [0, 1] {
        let after = |weight: &u16| 10_000 * u32::from(*weight) / whole % 2 == parity;
        let weights: Vec<u16> = (1..=denominator).filter(after).collect();
        let (half, mut beside): (Vec<u16>, Vec<u16>) =
            weights.into_iter().partition(|&weight| left(weight) == whole);
        beside.sort_by_key(|&weight| left(weight).abs_diff(whole));
        let below = beside.iter().filter(|&&weight| left(weight) < whole);
        let above = beside.iter().filter(|&&weight| left(weight) > whole);
        found.extend(below.take(2).chain(above.take(2)));
        found.extend(half.iter().step_by(1 + half.len() / 4));
    }
    found
}

/// Steps to eight blocks or fewer whose branches come in any order, some to the same location.
fn permuted(cases: &mut ListingCases) {
    for round in 0..28 {
        let others = [8, 8, 8, 5, 3, 2, 1][round % 7];
        let mut steps = Vec::new();
        for index in 0..12 {
            let branches = if index % 2 == 0 { MOST_BRANCHES } else { cases.rng.between(1, MOST_BRANCHES) };
            let denominator = denominator(&mut cases.rng, branches);
            let weights = weights(&mut cases.rng, denominator, branches);
            let shift = cases.rng.below(others.into());
            let in_turn = index % 3 != 0;
            let targets: Vec<u8> = (0..branches)
                .map(|branch| if in_turn { branches - branch + shift } else { cases.rng.below(100) })
                .map(|number| 1 + (number % usize::from(others)) as u8)
                .collect();
            let action = cases.rng.pick(&[0, 1, 255, 77]);
            steps.push((action, weights.into_iter().zip(targets).collect()));
        }
        put_star(cases, others, &steps);
    }
}

/// Branches that land in the same block are summed before rounding: at one location, at twin locations, and
/// with different resets.
fn sums(cases: &mut ListingCases) {
    let steps: Vec<StarStep> = vec![
        (1, vec![(1, 1), (1, 1), (1, 1), (59_997, 2)]),
        (2, vec![(59_998, 2), (1, 1), (1, 1)]),
        (3, vec![(1, 1), (39_998, 2), (1, 1)]),
        (4, vec![(1, 2), (19_998, 1), (1, 2)]),
        (5, vec![(1, 2), (1, 2), (1, 2), (1, 2), (1, 2), (1, 2), (1, 2), (59_993, 1)]),
        (6, vec![(1, 1), (1, 2), (1, 1)]),
        (7, vec![(1, 2); 7]),
        (8, vec![(1, 1), (19_997, 2), (1, 1), (1, 1)]),
        (9, vec![(1, 2), (5, 2), (39_994, 1)]),
        (10, vec![(1, 1), (2, 1), (4, 1), (25, 2)]),
    ];
    put_star(cases, 2, &steps);
    for (weights, share, rest) in SUMS {
        twin_sum(cases, weights, share, rest);
        reset_sum(cases, weights, share, rest);
    }
}

/// Weights, the first three of which land in one block, with what is printed for it and for the block of the last.
const SUMS: [([u16; 4], u64, u64); 18] = [
    ([1, 1, 0, 19_998], 1, 9_999),
    ([1, 1, 0, 59_998], 0, 10_000),
    ([1, 1, 1, 0], 10_000, 0),
    ([1, 1, 1, 3], 5_000, 5_000),
    // Exact halves of branches that are halves too.
    ([1, 1, 1, 19_997], 2, 9_998),
    ([3, 1, 1, 19_995], 2, 9_998),
    ([3, 3, 3, 19_991], 4, 9_996),
    ([1, 1, 1, 29], 938, 9_062),
    // Exact halves that the branches make only together.
    ([1, 1, 0, 39_998], 0, 10_000),
    ([1, 5, 0, 39_994], 2, 9_998),
    ([3, 7, 0, 39_990], 2, 9_998),
    ([1, 1, 1, 59_997], 0, 10_000),
    ([1, 1, 7, 59_991], 2, 9_998),
    ([5, 5, 5, 59_985], 2, 9_998),
    ([7, 7, 7, 59_979], 4, 9_996),
    ([10_001, 9_998, 10_004, 29_997], 5_000, 5_000),
    ([1, 2, 10, 51_987], 2, 9_998),
    ([10, 10, 19, 51_961], 8, 9_992),
];

/// The shares of a line: the low block's, then the high one's. A weight of 0 stands for no branch.
fn two_shares(low: (u32, u64), high: (u32, u64), has_low: bool) -> String {
    let high = format!("{}:{}", high.0, high.1);
    if has_low {
        format!("{}:{} {high}", low.0, low.1)
    } else {
        high
    }
}

fn branches_of(parts: [(u16, u8, u8); 4]) -> Vec<(u16, u8, u8)> {
    parts.into_iter().filter(|&(weight, _, _)| weight > 0).collect()
}

/// Three weights to twin locations, the last back to the start.
fn twin_sum(cases: &mut ListingCases, weights: [u16; 4], share: u64, rest: u64) {
    let [first, second, third, back] = weights;
    let branches = branches_of([(first, 3, 0), (second, 1, 0), (back, 0, 0), (third, 2, 0)]);
    let model = labelled(0, &[0, 5, 5, 5], Vec::new(), vec![step(0, 8, &[], &branches)]);
    let size = weights[..3].iter().filter(|&&weight| weight > 0).count();
    let shares = two_shares((0, rest), (1, share), back > 0);
    cases.with_lines(&model, &format!("block 0 0 1\nstep 0 8 {shares}\nblock 1 5 {size}\n"));
}

/// Three weights to one location with different resets, the last back to the start with all clocks reset. The
/// edge is available at 1.
fn reset_sum(cases: &mut ListingCases, weights: [u16; 4], share: u64, rest: u64) {
    let [first, second, third, back] = weights;
    let branches = branches_of([(first, 1, 0), (back, 0, 3), (second, 1, 1), (third, 1, 2)]);
    let edges = vec![step(0, 8, &[guard(0, EQUAL, 1)], &branches)];
    let model = labelled(2, &[0, 5], Vec::new(), edges);
    let shares = two_shares((0, rest), (3, share), back > 0);
    let lines = format!("block 0 0 2\ndelay 0 1 2\nblock 1 0 1\ndelay 1 2\nstep 1 8 {shares}\nblock 2 0 1\n");
    cases.with_lines(&model, &lines);
}

/// Blocks without a delay line: time stands still, or stays in the block. Blocks that time leaves.
fn no_delay(cases: &mut ListingCases) {
    for clocks in 1..=4 {
        let zeros = " 0".repeat(clocks.into());
        let still = labelled(clocks, &[6], vec![invariant(0, clocks - 1, AT_MOST, 0)], Vec::new());
        let text = format!("regions 1 blocks 1 rounds 0\nregion 0 0 0{zeros}\nblock 0 6 1\n");
        cases.foretold(&written(&still), LENT_OF_PROGRAM, &(text + &foot(&[(6, 1, 1)])));
        let over = " >".repeat(clocks.into());
        let stays = labelled(clocks, &[6], Vec::new(), Vec::new());
        let text =
            format!("regions 2 blocks 1 rounds 0\nregion 0 0 0{zeros}\nregion 1 0 0{over}\nblock 0 6 2\n");
        cases.foretold(&written(&stays), LENT_OF_PROGRAM, &(text + &foot(&[(6, 2, 1)])));
    }
    // An edge that comes at 0, at 1 and at 2 and goes between: how often it still comes parts all regions.
    let back = |constant: u8| step(0, 4, &[guard(0, EQUAL, constant)], &[(1, 0, 1)]);
    let edges = vec![back(0), back(1), back(2)];
    let model = labelled(1, &[6], vec![invariant(0, 0, AT_MOST, 2)], edges);
    let lines = "block 0 6 1\ndelay 0 1 2 3 4\nstep 0 4 0:10000\nblock 1 6 1\ndelay 1 2 3 4\n\
                 block 2 6 1\ndelay 2 3 4\nstep 2 4 0:10000\nblock 3 6 1\ndelay 3 4\n\
                 block 4 6 1\nstep 4 4 0:10000\n";
    cases.with_lines(&model, lines);
    let model = labelled(1, &[6, 7], vec![invariant(0, 0, LESS, 1)], vec![step(0, 4, &[], &[(1, 1, 0)])]);
    cases.with_lines(&model, "block 0 6 2\nstep 0 4 1:10000\nblock 1 7 ");
}

/// A location entered late: time meets blocks of high numbers before those of low ones, and the lines rise.
fn late_entries(cases: &mut ListingCases) {
    for first in 1..=LARGEST_CONSTANT {
        let model = entered_late(first);
        // Blocks 0 and 1 are location 0 before and at `first`. From there on location 1 has a block for each
        // region, up to over, and then those from 0 on.
        let at_zero = 2 + 2 * usize::from(LARGEST_CONSTANT - first) + 2;
        let last = at_zero + 2 * usize::from(first) - 1;
        for block in [at_zero, at_zero + 1, last] {
            let mut line = format!("delay {block}");
            for reached in (2..=last).filter(|&reached| reached < at_zero || reached > block) {
                line.push_str(&format!(" {reached}"));
            }
            cases.with_lines(&model, &format!("block {block} 4 1\n{line}\n"));
        }
    }
}

/// Edges of the same action: one line each, in table order, also where the shares are equal.
fn same_action(cases: &mut ListingCases) {
    for turn in 0..6 {
        let to = |weight: u16, rest: u16| step(0, 3, &[], &[(weight, 1, 0), (rest, 2, 0)]);
        let mut edges = vec![to(1, 2), to(2, 1), to(3, 6)];
        edges.swap(turn % 3, turn / 2);
        let mut lines = "block 0 0 1\n".to_string();
        for edge in &edges {
            let (one, other) = if edge.branches[0].weight == 2 { (6_667, 3_333) } else { (3_333, 6_667) };
            lines.push_str(&format!("step 0 3 1:{one} 2:{other}\n"));
        }
        // Edges of another source stand between them.
        edges.insert(1 + turn % 2, step(2, 3, &[], &[(1, 1, 0)]));
        let model = labelled(0, &[0, 1, 2], Vec::new(), edges);
        cases.with_lines(&model, &lines);
    }
}

/// Twins with their edges in another order and some of them twice: the one that is entered first decides.
fn lowest_decides(cases: &mut ListingCases) {
    for turn in 0..12 {
        let (first, second) = if turn % 2 == 0 { (1, 2) } else { (2, 1) };
        let edge = |source: u8, action: u8, factor: u16| {
            let target = if action == 10 { 3 } else { 4 };
            step(source, action, &[], &[(2 * factor, target, 0), (factor, 0, 0)])
        };
        let of_one = [vec![10, 20], vec![20, 10], vec![10, 20, 10]][turn % 3].clone();
        let of_other = [vec![20, 10, 10], vec![10, 20, 20], vec![20, 20, 10]][turn / 4].clone();
        let mut edges: Vec<Edge> = of_one.iter().map(|&action| edge(first, action, 1)).collect();
        let others =
            of_other.iter().enumerate().map(|(index, &action)| edge(second, action, 2 + index as u16));
        edges.splice(turn % 2..turn % 2, others);
        edges.push(step(0, 1, &[], &[(1, first, 0), (1, second, 0)]));
        let model = labelled(0, &[0, 5, 5, 6, 7], Vec::new(), edges);
        let mut lines = "block 1 5 2\n".to_string();
        for &action in &of_one {
            // The target of the first edge is met first.
            let block = if action == of_one[0] { 2 } else { 3 };
            lines.push_str(&format!("step 1 {action} 0:3333 {block}:6667\n"));
        }
        lines.push_str("block 2 ");
        cases.with_lines(&model, &lines);
    }
}

/// Twins whose edges come in any order, each over its own denominator and some of them twice: the lines are
/// those of the twin that is entered first. Its edges also meet the targets first.
fn shuffled_twins(cases: &mut ListingCases) {
    for _ in 0..60 {
        let twins = cases.rng.between(2, 5) as u8;
        let (edges, order) = twins_in_any_order(&mut cases.rng, twins);
        let labels = [vec![0], vec![5; twins.into()], vec![6, 7, 8]].concat();
        let model = labelled(0, &labels, Vec::new(), edges);
        let mut lines = format!("block 1 5 {twins}\n");
        let mut met = Vec::new();
        for edge in model.edges.iter().filter(|edge| edge.source == order[0]) {
            let mut sums: BTreeMap<usize, u64> = BTreeMap::new();
            for branch in &edge.branches {
                let known = met.iter().position(|&target| target == branch.target);
                let index = known.unwrap_or(met.len());
                met.extend(known.is_none().then_some(branch.target));
                *sums.entry(2 + index).or_default() += u64::from(branch.weight);
            }
            lines.push_str(&format!("step 1 {}", edge.action));
            for (block, weight) in sums {
                lines.push_str(&format!(" {block}:{}", parts(weight, edge.denominator.into())));
            }
            lines.push('\n');
        }
        cases.with_lines(&model, &format!("{lines}block 2 "));
    }
}

/// The edges of so many twins, from 1 on, to the three locations after them, and the order in which the start
/// enters the twins.
fn twins_in_any_order(rng: &mut Rng, twins: u8) -> (Vec<Edge>, Vec<u8>) {
    let mut edges = Vec::new();
    for _ in 0..rng.between(2, 4) {
        let action = rng.pick(&[10, 20, 30]);
        let branches: Vec<(u16, u8, u8)> = (0..rng.between(1, 3))
            .map(|_| (rng.between(1, 9) as u16, twins + rng.between(1, 3) as u8, 0))
            .collect();
        for twin in 1..=twins {
            for _ in 0..rng.pick(&[1, 1, 2]) {
                let factor = rng.between(1, 50) as u16;
                let mut branches = branches.clone();
                branches.iter_mut().for_each(|(weight, _, _)| *weight *= factor);
                shuffle(rng, &mut branches);
                edges.push(step(twin, action, &[], &branches));
            }
        }
    }
    let mut order: Vec<u8> = (1..=twins).collect();
    shuffle(rng, &mut order);
    let entering: Vec<(u16, u8, u8)> = order.iter().map(|&twin| (1, twin, 0)).collect();
    edges.push(step(0, 1, &[], &entering));
    shuffle(rng, &mut edges);
    (edges, order)
}

/// The lines of one location whose clocks stay equal, from 0 through M to over; between, `+1`.
fn lines_of_one_clock(cases: &mut ListingCases) {
    for clocks in 1..=4usize {
        for largest in [0, 1, 2, 9, 10, 14, LARGEST_CONSTANT] {
            let never = step(0, 2, &[guard(0, AT_LEAST, largest), guard(0, LESS, 0)], &[(1, 0, 0)]);
            let model = labelled(clocks as u8, &[255], Vec::new(), vec![never]);
            let mut values: Vec<String> = Vec::new();
            for whole in 0..=largest {
                values.push(whole.to_string());
                values.push(if whole < largest { format!("{whole}+1") } else { ">".to_string() });
            }
            let count = values.len();
            let mut text = format!("regions {count} blocks 1 rounds 0\n");
            for (number, value) in values.iter().enumerate() {
                text.push_str(&format!("region {number} 0 0{}\n", format!(" {value}").repeat(clocks)));
            }
            text.push_str(&format!("block 0 255 {count}\n"));
            text.push_str(&foot(&[(255, count, 1)]));
            cases.foretold(&written(&model), LENT_OF_PROGRAM, &text);
        }
    }
}

/// Chains: many rounds, many blocks.
fn many_rounds(cases: &mut ListingCases) {
    for (locations, label) in [(2, 1), (10, 0), (11, 0), (64, 0), (64, 1)] {
        let rounds = locations - if label == 0 { 1 } else { 2 };
        let table = written(&chain(locations, label));
        let mut text = format!("regions {locations} blocks {locations} rounds {rounds}\n");
        for location in 0..locations {
            text.push_str(&format!("region {location} {location} {location}\n"));
        }
        for location in 0..locations - 1 {
            text.push_str(&format!("block {location} 0 1\nstep {location} 1 {}:10000\n", location + 1));
        }
        text.push_str(&format!("block {} {label} 1\n", locations - 1));
        text.push_str(&foot(&[(0, usize::from(locations) - 1, usize::from(locations) - 1), (label, 1, 1)]));
        cases.foretold(&table, LENT_OF_PROGRAM, &text);
    }
    for model in [retrying(2), retrying(40), retrying(64), ticking(1, 3), ticking(5, 15), ticking(10, 15)] {
        let count = count_of(&model).expect("a short chain");
        cases.regions(&model, count, LENT_OF_PROGRAM);
    }
}

/// Models that reach all regions: every order of ranks, every integer part.
fn every_region(cases: &mut ListingCases) {
    for (clocks, largest) in
        [(1, 15), (2, 0), (2, 1), (2, 2), (2, 5), (2, 15), (3, 0), (3, 1), (3, 2), (4, 0), (4, 1)]
    {
        let count = all_regions(clocks, largest);
        cases.regions(&free(clocks, largest, 1), count, LENT_OF_PROGRAM);
        let parted = large_by_guards(clocks, largest);
        if count <= 1_000 && parted.edges.len() <= MOST_EDGES {
            cases.regions(&parted, count, LENT_OF_PROGRAM);
        }
    }
}

/// Graphs around the program's entries and around 4,096 regions; whole entries are counted.
fn limits(cases: &mut ListingCases) {
    for (clocks, largest, locations) in [(2, 15, 1), (3, 2, 5)] {
        for count in [2_047, 2_048, 2_049] {
            cases.regions(&large(clocks, largest, locations, count), count, LENT_OF_PROGRAM);
        }
    }
    let model = large(3, 2, 5, 2_048);
    for lent in [LENT_OF_PROGRAM - 1, LENT_OF_PROGRAM + ENTRY - 1] {
        cases.regions(&model, 2_048, lent);
    }
    let models = [
        (large(2, 15, 2, MOST_REGIONS), MOST_REGIONS),
        (large(3, 2, 10, MOST_REGIONS), MOST_REGIONS),
        (large(4, 1, 7, MOST_REGIONS), MOST_REGIONS),
        (large(4, 1, 7, 4_095), 4_095),
        (large(3, 2, 10, 4_097), 4_097),
        (large_by_guards(3, 4), all_regions(3, 4)),
        (large_by_guards(2, 15), all_regions(2, 15)),
    ];
    for (round, (model, count)) in models.into_iter().enumerate() {
        cases.regions(&model, count, [MOST_REGIONS * ENTRY, MOST_LENT][round % 2]);
    }
    for count in [9, 10, 11, 99, 100, 101, 999, 1_000, 1_001] {
        let largest = if count < 200 { 3 } else { 15 };
        cases.regions(&large(1, largest, 1, count), count, LENT_OF_PROGRAM);
    }
}

/// Each refusal, with what the program lends and with less.
fn refusals(cases: &mut ListingCases) {
    for (refusal, table) in refused_list() {
        cases.refused(&table, LENT_OF_PROGRAM, refusal.number, refusal.place);
        if table.len() < 200 {
            cases.refused(&table, 0, refusal.number, refusal.place);
        }
    }
    for round in 0..24 {
        let (clocks, largest) = (cases.rng.between(1, 4) as u8, cases.rng.between(0, 3) as u8);
        let mut model = by_chance_of(&mut cases.rng, clocks, largest, 2);
        let clock = cases.rng.below(clocks.into()) as u8;
        model.invariants.push(invariant(model.initial, clock, LESS, 0));
        let lent = [LENT_OF_PROGRAM, 0, 8, 90][round % 4];
        cases.refused(&written(&with_places(model)), lent, 14, 0);
    }
    for (clocks, largest) in [(4, 2), (4, 3), (4, 15), (3, 15), (3, 5)] {
        cases.refused(&written(&free(clocks, largest, 1)), LENT_OF_PROGRAM, 15, 0);
    }
    far_places(cases);
}

/// Refusals whose places have four and five digits.
fn far_places(cases: &mut ListingCases) {
    let largest = Records::of(&generate::model(&mut cases.rng, &LARGEST));
    let table = [largest.bytes(), vec![7]].concat();
    cases.refused(&table, LENT_OF_PROGRAM, 13, table.len() - 1);
    let edges: Vec<Edge> = (0..MOST_EDGES).map(|_| step(0, 1, &[], &[(1, 0, all_of(1))])).collect();
    let records = Records::of(&labelled(1, &[0], Vec::new(), edges));
    let branches = records.of_kind(BRANCH);
    for index in [99, 100, MOST_EDGES - 1] {
        let place = records.place(branches[index]);
        let table = records.with_byte(branches[index], 3, 9).bytes();
        cases.refused(&table, LENT_OF_PROGRAM, 7, place);
        let table = records.with_byte(branches[index], 1, 2).bytes();
        cases.refused(&table, LENT_OF_PROGRAM, 12, records.place(branches[index] - 1));
    }
    let end = records.list.len() - 1;
    let another = records.list[end - 2].clone();
    cases.refused(&records.with_record(end, another).bytes(), LENT_OF_PROGRAM, 11, records.place(end));
    let branch = records.list[end - 1].clone();
    let mut many = records.clone();
    many.list.splice(end..end, vec![branch; MOST_BRANCHES]);
    cases.refused(&many.bytes(), LENT_OF_PROGRAM, 11, many.place(end + MOST_BRANCHES - 1));
}
