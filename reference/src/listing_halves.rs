// Shares at exact halves of a ten-thousandth, of which it is known what is printed for them: points that tell ways of
// rounding apart, all halves of small denominators, lines all of whose shares are halves, and halves that several
// branches make together.

use crate::block_models::shuffle;
use crate::generate::weights;
use crate::listing_borders::{parts, put_shares, put_star, Share, StarStep};
use crate::listing_cases::ListingCases;
use crate::listing_models::{factor, spread, HALVING};
use crate::rng::Rng;
use crate::table::MOST_BRANCHES;

/// Adds all cases of this file.
pub fn add_cases(cases: &mut ListingCases) {
    cases.begin_group(102);
    points(cases);
    all_halves(cases);
    known_lines(cases);
    lines_of_halves(cases);
    together(cases);
}

/// Weights, denominators, and what is printed for the shares. The exact halves go to even numbers: where the number
/// below is even a rule that sends them up differs, where it is odd one that sends them down, and one that sends them
/// to odd numbers differs in both places.
const POINTS: [(u16, u16, u64); 72] = [
    (1, 20_000, 0),
    (2, 20_000, 1),
    (3, 20_000, 2),
    (5, 20_000, 2),
    (7, 20_000, 4),
    (9, 20_000, 4),
    (11, 20_000, 6),
    (9_997, 20_000, 4_998),
    (9_999, 20_000, 5_000),
    (10_001, 20_000, 5_000),
    (10_003, 20_000, 5_002),
    (19_993, 20_000, 9_996),
    (19_995, 20_000, 9_998),
    (19_997, 20_000, 9_998),
    (19_999, 20_000, 10_000),
    (1, 32, 312),
    (3, 32, 938),
    (5, 32, 1_562),
    (29, 32, 9_062),
    (31, 32, 9_688),
    (1, 160, 62),
    (3, 160, 188),
    (157, 160, 9_812),
    (159, 160, 9_938),
    (1, 800, 12),
    (3, 800, 38),
    (799, 800, 9_988),
    (1, 4_000, 2),
    (3, 4_000, 8),
    (3_999, 4_000, 9_998),
    (8, 32_000, 2),
    (24, 32_000, 8),
    (13, 52_000, 2),
    (39, 52_000, 8),
    (1, 40_000, 0),
    (2, 40_000, 0),
    (3, 40_000, 1),
    (5, 40_000, 1),
    (6, 40_000, 2),
    (7, 40_000, 2),
    (1, 60_000, 0),
    (3, 60_000, 0),
    (9, 60_000, 2),
    (15, 60_000, 2),
    (21, 60_000, 4),
    (29_997, 60_000, 5_000),
    (30_003, 60_000, 5_000),
    (59_985, 60_000, 9_998),
    (59_991, 60_000, 9_998),
    (59_997, 60_000, 10_000),
    // One weight less and one more.
    (2, 60_000, 0),
    (4, 60_000, 1),
    (8, 60_000, 1),
    (10, 60_000, 2),
    (12, 52_000, 2),
    (14, 52_000, 3),
    (38, 52_000, 7),
    (40, 52_000, 8),
    // Hardly below a half and hardly above it.
    (1, 20_001, 0),
    (3, 20_001, 1),
    (5, 20_001, 2),
    (7, 20_001, 3),
    (1, 19_999, 1),
    (3, 19_999, 2),
    (5, 19_999, 3),
    (7, 19_999, 4),
    (3, 59_999, 1),
    (9, 59_999, 2),
    (15, 59_999, 3),
    // No halves.
    (1, 3, 3_333),
    (2, 3, 6_667),
    (7, 7, 10_000),
];

/// Holds what is foretold to the points, and adds a step for each.
fn points(cases: &mut ListingCases) {
    for (weight, denominator, printed) in POINTS {
        let found = parts(weight.into(), denominator.into());
        assert_eq!(found, printed, "what is foretold for {weight} of {denominator}");
    }
    put_shares(cases, &POINTS.map(|(weight, denominator, _)| (weight, denominator)));
}

/// Each exact half of the small denominators. Both shares of a line are halves, one after an even number and one
/// after an odd one.
fn all_halves(cases: &mut ListingCases) {
    let halves = |halving: u16| (1..halving).step_by(2).map(move |weight| (weight, halving));
    let shares: Vec<Share> = HALVING[..3].iter().flat_map(|&halving| halves(halving)).collect();
    assert!(
        shares.iter().all(|&(weight, denominator)| is_half(weight, denominator)),
        "odd weights are halves"
    );
    put_shares(cases, &shares);
}

/// Whether a share is half between two ten-thousandths.
fn is_half(weight: u16, denominator: u16) -> bool {
    let (twice, denominator) = (20_000 * u32::from(weight), u32::from(denominator));
    twice % denominator == 0 && twice / denominator % 2 == 1
}

/// Lines all of whose shares but 8,750 are exact halves: the weights, and what is printed for them.
const LINES: [(&[u16], &[u64]); 14] = [
    (&[1, 31], &[312, 9_688]),
    (&[1, 3, 28], &[312, 938, 8_750]),
    (&[1, 1, 1, 29], &[312, 312, 312, 9_062]),
    (&[3, 3, 3, 23], &[938, 938, 938, 7_188]),
    (&[5, 5, 5, 5, 5, 5, 1, 1], &[1_562, 1_562, 1_562, 1_562, 1_562, 1_562, 312, 312]),
    (&[3, 3, 3, 3, 3, 3, 7, 7], &[938, 938, 938, 938, 938, 938, 2_188, 2_188]),
    (&[1, 3, 5, 7, 1, 3, 5, 7], &[312, 938, 1_562, 2_188, 312, 938, 1_562, 2_188]),
    (&[1, 19_999], &[0, 10_000]),
    (&[1, 1, 1, 1, 1, 1, 1, 19_993], &[0, 0, 0, 0, 0, 0, 0, 9_996]),
    (&[3, 3, 3, 3, 3, 3, 3, 19_979], &[2, 2, 2, 2, 2, 2, 2, 9_990]),
    (&[3, 59_997], &[0, 10_000]),
    (&[3, 9, 15, 59_973], &[0, 2, 2, 9_996]),
    (&[3, 3, 3, 3, 3, 3, 3, 59_979], &[0, 0, 0, 0, 0, 0, 0, 9_996]),
    (&[9, 9, 9, 9, 9, 9, 9, 59_937], &[2, 2, 2, 2, 2, 2, 2, 9_990]),
];

/// These lines, with the blocks met in the order of the weights and the other way round.
fn known_lines(cases: &mut ListingCases) {
    let mut steps: Vec<StarStep> = Vec::new();
    for (action, (weights, printed)) in LINES.iter().enumerate() {
        let denominator = weights.iter().map(|&weight| u64::from(weight)).sum();
        let found: Vec<u64> = weights.iter().map(|&weight| parts(weight.into(), denominator)).collect();
        assert_eq!(&found, printed, "what is foretold for {weights:?}");
        let branches: Vec<(u16, u8)> = weights.iter().copied().zip(1..).collect();
        steps.push((action as u8, branches.iter().rev().copied().collect()));
        steps.push((action as u8, branches));
    }
    put_star(cases, MOST_BRANCHES as u8, &steps);
}

/// How many shares of a line go down and how many go up, where all are exact halves: no other numbers are possible.
const WAYS: [(usize, usize); 12] =
    [(1, 1), (4, 0), (2, 2), (0, 4), (5, 1), (3, 3), (1, 5), (8, 0), (6, 2), (4, 4), (2, 6), (0, 8)];

/// Lines by chance all of whose shares are exact halves, each of another block.
fn lines_of_halves(cases: &mut ListingCases) {
    for _ in 0..4 {
        let mut steps: Vec<StarStep> = Vec::new();
        for halving in HALVING {
            for (down, up) in WAYS {
                let weights = halves(&mut cases.rng, halving, down, up);
                let mut targets: Vec<u8> = (1..=MOST_BRANCHES as u8).collect();
                shuffle(&mut cases.rng, &mut targets);
                steps.push((cases.rng.byte(), weights.into_iter().zip(targets).collect()));
            }
        }
        put_star(cases, MOST_BRANCHES as u8, &steps);
    }
}

/// Weights at exact halves, so many that go down and so many that go up. Twice a share in ten-thousandths is the number
/// times a power of 5, and divided by 4 it leaves what the number leaves: 1 where the half comes after an even number,
/// 3 where it comes after an odd one.
fn halves(rng: &mut Rng, halving: u16, down: usize, up: usize) -> Vec<u16> {
    let least = [vec![1; down], vec![3; up]].concat();
    let numbers = spread(rng, halving, &least, 4);
    let factor = factor(rng, halving);
    for (index, &number) in numbers.iter().enumerate() {
        let twice = 20_000 / u64::from(halving) * u64::from(number);
        let printed = if index < down { (twice - 1) / 2 } else { twice.div_ceil(2) };
        let found = parts((number * factor).into(), (halving * factor).into());
        assert_eq!(found, printed, "what is foretold for {number} of {halving}");
    }
    numbers.into_iter().map(|number| number * factor).collect()
}

/// Exact halves that branches make only together: both shares of each line.
fn together(cases: &mut ListingCases) {
    for _ in 0..3 {
        let steps: Vec<StarStep> =
            (0..60).map(|action| (action, branches_of_halves(&mut cases.rng))).collect();
        put_star(cases, 2, &steps);
    }
}

/// Branches to two locations, in any order, none of them a half by itself. The two shares are halves.
fn branches_of_halves(rng: &mut Rng) -> Vec<(u16, u8)> {
    loop {
        let halving = rng.pick(&HALVING);
        let factor = factor(rng, halving);
        let first = rng.between(1, usize::from(halving) / 2) as u16 * 2 - 1;
        let several = rng.between(2, MOST_BRANCHES - 2);
        let counts = [several, rng.between(2, MOST_BRANCHES - several)];
        let sums = [first * factor, (halving - first) * factor];
        if sums.iter().zip(counts).any(|(&sum, count)| usize::from(sum) < count) {
            continue;
        }
        let mut branches = Vec::new();
        for (target, (sum, count)) in (1..).zip(sums.into_iter().zip(counts)) {
            branches.extend(weights(rng, sum, count).into_iter().map(|weight| (weight, target)));
        }
        if branches.iter().all(|&(weight, _)| !is_half(weight, halving * factor)) {
            shuffle(rng, &mut branches);
            return branches;
        }
    }
}
