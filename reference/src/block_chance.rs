// What the collections of the three calls on blocks share: models by chance with their rounds, and the refusals
// 1 to 15, which come before all that the calls ask for.

use crate::block_cases::{BlockCases, MOST_LENT};
use crate::block_models::{coarse, spoiled, twins};
use crate::block_subject::{Lent, Subject};
use crate::explore::MOST_REGIONS;
use crate::graph_borders::refused_list;
use crate::graph_cases::{count_of, written};
use crate::graph_models::{by_chance_of, free, invariant, AT_MOST, LESS};
use crate::partition::Question;
use crate::records::with_places;
use crate::region::ENTRY;
use crate::rng::Rng;
use crate::table::Refusal;

/// The longest table of a model by chance, in bytes.
const LONGEST_BY_CHANCE: usize = 190;

/// A model by chance. Where it has twin locations and nothing was changed the locations' origins are known.
pub struct Drawn {
    pub subject: Subject,
    pub origin: Option<Vec<u8>>,
}

/// A model by chance with so many regions.
pub fn drawn(rng: &mut Rng, fewest: usize, most: usize) -> Drawn {
    loop {
        let (model, origin) = match rng.below(5) {
            0 | 1 => (coarse(rng), None),
            2 | 3 => {
                let twins = twins(rng);
                (twins.model, Some(twins.origin))
            }
            _ => {
                let twins = twins(rng);
                (spoiled(rng, twins.model), None)
            }
        };
        let fits = count_of(&model).is_some_and(|count| (fewest..=most).contains(&count));
        if !fits || written(&model).len() > LONGEST_BY_CHANCE {
            continue;
        }
        let subject = Subject::of(model).expect("the number of regions fits");
        return Drawn { subject, origin };
    }
}

/// Refusals 1 to 15 with questions that would be refused too, or not, and with lists that are too short, or
/// not.
pub fn early_refusals(cases: &mut BlockCases, ask: fn(&mut Rng) -> Question) {
    refused_tables(cases, ask);
    no_start(cases, ask);
    no_room(cases, ask);
    too_large(cases, ask);
}

/// Lengths of the two lists, without regard to any model.
const LENGTHS: [[usize; 2]; 6] = [[5, 5], [0, 0], [9, 0], [0, 7], [60, 60], [1, 2]];

/// Tables that get 1 to 13, the short ones with two questions each.
fn refused_tables(cases: &mut BlockCases, ask: fn(&mut Rng) -> Question) {
    for (round, (refusal, table)) in refused_list().into_iter().enumerate() {
        for turn in 0..if table.len() > 1_000 { 1 } else { 2 } {
            let lists = LENGTHS[(round + turn) % LENGTHS.len()];
            let lent = Lent { entries: [45, 100, 0, 9, 90][(round + turn) % 5], lists };
            let question = ask(&mut cases.rng);
            cases.foretold(&table, lent, &question, &Err(refusal));
        }
    }
}

/// Region 0 breaks its invariant: 14, whatever is lent.
fn no_start(cases: &mut BlockCases, ask: fn(&mut Rng) -> Question) {
    for round in 0..20 {
        let (clocks, largest) = (cases.rng.between(1, 4) as u8, cases.rng.between(0, 3) as u8);
        let mut model = by_chance_of(&mut cases.rng, clocks, largest, 2);
        let clock = cases.rng.below(clocks.into()) as u8;
        model.invariants.push(invariant(model.initial, clock, LESS, 0));
        model.invariants.push(invariant(1 - model.initial, clock, AT_MOST, largest));
        let lent = Lent { entries: [0, 8, 9, 90][round % 4], lists: LENGTHS[round % LENGTHS.len()] };
        let question = ask(&mut cases.rng);
        let table = written(&with_places(model));
        cases.foretold(&table, lent, &question, &Err(Refusal { number: 14, place: 0 }));
    }
}

/// Too few bytes lent: 15, with lists that would do and with lists that would not.
fn no_room(cases: &mut BlockCases, ask: fn(&mut Rng) -> Question) {
    for round in 0..16 {
        let subject = drawn(&mut cases.rng, 3, 60).subject;
        let exact = subject.exact();
        let any = cases.rng.below(exact.entries);
        for entries in [exact.entries - 1, exact.entries - ENTRY, any, [0, 8, ENTRY][round % 3]] {
            let lists = if cases.rng.chance(1, 2) { exact.lists } else { LENGTHS[round % LENGTHS.len()] };
            let question = ask(&mut cases.rng);
            cases.ask(&subject, Lent { entries, lists }, &question);
        }
    }
}

/// More than 4,096 regions: 15, however much is lent.
fn too_large(cases: &mut BlockCases, ask: fn(&mut Rng) -> Question) {
    let table = written(&free(4, 3, 1));
    for entries in [MOST_REGIONS * ENTRY, MOST_LENT, 5 * ENTRY] {
        for lists in [[4_200, 4_200], [4_096, 4_095]] {
            let question = ask(&mut cases.rng);
            let refusal = Refusal { number: 15, place: 0 };
            cases.foretold(&table, Lent { entries, lists }, &question, &Err(refusal));
        }
    }
}
