//! Tables by chance with hundreds of branches at one location, for the search to start from beside the families.

use crate::chance::Chance;
use crate::changes::some_weight;
use crate::draft::{Draft, Edge, LARGEST_CONSTANT};
use crate::library;
use crate::table::{Branch, Guard, AT_MOST, EQUAL};
use crate::worker::{ENTRY, REGIONS};

/// What a crowd is made of. All its edges but one a location leave location 0.
#[derive(Clone, Copy)]
struct Crowd {
    name: &'static str,
    clocks: u8,
    locations: u8,
    edges: u8,
}

const CROWDS: [Crowd; 4] = [
    Crowd { name: "crowd, two clocks", clocks: 2, locations: 40, edges: 88 },
    Crowd { name: "crowd, three clocks", clocks: 3, locations: 60, edges: 68 },
    Crowd { name: "crowd, few targets", clocks: 3, locations: 6, edges: 120 },
    Crowd { name: "crowd, four clocks", clocks: 4, locations: 8, edges: 120 },
];

/// So many drafts are tried for one with more than half of the regions that there may be.
const DRAFTS: usize = 60;

/// The crowds, each with its name.
pub fn all(chance: &mut Chance) -> Vec<(&'static str, Vec<u8>)> {
    CROWDS.iter().map(|&crowd| (crowd.name, with_many_regions(crowd, chance))).collect()
}

fn with_many_regions(crowd: Crowd, chance: &mut Chance) -> Vec<u8> {
    let mut entries = vec![0; REGIONS * ENTRY];
    let mut best = (0, Vec::new());
    for _ in 0..DRAFTS {
        let table = draft(crowd, chance).table();
        // A refusal's value is 0.
        let regions = library::graph(&table, &mut entries).value;
        if regions >= best.0 {
            best = (regions, table);
        }
        if best.0 > REGIONS as u64 / 2 {
            break;
        }
    }
    best.1
}

fn draft(crowd: Crowd, chance: &mut Chance) -> Draft {
    let largest = 1 + chance.below(LARGEST_CONSTANT);
    let labels = (0..crowd.locations).map(|location| u8::from(location > 0)).collect();
    let invariants = (0..crowd.locations)
        .map(|location| match location {
            0 => (0, 0, AT_MOST, largest),
            _ => (location, chance.below(crowd.clocks), AT_MOST, chance.below(2)),
        })
        .collect();
    let mut edges: Vec<Edge> = (0..crowd.edges).map(|_| edge(crowd, 0, 8, largest, chance)).collect();
    edges.extend((1..crowd.locations).map(|source| edge(crowd, source, 1, largest, chance)));
    Draft { clocks: crowd.clocks, initial: 0, labels, invariants, edges }
}

fn edge(crowd: Crowd, source: u8, branches: u8, largest: u8, chance: &mut Chance) -> Edge {
    let all_clocks = (1 << crowd.clocks) - 1;
    let guards: Vec<Guard> = (0..chance.below(3) / 2)
        .map(|_| (chance.below(crowd.clocks), chance.below(EQUAL + 1), chance.below(largest + 1)))
        .collect();
    let branches: Vec<Branch> = (0..branches)
        .map(|_| (some_weight(50, chance), chance.below(crowd.locations), chance.below(all_clocks + 1)))
        .collect();
    Edge { source, action: 0, guards, branches }
}
