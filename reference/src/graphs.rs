// The collection of graphs under names, for a test of one round by itself: graphs of accepted models as numbers,
// names for their regions, and for each region the lowest that the next round relates to it. The README has the form
// of both files. The collection checks itself: each graph is read back from its numbers, and each answer is held to the
// rounds by signatures, on small models also to the rounds by pairs.

use crate::asks::{regions_up_to, sized};
use crate::block_borders;
use crate::block_models::{large, large_by_guards, ticking};
use crate::block_subject::MOST_BY_PAIRS;
use crate::cases::in_hex;
use crate::explore::{self, Exploration};
use crate::generate;
use crate::graph_cases::written;
use crate::graphs_form::{numbers, read_back};
use crate::graphs_models::{fractions, heavy, mixed, varied, HEAVY_REGIONS, HEAVY_SOURCE};
use crate::graphs_next::{reached, Named};
use crate::links::{Graph, Step};
use crate::pairs::{self, Relation};
use crate::refine;
use crate::region::{Region, ENTRY, OVER};
use crate::rng::Rng;
use crate::rounds::{self, Blocks};
use crate::table::{self, Model};
use std::collections::HashSet;
use std::fs;

/// The most regions of a graph.
const MOST: usize = 300;
/// What each of the two files may take, in bytes.
const BUDGET: usize = 1_400_000;
/// How many models by chance there are, by fewest and most regions.
const SIZES: [(usize, usize, usize); 5] =
    [(1, 2, 6), (3, 19, 32), (20, 60, 50), (61, 150, 55), (151, MOST, 48)];
/// How many models have equal shares by different fractions by the way they are made.
const FRACTIONS: usize = 10;

/// The document's printed model, as it is printed there.
const PRINTED: &str = "010102000205020903000001010400030300050003010601000100060200000107";
/// Its numbers up to the count of namings, and its answers to all namings but the last two.
const PRINTED_NUMBERS: [u16; 44] = [
    5, 2, // regions, locations
    5, 1, 3, 3, 2, 1, 1, 0, 2, 0, 1, // location 0 with its edge
    9, 0, // location 1
    0, 0, 1, 0, // region 0
    0, 1, 2, 0, // region 1
    0, 2, 65_535, 1, 0, // region 2
    1, 2, 4, 0, // region 3
    1, 4, 65_535, 0, // region 4
    2, 2, 0, 2, 2, 1, 0, // resets
    7, // namings
];
const PRINTED_ANSWERS: [&str; 5] = ["0 0 2 3 3", "0 0 2 3 3", "0 0 2 3 3", "0 0 2 0 0", "0 1 2 3 4"];

struct Graphs {
    seed: u64,
    /// The tables added so far.
    seen: HashSet<Vec<u8>>,
    input: Vec<u8>,
    output: String,
    tally: Tally,
}

/// What is by chance in a case.
#[derive(Clone, Copy)]
enum Chance {
    Model,
    Names,
}

/// What occurs in the collection, and how often.
#[derive(Default)]
struct Tally {
    cases: usize,
    namings: usize,
    regions: usize,
    /// Cases with 20 regions or more, and the most regions of a case.
    above_19: usize,
    most: usize,
    /// Cases by clocks.
    clocks: [usize; 5],
    /// Cases in which at some region: two branches of an edge land in one region, two edges have one action, two edges
    /// of one action have equal shares over different denominators.
    same_target: usize,
    same_action: usize,
    other_fractions: usize,
    /// Answers that relate all regions of equal name, that relate no two regions, and the others.
    kept: usize,
    parted: usize,
    between: usize,
    /// Pairs of regions of equal name of small models that only delay parts, that only edges part, that are parted
    /// though both conditions hold one way.
    by_delay: usize,
    by_edges: usize,
    one_way: usize,
}

/// Makes all cases of a seed and writes them to the two files. The summary goes to standard error.
pub fn write(input_file: &str, output_file: &str, seed: u64) -> Result<(), String> {
    let graphs = make(seed);
    fs::write(input_file, &graphs.input).map_err(|error| format!("{input_file}: {error}"))?;
    fs::write(output_file, &graphs.output).map_err(|error| format!("{output_file}: {error}"))?;
    eprintln!("{}", graphs.summary());
    Ok(())
}

/// Makes all cases of a seed.
fn make(seed: u64) -> Graphs {
    let mut graphs = Graphs {
        seed,
        seen: HashSet::new(),
        input: Vec::new(),
        output: String::new(),
        tally: Tally::default(),
    };
    add_printed(&mut graphs);
    add_known(&mut graphs);
    add_fractions(&mut graphs);
    add_by_chance(&mut graphs);
    add_heavy(&mut graphs);
    add_mixed(&mut graphs);
    graphs.check();
    graphs
}

/// The document's printed model, whose numbers and answers are known.
fn add_printed(graphs: &mut Graphs) {
    let model = generate::printed();
    assert_eq!(in_hex(&written(&model)), PRINTED, "the document prints another table");
    graphs.add(&model);
    let head: Vec<u8> = PRINTED_NUMBERS.iter().flat_map(|number| number.to_le_bytes()).collect();
    assert!(graphs.input.starts_with(&head), "the printed model has other numbers");
    let answers: Vec<&str> = graphs.output.lines().take(PRINTED_ANSWERS.len()).collect();
    assert_eq!(answers, PRINTED_ANSWERS, "the printed model has other answers");
}

/// Models in which it is known what shares a block, and models of a known structure, one of them as large as any.
fn add_known(graphs: &mut Graphs) {
    for border in block_borders::all() {
        let model = table::read(&border.subject.table).expect("a model that was read before");
        graphs.add(&model);
    }
    for model in [ticking(3, 5), large_by_guards(2, 3), large(3, 1, 2, MOST), large(2, 3, 2, MOST - 1)] {
        graphs.add(&model);
    }
}

/// Models with equal shares by different fractions beside nearly equal ones. Which locations share a block is known.
fn add_fractions(graphs: &mut Graphs) {
    for _ in 0..FRACTIONS {
        let mut rng = graphs.rng(Chance::Model);
        let fractions = loop {
            let fractions = fractions(&mut rng);
            if graphs.takes(&fractions.model, 1, MOST) {
                break fractions;
            }
        };
        let (regions, last) = graphs.add(&fractions.model).expect("a new model");
        let block = |location: u8| {
            let entered = Region::start(location);
            last[regions.iter().position(|&region| region == entered).expect("the location is entered")]
        };
        for first in fractions.compared() {
            for second in fractions.compared() {
                let shared = block(first) == block(second);
                assert_eq!(shared, fractions.alike(first, second), "locations {first} and {second}");
            }
        }
    }
}

/// Models by chance, so many of each size, half of them varied.
fn add_by_chance(graphs: &mut Graphs) {
    for (fewest, most, models) in SIZES {
        for number in 0..models {
            let mut rng = graphs.rng(Chance::Model);
            let mut model = sized(&mut rng, |model| graphs.takes(model, fewest, most));
            if number % 2 == 0 {
                model = varied(&mut rng, model);
            }
            graphs.add(&model);
        }
    }
}

/// The model with all edges at one location. How many regions it has is known, and so is which regions share a block:
/// those of the edges' location, and of the others those of one label.
fn add_heavy(graphs: &mut Graphs) {
    let model = heavy();
    let (regions, last) = graphs.add(&model).expect("a new model");
    assert_eq!(regions.len(), HEAVY_REGIONS, "the regions of the heavy model");
    let kind =
        |region: &Region| (region.location == HEAVY_SOURCE, model.labels[usize::from(region.location)]);
    assert_eq!(last, rounds::numbered(regions.iter().map(kind)), "the blocks of the heavy model");
}

/// The model with the edges of two locations mixed. Which regions of the two with equal clocks share a block is known.
fn add_mixed(graphs: &mut Graphs) {
    let (regions, last) = graphs.add(&mixed()).expect("a new model");
    let mut met = [0, 0];
    for (number, &region) in regions.iter().enumerate().filter(|(_, region)| region.location == 0) {
        let twin = Region { location: 1, ..region };
        if let Some(other) = regions.iter().position(|&another| another == twin) {
            let shared = last[number] == last[other];
            assert_eq!(shared, region.whole[0] == OVER, "{region:?} and its twin");
            met[usize::from(shared)] += 1;
        }
    }
    assert!(met.iter().all(|&times| times > 0), "twins that share a block or not: {met:?}");
}

impl Graphs {
    /// A source of chance for the next case, one for each use.
    fn rng(&self, chance: Chance) -> Rng {
        Rng::for_ask(self.seed, 2 * self.tally.cases as u64 + chance as u64)
    }

    /// Whether a model is new and has so many regions.
    fn takes(&self, model: &Model, fewest: usize, most: usize) -> bool {
        let fits = regions_up_to(model, most).is_some_and(|count| count >= fewest);
        fits && !self.seen.contains(&written(model))
    }

    /// Adds a model, unless it is there already: its numbers with its namings, and the answers. Gives its regions and
    /// the blocks of the last round.
    fn add(&mut self, model: &Model) -> Option<(Vec<Region>, Blocks)> {
        let table = written(model);
        if !self.seen.insert(table.clone()) {
            return None;
        }
        let Exploration::Whole(net) = explore::explore(model, MOST) else {
            panic!("the table {} has too many regions, or none", in_hex(&table));
        };
        let accepted = explore::graph(&table, &mut vec![0; net.count() * ENTRY]);
        assert_eq!(accepted, Ok(net.count()), "the table {} is not accepted", in_hex(&table));
        let graph = Graph::of(model, &net.regions);
        let history = rounds::history(&graph);
        assert_eq!(history, refine::history(&net), "the rounds of {} are others", in_hex(&table));
        let namings = namings(&mut self.rng(Chance::Names), &net.regions, &history);
        self.put_numbers(&numbers(model, &net.regions, &namings), &graph, &namings);
        let reached = reached(&graph);
        for names in &namings {
            self.put_answer(&graph, &reached, names);
        }
        self.note(model, &graph);
        let last = history[history.len() - 1].clone();
        Some((net.regions, last))
    }

    /// Writes the numbers of a graph, which must be read back as what they were made from.
    fn put_numbers(&mut self, numbers: &[u16], graph: &Graph, namings: &[Vec<usize>]) {
        let read = read_back(numbers);
        read.check(graph);
        assert_eq!(read.namings, namings, "namings are read back otherwise");
        self.input.extend(numbers.iter().flat_map(|number| number.to_le_bytes()));
    }

    /// Writes the answer to a naming, checked.
    fn put_answer(&mut self, graph: &Graph, reached: &[Vec<usize>], names: &[usize]) {
        let named = Named::new(graph, reached, names);
        let lowest = named.lowest();
        check_by_signatures(graph, names, &lowest);
        if graph.count() <= MOST_BY_PAIRS {
            check_by_pairs(graph, names, &lowest);
            self.tally.note_pairs(&named, &lowest);
        }
        self.tally.note_answer(names, &lowest);
        let numbers: Vec<String> = lowest.iter().map(usize::to_string).collect();
        self.output.push_str(&numbers.join(" "));
        self.output.push('\n');
    }

    /// Counts a case.
    fn note(&mut self, model: &Model, graph: &Graph) {
        let tally = &mut self.tally;
        let count = graph.count();
        tally.cases += 1;
        tally.regions += count;
        tally.above_19 += usize::from(count >= 20);
        tally.most = tally.most.max(count);
        tally.clocks[usize::from(model.clocks)] += 1;
        let some_edge = |of: fn(&Step) -> bool| graph.steps.iter().flatten().any(of);
        let some_pair = |of: fn(&Step, &Step) -> bool| {
            graph.steps.iter().any(|steps| {
                (0..steps.len()).any(|first| (0..first).any(|second| of(&steps[first], &steps[second])))
            })
        };
        tally.same_target += usize::from(some_edge(lands_twice));
        tally.same_action += usize::from(some_pair(|one, other| one.action == other.action));
        tally.other_fractions += usize::from(some_pair(equal_otherwise));
    }

    /// The collection must be varied enough, and not too large.
    fn check(&self) {
        let tally = &self.tally;
        assert!(self.input.len() < BUDGET, "{} bytes of graphs", self.input.len());
        assert!(self.output.len() < BUDGET, "{} bytes of answers", self.output.len());
        assert_eq!(tally.most, MOST, "the most regions of a graph");
        let at_least = [
            (tally.cases, 220, "graphs"),
            (tally.above_19, 150, "graphs of 20 regions or more"),
            (tally.same_target, 60, "graphs with branches of one edge to one region"),
            (tally.same_action, 80, "graphs with edges of one action"),
            (tally.other_fractions, 30, "graphs with equal shares by different fractions"),
            (tally.kept, 300, "answers that part nothing"),
            (tally.parted, 10, "answers that part all"),
            (tally.between, 200, "other answers"),
            (tally.by_delay, 500, "pairs that only delay parts"),
            (tally.by_edges, 500, "pairs that only edges part"),
            (tally.one_way, 500, "pairs for which both conditions hold one way"),
        ];
        for (times, fewest, what) in at_least {
            assert!(times >= fewest, "only {times} {what}");
        }
        for (clocks, &times) in tally.clocks.iter().enumerate() {
            assert!(times >= 8, "only {times} graphs with {clocks} clocks");
        }
    }

    fn summary(&self) -> String {
        let tally = &self.tally;
        let mut text =
            format!("graphs {}, namings {}, regions {}", tally.cases, tally.namings, tally.regions);
        text.push_str(&format!(" (20 and more: {}, most {})", tally.above_19, tally.most));
        text.push_str(&format!(", bytes {} and {}", self.input.len(), self.output.len()));
        text.push_str(&format!(", by clocks {:?}", tally.clocks));
        text.push_str(&format!(", branches to one region: {}", tally.same_target));
        text.push_str(&format!(", edges of one action: {}", tally.same_action));
        text.push_str(&format!(", equal shares by other fractions: {}", tally.other_fractions));
        text.push_str(&format!(", answers that part nothing: {}", tally.kept));
        text.push_str(&format!(", all: {}, some: {}", tally.parted, tally.between));
        text.push_str(&format!(", pairs parted by delay: {}", tally.by_delay));
        text + &format!(", by edges: {}, one way: {}", tally.by_edges, tally.one_way)
    }
}

impl Tally {
    /// Counts an answer to a naming.
    fn note_answer(&mut self, names: &[usize], lowest: &[usize]) {
        self.namings += 1;
        if rounds::numbered(names.iter()) == rounds::numbered(lowest.iter()) {
            self.kept += 1;
        } else if lowest.iter().enumerate().all(|(region, &low)| low == region) {
            self.parted += 1;
        } else {
            self.between += 1;
        }
    }

    /// Counts the pairs of equal name by what parts them. The next round must be an equivalence: it relates the pairs
    /// with the same lowest region, and no others.
    fn note_pairs(&mut self, named: &Named, lowest: &[usize]) {
        for r in 0..lowest.len() {
            for s in 0..lowest.len() {
                assert_eq!(named.relates(r, s), lowest[r] == lowest[s], "no equivalence at {r} and {s}");
            }
            for s in (0..r).filter(|&s| named.same_name(r, s)) {
                let delay = named.delay(r, s) && named.delay(s, r);
                let edges = named.edges(r, s) && named.edges(s, r);
                self.by_delay += usize::from(edges && !delay);
                self.by_edges += usize::from(delay && !edges);
                self.one_way += usize::from(named.both(r, s) != named.both(s, r));
            }
        }
    }
}

/// Whether two branches land in one region.
fn lands_twice(step: &Step) -> bool {
    let targets = || step.landings.iter().map(|landing| landing.target);
    targets().collect::<HashSet<_>>().len() < targets().count()
}

/// Whether two edges of one action give each region the same share, over different denominators.
fn equal_otherwise(one: &Step, other: &Step) -> bool {
    let weight = |step: &Step, target: usize| -> u64 {
        step.landings.iter().filter(|landing| landing.target == target).map(|landing| landing.weight).sum()
    };
    one.action == other.action
        && one.denominator != other.denominator
        && one.landings.iter().chain(&other.landings).all(|&landing| {
            weight(one, landing.target) * other.denominator == weight(other, landing.target) * one.denominator
        })
}

/// The names of a graph's regions: the blocks of round 0, of round 1 and of the last round, one name for all, each
/// region's own number, and two namings by chance.
fn namings(rng: &mut Rng, regions: &[Region], history: &[Blocks]) -> Vec<Vec<usize>> {
    let count = regions.len();
    let of_blocks = |blocks: &Blocks| -> Vec<usize> { blocks.iter().map(|&block| block as usize).collect() };
    // With 0 rounds round 1 equals round 0.
    let early = &history[1.min(history.len() - 1)];
    let last = &history[history.len() - 1];
    let own: Vec<usize> = (0..count).collect();
    let groups = match rng.below(4) {
        0 => own.clone(),
        1 => regions.iter().map(|region| region.location.into()).collect(),
        2 => of_blocks(early),
        _ => of_blocks(last),
    };
    let lopsided = rng.chance(1, 2);
    vec![
        of_blocks(&history[0]),
        of_blocks(early),
        of_blocks(last),
        vec![0; count],
        own.clone(),
        names(rng, &own, false),
        names(rng, &groups, lopsided),
    ]
}

/// A name for each region, from few names: regions of one group get the same. All are below the number of regions. A
/// lopsided naming has one name far more often than the others.
fn names(rng: &mut Rng, groups: &[usize], lopsided: bool) -> Vec<usize> {
    let count = groups.len();
    let few: Vec<usize> = (0..rng.between(2, 4)).map(|_| rng.below(count)).collect();
    let highest = groups.iter().max().map_or(0, |&highest| highest);
    let of_groups: Vec<usize> =
        (0..=highest).map(|_| if lopsided && rng.chance(9, 10) { few[0] } else { rng.pick(&few) }).collect();
    groups.iter().map(|&group| of_groups[group]).collect()
}

/// The rounds by signatures must relate the same regions.
fn check_by_signatures(graph: &Graph, names: &[usize], lowest: &[usize]) {
    let next = rounds::next_round(graph, &rounds::numbered(names.iter()));
    assert_eq!(rounds::numbered(lowest.iter()), next, "the next round of {names:?} is another by signatures");
    let named = lowest.iter().enumerate().all(|(region, &low)| low <= region && lowest[low] == low);
    assert!(named, "{lowest:?} are not the lowest regions");
}

/// The rounds by pairs must relate the same regions.
fn check_by_pairs(graph: &Graph, names: &[usize], lowest: &[usize]) {
    let relation = Relation::of(&names.iter().map(|&name| name as u64).collect::<Vec<_>>());
    let next = pairs::next_round(graph, &relation).blocks();
    assert_eq!(rounds::numbered(lowest.iter()), next, "the next round of {names:?} is another by pairs");
}
