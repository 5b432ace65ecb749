// What a series of asks covers: how often each call succeeds or meets each refusal, how regions, blocks and rounds
// are spread, and which shares and totals the listings of the tables have.

use crate::asks::{self, Ask, What};
use crate::calls::{self, Answer};
use crate::listing;
use crate::listing_check::{self, Findings};
use crate::listing_foot;

/// The names of the calls, in the order of `What`.
const CALLS: [&str; 5] = ["graph", "state", "partition", "pair", "judging"];
/// The highest refusal.
const LAST_REFUSAL: usize = 21;

/// The greatest numbers of a spread; what is above the last is counted too.
const REGIONS: [u64; 8] = [2, 12, 60, 200, 500, 900, 2_000, 4_096];
const ROUNDS: [u64; 7] = [0, 1, 2, 4, 9, 99, 4_095];

/// How often numbers fall between borders.
struct Spread {
    name: &'static str,
    borders: &'static [u64],
    times: Vec<u64>,
}

impl Spread {
    fn new(name: &'static str, borders: &'static [u64]) -> Spread {
        Spread { name, borders, times: vec![0; borders.len()] }
    }

    fn note(&mut self, number: u64) {
        let at = self.borders.iter().position(|&most| number <= most);
        self.times[at.expect("the last border is the greatest number")] += 1;
    }

    fn text(&self) -> String {
        let mut text = self.name.to_string();
        for (most, times) in self.borders.iter().zip(&self.times) {
            text.push_str(&format!("  to {most}: {times}"));
        }
        text + "\n"
    }
}

/// What the listings of accepted tables have.
#[derive(Default)]
struct Listed {
    findings: Findings,
    /// How many there are, and how many of them have a share at an exact half.
    listings: usize,
    with_halves: usize,
}

impl Listed {
    /// Checks and counts the listing of the table that is asked about.
    fn note(&mut self, ask: &Ask) {
        let text = listing::listing(&ask.table, ask.entries).expect("an accepted table");
        let before = self.findings.halves.exact;
        listing_check::check(&ask.table, ask.entries, &text, &mut self.findings);
        self.listings += 1;
        self.with_halves += usize::from(self.findings.halves.exact != before);
    }

    fn text(&self) -> String {
        let (steps, halves) = (self.findings.steps, &self.findings.halves);
        let [down, up] = halves.exact;
        let [down_together, up_together] = halves.together;
        let mut text = format!("listings: {}  step lines: {steps}\n", self.listings);
        text.push_str(&format!("listings with exact halves: {}", self.with_halves));
        text.push_str(&format!("  gone down: {down}  gone up: {up}  printed as 0: {}\n", halves.zeros));
        text.push_str(&format!(
            "exact halves made by sums alone  gone down: {down_together}  gone up: {up_together}\n"
        ));
        text + &self.totals_text()
    }

    fn totals_text(&self) -> String {
        let totals = &self.findings.totals;
        let (lines, labels) = (totals.all_lines(), totals.lines.len());
        let mut text = format!("label lines: {lines}  different labels: {labels}");
        text.push_str(&format!("  listings of one label: {}", totals.of_one));
        text.push_str(&format!("  with labels put in order: {}\n", totals.in_order));
        text.push_str(&format!("labels of several blocks, fewer than regions: {}", totals.between));
        text.push_str(&format!("  of many blocks: {}", totals.of_many_blocks));
        text + &format!("  borne by no region: {}\n", totals.left_out)
    }
}

/// Asks so many questions of a seed and says what they met.
pub fn summary(seed: u64, count: u64) -> String {
    let mut met = [[0; CALLS.len()]; LAST_REFUSAL + 1];
    let mut regions = Spread::new("regions of accepted models", &REGIONS);
    let mut blocks = Spread::new("blocks of partitions", &REGIONS);
    let mut rounds = Spread::new("rounds of partitions", &ROUNDS);
    let mut sharing = 0;
    let mut listed = Listed::default();
    for number in 0..count {
        let ask = asks::ask(seed, number);
        let answer = answered(&ask);
        met[answer.refusal as usize][ask.what.call()] += 1;
        let graph = calls::graph(&ask.table, &mut vec![0; ask.entries]);
        listing_foot::check_printed(&ask.table, ask.entries);
        if graph.refusal == 0 {
            regions.note(graph.value);
            listed.note(&ask);
        }
        match ask.what {
            What::Reduce { .. } if answer.refusal == 0 => {
                blocks.note(answer.blocks);
                rounds.note(answer.rounds);
            }
            What::Pair { .. } => sharing += answer.value,
            _ => {}
        }
    }
    let mut text = format!("{:<11}{}\n", "", CALLS.map(|call| format!("{call:>11}")).concat());
    for (number, times) in met.iter().enumerate() {
        let name = if number == 0 { "accepted".to_string() } else { format!("refusal {number}") };
        let times = times.map(|times| format!("{times:>11}")).concat();
        text.push_str(&format!("{name:<11}{times}\n"));
    }
    text.push_str(&(regions.text() + &blocks.text() + &rounds.text()));
    text.push_str(&format!("pairs that share a block: {sharing}\n"));
    text + &listed.text()
}

/// The answer to an ask.
fn answered(ask: &Ask) -> Answer {
    let entries = &mut vec![0; ask.entries];
    match ask.what {
        What::Graph => calls::graph(&ask.table, entries),
        What::Place { location, values, denominator } => {
            calls::place(&ask.table, entries, location, values, denominator)
        }
        What::Reduce { first, second } => {
            calls::reduce(&ask.table, entries, &mut vec![0; first], &mut vec![0; second])
        }
        What::Pair { first, second, r, s } => {
            calls::pair(&ask.table, entries, &mut vec![0; first], &mut vec![0; second], r, s)
        }
        What::Judge { ref proposal } => calls::judge(&ask.table, entries, proposal),
    }
}
