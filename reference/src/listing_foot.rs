// The totals at the foot of a listing: what must hold of them, and what was found in them. They are held to the lines
// above them, together with the labels that the model gives to its locations: to the region lines one by one, to the
// block lines one by one, and to the sizes of the blocks.

use crate::cases::in_hex;
use crate::explore;
use crate::listing;
use crate::listing_parse::{Counts, Listing};
use crate::table::{Model, Refusal, MOST_LOCATIONS};
use std::collections::{BTreeMap, BTreeSet};

/// Many: so many blocks of a label, or regions of a block.
const MANY: usize = 10;

/// What was found at the feet of listings, by how often.
#[derive(Default)]
pub struct Totals {
    /// Lines of each label that has one.
    pub lines: BTreeMap<u8, usize>,
    /// Listings of one label, and of 64.
    pub of_one: usize,
    pub of_most: usize,
    /// Listings whose labels are met in another order than they are printed in; in falling order, three or more.
    pub in_order: usize,
    pub falling: usize,
    /// Listings of several labels in which region 0 has the largest one.
    pub first_is_last: usize,
    /// Labels of locations never reached that no region bears, and such locations whose label some region bears.
    pub left_out: usize,
    pub unreached: usize,
    /// Labels of several reached locations.
    pub of_locations: usize,
    /// Labels of many blocks, labels of one block with many regions, and labels of more blocks than one and fewer than
    /// regions.
    pub of_many_blocks: usize,
    pub of_one_block: usize,
    pub between: usize,
    /// Labels with a block of another label between their blocks.
    pub apart: usize,
    /// Labels of 1,000 regions or more.
    pub of_thousands: usize,
}

/// The text without the lines of the totals, told by their first words.
pub fn without(text: &str) -> String {
    let lines = text.split_inclusive('\n');
    lines.filter(|line| !line.starts_with("label ") && !line.starts_with("all ")).collect()
}

/// What is printed for a table must be what is printed without totals, but for their lines. Where the graph call
/// refuses, its refusal's line is all that is printed, with totals or without.
pub fn check_printed(table: &[u8], lent: usize) {
    let prints = [listing::printed, listing::printed_without_totals];
    let [with, short] = prints.map(|print| String::from_utf8(print(table, lent)).expect("a text"));
    match explore::graph(table, &mut vec![0; lent]) {
        Ok(_) => assert_eq!(without(&with), short, "{} is listed otherwise without totals", in_hex(table)),
        Err(Refusal { number, place }) => {
            let line = format!("refused {number} place {place}\n");
            assert_eq!([with, short], [line.clone(), line], "what is printed for {}", in_hex(table));
        }
    }
}

/// Checks the totals of a listing whose other lines have been checked, and counts what is in them.
pub fn check(model: &Model, listing: &Listing, found: &mut Totals) {
    let labels: Vec<u8> = listing.labels.iter().map(|&(label, _)| label).collect();
    assert!(labels.windows(2).all(|pair| pair[0] < pair[1]), "the labels {labels:?} do not rise");
    for label in 0..=u8::MAX {
        let line = listing.labels.iter().find(|line| line.0 == label).map(|line| line.1);
        assert_eq!(line, counted(model, listing, label), "the totals of label {label}");
    }
    let sum = |count: fn(&Counts) -> usize| listing.labels.iter().map(|(_, counts)| count(counts)).sum();
    let sums = Counts { regions: sum(|counts| counts.regions), blocks: sum(|counts| counts.blocks) };
    assert_eq!(listing.all, sums, "the totals of all labels are not the sums of the lines above");
    let whole = Counts { regions: listing.regions.len(), blocks: listing.blocks.len() };
    assert_eq!(listing.all, whole, "the totals of all labels are not N and the count of blocks");
    found.note(model, listing);
}

/// How many region lines and how many block lines there are of a label; nothing if no region bears it. The sizes of
/// the blocks sum to as many regions.
fn counted(model: &Model, listing: &Listing, label: u8) -> Option<Counts> {
    let regions = listing.regions.iter().filter(|line| label_of(model, line.location) == label).count();
    let sizes: Vec<usize> =
        listing.blocks.iter().filter(|block| block.label == label).map(|block| block.size).collect();
    assert_eq!(sizes.iter().sum::<usize>(), regions, "the blocks of label {label} have other regions");
    (regions > 0).then_some(Counts { regions, blocks: sizes.len() })
}

fn label_of(model: &Model, location: u8) -> u8 {
    model.labels[usize::from(location)]
}

impl Totals {
    /// Counts what is in the totals of a listing.
    fn note(&mut self, model: &Model, listing: &Listing) {
        for &(label, counts) in &listing.labels {
            self.note_label(label, counts, listing);
        }
        self.note_order(model, listing);
        self.note_locations(model, listing);
    }

    fn note_label(&mut self, label: u8, Counts { regions, blocks }: Counts, listing: &Listing) {
        *self.lines.entry(label).or_default() += 1;
        self.of_many_blocks += usize::from(blocks >= MANY);
        self.of_one_block += usize::from(blocks == 1 && regions >= MANY);
        self.between += usize::from(1 < blocks && blocks < regions);
        self.of_thousands += usize::from(regions >= 1_000);
        let borne = |index: &usize| listing.blocks[*index].label == label;
        let places: Vec<usize> = (0..listing.blocks.len()).filter(borne).collect();
        self.apart += usize::from(places.windows(2).any(|pair| pair[0] + 1 < pair[1]));
    }

    /// Counts by the order in which the labels are met, region by region.
    fn note_order(&mut self, model: &Model, listing: &Listing) {
        let mut met: Vec<u8> = Vec::new();
        for label in listing.regions.iter().map(|line| label_of(model, line.location)) {
            if !met.contains(&label) {
                met.push(label);
            }
        }
        let falls = met.windows(2).all(|pair| pair[0] > pair[1]);
        self.of_one += usize::from(met.len() == 1);
        self.of_most += usize::from(met.len() == usize::from(MOST_LOCATIONS));
        self.in_order += usize::from(!met.is_sorted());
        self.falling += usize::from(met.len() > 2 && falls);
        self.first_is_last += usize::from(met.len() > 1 && met.iter().all(|&label| label <= met[0]));
    }

    /// Counts by locations that are reached and that are not.
    fn note_locations(&mut self, model: &Model, listing: &Listing) {
        let reached: BTreeSet<u8> = listing.regions.iter().map(|line| line.location).collect();
        let all = 0..model.labels.len() as u8;
        let borne: Vec<u8> = reached.iter().map(|&location| label_of(model, location)).collect();
        let others = all.filter(|location| !reached.contains(location));
        let (of_borne, left): (Vec<u8>, Vec<u8>) =
            others.map(|location| label_of(model, location)).partition(|label| borne.contains(label));
        self.unreached += of_borne.len();
        self.left_out += left.iter().collect::<BTreeSet<_>>().len();
        let several = |label: u8| borne.iter().filter(|&&other| other == label).count() > 1;
        self.of_locations += listing.labels.iter().filter(|&&(label, _)| several(label)).count();
    }

    /// All lines of labels.
    pub fn all_lines(&self) -> usize {
        self.lines.values().sum()
    }

    /// How many lines each label has at least.
    pub fn fewest_lines(&self) -> usize {
        let lines = |label: u8| self.lines.get(&label).copied().unwrap_or_default();
        (0..=u8::MAX).map(lines).min().expect("there are labels")
    }
}
