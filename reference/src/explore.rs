// Exploration: where edges are available, the graph of regions in the document's order, refusals 14 and 15,
// and the graph call with what it leaves in the lent entries.

use crate::net::{Builder, Net};
use crate::region::{Clocks, Region, ENTRY};
use crate::table::{self, Branch, Edge, InvariantAtom, Model, Refusal};

/// The most regions that a graph may have.
pub const MOST_REGIONS: usize = 4_096;

/// A model laid out by location.
pub struct Layout<'a> {
    clocks: Clocks,
    initial: u8,
    invariants: Vec<Vec<InvariantAtom>>,
    /// The edges by source, in table order.
    pub edges: Vec<Vec<&'a Edge>>,
}

impl<'a> Layout<'a> {
    pub fn of(model: &'a Model) -> Layout<'a> {
        let mut invariants = vec![Vec::new(); model.labels.len()];
        for &atom in &model.invariants {
            invariants[usize::from(atom.location)].push(atom);
        }
        let mut edges = vec![Vec::new(); model.labels.len()];
        for edge in &model.edges {
            edges[usize::from(edge.source)].push(edge);
        }
        Layout { clocks: Clocks::of(model), initial: model.initial, invariants, edges }
    }

    /// Whether a region meets the invariant of its location.
    pub fn meets_invariant(&self, region: Region) -> bool {
        let atoms = &self.invariants[usize::from(region.location)];
        atoms.iter().all(|atom| region.meets(atom.clock, atom.comparison, atom.constant))
    }

    /// The delay region. Delay stops before a region that breaks its location's invariant.
    pub fn delay(&self, region: Region) -> Option<Region> {
        region.delay(self.clocks).filter(|&next| self.meets_invariant(next))
    }

    /// Where a branch of a region leads.
    fn target(region: Region, branch: &Branch) -> Region {
        Region { location: branch.target, ..region.reset(branch.mask) }
    }

    /// Whether an edge whose source is the region's location is available. If so `targets` holds the
    /// branches' target regions in order.
    fn available(&self, region: Region, edge: &Edge, targets: &mut Vec<Region>) -> bool {
        if !region.meets_all(&edge.guards) {
            return false;
        }
        targets.clear();
        for branch in &edge.branches {
            let target = Layout::target(region, branch);
            if !self.meets_invariant(target) {
                return false;
            }
            targets.push(target);
        }
        true
    }

    /// The available edges of a region in table order, each with its branches' target regions in order.
    pub fn available_edges(&self, region: Region) -> Vec<(&'a Edge, Vec<Region>)> {
        let mut found = Vec::new();
        let mut targets = Vec::new();
        for &edge in &self.edges[usize::from(region.location)] {
            if self.available(region, edge, &mut targets) {
                found.push((edge, targets.clone()));
            }
        }
        found
    }
}

/// What exploration finds.
pub enum Exploration {
    /// Region 0 breaks its invariant.
    NoStart,
    /// There are more regions than the limit: the first ones, as many as the limit.
    Cut(Vec<Region>),
    /// All regions by number, with their links.
    Whole(Net),
}

/// Explores a model as far as so many regions.
pub fn explore(model: &Model, limit: usize) -> Exploration {
    let layout = Layout::of(model);
    let start = Region::start(layout.initial);
    if !layout.meets_invariant(start) {
        return Exploration::NoStart;
    }
    let mut builder = Builder::new(&layout, limit);
    match builder.number(start).and_then(|_| builder.take_all()) {
        Some(()) => Exploration::Whole(builder.net(model)),
        None => Exploration::Cut(builder.regions()),
    }
}

/// How many regions the lent bytes allow: the whole entries, at most 4,096.
pub fn limit_of(lent: usize) -> usize {
    MOST_REGIONS.min(lent / ENTRY)
}

/// The graph call: N, or a refusal of 1 to 15. The lent bytes hold the entries afterwards.
pub fn graph(table: &[u8], lent: &mut [u8]) -> Result<usize, Refusal> {
    let model = table::read(table)?;
    net(&model, lent).map(|net| net.count())
}

/// All regions of a model by number, or refusal 14 or 15. The lent bytes hold the entries afterwards.
pub fn net(model: &Model, lent: &mut [u8]) -> Result<Net, Refusal> {
    match explore(model, limit_of(lent.len())) {
        Exploration::NoStart => Err(Refusal { number: 14, place: 0 }),
        Exploration::Cut(regions) => {
            write_entries(&regions, lent);
            Err(Refusal { number: 15, place: 0 })
        }
        Exploration::Whole(net) => {
            write_entries(&net.regions, lent);
            Ok(net)
        }
    }
}

/// Puts the regions into the first entries. The bytes after them stay.
fn write_entries(regions: &[Region], lent: &mut [u8]) {
    for (region, entry) in regions.iter().zip(lent.chunks_exact_mut(ENTRY)) {
        entry.copy_from_slice(&region.entry());
    }
}
