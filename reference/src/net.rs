// The graph of regions in the form in which exploration leaves it and the rounds work on it.
//
// A slot is a target location with a mask: from one region all branches of a slot land in the same region, so each
// slot is worked out once, however many branches have it. Regions of one location with the same available edges
// are of one kind. A region keeps its kind and where its kind's slots land; what the edges do is kept once.

use crate::explore::Layout;
use crate::hash::HashMap;
use crate::region::Region;
use crate::table::{Branch, Edge, Model};
use std::rc::Rc;

/// What an edge does: its action, and the weight of each of its slots, slots rising, without a common divisor.
/// Edges of one location with equal shapes give each block equal shares.
#[derive(Clone, PartialEq, Eq, Hash)]
pub struct Shape {
    pub action: u8,
    pub parts: Vec<(u16, u32)>,
}

/// The available edges of a region: their slots in the order in which branches first have them, and their shapes,
/// each once.
pub struct Kind {
    pub slots: Vec<u16>,
    pub shapes: Vec<Rc<Shape>>,
}

/// All regions of a model by number, with their links.
pub struct Net {
    pub regions: Vec<Region>,
    pub labels: Vec<u8>,
    /// The region that follows by delay, if one does.
    pub next: Vec<Option<u32>>,
    pub kinds: Vec<Kind>,
    /// The kind of each region.
    pub kind_of: Vec<u32>,
    /// Where the slots of each region's kind land, region after region; a region's begin at its start.
    landings: Vec<u32>,
    starts: Vec<usize>,
}

impl Net {
    /// N.
    pub fn count(&self) -> usize {
        self.regions.len()
    }

    /// Where the slots of a region's kind land.
    pub fn landings(&self, region: usize) -> &[u32] {
        &self.landings[self.starts[region]..self.starts[region + 1]]
    }
}

/// The edges of a location over its slots, and the kinds of regions met there.
struct Plan<'a> {
    slots: Vec<(u8, u8)>,
    edges: Vec<PlannedEdge<'a>>,
    /// The kinds by available edges.
    kinds: HashMap<Vec<u16>, u32>,
}

struct PlannedEdge<'a> {
    edge: &'a Edge,
    /// The slots of the branches, in the order in which branches first have them.
    slots: Vec<u16>,
    shape: Rc<Shape>,
}

impl<'a> Plan<'a> {
    fn of(edges: &[&'a Edge]) -> Plan<'a> {
        let mut slots = Vec::new();
        let mut numbers = HashMap::default();
        let mut slot_of = |branch: &Branch| -> u16 {
            *numbers.entry((branch.target, branch.mask)).or_insert_with(|| {
                slots.push((branch.target, branch.mask));
                (slots.len() - 1) as u16
            })
        };
        let planned = |&edge: &&'a Edge| {
            let by_branch: Vec<u16> = edge.branches.iter().map(&mut slot_of).collect();
            let shape = Rc::new(shape_of(edge, &by_branch));
            PlannedEdge { edge, slots: first_ones(by_branch), shape }
        };
        let edges = edges.iter().map(planned).collect();
        Plan { slots, edges, kinds: HashMap::default() }
    }

    /// The kind of a region with these available edges.
    fn kind(&self, available: &[u16]) -> Kind {
        let mut kind = Kind { slots: Vec::new(), shapes: Vec::new() };
        let mut taken = vec![false; self.slots.len()];
        let mut known = HashMap::default();
        for &number in available {
            let edge = &self.edges[usize::from(number)];
            for &slot in &edge.slots {
                if !std::mem::replace(&mut taken[usize::from(slot)], true) {
                    kind.slots.push(slot);
                }
            }
            if known.insert(&edge.shape, ()).is_none() {
                kind.shapes.push(edge.shape.clone());
            }
        }
        kind
    }
}

/// The list with each number at its first place only.
fn first_ones(list: Vec<u16>) -> Vec<u16> {
    let mut first = Vec::new();
    for number in list {
        if !first.contains(&number) {
            first.push(number);
        }
    }
    first
}

fn shape_of(edge: &Edge, by_branch: &[u16]) -> Shape {
    let mut parts: Vec<(u16, u32)> =
        by_branch.iter().zip(&edge.branches).map(|(&slot, branch)| (slot, branch.weight.into())).collect();
    parts.sort_unstable();
    parts.dedup_by(|part, kept| {
        let same = part.0 == kept.0;
        if same {
            kept.1 += part.1;
        }
        same
    });
    let common = parts.iter().fold(0, |common, &(_, weight)| greatest_common(common, weight));
    for part in &mut parts {
        part.1 /= common;
    }
    Shape { action: edge.action, parts }
}

/// The greatest common divisor.
pub fn greatest_common(mut first: u32, mut second: u32) -> u32 {
    while second != 0 {
        (first, second) = (second, first % second);
    }
    first
}

/// Where a slot of the region at hand leads.
#[derive(Clone, Copy)]
enum Tried {
    Not,
    /// To a region that breaks its invariant.
    Broken,
    To(Region),
}

/// A net in the making: the regions met so far get numbers, and those taken have their links.
pub struct Builder<'a> {
    layout: &'a Layout<'a>,
    plans: Vec<Plan<'a>>,
    /// The numbers of the regions by their packed form.
    numbers: HashMap<u64, u32>,
    limit: usize,
    net: Net,
    /// For the region at hand: its slots, and its available edges.
    tried: Vec<Tried>,
    available: Vec<u16>,
}

impl<'a> Builder<'a> {
    /// With no region yet and room for so many.
    pub fn new(layout: &'a Layout<'a>, limit: usize) -> Builder<'a> {
        Builder {
            layout,
            plans: layout.edges.iter().map(|edges| Plan::of(edges)).collect(),
            numbers: HashMap::default(),
            limit,
            net: Net {
                regions: Vec::new(),
                labels: Vec::new(),
                next: Vec::new(),
                kinds: Vec::new(),
                kind_of: Vec::new(),
                landings: Vec::new(),
                starts: vec![0],
            },
            tried: Vec::new(),
            available: Vec::new(),
        }
    }

    /// The number of a region. A region met first gets the next number; none if the limit forbids that.
    pub fn number(&mut self, region: Region) -> Option<u32> {
        let packed = region.packed();
        if let Some(&number) = self.numbers.get(&packed) {
            return Some(number);
        }
        if self.net.regions.len() == self.limit {
            return None;
        }
        let number = self.net.regions.len() as u32;
        self.numbers.insert(packed, number);
        self.net.regions.push(region);
        Some(number)
    }

    /// Takes the regions in number order: of each its delay region, then the targets of its available edges in table
    /// order, branches in order, get numbers. None if a region found no room.
    pub fn take_all(&mut self) -> Option<()> {
        while let Some(&region) = self.net.regions.get(self.net.next.len()) {
            let next = match self.layout.delay(region) {
                Some(next) => Some(self.number(next)?),
                None => None,
            };
            self.net.next.push(next);
            let kind = self.kind_of(region);
            // The edges are judged whole before any of their targets gets a number.
            for index in 0..self.net.kinds[kind as usize].slots.len() {
                let slot = self.net.kinds[kind as usize].slots[index];
                let Tried::To(target) = self.tried[usize::from(slot)] else {
                    unreachable!("the slots of available edges lead to regions");
                };
                let number = self.number(target)?;
                self.net.landings.push(number);
            }
            self.net.kind_of.push(kind);
            self.net.starts.push(self.net.landings.len());
        }
        Some(())
    }

    /// The kind of a region, with its slots tried as far as its available edges have them.
    fn kind_of(&mut self, region: Region) -> u32 {
        let plan = &mut self.plans[usize::from(region.location)];
        self.tried.clear();
        self.tried.resize(plan.slots.len(), Tried::Not);
        self.available.clear();
        let mut resets = [None; 16];
        for (number, planned) in plan.edges.iter().enumerate() {
            let leads = |&slot: &u16| {
                let tried = &mut self.tried[usize::from(slot)];
                if let Tried::Not = tried {
                    let (location, mask) = plan.slots[usize::from(slot)];
                    let reset = *resets[usize::from(mask)].get_or_insert_with(|| region.reset(mask));
                    let target = Region { location, ..reset };
                    *tried =
                        if self.layout.meets_invariant(target) { Tried::To(target) } else { Tried::Broken };
                }
                matches!(tried, Tried::To(_))
            };
            if region.meets_all(&planned.edge.guards) && planned.slots.iter().all(leads) {
                self.available.push(number as u16);
            }
        }
        if let Some(&kind) = plan.kinds.get(&self.available) {
            return kind;
        }
        let kind = self.net.kinds.len() as u32;
        self.net.kinds.push(plan.kind(&self.available));
        plan.kinds.insert(self.available.clone(), kind);
        kind
    }

    /// The regions met so far.
    pub fn regions(self) -> Vec<Region> {
        self.net.regions
    }

    /// The net, once all regions are taken.
    pub fn net(mut self, model: &Model) -> Net {
        let label = |region: &Region| model.labels[usize::from(region.location)];
        self.net.labels = self.net.regions.iter().map(label).collect();
        self.net
    }
}
