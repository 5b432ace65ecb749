// The reader of model tables: from bytes to a model, or to a refusal (1 to 13).
//
// The reader follows the document's wording rather than a clever scheme. For each record it first
// settles whether there is a record at all (2, 3, 4) and whether the order allows it (5). Then it
// writes down every further condition that the record meets (6 to 13) and takes the lowest number.
// What may come next is told from what has been read so far; there is no separate notion of a phase.

pub const HEADER: u8 = 1;
pub const LOCATION: u8 = 2;
pub const INVARIANT: u8 = 3;
pub const EDGE: u8 = 4;
pub const GUARD: u8 = 5;
pub const BRANCH: u8 = 6;
pub const END: u8 = 7;

pub const LONGEST_TABLE: usize = 16_384;
pub const MOST_CLOCKS: u8 = 4;
pub const MOST_LOCATIONS: u8 = 64;
pub const MOST_INVARIANTS: usize = 128;
pub const MOST_EDGES: usize = 128;
pub const MOST_GUARDS: usize = 8;
pub const MOST_BRANCHES: usize = 8;
pub const LARGEST_CONSTANT: u8 = 15;
pub const LARGEST_DENOMINATOR: u16 = 60_000;

/// A refusal: its number in the document's list and a byte position in the table.
#[derive(Clone, Copy, PartialEq, Eq, Debug)]
pub struct Refusal {
    pub number: u32,
    pub place: usize,
}

/// An invariant atom: comparison 0 is <, 1 is at most.
#[derive(Clone, Copy, PartialEq, Eq, Debug)]
pub struct InvariantAtom {
    pub location: u8,
    pub clock: u8,
    pub comparison: u8,
    pub constant: u8,
}

/// A guard atom: comparison 0 is <, 1 is at most, 2 is >, 3 is at least, 4 is =.
#[derive(Clone, Copy, PartialEq, Eq, Debug)]
pub struct GuardAtom {
    pub clock: u8,
    pub comparison: u8,
    pub constant: u8,
}

/// A branch: bit c of the mask says that clock c is reset.
#[derive(Clone, Copy, PartialEq, Eq, Debug)]
pub struct Branch {
    pub weight: u16,
    pub target: u8,
    pub mask: u8,
}

/// An edge with its guard atoms and branches; `place` is where its record begins.
#[derive(Clone, PartialEq, Eq, Debug)]
pub struct Edge {
    pub place: usize,
    pub source: u8,
    pub action: u8,
    pub denominator: u16,
    pub guards: Vec<GuardAtom>,
    pub branches: Vec<Branch>,
}

/// A model: the number of locations is the number of labels.
#[derive(Clone, PartialEq, Eq, Debug)]
pub struct Model {
    pub clocks: u8,
    pub initial: u8,
    pub labels: Vec<u8>,
    pub invariants: Vec<InvariantAtom>,
    pub edges: Vec<Edge>,
}

/// The length of a record's body by its kind; none for a kind that does not exist.
pub fn body_length(kind: u8) -> Option<usize> {
    match kind {
        HEADER => Some(3),
        LOCATION => Some(1),
        INVARIANT => Some(4),
        EDGE => Some(4),
        GUARD => Some(3),
        BRANCH => Some(4),
        END => Some(0),
        _ => None,
    }
}

/// Reads a table.
pub fn read(table: &[u8]) -> Result<Model, Refusal> {
    if table.len() > LONGEST_TABLE {
        return Err(Refusal { number: 1, place: 0 });
    }
    let mut reading = Reading { header: None, labels: Vec::new(), invariants: Vec::new(), edges: Vec::new() };
    let mut place = 0;
    loop {
        let record = record_at(table, place)?;
        if !reading.allows(record.kind) {
            return Err(Refusal { number: 5, place });
        }
        let met = reading.conditions(&record, table.len());
        if let Some(refusal) = met.into_iter().min_by_key(|refusal| refusal.number) {
            return Err(refusal);
        }
        if let Some(model) = reading.take(&record) {
            return Ok(model);
        }
        place = record.after();
    }
}

/// One record as it stands in the table.
struct Record<'a> {
    place: usize,
    kind: u8,
    body: &'a [u8],
}

impl Record<'_> {
    /// The place just after the record.
    fn after(&self) -> usize {
        self.place + 1 + self.body.len()
    }

    /// The two-byte number at a position of the body, low byte first.
    fn number(&self, position: usize) -> u16 {
        u16::from_le_bytes([self.body[position], self.body[position + 1]])
    }
}

/// The record that begins at a place: refusals 2, 3 and 4.
fn record_at(table: &[u8], place: usize) -> Result<Record<'_>, Refusal> {
    let Some(&kind) = table.get(place) else {
        return Err(Refusal { number: 2, place });
    };
    let Some(length) = body_length(kind) else {
        return Err(Refusal { number: 3, place });
    };
    let Some(body) = table.get(place + 1..place + 1 + length) else {
        return Err(Refusal { number: 4, place });
    };
    Ok(Record { place, kind, body })
}

/// The numbers of an accepted header.
struct Header {
    clocks: u8,
    locations: u8,
    initial: u8,
}

/// What has been read so far.
struct Reading {
    header: Option<Header>,
    labels: Vec<u8>,
    invariants: Vec<InvariantAtom>,
    edges: Vec<Edge>,
}

impl Reading {
    /// Whether the order lets a record of this kind come next.
    fn allows(&self, kind: u8) -> bool {
        let Some(header) = &self.header else {
            return kind == HEADER;
        };
        if self.labels.len() < usize::from(header.locations) {
            return kind == LOCATION;
        }
        match kind {
            INVARIANT => self.edges.is_empty(),
            EDGE | END => true,
            GUARD => self.edges.last().is_some_and(|edge| edge.branches.is_empty()),
            BRANCH => !self.edges.is_empty(),
            _ => false,
        }
    }

    /// Whether the model has this location. Asked only after an accepted header.
    fn has_location(&self, location: u8) -> bool {
        self.header.as_ref().is_some_and(|header| location < header.locations)
    }

    /// Whether the model has this clock. Asked only after an accepted header.
    fn has_clock(&self, clock: u8) -> bool {
        self.header.as_ref().is_some_and(|header| clock < header.clocks)
    }

    /// Whether each set bit of the mask is a clock of the model.
    fn has_mask(&self, mask: u8) -> bool {
        (0..8).all(|bit| mask & (1 << bit) == 0 || self.has_clock(bit))
    }

    /// Every condition from 6 to 13 that a record in order meets.
    fn conditions(&self, record: &Record, table_length: usize) -> Vec<Refusal> {
        let mut met = Vec::new();
        let mut note = |applies: bool, number: u32, place: usize| {
            if applies {
                met.push(Refusal { number, place });
            }
        };
        let here = record.place;
        let body = record.body;
        match record.kind {
            HEADER => {
                let (clocks, locations, initial) = (body[0], body[1], body[2]);
                note(clocks > MOST_CLOCKS, 6, here);
                note(locations == 0 || locations > MOST_LOCATIONS, 6, here);
                note(initial >= locations, 6, here);
            }
            INVARIANT => {
                let (location, clock, comparison, constant) = (body[0], body[1], body[2], body[3]);
                note(!self.has_location(location), 7, here);
                note(!self.has_clock(clock), 7, here);
                note(comparison > 1, 8, here);
                note(constant > LARGEST_CONSTANT, 9, here);
                note(self.invariants.len() >= MOST_INVARIANTS, 11, here);
            }
            EDGE => {
                let (source, denominator) = (body[0], record.number(2));
                note(!self.has_location(source), 7, here);
                note(denominator == 0 || denominator > LARGEST_DENOMINATOR, 10, here);
                note(self.edges.len() >= MOST_EDGES, 11, here);
                if let Some(edge) = self.edges.last() {
                    note(!sums_to_whole(edge), 12, edge.place);
                }
            }
            GUARD => {
                let (clock, comparison, constant) = (body[0], body[1], body[2]);
                note(!self.has_clock(clock), 7, here);
                note(comparison > 4, 8, here);
                note(constant > LARGEST_CONSTANT, 9, here);
                note(self.edges.last().is_some_and(|edge| edge.guards.len() >= MOST_GUARDS), 11, here);
            }
            BRANCH => {
                let (weight, target, mask) = (record.number(0), body[2], body[3]);
                note(!self.has_location(target), 7, here);
                note(!self.has_mask(mask), 7, here);
                note(weight == 0, 10, here);
                note(self.edges.last().is_some_and(|edge| edge.branches.len() >= MOST_BRANCHES), 11, here);
            }
            END => {
                if let Some(edge) = self.edges.last() {
                    note(!sums_to_whole(edge), 12, edge.place);
                }
                note(record.after() < table_length, 13, record.after());
            }
            // A location has a label only, and every label is allowed.
            _ => {}
        }
        met
    }

    /// Takes a record that meets no condition. The end record gives the model.
    fn take(&mut self, record: &Record) -> Option<Model> {
        let body = record.body;
        match record.kind {
            HEADER => {
                self.header = Some(Header { clocks: body[0], locations: body[1], initial: body[2] });
            }
            LOCATION => self.labels.push(body[0]),
            INVARIANT => self.invariants.push(InvariantAtom {
                location: body[0],
                clock: body[1],
                comparison: body[2],
                constant: body[3],
            }),
            EDGE => self.edges.push(Edge {
                place: record.place,
                source: body[0],
                action: body[1],
                denominator: record.number(2),
                guards: Vec::new(),
                branches: Vec::new(),
            }),
            GUARD => {
                if let Some(edge) = self.edges.last_mut() {
                    edge.guards.push(GuardAtom { clock: body[0], comparison: body[1], constant: body[2] });
                }
            }
            BRANCH => {
                if let Some(edge) = self.edges.last_mut() {
                    edge.branches.push(Branch { weight: record.number(0), target: body[2], mask: body[3] });
                }
            }
            _ => {
                let header = self.header.as_ref()?;
                return Some(Model {
                    clocks: header.clocks,
                    initial: header.initial,
                    labels: self.labels.clone(),
                    invariants: self.invariants.clone(),
                    edges: self.edges.clone(),
                });
            }
        }
        None
    }
}

/// Whether an edge's weights, summed as whole numbers, give its denominator.
fn sums_to_whole(edge: &Edge) -> bool {
    let sum: u64 = edge.branches.iter().map(|branch| u64::from(branch.weight)).sum();
    sum == u64::from(edge.denominator)
}
