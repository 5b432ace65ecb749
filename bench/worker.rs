//! One measured call, in a process of its own that can be stopped: the call is made many times where it is fast, and its time, the
//! answer and all lent memory go to standard output.

use crate::library::{self, Answer};
use reference::calls;
use std::io::{Error, Read, Result, Write};
use std::os::unix::process::parent_id;
use std::time::Duration;

/// Both implementations.
#[derive(Clone, Copy, PartialEq)]
pub enum Engine {
    Ours,
    Reference,
}

impl Engine {
    pub const ALL: [Engine; 2] = [Engine::Ours, Engine::Reference];

    pub fn name(self) -> &'static str {
        match self {
            Engine::Ours => "ours",
            Engine::Reference => "reference",
        }
    }
}

/// The calls that are measured.
#[derive(Clone, Copy, PartialEq)]
pub enum Call {
    Graph,
    Place,
    Reduce,
    Judge,
}

impl Call {
    pub const ALL: [Call; 4] = [Call::Graph, Call::Place, Call::Reduce, Call::Judge];

    pub fn name(self) -> &'static str {
        match self {
            Call::Graph => "graph",
            Call::Place => "place",
            Call::Reduce => "reduce",
            Call::Judge => "judge",
        }
    }
}

/// The most regions, and the bytes of their entries.
pub const REGIONS: usize = 4096;
pub const ENTRY: usize = 9;

/// The word by which a program of this folder knows that it is started as a worker.
pub const WORKER: &str = "worker";

/// What a worker is told by its arguments: the call, for how much processor time it is made again and again, the time being the mean, and
/// the process that started it.
pub struct Order {
    pub engine: Engine,
    pub call: Call,
    pub at_least: Duration,
    pub parent: u32,
}

impl Order {
    pub fn words(&self) -> [String; 5] {
        let milliseconds = self.at_least.as_millis().to_string();
        [WORKER.into(), self.engine.name().into(), self.call.name().into(), milliseconds, self.parent.to_string()]
    }

    /// The order with these words, the first of which is gone.
    fn read(words: &[&str]) -> Option<Order> {
        let &[engine, call, milliseconds, parent] = words else {
            return None;
        };
        Some(Order {
            engine: Engine::ALL.into_iter().find(|one| one.name() == engine)?,
            call: Call::ALL.into_iter().find(|one| one.name() == call)?,
            at_least: Duration::from_millis(milliseconds.parse().ok()?),
            parent: parent.parse().ok()?,
        })
    }
}

/// What a call is given beside the table. `fresh` memory is the same for both implementations.
struct Room {
    entries: Vec<u8>,
    first: Vec<u64>,
    second: Vec<u64>,
}

impl Room {
    fn fresh() -> Room {
        Room { entries: vec![0; REGIONS * ENTRY], first: vec![0; REGIONS], second: vec![0; REGIONS] }
    }
}

/// The processor time of this process so far. Unlike the time of day it does not grow while other programs run. Number 2 names this clock
/// to the C library of Linux.
fn processor_time() -> Duration {
    #[repr(C)]
    struct Time {
        seconds: i64,
        nanoseconds: i64,
    }
    extern "C" {
        fn clock_gettime(clock: i32, time: *mut Time) -> i32;
    }
    let mut time = Time { seconds: 0, nanoseconds: 0 };
    let failed = unsafe { clock_gettime(2, &mut time) };
    assert!(failed == 0, "the processor time cannot be read");
    Duration::new(time.seconds as u64, time.nanoseconds as u32)
}

/// A state: location, clock values, denominator.
type State = (u64, [u64; 4], u64);

/// The worker's whole run. The length of the table, the table and, for the judging call, a proposal of numbers of eight bytes come from
/// standard input.
pub fn work(words: &[&str]) -> Result<()> {
    let Order { engine, call, at_least, parent } = Order::read(words).ok_or_else(|| Error::other("no such order"))?;
    end_with(parent)?;
    let (table, proposal) = read_input()?;
    let state = if call == Call::Place { last_state(&table) } else { State::default() };
    let mut room = Room::fresh();
    let begin = processor_time();
    let mut times = 0;
    let (answer, time) = loop {
        let answer = make(engine, call, &table, &mut room, state, &proposal);
        times += 1;
        let taken = processor_time() - begin;
        if taken >= at_least {
            break (answer, taken / times);
        }
    };
    let mut output = Vec::new();
    let Answer { refusal, place, value, blocks, rounds } = answer;
    for number in [time.as_nanos() as u64, refusal, place, value, blocks, rounds] {
        output.extend(number.to_le_bytes());
    }
    for number in room.first.iter().chain(&room.second) {
        output.extend(number.to_le_bytes());
    }
    output.extend(&room.entries);
    std::io::stdout().write_all(&output)
}

/// Sees to it that this process ends with the one that started it, however that ends. Numbers 1 and 9 are names of the C library of Linux:
/// the signal at the parent's end, and the one that cannot be caught.
fn end_with(parent: u32) -> Result<()> {
    extern "C" {
        fn prctl(option: i32, ...) -> i32;
    }
    let failed = unsafe { prctl(1, 9u64) };
    if failed != 0 || parent_id() != parent {
        return Err(Error::other("the process that started this worker is gone"));
    }
    Ok(())
}

/// The table and the proposal.
fn read_input() -> Result<(Vec<u8>, Vec<u64>)> {
    let mut bytes = Vec::new();
    std::io::stdin().read_to_end(&mut bytes)?;
    let eight = |bytes: &[u8]| u64::from_le_bytes(bytes.try_into().expect("eight bytes"));
    if bytes.len() < 8 || bytes.len() - 8 < eight(&bytes[..8]) as usize {
        return Err(Error::other("the input is cut"));
    }
    let (table, proposal) = bytes[8..].split_at(eight(&bytes[..8]) as usize);
    Ok((table.to_vec(), proposal.chunks_exact(8).map(eight).collect()))
}

fn make(engine: Engine, call: Call, table: &[u8], room: &mut Room, state: State, proposal: &[u64]) -> Answer {
    let Room { entries, first, second } = room;
    let (location, values, denominator) = state;
    match (engine, call) {
        (Engine::Ours, Call::Graph) => library::graph(table, entries),
        (Engine::Ours, Call::Place) => library::place(table, entries, location, values, denominator),
        (Engine::Ours, Call::Reduce) => library::reduce(table, entries, first, second),
        (Engine::Ours, Call::Judge) => library::judge(table, entries, proposal),
        (Engine::Reference, Call::Graph) => told(calls::graph(table, entries)),
        (Engine::Reference, Call::Place) => told(calls::place(table, entries, location, values, denominator)),
        (Engine::Reference, Call::Reduce) => told(calls::reduce(table, entries, first, second)),
        (Engine::Reference, Call::Judge) => told(calls::judge(table, entries, proposal)),
    }
}

/// The independent implementation's answer as ours.
fn told(answer: calls::Answer) -> Answer {
    let calls::Answer { refusal, place, value, blocks, rounds } = answer;
    Answer { refusal, place, value, blocks, rounds }
}

/// A state of the region with the highest number: fractions are ranks over 5, a clock that is over gets 16.
fn last_state(table: &[u8]) -> State {
    let mut entries = vec![0; REGIONS * ENTRY];
    let count = library::graph(table, &mut entries).value.max(1) as usize;
    let entry = &entries[(count - 1) * ENTRY..count * ENTRY];
    let value = |clock: usize| 5 * u64::from(entry[1 + clock]) + u64::from(entry[5 + clock]);
    (entry[0].into(), [0, 1, 2, 3].map(value), 5)
}
