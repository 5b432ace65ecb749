//! Starts the workers, which are stopped where they take too long, and compares what both implementations answered and left.

use crate::library::Answer;
use crate::worker::{Call, Engine, Order, ENTRY, REGIONS};
use std::io::{Error, ErrorKind, Read, Result, Write};
use std::os::unix::process::ExitStatusExt;
use std::process::{Command, Stdio};
use std::time::Duration;

/// What a worker told: the time of a call, the answer, and all lent memory after the call.
pub struct Told {
    pub time: Duration,
    pub answer: Answer,
    lent: Vec<u8>,
}

impl Told {
    /// The first block list after a partition call, as bytes.
    pub fn blocks(&self) -> &[u8] {
        &self.lent[..8 * self.answer.value as usize]
    }
}

/// Both implementations on one call. A worker that was stopped told nothing.
pub struct Both {
    pub ours: Option<Told>,
    pub reference: Option<Told>,
}

impl Both {
    /// Did both end, with different answers or memory?
    pub fn differ(&self) -> bool {
        match (&self.ours, &self.reference) {
            (Some(ours), Some(reference)) => ours.answer != reference.answer || ours.lent != reference.lent,
            _ => false,
        }
    }

    /// What one of them told, if one did.
    pub fn either(&self) -> Option<&Told> {
        self.ours.as_ref().or(self.reference.as_ref())
    }
}

/// Measures a call on a table with both implementations, for at most so many seconds each.
pub fn both(call: Call, table: &[u8], proposal: &[u8], seconds: u64) -> Result<Both> {
    let measured = |engine| one(engine, call, LONG_ENOUGH, table, proposal, seconds);
    Ok(Both { ours: measured(Engine::Ours)?, reference: measured(Engine::Reference)? })
}

/// A call is made again until so much processor time has gone by.
const LONG_ENOUGH: Duration = Duration::from_millis(300);

/// Runs a worker under a limit on its processor time. Nothing comes back where it was stopped.
pub fn one(engine: Engine, call: Call, at_least: Duration, table: &[u8], proposal: &[u8], seconds: u64) -> Result<Option<Told>> {
    let program = std::env::current_exe()?;
    let order = Order { engine, call, at_least, parent: std::process::id() };
    let mut child = Command::new("sh")
        .args(["-c", "ulimit -t $0; exec \"$@\"", &seconds.to_string()])
        .arg(program)
        .args(order.words())
        .stdin(Stdio::piped())
        .stdout(Stdio::piped())
        .spawn()?;
    if let Some(mut input) = child.stdin.take() {
        let length = (table.len() as u64).to_le_bytes();
        input.write_all(&[&length, table, proposal].concat())?;
    }
    let mut bytes = Vec::new();
    child.stdout.take().ok_or(ErrorKind::BrokenPipe)?.read_to_end(&mut bytes)?;
    let status = child.wait()?;
    match status.signal() {
        Some(OUT_OF_TIME | KILLED) => Ok(None),
        _ => told(&bytes).map(Some),
    }
}

/// The signals by which a process ends that has used up its time.
const OUT_OF_TIME: i32 = 24;
const KILLED: i32 = 9;

fn told(bytes: &[u8]) -> Result<Told> {
    let head = 6 * 8;
    if bytes.len() != head + REGIONS * (2 * 8 + ENTRY) {
        return Err(Error::other("a worker failed"));
    }
    let number = |index: usize| u64::from_le_bytes(bytes[8 * index..8 * index + 8].try_into().expect("eight bytes"));
    let answer = Answer { refusal: number(1), place: number(2), value: number(3), blocks: number(4), rounds: number(5) };
    Ok(Told { time: Duration::from_nanos(number(0)), answer, lent: bytes[head..].to_vec() })
}
