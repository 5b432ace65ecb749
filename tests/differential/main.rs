//! The differential test: seeded asks are put to the library and to the independent implementation, and whatever comes back, the answers
//! and all lent memory, must be equal. It links the library as a host does, so that the C interface itself is tried.
//!
//!     build/differential SEED COUNT [FROM]
//!
//! puts the asks FROM (0 where it is left out) to COUNT - 1 of a seed. At the first difference it prints the ask and both answers and ends
//! with 1. A run of more than 10,000 asks fails too where a call, a refusal or a graph of 4,096 regions never occurred.

mod calls;
mod lent;
#[path = "../library.rs"]
mod library;
mod parts;
mod tally;

use calls::Outcome;
use reference::asks::{ask, Ask, What};
use std::process::ExitCode;
use tally::Tally;

/// From so many asks on each call and each refusal must occur.
const ENOUGH: u64 = 10_000;

fn main() -> ExitCode {
    let numbers: Option<Vec<u64>> = std::env::args().skip(1).map(|word| word.parse().ok()).collect();
    match numbers.as_deref() {
        Some(&[seed, count]) => run(seed, 0, count),
        Some(&[seed, count, from]) => run(seed, from, count),
        _ => {
            eprintln!("usage: differential SEED COUNT [FROM]");
            ExitCode::from(2)
        }
    }
}

fn run(seed: u64, from: u64, count: u64) -> ExitCode {
    let mut tally = Tally::default();
    for number in from..count {
        let ask = ask(seed, number);
        let (outcome, difference) = calls::put(&ask, number);
        let parts = match (difference, &ask.what) {
            (Some(difference), _) => Err(difference),
            (None, What::Reduce { .. }) => parts::hold(&outcome.room, outcome.ours, number),
            (None, _) => Ok(0),
        };
        match parts {
            Ok(parts) => tally.add(&ask.what, outcome.ours, parts),
            Err(difference) => {
                report(seed, number, &ask, &outcome, &difference);
                return ExitCode::FAILURE;
            }
        }
    }
    println!("differential: seed {seed}, {} asks agree: {}", count.saturating_sub(from), tally.line());
    let missing = if count.saturating_sub(from) > ENOUGH { tally.missing() } else { Vec::new() };
    for line in &missing {
        println!("differential: {line}");
    }
    if missing.is_empty() {
        ExitCode::SUCCESS
    } else {
        ExitCode::FAILURE
    }
}

/// All that is needed to put the ask again.
fn report(seed: u64, number: u64, ask: &Ask, outcome: &Outcome, difference: &str) {
    let hexadecimal: String = ask.table.iter().map(|byte| format!("{byte:02x}")).collect();
    println!("differential: seed {seed} ask {number}: {difference}");
    println!("call: {} with {} bytes of entries{}", tally::name(&ask.what), ask.entries, asked(&ask.what));
    println!("table: {hexadecimal}");
    println!("ours:      {:?}", outcome.ours);
    println!("reference: {:?}", outcome.reference);
}

fn asked(what: &What) -> String {
    match what {
        What::Graph => String::new(),
        What::Place { location, values, denominator } => format!(", location {location}, values {values:?} over {denominator}"),
        What::Reduce { first, second } => format!(", lists of {first} and {second}"),
        What::Pair { first, second, r, s } => format!(", lists of {first} and {second}, regions {r} and {s}"),
        What::Judge { proposal } => format!(", proposal {proposal:?}"),
    }
}
