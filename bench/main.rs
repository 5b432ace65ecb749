//! The benchmark: how long the calls of the library take beside those of the independent implementation, on the same tables.
//!
//!     build/bench [SECONDS [WORD]]
//!
//! prints two tables, of the partition call and of the other calls. A call that takes longer than SECONDS (20) is stopped. With WORD only
//! the families are measured whose names have it in them. Where the two differ, in the answers or in lent memory, it says so and ends
//! with 1.

mod chance;
mod families;
#[path = "../tests/library.rs"]
#[allow(dead_code)] // The pair call and the listing are not measured.
mod library;
mod measure;
mod table;
mod worker;

use families::Family;
use measure::{Both, Told};
use std::process::ExitCode;
use worker::{Call, REGIONS, WORKER};

fn main() -> ExitCode {
    let words: Vec<String> = std::env::args().skip(1).collect();
    let words: Vec<&str> = words.iter().map(String::as_str).collect();
    let result = match words[..] {
        [WORKER, ref order @ ..] => worker::work(order).map(|()| ExitCode::SUCCESS),
        [] => run(20, ""),
        [seconds] => seconds.parse().map_or_else(|_| usage(), |seconds| run(seconds, "")),
        [seconds, word] => seconds.parse().map_or_else(|_| usage(), |seconds| run(seconds, word)),
        _ => usage(),
    };
    result.unwrap_or_else(|error| {
        eprintln!("bench: {error}");
        ExitCode::from(2)
    })
}

fn usage() -> std::io::Result<ExitCode> {
    Err(std::io::Error::other("usage: bench [SECONDS [WORD]]"))
}

/// Measures all chosen families, the partition call first.
fn run(seconds: u64, word: &str) -> std::io::Result<ExitCode> {
    let all = families::all();
    let chosen = || all.iter().filter(|family| family.name.contains(word));
    let mut differences = 0;
    let mut partitions = Vec::new();
    println!("The partition call, times in ms\n");
    println!("{:22}{:>6}{:>8}{:>8}{:>12}{:>12}{:>9}", "model", "N", "blocks", "rounds", "ours", "reference", "ratio");
    for family in chosen() {
        let both = measure::both(Call::Reduce, &family.table, &[], seconds)?;
        let [regions, blocks, rounds] = match both.either() {
            Some(Told { answer, .. }) => [answer.value, answer.blocks, answer.rounds].map(|count| count.to_string()),
            None => ["?"; 3].map(String::from),
        };
        println!("{:22}{regions:>6}{blocks:>8}{rounds:>8}{}", family.name, times(&both, seconds));
        differences += said(&both, family);
        partitions.push(both);
    }
    println!("\nThe other calls, times in ms: ours / reference\n");
    println!("{:22}{:>20}{:>20}{:>20}{:>20}", "model", "graph", "place", "judge the blocks", "judge each alone");
    for (family, partition) in chosen().zip(&partitions) {
        let alone: Vec<u8> = (0..REGIONS as u64).flat_map(u64::to_le_bytes).collect();
        let graph = measure::both(Call::Graph, &family.table, &[], seconds)?;
        let regions = graph.either().map_or(0, |told| told.answer.value as usize);
        let place = measure::both(Call::Place, &family.table, &[], seconds)?;
        let blocks = partition.either().map(|told| measure::both(Call::Judge, &family.table, told.blocks(), seconds)).transpose()?;
        let each = measure::both(Call::Judge, &family.table, &alone[..8 * regions], seconds)?;
        let columns = [Some(graph), Some(place), blocks, Some(each)];
        let line: String = columns.iter().map(|column| format!("{:>20}", beside(column.as_ref(), seconds))).collect();
        println!("{:22}{line}", family.name);
        differences += columns.iter().flatten().map(|both| said(both, family)).sum::<u64>();
    }
    Ok(if differences == 0 { ExitCode::SUCCESS } else { ExitCode::FAILURE })
}

/// A time in milliseconds, or the limit that was passed.
fn shown(told: Option<&Told>, seconds: u64) -> String {
    match told {
        Some(told) => format!("{:.2}", milliseconds(told)),
        None => format!("> {seconds} s"),
    }
}

fn milliseconds(told: &Told) -> f64 {
    told.time.as_secs_f64() * 1e3
}

/// Both times, and ours over the reference's.
fn times(both: &Both, seconds: u64) -> String {
    let ratio = match (&both.ours, &both.reference) {
        (Some(ours), Some(reference)) => format!("{:.2}", milliseconds(ours) / milliseconds(reference)),
        (None, Some(reference)) => format!("> {:.0}", 1e3 * seconds as f64 / milliseconds(reference)),
        (Some(ours), None) => format!("< {:.4}", milliseconds(ours) / (1e3 * seconds as f64)),
        (None, None) => String::from("?"),
    };
    format!("{:>12}{:>12}{ratio:>9}", shown(both.ours.as_ref(), seconds), shown(both.reference.as_ref(), seconds))
}

fn beside(both: Option<&Both>, seconds: u64) -> String {
    both.map_or_else(
        || String::from("no blocks"),
        |both| format!("{} / {}", shown(both.ours.as_ref(), seconds), shown(both.reference.as_ref(), seconds)),
    )
}

/// Says loudly where the two differ, or refuse, which no family is meant for. The answer is 1 where there is something to say.
fn said(both: &Both, family: &Family) -> u64 {
    let refused = both.either().is_some_and(|told| told.answer.refusal != 0);
    if !both.differ() && !refused {
        return 0;
    }
    let what = if refused { "REFUSED" } else { "DIFFERENT" };
    println!("{what} on {}", family.name);
    for (name, told) in [("ours", &both.ours), ("reference", &both.reference)] {
        println!("  {name:9} {:?}", told.as_ref().map(|told| told.answer));
    }
    1
}
