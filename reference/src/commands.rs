// The commands of the program.
//
//   reference vectors DIR                         holds the calls to the test vectors in DIR
//   reference cases DIR IN OUT [CALLS [TABLES]]   writes the stored cases and the answers they expect, up to a
//                                                 call; the tables in TABLES join those of the listing
//   reference graphs IN OUT SEED                  writes graphs under names and what the next round relates in them
//   reference read FILE                           reads one table and prints the answer
//   reference list [--without-totals] FILE [ENTRIES]
//                                                 prints the listing of one table
//   reference mix SEED COUNT                      says what the first asks of a seed meet
//   reference speed [TABLES]                      times the partition call on heavy models and the tables in TABLES
//
// For FILE "-" stands for standard input.

use crate::{answer, cases, graphs, listing, mix, region, speed, table, vector_check};
use std::fs;
use std::io::{self, Read, Write};

const USAGE: &str = "usage: reference vectors DIR | cases DIR IN OUT [CALLS [TABLES]] | \
                     graphs IN OUT SEED | read FILE | list [--without-totals] FILE [ENTRIES] | \
                     mix SEED COUNT | speed [TABLES]";

/// Carries out a command: whether all agreed, or what stood in the way.
pub fn run(arguments: &[&str]) -> Result<bool, String> {
    match *arguments {
        ["vectors", folder] => vector_check::check(folder),
        ["cases", folder, input, output] => write_cases(folder, input, output, "1", None),
        ["cases", folder, input, output, calls] => write_cases(folder, input, output, calls, None),
        ["cases", folder, input, output, calls, tables] => {
            write_cases(folder, input, output, calls, Some(tables))
        }
        ["graphs", input, output, seed] => {
            number(seed, "SEED").and_then(|seed| graphs::write(input, output, seed)).map(|()| true)
        }
        ["read", file] => read(file).map(|()| true),
        ["list", "--without-totals", ref of @ ..] => list(listing::printed_without_totals, of).map(|()| true),
        ["list", ref of @ ..] => list(listing::printed, of).map(|()| true),
        ["mix", seed, count] => mix_of(seed, count).map(|()| true),
        ["speed"] => print_speed(None).map(|()| true),
        ["speed", tables] => print_speed(Some(tables)).map(|()| true),
        _ => Err(USAGE.to_string()),
    }
}

/// The highest call whose cases are asked for.
fn highest_call(calls: &str) -> Result<u8, String> {
    match calls.parse() {
        Ok(call) if (1..=cases::HIGHEST_CALL).contains(&call) => Ok(call),
        _ => Err(format!("CALLS is a number from 1 to {}", cases::HIGHEST_CALL)),
    }
}

/// Writes the stored cases up to the asked call.
fn write_cases(
    folder: &str,
    input: &str,
    output: &str,
    calls: &str,
    tables: Option<&str>,
) -> Result<bool, String> {
    let call = highest_call(calls)?;
    cases::write(folder, input, output, call, tables).map(|()| true)
}

/// An argument that is a number.
fn number(argument: &str, name: &str) -> Result<u64, String> {
    argument.parse().map_err(|_| format!("{name} is a number"))
}

/// Prints what the first asks of a seed meet, so many of them.
fn mix_of(seed: &str, count: &str) -> Result<(), String> {
    print!("{}", mix::summary(number(seed, "SEED")?, number(count, "COUNT")?));
    Ok(())
}

/// Prints how long the partition call takes.
fn print_speed(tables: Option<&str>) -> Result<(), String> {
    print!("{}", speed::summary(tables)?);
    Ok(())
}

/// All bytes of a file or of standard input.
fn bytes_of(file: &str) -> Result<Vec<u8>, String> {
    let mut bytes = Vec::new();
    let outcome = match file {
        "-" => io::stdin().read_to_end(&mut bytes).map(|_| bytes),
        _ => fs::read(file),
    };
    outcome.map_err(|error| format!("{file}: {error}"))
}

/// Reads one table and prints the answer, all edges included.
fn read(file: &str) -> Result<(), String> {
    let bytes = bytes_of(file)?;
    println!("{}", answer::line(&table::read(&bytes), table::MOST_EDGES));
    Ok(())
}

/// What is printed for a table with so many bytes lent.
type Print = fn(&[u8], usize) -> Vec<u8>;

/// Prints the listing of one table, or its refusal's line. Given are the file and, if not as many as by the program,
/// how many entries are lent.
fn list(print: Print, of: &[&str]) -> Result<(), String> {
    let (file, entries) = match *of {
        [file] => (file, listing::ENTRIES_OF_PROGRAM),
        [file, entries] => (file, number(entries, "ENTRIES")? as usize),
        _ => return Err(USAGE.to_string()),
    };
    let text = print(&bytes_of(file)?, entries.saturating_mul(region::ENTRY));
    let mut out = io::stdout().lock();
    out.write_all(&text).and_then(|()| out.flush()).map_err(|error| format!("standard output: {error}"))
}
