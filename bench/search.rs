//! The search: changes tables by chance and keeps those on which the library is slowest.
//!
//!     build/bench-search [SECONDS [SEED]]
//!
//! starts from the families and from crowds, tables by chance with hundreds of branches at one location, and goes on for SECONDS (3600). It
//! prints a line for each table that is clearly slower than all others of its family, and at the end the slowest ones, which it leaves in
//! build/search/ as hexadecimal text. Each table that is accepted goes through the independent implementation too; where the two differ, in
//! the answers or in lent memory, it says so and ends with 1.

mod chance;
mod changes;
mod crowds;
mod draft;
mod families;
#[path = "../tests/library.rs"]
#[allow(dead_code)] // The pair call and the listing are not measured.
mod library;
#[allow(dead_code)] // Nor is the judging call.
mod measure;
mod pool;
mod table;
mod worker;

use chance::Chance;
use measure::{Both, Told};
use pool::{Found, Pool};
use std::fs;
use std::io::Result;
use std::process::ExitCode;
use std::time::{Duration, Instant};
use worker::{Call, Engine, WORKER};

/// A call of ours is stopped after so many seconds of processor time, one of the independent implementation after so many.
const LIMIT: u64 = 5;
const REFERENCE_LIMIT: u64 = 20;

/// Fast calls are made again for so long.
const LONG_ENOUGH: Duration = Duration::from_millis(30);

/// A table is clearly slower than another one by a fifth. The slowest of all is told of even by a fiftieth.
const CLEAR: f64 = 1.2;
const NOTABLE: f64 = 1.02;

/// Where the slowest tables go, and those on which the implementations differ or a call does not come back as it should.
const FOLDER: &str = "build/search";

fn main() -> ExitCode {
    let words: Vec<String> = std::env::args().skip(1).collect();
    let words: Vec<&str> = words.iter().map(String::as_str).collect();
    let numbers: Vec<Option<u64>> = words.iter().map(|word| word.parse().ok()).collect();
    let result = match (&words[..], &numbers[..]) {
        ([WORKER, order @ ..], _) => worker::work(order).map(|()| ExitCode::SUCCESS),
        (_, []) => search(3600, 1),
        (_, &[Some(seconds)]) => search(seconds, 1),
        (_, &[Some(seconds), Some(seed)]) => search(seconds, seed),
        _ => Err(std::io::Error::other("usage: search [SECONDS [SEED]]")),
    };
    result.unwrap_or_else(|error| {
        eprintln!("search: {error}");
        ExitCode::from(2)
    })
}

fn search(seconds: u64, seed: u64) -> Result<ExitCode> {
    fs::create_dir_all(FOLDER)?;
    let mut chance = Chance(seed);
    let mut search = Search::new();
    println!("{:22}{:>6}{:>8}{:>8}{:>12}{:>12}", "family", "N", "blocks", "rounds", "reduce, ms", "graph, ms");
    for family in families::all() {
        search.start(family.name, family.table)?;
    }
    for (name, table) in crowds::all(&mut chance) {
        search.start(name, table)?;
    }
    println!();
    while search.begin.elapsed() < Duration::from_secs(seconds) {
        let (family, table) = search.next(&mut chance);
        let found = search.try_table(family, &table).inspect_err(|_| println!("FAILED: {}", leave("failed", &table)))?;
        if let Some(found) = found {
            search.keep(found)?;
        }
    }
    search.counts.report();
    search.races.iter().for_each(|race| race.report(&search.names));
    Ok(if search.counts.different == 0 { ExitCode::SUCCESS } else { ExitCode::FAILURE })
}

/// How many tables there were.
#[derive(Default)]
struct Counts {
    tried: u64,
    accepted: u64,
    /// Those accepted on which the partition call or the graph call was stopped.
    stopped: u64,
    kept: u64,
    /// Comparisons for which ours or the independent implementation was stopped.
    not_compared: u64,
    different: u64,
}

impl Counts {
    fn report(&self) {
        let Counts { tried, accepted, stopped, kept, not_compared, different } = self;
        println!("\n{tried} tables tried, {accepted} accepted, {kept} kept; on {stopped} a call was stopped after {LIMIT} s");
        println!("{different} DIFFERENT, {not_compared} not compared since a call was stopped");
    }
}

/// The slowest tables by the time of one call, and what was said of them.
struct Race {
    call: Call,
    pool: Pool,
    /// The time of each family's own table, and the longest that a line was printed for.
    own: Vec<Duration>,
    said: Vec<Duration>,
}

impl Race {
    fn new(call: Call, time: fn(&Found) -> Duration) -> Race {
        Race { call, pool: Pool::new(time), own: Vec::new(), said: Vec::new() }
    }

    fn begin_family(&mut self) {
        self.own.push(Duration::ZERO);
        self.said.push(Duration::ZERO);
    }

    /// What there is to say of a table: that it is slower than its family by more than a fifth, or the slowest of all.
    fn news(&mut self, found: &Found) -> Option<String> {
        let time = self.pool.time(found);
        let is_slowest = self.said.iter().all(|&said| time > said.mul_f64(NOTABLE));
        let said = &mut self.said[found.family];
        if !is_slowest && time <= said.mul_f64(CLEAR) {
            return None;
        }
        let before = std::mem::replace(said, time);
        let of_all = if is_slowest { ", the slowest" } else { "" };
        Some(format!("{:6}{:>10} ms after{:>10}{of_all:13}", self.call.name(), milliseconds(time), milliseconds(before)))
    }

    /// Leaves the slowest tables in the folder.
    fn write(&self) {
        for (place, found) in (1..).zip(self.pool.slowest()) {
            leave(&format!("{}-{place:02}", self.call.name()), &found.table);
        }
    }

    /// The slowest tables, and beside each the time of its family's own table.
    fn report(&self, names: &[&str]) {
        println!("\nThe slowest tables of the {} call, times in ms\n", self.call.name());
        println!("    {:22}{:>6}{:>8}{:>8}{:>12}{:>12}", "descends from", "N", "blocks", "rounds", "ours", "family's");
        for (place, found) in (1..).zip(self.pool.slowest()) {
            let [time, own] = [self.pool.time(found), self.own[found.family]].map(milliseconds);
            println!("{place:2}  {:22}{}{time:>12}{own:>12}", names[found.family], counted(found));
        }
    }
}

struct Search {
    begin: Instant,
    names: Vec<&'static str>,
    races: [Race; 2],
    counts: Counts,
}

impl Search {
    fn new() -> Search {
        let races = [Race::new(Call::Reduce, |found| found.reduce), Race::new(Call::Graph, |found| found.graph)];
        Search { begin: Instant::now(), names: Vec::new(), races, counts: Counts::default() }
    }

    /// Begins a family with its own table, if that is accepted.
    fn start(&mut self, name: &'static str, table: Vec<u8>) -> Result<()> {
        let family = self.names.len();
        self.names.push(name);
        self.races.iter_mut().for_each(|race| race.begin_family());
        let Some(found) = self.try_table(family, &table)? else {
            println!("{name:22}is refused");
            return Ok(());
        };
        for race in &mut self.races {
            race.own[family] = race.pool.time(&found);
            race.said[family] = race.own[family];
        }
        println!("{name:22}{}{:>12}{:>12}", counted(&found), milliseconds(found.reduce), milliseconds(found.graph));
        self.keep(found)
    }

    /// A table to try: one of the slowest, or any that is kept, changed by chance. Its family is that of the table before the change.
    fn next(&self, chance: &mut Chance) -> (usize, Vec<u8>) {
        let [reduce, graph] = self.races.each_ref().map(|race| &race.pool);
        let mut some = |found: &'_ [Found]| found[chance.number(found.len())].clone();
        let [any, slow, slow_graph] = [reduce.all(), reduce.slowest(), graph.slowest()].map(&mut some);
        let other = some(reduce.all());
        let one = match chance.below(8) {
            0..=3 => slow,
            4..=6 => any,
            _ => slow_graph,
        };
        (one.family, changes::changed(&one.table, &other.table, chance))
    }

    /// Measures a table and holds it to the independent implementation. It comes back where it is accepted and slow enough to be kept.
    fn try_table(&mut self, family: usize, table: &[u8]) -> Result<Option<Found>> {
        self.counts.tried += 1;
        let Some((found, reduced)) = measured(family, table)? else {
            return Ok(None);
        };
        self.counts.accepted += 1;
        self.counts.stopped += u64::from(found.regions.is_none() || found.answer.is_none());
        self.compare(Call::Reduce, reduced, table)?;
        if !self.is_taken(&found) {
            return Ok(None);
        }
        // Other work on the machine may have made it look slow: the shorter of two times counts.
        let again = measured(family, table)?.map(|(again, _)| again);
        let found = again.map(|again| Found { reduce: found.reduce.min(again.reduce), graph: found.graph.min(again.graph), ..found });
        Ok(found.filter(|found| self.is_taken(found)))
    }

    fn is_taken(&self, found: &Found) -> bool {
        self.races.iter().any(|race| race.pool.takes(found))
    }

    /// Puts a table into the pools that take it, and says so where that is news.
    fn keep(&mut self, found: Found) -> Result<()> {
        self.counts.kept += 1;
        let graph = measure::one(Engine::Ours, Call::Graph, Duration::ZERO, &found.table, &[], LIMIT)?;
        self.compare(Call::Graph, graph, &found.table)?;
        let seconds = self.begin.elapsed().as_secs();
        let name = self.names[found.family];
        for race in self.races.iter_mut().filter(|race| race.pool.takes(&found)) {
            if let Some(news) = race.news(&found) {
                println!("{seconds:5} s  {name:22}{news}  {}", counted(&found));
            }
            race.pool.keep(found.clone());
            race.write();
        }
        Ok(())
    }

    /// Holds what ours told to what the independent implementation tells of the same table.
    fn compare(&mut self, call: Call, ours: Option<Told>, table: &[u8]) -> Result<()> {
        let reference = measure::one(Engine::Reference, call, Duration::ZERO, table, &[], REFERENCE_LIMIT)?;
        let both = Both { ours, reference };
        if both.ours.is_none() || both.reference.is_none() {
            self.counts.not_compared += 1;
        }
        if both.differ() {
            self.counts.different += 1;
            let path = leave(&format!("different-{}", self.counts.different), table);
            println!("DIFFERENT in the {} call: {path}", call.name());
            for (name, told) in [("ours", &both.ours), ("reference", &both.reference)] {
                println!("  {name:9} {:?}", told.as_ref().map(|told| told.answer));
            }
        }
        Ok(())
    }
}

/// What our calls say of a table, with what the partition call left. Nothing comes back where it is refused.
fn measured(family: usize, table: &[u8]) -> Result<Option<(Found, Option<Told>)>> {
    let ours = |call| measure::one(Engine::Ours, call, LONG_ENOUGH, table, &[], LIMIT);
    let graph = ours(Call::Graph)?;
    if graph.as_ref().is_some_and(|told| told.answer.refusal != 0) {
        return Ok(None);
    }
    let reduce = ours(Call::Reduce)?;
    let time = |told: &Option<Told>| told.as_ref().map_or(Duration::from_secs(LIMIT), |told| told.time);
    let found = Found {
        family,
        table: table.to_vec(),
        regions: graph.as_ref().map(|told| told.answer.value),
        answer: reduce.as_ref().map(|told| told.answer),
        reduce: time(&reduce),
        graph: time(&graph),
    };
    Ok(Some((found, reduce)))
}

/// N, blocks and rounds, as far as they are known.
fn counted(found: &Found) -> String {
    let shown = |count: Option<u64>| count.map_or(String::from("?"), |count| count.to_string());
    let [blocks, rounds] = [found.answer.map(|answer| answer.blocks), found.answer.map(|answer| answer.rounds)];
    format!("{:>6}{:>8}{:>8}", shown(found.regions), shown(blocks), shown(rounds))
}

/// A time in milliseconds, or the limit that was passed.
fn milliseconds(time: Duration) -> String {
    if time >= Duration::from_secs(LIMIT) {
        return format!("> {LIMIT} s");
    }
    format!("{:.2}", time.as_secs_f64() * 1e3)
}

/// Leaves a table in the folder as hexadecimal text, and says where, or why not.
fn leave(name: &str, table: &[u8]) -> String {
    let path = format!("{FOLDER}/{name}.hex");
    let text: String = table.iter().map(|byte| format!("{byte:02x}")).collect();
    fs::write(&path, text + "\n").map_or_else(|error| format!("{path}, {error}"), |()| path.clone())
}
