// How long the partition call takes on heavy models and on the tables of a folder.

use crate::calls;
use crate::explore::MOST_REGIONS;
use crate::heavy_models;
use crate::region::ENTRY;
use std::fs;
use std::time::Instant;

/// How often each call is made. The least time counts.
const TIMES: usize = 5;

/// One line for each heavy model and each table of the folder, if one is given.
pub fn summary(folder: Option<&str>) -> Result<String, String> {
    let mut text = format!("{:>8} {:>8} {:>8} {:>10}\n", "regions", "blocks", "rounds", "ms");
    for (name, table) in heavy_models::tables() {
        text.push_str(&timed(name, &table));
    }
    if let Some(folder) = folder {
        let trouble = |error: std::io::Error| format!("{folder}: {error}");
        let mut files = Vec::new();
        for entry in fs::read_dir(folder).map_err(trouble)? {
            files.push(entry.map_err(trouble)?.path());
        }
        files.sort();
        for file in files.iter().filter(|file| file.is_file()) {
            let table = fs::read(file).map_err(trouble)?;
            text.push_str(&timed(&file.file_name().unwrap_or_default().to_string_lossy(), &table));
        }
    }
    Ok(text)
}

/// The numbers of a table's partition call with its time.
fn timed(name: &str, table: &[u8]) -> String {
    let mut entries = vec![0; MOST_REGIONS * ENTRY];
    let mut lists = [vec![0; MOST_REGIONS], vec![0; MOST_REGIONS]];
    let [first, second] = &mut lists;
    let mut least = f64::INFINITY;
    let mut answer = calls::Answer::default();
    for _ in 0..TIMES {
        let start = Instant::now();
        answer = calls::reduce(table, &mut entries, first, second);
        least = least.min(start.elapsed().as_secs_f64() * 1_000.0);
    }
    if answer.refusal != 0 {
        return format!("{:>8} {:>8} {:>8} {least:>10.2}  {name}: refused {}\n", "", "", "", answer.refusal);
    }
    let calls::Answer { value, blocks, rounds, .. } = answer;
    format!("{value:>8} {blocks:>8} {rounds:>8} {least:>10.2}  {name}\n")
}
