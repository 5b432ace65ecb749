// Holding the calls to the outside test vectors: each line's call is made and compared with what the line says.

use crate::explore;
use crate::listing;
use crate::listing_foot;
use crate::partition::{self, Answer};
use crate::place;
use crate::table::Refusal;
use crate::vectors::{self, list_bytes, Ask, Content, File, Vector, Wanted};
use std::collections::BTreeMap;

/// How many disagreeing lines of a file are printed.
const SHOWN: usize = 10;

/// Compares the calls with each line of each file of a folder, and prints the outcome. Returns whether all agree.
pub fn check(folder: &str) -> Result<bool, String> {
    let mut all = true;
    for file in vectors::load(folder)?.files {
        all &= check_file(&file);
    }
    Ok(all)
}

/// Prints how many lines of a file agree, and the first that do not. Returns whether all agree.
fn check_file(file: &File) -> bool {
    let (name, lines) = (&file.name, file.vectors.len());
    let mut disagreeing = 0;
    for vector in &file.vectors {
        if let Some(difference) = difference(vector) {
            disagreeing += 1;
            if disagreeing <= SHOWN {
                println!("{name}: line {}: {}: {difference}", vector.line, vector.ask.call());
            }
        }
    }
    if disagreeing == 0 {
        println!("{name}: {lines} lines agree ({})", by_call(file));
    } else {
        println!("{name}: {disagreeing} of {lines} lines disagree ({})", by_call(file));
    }
    disagreeing == 0
}

/// Counts the lines of each call in a file, for printing.
fn by_call(file: &File) -> String {
    let mut counts: BTreeMap<&str, usize> = BTreeMap::new();
    for vector in &file.vectors {
        *counts.entry(vector.ask.call()).or_default() += 1;
    }
    let counts: Vec<String> = counts.iter().map(|(call, count)| format!("{call} {count}")).collect();
    counts.join(", ")
}

/// Describes how the call differs from what a line asks for, unless it agrees.
fn difference(vector: &Vector) -> Option<String> {
    let (answer, found) = made(vector);
    if answer != vector.answer {
        return Some(format!("asked for {}, found {}", in_words(&vector.answer), in_words(&answer)));
    }
    let mut contents = vector.contents.iter().zip(&found);
    let differing = contents.find(|(content, found)| !content.agrees(found));
    match (&vector.ask, differing) {
        (Ask::Listing, Some((content, found))) => Some(text_difference(content, found)),
        (Ask::Listing, None) => totals_difference(vector, &found[0]),
        (_, Some((content, _))) => Some(format!("{}, but with other {}", in_words(&answer), content.name)),
        (_, None) => None,
    }
}

/// Describes how a listing differs from what is printed without totals, unless that is by their lines alone.
fn totals_difference(vector: &Vector, found: &[u8]) -> Option<String> {
    let short = listing_foot::without(&String::from_utf8_lossy(found));
    let differs = listing::printed_without_totals(&vector.table, vector.lent) != short.as_bytes();
    differs.then(|| "as asked for, but printed otherwise without totals".to_string())
}

/// Makes the call of a line. Returns its answer and the contents, in the order in which the line has them. The lists
/// of the judging call are empty, and no line has them.
fn made(vector: &Vector) -> (Answer, Vec<Vec<u8>>) {
    let table = &vector.table;
    let entries = || vec![vector.fill; vector.lent];
    match &vector.ask {
        Ask::Graph => {
            let mut entries = entries();
            let answer = explore::graph(table, &mut entries).map(|count| vec![count as u64]);
            (answer, vec![entries])
        }
        Ask::State(state) => {
            let mut entries = entries();
            let answer = place::place(table, &mut entries, state).map(|region| vec![region as u64]);
            (answer, vec![entries])
        }
        Ask::Blocks { question, lists, fill } => {
            let (mut entries, mut lists) = (entries(), lists.map(|length| vec![*fill; length]));
            let answer = partition::call(question, table, &mut entries, &mut lists);
            let [first, second] = lists.map(|list| list_bytes(&list));
            (answer, vec![entries, first, second])
        }
        Ask::Listing => (Ok(Vec::new()), vec![listing::printed(table, vector.lent)]),
    }
}

/// Describes how a printed text differs: by its first line that differs, or by the count of bytes.
fn text_difference(content: &Content, found: &[u8]) -> String {
    let Wanted::Full(asked) = &content.wanted else {
        return format!("found {} bytes of another length or hash", found.len());
    };
    let (asked_text, found_text) = (String::from_utf8_lossy(asked), String::from_utf8_lossy(found));
    let mut pairs = asked_text.lines().zip(found_text.lines()).enumerate();
    match pairs.find(|(_, (asked, printed))| asked != printed) {
        Some((index, (asked, printed))) => {
            format!("line {} of the listing: asked for {asked:?}, found {printed:?}", index + 1)
        }
        None => format!("asked for {} bytes, found {}", asked.len(), found.len()),
    }
}

fn in_words(answer: &Answer) -> String {
    match answer {
        Ok(numbers) => format!("result {numbers:?}"),
        Err(Refusal { number, place }) => format!("refused {number} place {place}"),
    }
}
