// The outside test vectors: the files of a folder, line by line, each line read as its call says. The calls are
// held to them in vector_check.rs.

use crate::json::{self, Members, Value};
use crate::partition::{Answer, Question};
use crate::place::State;
use crate::region::ENTRY;
use crate::sha256::sha256;
use crate::table::Refusal;
use std::fs;
use std::path::{Path, PathBuf};

/// The calls by their names in the files.
pub const GRAPH: &str = "graph";
pub const PLACE: &str = "place";
pub const PARTITION: &str = "partition";
pub const PAIR: &str = "pair";
pub const JUDGE: &str = "judge";
pub const LISTING: &str = "listing";

/// All vectors of a folder, file by file in the order of their names.
pub struct Vectors {
    folder: String,
    pub files: Vec<File>,
}

/// One file of vectors. Its name has no folder before it.
pub struct File {
    pub name: String,
    pub vectors: Vec<Vector>,
}

/// One line: a call, and what must come of it.
pub struct Vector {
    /// The number of the line, from 1.
    pub line: usize,
    pub table: Vec<u8>,
    /// How many bytes are lent for entries.
    pub lent: usize,
    /// What each of them holds before the call; 0 for the listing, whose lines do not say it.
    pub fill: u8,
    pub ask: Ask,
    /// The numbers of the result, or the refusal. Yes is 1 and no is 0. The listing has no numbers and no
    /// refusal: what it prints is one of the contents.
    pub answer: Answer,
    /// What the call leaves in the lent tables, or prints.
    pub contents: Vec<Content>,
}

/// What is asked of the table: its graph, the region of a state, one of the three calls on blocks with the lengths
/// of the two lists and what each number of them holds before the call, or the listing.
pub enum Ask {
    Graph,
    State(State),
    Blocks { question: Question, lists: [usize; 2], fill: u64 },
    Listing,
}

impl Ask {
    /// Returns the name of the call in the files.
    pub fn call(&self) -> &'static str {
        match self {
            Ask::Graph => GRAPH,
            Ask::State(_) => PLACE,
            Ask::Blocks { question: Question::Partition, .. } => PARTITION,
            Ask::Blocks { question: Question::Pair(_), .. } => PAIR,
            Ask::Blocks { question: Question::Judge(_), .. } => JUDGE,
            Ask::Listing => LISTING,
        }
    }

    /// Returns the contents that an answer of the call has.
    fn forms(&self) -> &'static [Form] {
        match self.call() {
            PARTITION | PAIR => &[ENTRIES, ("list1", list_of), ("list2", list_of)],
            LISTING => &[TEXT],
            _ => &[ENTRIES],
        }
    }
}

/// A content by its name in the files, and the reader of its bytes if a line gives it in full.
type Form = (&'static str, fn(&Value) -> Option<Vec<u8>>);

const ENTRIES: Form = ("entries", bytes_of);
const TEXT: Form = ("text", text_of);

/// What a lent table holds after the call, or what is printed, by its name in the files. A list counts as its
/// numbers' bytes, eight a number, low byte first.
pub struct Content {
    pub name: &'static str,
    pub wanted: Wanted,
}

/// The bytes of a content, or their hash and, if the line has it, their count.
pub enum Wanted {
    Full(Vec<u8>),
    Hashed { sha256: Vec<u8>, length: Option<usize> },
}

impl Content {
    /// Checks that these are the bytes of the content.
    pub fn agrees(&self, bytes: &[u8]) -> bool {
        match &self.wanted {
            Wanted::Full(wanted) => bytes == wanted,
            Wanted::Hashed { sha256: hash, length } => {
                length.is_none_or(|length| bytes.len() == length) && sha256(bytes)[..] == hash[..]
            }
        }
    }
}

impl Vector {
    /// Returns the refusal that reading the table must give: one of 1 to 13, or none.
    pub fn reading(&self) -> Option<Refusal> {
        self.answer.as_ref().err().copied().filter(|refusal| refusal.number <= 13)
    }

    /// Returns the answer of a call whose result is one number.
    pub fn number(&self) -> Result<usize, Refusal> {
        self.answer.as_ref().map(|numbers| numbers[0] as usize).map_err(|&refusal| refusal)
    }

    /// Checks that this is what the call must print, which the listing alone does.
    pub fn prints(&self, text: &[u8]) -> bool {
        self.contents.iter().any(|content| content.name == TEXT.0 && content.agrees(text))
    }
}

impl File {
    /// Returns the lines of a call, in order.
    pub fn of_call(&self, call: &'static str) -> impl Iterator<Item = &Vector> {
        self.vectors.iter().filter(move |vector| vector.ask.call() == call)
    }
}

impl Vectors {
    /// Returns the lines of a call in all files, in order. It is an error if there are none.
    pub fn of_call(&self, call: &'static str) -> Result<Vec<&Vector>, String> {
        let vectors: Vec<&Vector> = self.files.iter().flat_map(|file| file.of_call(call)).collect();
        if vectors.is_empty() {
            return Err(format!("{}: no line of the call {call}", self.folder));
        }
        Ok(vectors)
    }
}

/// Reads all files of vectors in a folder. It is an error if there are none.
pub fn load(folder: &str) -> Result<Vectors, String> {
    let mut files = Vec::new();
    for path in paths_of(folder)? {
        let vectors = load_file(&path).map_err(|what| format!("{}: {what}", path.display()))?;
        let name = path.file_name().unwrap_or_default().to_string_lossy().into_owned();
        files.push(File { name, vectors });
    }
    if files.is_empty() {
        return Err(format!("{folder}: no vectors: no file has a name that ends with .jsonl"));
    }
    Ok(Vectors { folder: folder.to_string(), files })
}

/// Returns all that has the name of a file of vectors, by name. What is no file is not left out: reading it is an
/// error later.
fn paths_of(folder: &str) -> Result<Vec<PathBuf>, String> {
    let trouble = |error: std::io::Error| format!("{folder}: {error}");
    let mut paths = Vec::new();
    for entry in fs::read_dir(folder).map_err(trouble)? {
        let path = entry.map_err(trouble)?.path();
        if path.extension().is_some_and(|extension| extension == "jsonl") {
            paths.push(path);
        }
    }
    paths.sort();
    Ok(paths)
}

/// Reads all lines of a file but blank ones. It is an error if there are no others.
fn load_file(path: &Path) -> Result<Vec<Vector>, String> {
    let text = fs::read_to_string(path).map_err(|error| error.to_string())?;
    let mut vectors = Vec::new();
    for (index, content) in text.lines().enumerate() {
        if !content.trim().is_empty() {
            let line = index + 1;
            vectors.push(vector(line, content).map_err(|what| format!("line {line}: {what}"))?);
        }
    }
    if vectors.is_empty() {
        return Err("no line".to_string());
    }
    Ok(vectors)
}

/// Reads a line. A note in it is for people; any other member that the call does not know is an error, so that all
/// that a line says is compared.
fn vector(line: usize, content: &str) -> Result<Vector, String> {
    let mut whole = Members::of(json::parse(content)?, "").ok_or("no object")?;
    let asks = whole.take("ask").and_then(|value| Members::of(value, "ask."));
    let answers = whole.take("answer").and_then(|value| Members::of(value, "answer."));
    let (Some(mut asks), Some(mut answers)) = (asks, answers) else {
        return Err("no object under ask, or none under answer".to_string());
    };
    whole.take("note");
    whole.end()?;
    let call = asks.read("call", "a name", |value| value.text().map(str::to_string))?;
    let ask = ask_of(&call, &mut asks)?;
    let table = asks.read("table", "bytes in hexadecimal", bytes_of)?;
    let (lent, fill) = lent_of(&ask, &mut asks)?;
    asks.end()?;
    let answer = answer_of(&ask, &mut answers)?;
    let mut contents = Vec::new();
    for &form in ask.forms() {
        contents.push(content_of(form, &mut answers)?);
    }
    answers.end()?;
    Ok(Vector { line, table, lent, fill, ask, answer, contents })
}

/// Reads what a line asks of the table.
fn ask_of(call: &str, members: &mut Members) -> Result<Ask, String> {
    match call {
        GRAPH => Ok(Ask::Graph),
        PLACE => members.read("state", "six numbers", state_of).map(Ask::State),
        PARTITION => with_lists(Question::Partition, members),
        PAIR => {
            let asked = members.read("asked", "two numbers", array_of)?;
            with_lists(Question::Pair(asked), members)
        }
        JUDGE => {
            let proposal = members.read("proposal", "a list of numbers", numbers_of)?;
            Ok(Ask::Blocks { question: Question::Judge(proposal), lists: [0, 0], fill: 0 })
        }
        LISTING => Ok(Ask::Listing),
        _ => Err(format!("the call {call:?} is unknown")),
    }
}

/// Reads the block lists that go with a question.
fn with_lists(question: Question, members: &mut Members) -> Result<Ask, String> {
    let lists = members.read("lists", "two numbers", array_of)?.map(|length| length as usize);
    let fill = members.read("list_fill", "a number", Value::number)?;
    Ok(Ask::Blocks { question, lists, fill })
}

/// Reads how many bytes are lent for entries, and what each holds before the call. The listing says how many entries
/// these are.
fn lent_of(ask: &Ask, members: &mut Members) -> Result<(usize, u8), String> {
    if let Ask::Listing = ask {
        let bytes = |value: &Value| size_of(value)?.checked_mul(ENTRY);
        return Ok((members.read("lent", "a count of entries", bytes)?, 0));
    }
    let lent = members.read("entries", "a count of bytes", size_of)?;
    let fill = members.read("fill", "a byte", |value| u8::try_from(value.number()?).ok())?;
    Ok((lent, fill))
}

/// Reads the numbers of the result or the refusal. The listing has neither.
fn answer_of(ask: &Ask, members: &mut Members) -> Result<Answer, String> {
    if let Ask::Listing = ask {
        return Ok(Ok(Vec::new()));
    }
    match (members.has("refused"), members.has("result")) {
        (true, false) => members.read("refused", "a number and a place", refusal_of).map(Err),
        (false, true) => result_of(ask, members).map(Ok),
        _ => Err("neither a refusal nor a result, or both".to_string()),
    }
}

/// Reads the numbers of the result, as many as the call gives. If the line has the round that parts a pair, it is the
/// second number.
fn result_of(ask: &Ask, members: &mut Members) -> Result<Vec<u64>, String> {
    match ask.call() {
        PARTITION => members.read("result", "three numbers", array_of::<3>).map(Vec::from),
        PAIR | JUDGE => {
            let mut numbers = vec![members.read("result", "true or false", truth_of)?];
            if numbers == [0] && members.has("round") {
                numbers.push(members.read("round", "a number", Value::number)?);
            }
            Ok(numbers)
        }
        _ => members.read("result", "a number", Value::number).map(|number| vec![number]),
    }
}

/// Reads a content: in full under its name, or by its hash.
fn content_of((name, bytes): Form, members: &mut Members) -> Result<Content, String> {
    let hash = format!("{name}_sha256");
    let count = format!("{name}_bytes");
    let wanted = match (members.has(name), members.has(&hash)) {
        (true, false) => Wanted::Full(members.read(name, "a content of this name", bytes)?),
        (false, true) => {
            let sha256 = members.read(&hash, "bytes in hexadecimal", bytes_of)?;
            let length = match members.has(&count) {
                true => Some(members.read(&count, "a count of bytes", size_of)?),
                false => None,
            };
            Wanted::Hashed { sha256, length }
        }
        _ => return Err(format!("neither answer.{name} nor its hash, or both")),
    };
    Ok(Content { name, wanted })
}

/// Reads a state: location, four values, denominator.
fn state_of(value: &Value) -> Option<State> {
    let [location, first, second, third, fourth, denominator] = array_of(value)?;
    Some(State { location, values: [first, second, third, fourth], denominator })
}

/// Reads a refusal. Any number will do: one that the call never gives disagrees with whatever it gives.
fn refusal_of(value: &Value) -> Option<Refusal> {
    let [number, place] = array_of(value)?;
    Some(Refusal { number: u32::try_from(number).ok()?, place: usize::try_from(place).ok()? })
}

/// Reads yes as 1 and no as 0.
fn truth_of(value: &Value) -> Option<u64> {
    match value {
        Value::True => Some(1),
        Value::False => Some(0),
        _ => None,
    }
}

fn size_of(value: &Value) -> Option<usize> {
    usize::try_from(value.number()?).ok()
}

fn numbers_of(value: &Value) -> Option<Vec<u64>> {
    value.list()?.iter().map(Value::number).collect()
}

fn array_of<const COUNT: usize>(value: &Value) -> Option<[u64; COUNT]> {
    numbers_of(value)?.try_into().ok()
}

fn text_of(value: &Value) -> Option<Vec<u8>> {
    value.text().map(|text| text.as_bytes().to_vec())
}

fn list_of(value: &Value) -> Option<Vec<u8>> {
    numbers_of(value).map(|numbers| list_bytes(&numbers))
}

/// Returns the bytes of a list.
pub fn list_bytes(list: &[u64]) -> Vec<u8> {
    list.iter().flat_map(|number| number.to_le_bytes()).collect()
}

/// Reads bytes in hexadecimal, two digits a byte.
fn bytes_of(value: &Value) -> Option<Vec<u8>> {
    let digits: Option<Vec<u32>> = value.text()?.chars().map(|digit| digit.to_digit(16)).collect();
    let digits = digits.filter(|digits| digits.len() % 2 == 0)?;
    Some(digits.chunks(2).map(|pair| (pair[0] * 16 + pair[1]) as u8).collect())
}
