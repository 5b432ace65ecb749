// The collections of cases of the calls on blocks, one collection a call: how cases are written, what they
// expect, and the checks that each collection makes on itself. Which cases there are stands in
// partition_cases.rs, pair_cases.rs and judge_cases.rs.

use crate::answer;
use crate::block_subject::{Lent, Subject, MOST_BY_PAIRS};
use crate::cases::in_hex;
use crate::explore;
use crate::pairs::{self, Faults, Relation};
use crate::partition::{self, Answer, Lists, Question};
use crate::region::ENTRY;
use crate::rng::Rng;
use crate::table::Refusal;
use crate::vectors::{Ask, Vectors};
use std::collections::HashSet;

/// The numbers of the calls.
pub const CALL_PARTITION: u8 = 4;
pub const CALL_PAIR: u8 = 5;
pub const CALL_JUDGE: u8 = 6;
/// The longest table of a case, the most bytes lent for entries, the longest list or proposal.
const LONGEST_TABLE: usize = 17_000;
pub const MOST_LENT: usize = 37_000;
pub const LONGEST_LIST: usize = 4_200;

pub struct BlockCases {
    /// The source of chance of the group at hand.
    pub rng: Rng,
    /// The tables added so far, with what was lent and asked.
    seen: HashSet<(Vec<u8>, Lent, Question)>,
    pub count: usize,
    pub input: Vec<u8>,
    pub output: String,
    /// How often each refusal was given; results stand at 0.
    tally: [usize; 20],
    /// Results by what they say: more than one round, more than 100, pairs that share a block.
    pub above_1: usize,
    pub above_100: usize,
    pub alike: usize,
    /// Refused proposals of small models by the one demand that they fail.
    pub by_labels: usize,
    pub by_delay: usize,
    pub by_action: usize,
    pub by_shares: usize,
    pub one_way: usize,
    explored: usize,
}

/// What a collection must hold: the least number of cases, the most bytes, the least number of results, and how
/// often at least each refusal that fits the call from 16 on occurs.
pub struct Demand {
    pub fewest: usize,
    pub budget: usize,
    pub results: usize,
    pub refusals: &'static [(usize, usize)],
}

/// The number of a question's call.
fn call_of(question: &Question) -> u8 {
    match question {
        Question::Partition => CALL_PARTITION,
        Question::Pair(_) => CALL_PAIR,
        Question::Judge(_) => CALL_JUDGE,
    }
}

impl BlockCases {
    pub fn new() -> BlockCases {
        BlockCases {
            rng: Rng::for_group(0),
            seen: HashSet::new(),
            count: 0,
            input: Vec::new(),
            output: String::new(),
            tally: [0; 20],
            above_1: 0,
            above_100: 0,
            alike: 0,
            by_labels: 0,
            by_delay: 0,
            by_action: 0,
            by_shares: 0,
            one_way: 0,
            explored: 0,
        }
    }

    /// Starts a group of cases, with its own source of chance.
    pub fn begin_group(&mut self, group: u64) {
        self.rng = Rng::for_group(group);
    }

    /// Adds a question about a table that must have this answer, unless it is there already. The judging call
    /// has no lists. True if it was not there.
    pub fn foretold(&mut self, table: &[u8], mut lent: Lent, question: &Question, answer: &Answer) -> bool {
        if call_of(question) == CALL_JUDGE {
            lent.lists = [0, 0];
        }
        if !self.seen.insert((table.to_vec(), lent, question.clone())) {
            return false;
        }
        check_limits(table, lent, question);
        let fill = if self.rng.chance(1, 4) { self.rng.pick(&[0, 1, 165, 255]) } else { self.rng.byte() };
        self.put_input(table, lent, question, fill);
        let mut entries: Vec<u8> =
            (0..lent.entries).map(|index| (usize::from(fill) + 7 * index) as u8).collect();
        let mut lists = filled(lent.lists, fill);
        let found = partition::call(question, table, &mut entries, &mut lists);
        assert_eq!(
            &found,
            answer,
            "the table {} answers {question:?} otherwise than foretold",
            in_hex(table)
        );
        if found.is_err() {
            assert_eq!(lists, filled(lent.lists, fill), "a refusal has changed a list");
        }
        self.output.push_str(&answer::blocks_line(question, &found, &entries, &lists));
        self.output.push('\n');
        self.note(&found, lent);
        true
    }

    /// Counts a case.
    fn note(&mut self, answer: &Answer, lent: Lent) {
        self.count += 1;
        let number = answer.as_ref().map_or_else(|refusal| refusal.number as usize, |_| 0);
        self.tally[number] += 1;
        if !(1..=14).contains(&number) {
            self.explored += explore::limit_of(lent.entries);
        }
        match answer.as_deref() {
            Ok(&[_, _, rounds]) => {
                self.above_1 += usize::from(rounds > 1);
                self.above_100 += usize::from(rounds > 100);
            }
            Ok(&[shared]) => self.alike += shared as usize,
            _ => {}
        }
    }

    /// Writes the head, what is asked and the table; a proposal's numbers come after the table.
    fn put_input(&mut self, table: &[u8], lent: Lent, question: &Question, fill: u8) {
        let mut head = [0; 16];
        head[0] = call_of(question);
        head[1] = fill;
        head[4..8].copy_from_slice(&(table.len() as u32).to_le_bytes());
        head[8..12].copy_from_slice(&(lent.entries as u32).to_le_bytes());
        self.input.extend_from_slice(&head);
        let (lengths, asked, proposal): ([usize; 2], &[u64], &[u64]) = match question {
            Question::Partition => (lent.lists, &[], &[]),
            Question::Pair(asked) => (lent.lists, asked, &[]),
            Question::Judge(proposal) => ([proposal.len(), 0], &[], proposal),
        };
        self.input.extend(lengths.iter().flat_map(|&length| (length as u32).to_le_bytes()));
        self.input.extend(asked.iter().flat_map(|number| number.to_le_bytes()));
        self.input.extend_from_slice(table);
        self.input.extend(proposal.iter().flat_map(|number| number.to_le_bytes()));
    }

    /// Adds a question about a model whose rounds are known.
    pub fn ask(&mut self, subject: &Subject, lent: Lent, question: &Question) {
        let answer = subject.answer(lent, question);
        let added = self.foretold(&subject.table, lent, question, &answer);
        if let (Question::Judge(proposal), Err(Refusal { number: 18, .. })) = (question, &answer) {
            if added && subject.count() <= MOST_BY_PAIRS {
                self.note_faults(pairs::faults(&subject.graph, &Relation::of(proposal)));
            }
        }
    }

    /// Counts a refused proposal by the one demand that it fails.
    fn note_faults(&mut self, faults: Faults) {
        self.one_way += usize::from(faults.one_way && !faults.labels);
        match (faults.labels, faults.delay, faults.action, faults.shares) {
            (true, false, false, false) => self.by_labels += 1,
            (false, true, false, false) => self.by_delay += 1,
            (false, false, true, false) => self.by_action += 1,
            (false, false, false, true) => self.by_shares += 1,
            _ => {}
        }
    }

    /// Adds each distinct line of the outside vectors of a call, with what is lent there, held to its answer. If
    /// more bytes are lent than a case may lend, there is still room for every region.
    pub fn add_vectors(&mut self, vectors: &Vectors, call: &'static str) -> Result<(), String> {
        for vector in vectors.of_call(call)? {
            if let Ask::Blocks { question, lists, .. } = &vector.ask {
                let lent = Lent { entries: vector.lent.min(MOST_LENT), lists: *lists };
                self.foretold(&vector.table, lent, question, &vector.answer);
            }
        }
        Ok(())
    }

    /// The collection must be large and varied enough, and not too large.
    pub fn check(&self, name: &str, demand: &Demand) {
        assert!(self.count >= demand.fewest, "only {} {name} cases", self.count);
        assert!(self.input.len() < demand.budget, "{} bytes of {name} cases", self.input.len());
        assert!(self.tally[0] >= demand.results, "only {} results of {name} cases", self.tally[0]);
        for (number, &times) in self.tally.iter().enumerate().skip(1) {
            let later = demand.refusals.iter().find(|&&(later, _)| later == number);
            let fewest = match number {
                1 => 2,
                2..=13 => 3,
                14 | 15 => 20,
                _ => later.map_or(0, |&(_, fewest)| fewest),
            };
            assert!(times >= fewest, "refusal {number} occurs {times} times among the {name} cases");
            let fits = number < 16 || later.is_some();
            assert!(fits || times == 0, "refusal {number} does not fit the {name} cases");
        }
    }

    pub fn summary(&self, name: &str, more: &str) -> String {
        let mut text = format!("{name} cases {}, bytes {}", self.count, self.input.len());
        text.push_str(&format!(", explored at most {}, results {}", self.explored, self.tally[0]));
        text.push_str(&format!(" ({more})"));
        for (number, times) in self.tally.iter().enumerate().skip(1).filter(|&(_, &times)| times > 0) {
            text.push_str(&format!(", refusal {number}: {times}"));
        }
        text
    }
}

fn check_limits(table: &[u8], lent: Lent, question: &Question) {
    assert!(table.len() <= LONGEST_TABLE, "a table of {} bytes is too long for a case", table.len());
    assert!(lent.entries <= MOST_LENT, "{} lent bytes are too many for a case", lent.entries);
    let lists = lent.lists.iter().all(|&length| length <= LONGEST_LIST);
    assert!(lists, "lists of {:?} are too long for a case", lent.lists);
    if let Question::Judge(proposal) = question {
        assert!(proposal.len() <= LONGEST_LIST, "a proposal of {} is too long for a case", proposal.len());
    }
}

/// The two lists before a call.
fn filled(lengths: [usize; 2], fill: u8) -> Lists {
    let list = |list: u64| -> Vec<u64> {
        let first = u64::from(fill) + 256 * list;
        (0..lengths[list as usize] as u64).map(|index| first + 1024 * index).collect()
    };
    [list(0), list(1)]
}

/// Room by chance for a subject: mostly what it takes, else a little more, seldom less.
pub fn some_lent(rng: &mut Rng, subject: &Subject) -> Lent {
    let exact = subject.exact();
    let entries = match rng.below(40) {
        0..=27 => exact.entries,
        28..=32 => exact.entries + rng.between(1, ENTRY - 1),
        33..=37 => exact.entries + rng.between(ENTRY, 10 * ENTRY),
        38 => exact.entries - rng.between(1, ENTRY),
        _ => rng.below(exact.entries),
    };
    let lists = exact.lists.map(|length| match rng.below(4) {
        0 => length + rng.between(1, 3),
        1 if rng.chance(1, 3) => length + rng.between(4, 40),
        _ => length,
    });
    Lent { entries: entries.min(MOST_LENT), lists: lists.map(|length| length.min(LONGEST_LIST)) }
}

/// Numbers that no call takes for a region of a graph of N regions. Some would do if only their low bytes
/// counted.
pub fn numbers_beyond(count: usize) -> Vec<u64> {
    let count = count as u64;
    vec![count, count + 1, 1 << 32, (1 << 32) + count - 1, 1 << 63, u64::MAX - 1, u64::MAX]
}
