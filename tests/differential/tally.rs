//! What the asks of a run covered.

use crate::library::Answer;
use reference::asks::What;

const KINDS: [&str; 5] = ["graph", "place", "reduce", "pair", "judge"];

const REFUSALS: usize = 21;

/// The largest N that is answered.
const MOST_REGIONS: u64 = 4096;

/// Counts by kind of call and by refusal (0 for none), of parts, and the largest N that was answered.
#[derive(Default)]
pub struct Tally {
    calls: [[u64; REFUSALS + 1]; KINDS.len()],
    parts: u64,
    largest: u64,
}

pub fn name(what: &What) -> &'static str {
    KINDS[what.call()]
}

impl Tally {
    pub fn add(&mut self, what: &What, answer: Answer, parts: u64) {
        self.calls[what.call()][answer.refusal as usize] += 1;
        self.parts += parts;
        if matches!(what, What::Graph | What::Reduce { .. }) {
            self.largest = self.largest.max(answer.value);
        }
    }

    /// One line on all of it.
    pub fn line(&self) -> String {
        let of_kind = |(calls, name): (&[u64; REFUSALS + 1], &str)| {
            let all: u64 = calls.iter().sum();
            format!("{name} {all} ({} refused)", all - calls[0])
        };
        let kinds: Vec<String> = self.calls.iter().zip(KINDS).map(of_kind).collect();
        format!("{}; {} parts of listings; largest N {}", kinds.join(", "), self.parts, self.largest)
    }

    /// The kinds of call that never succeeded, the refusals that never occurred, and the most regions if no graph had so many.
    pub fn missing(&self) -> Vec<String> {
        let kinds = self.calls.iter().zip(KINDS).filter(|(calls, _)| calls[0] == 0);
        let kinds = kinds.map(|(_, name)| format!("no {name} call without refusal"));
        let absent = |&refusal: &usize| self.calls.iter().all(|calls| calls[refusal] == 0);
        let refusals = (1..=REFUSALS).filter(absent).map(|refusal| format!("no refusal {refusal}"));
        let most = (self.largest < MOST_REGIONS).then(|| format!("no graph of {MOST_REGIONS} regions"));
        kinds.chain(refusals).chain(most).collect()
    }
}
