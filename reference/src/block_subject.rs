// A model with its graph and all its rounds, for the cases of the calls on blocks: what each call must answer,
// and the comparison of the rounds by signatures with the rounds by pairs where the model is small.

use crate::explore::{self, Exploration, MOST_REGIONS};
use crate::graph_cases::written;
use crate::links::Graph;
use crate::pairs::{self, Relation};
use crate::partition::{Answer, Question};
use crate::refine;
use crate::region::{Region, ENTRY};
use crate::rounds::{self, Blocks};
use crate::table::{Model, Refusal};

/// The most regions of a model whose rounds are also made by pairs.
pub const MOST_BY_PAIRS: usize = 64;

/// How much is lent: bytes for entries, and numbers in each of the two block lists.
#[derive(Clone, Copy, PartialEq, Eq, Hash, Debug)]
pub struct Lent {
    pub entries: usize,
    pub lists: [usize; 2],
}

pub struct Subject {
    pub table: Vec<u8>,
    pub regions: Vec<Region>,
    pub graph: Graph,
    /// All rounds from 0 to the last.
    pub history: Vec<Blocks>,
}

impl Subject {
    /// The model with its rounds, checked, if there are at most 4,096 regions and region 0 is one.
    pub fn of(model: Model) -> Option<Subject> {
        let subject = Subject::unchecked(model)?;
        assert_eq!(subject.history, rounds::history(&subject.graph), "rounds by signatures are others");
        subject.check_by_pairs();
        subject.check_history();
        Some(subject)
    }

    /// The same without the checks.
    pub fn unchecked(model: Model) -> Option<Subject> {
        let Exploration::Whole(net) = explore::explore(&model, MOST_REGIONS) else {
            return None;
        };
        let graph = Graph::of(&model, &net.regions);
        let history = refine::history(&net);
        Some(Subject { table: written(&model), regions: net.regions, graph, history })
    }

    /// N.
    pub fn count(&self) -> usize {
        self.regions.len()
    }

    /// What the entries and the lists take.
    pub fn exact(&self) -> Lent {
        Lent { entries: self.count() * ENTRY, lists: [self.count(); 2] }
    }

    /// The blocks of the last round.
    pub fn last(&self) -> &[u32] {
        &self.history[self.rounds()]
    }

    /// The count of rounds.
    pub fn rounds(&self) -> usize {
        self.history.len() - 1
    }

    /// The count of blocks of the last round.
    pub fn blocks(&self) -> usize {
        rounds::count_of(self.last())
    }

    /// The number of the region with this location and all clocks 0.
    pub fn at(&self, location: u8) -> usize {
        let start = Region::start(location);
        self.regions.iter().position(|&region| region == start).expect("the location is entered")
    }

    /// Whether two regions share a block.
    pub fn shares_block(&self, first: usize, second: usize) -> bool {
        self.last()[first] == self.last()[second]
    }

    /// Whether a proposal of the right length is a bisimulation. Where the model is small the pairs must say
    /// the same; in any case no bisimulation relates what the last round parts.
    pub fn accepts(&self, proposal: &[u64]) -> bool {
        let blocks = rounds::numbered(proposal.iter());
        let accepted = rounds::is_bisimulation(&self.graph, &blocks);
        if self.count() <= MOST_BY_PAIRS {
            let by_pairs = pairs::is_bisimulation(&self.graph, &Relation::of(proposal));
            assert_eq!(accepted, by_pairs, "{:?} is judged otherwise by pairs", proposal);
        }
        let finer = rounds::numbered(proposal.iter().zip(self.last())) == blocks;
        assert!(finer || !accepted, "a bisimulation relates more than the last round");
        accepted
    }

    /// What a call must answer, told from the rounds kept here.
    pub fn answer(&self, lent: Lent, question: &Question) -> Answer {
        let count = self.count();
        let refuse = |number: u32| Err(Refusal { number, place: 0 });
        if lent.entries < count * ENTRY {
            return refuse(15);
        }
        let short = lent.lists.iter().any(|&length| length < count);
        match question {
            Question::Partition | Question::Pair(_) if short => refuse(16),
            Question::Partition => {
                Ok([count, self.blocks(), self.rounds()].map(|number| number as u64).to_vec())
            }
            Question::Pair(asked) if asked.iter().any(|&region| region >= count as u64) => refuse(19),
            Question::Pair(asked) => {
                let [first, second] = asked.map(|region| region as usize);
                Ok(vec![u64::from(self.shares_block(first, second))])
            }
            Question::Judge(proposal) if proposal.len() != count => refuse(17),
            Question::Judge(proposal) if !self.accepts(proposal) => refuse(18),
            Question::Judge(_) => Ok(vec![1]),
        }
    }

    /// Makes the rounds of a small model by pairs and compares the blocks of each, and their count.
    fn check_by_pairs(&self) {
        if self.count() > MOST_BY_PAIRS {
            return;
        }
        let mut round = pairs::by_label(&self.graph);
        for (number, blocks) in self.history.iter().enumerate() {
            assert_eq!(&round.blocks(), blocks, "round {number} is another by pairs");
            let next = pairs::next_round(&self.graph, &round);
            let rests = next == round;
            assert_eq!(rests, number == self.rounds(), "rest after round {number} by pairs: {rests}");
            round = next;
        }
    }

    /// Each round is finer than the one before, the last is a bisimulation, none before it is, and there are at
    /// most N - 1.
    fn check_history(&self) {
        assert!(self.rounds() < self.count(), "{} rounds of {} regions", self.rounds(), self.count());
        for pair in self.history.windows(2) {
            let finer = rounds::numbered(pair[1].iter().zip(&pair[0])) == pair[1];
            assert!(finer && pair[0] != pair[1], "a round is not finer than the one before");
        }
        assert!(rounds::is_bisimulation(&self.graph, self.last()), "the last round is no bisimulation");
    }
}
