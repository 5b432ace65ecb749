// Sets of blocks under numbers: equal sets, and no others, have equal numbers.

use crate::hash::HashMap;
use std::rc::Rc;

/// How many elements all sets together may have before it is better to begin again.
const MANY: usize = 8_000_000;

pub struct Sets {
    /// The sets by number, elements rising.
    list: Vec<Rc<[u32]>>,
    numbers: HashMap<Rc<[u32]>, u32>,
    /// What putting an element into a set gave.
    larger: HashMap<(u32, u32), u32>,
    elements: usize,
}

impl Sets {
    /// The number of the empty set.
    pub const EMPTY: u32 = 0;

    pub fn new() -> Sets {
        let empty: Rc<[u32]> = Rc::new([]);
        let numbers = HashMap::from_iter([(empty.clone(), Sets::EMPTY)]);
        Sets { list: vec![empty], numbers, larger: HashMap::default(), elements: 0 }
    }

    /// The set with an element put in.
    pub fn with(&mut self, set: u32, element: u32) -> u32 {
        if let Some(&number) = self.larger.get(&(set, element)) {
            return number;
        }
        let list = &self.list[set as usize];
        let number = match list.binary_search(&element) {
            Ok(_) => set,
            Err(position) => {
                let larger = [&list[..position], &[element], &list[position..]].concat();
                self.number(larger)
            }
        };
        self.larger.insert((set, element), number);
        number
    }

    fn number(&mut self, set: Vec<u32>) -> u32 {
        if let Some(&number) = self.numbers.get(&set[..]) {
            return number;
        }
        let set: Rc<[u32]> = set.into();
        let number = self.list.len() as u32;
        self.elements += set.len();
        self.list.push(set.clone());
        self.numbers.insert(set, number);
        number
    }

    /// Whether the sets take much room, most of them no longer asked for.
    pub fn are_many(&self) -> bool {
        self.elements > MANY
    }
}
