// The writing side: records as bytes, and tables as lists of records that can be changed one by one.

use crate::table::{
    Branch, GuardAtom, InvariantAtom, Model, BRANCH, EDGE, END, GUARD, HEADER, INVARIANT, LOCATION,
};

pub fn header(clocks: u8, locations: u8, initial: u8) -> Vec<u8> {
    vec![HEADER, clocks, locations, initial]
}

pub fn location(label: u8) -> Vec<u8> {
    vec![LOCATION, label]
}

pub fn invariant(atom: InvariantAtom) -> Vec<u8> {
    vec![INVARIANT, atom.location, atom.clock, atom.comparison, atom.constant]
}

pub fn edge(source: u8, action: u8, denominator: u16) -> Vec<u8> {
    let [low, high] = denominator.to_le_bytes();
    vec![EDGE, source, action, low, high]
}

pub fn guard(atom: GuardAtom) -> Vec<u8> {
    vec![GUARD, atom.clock, atom.comparison, atom.constant]
}

pub fn branch(branch: Branch) -> Vec<u8> {
    let [low, high] = branch.weight.to_le_bytes();
    vec![BRANCH, low, high, branch.target, branch.mask]
}

pub fn end() -> Vec<u8> {
    vec![END]
}

/// A table as a list of records, right or wrong.
#[derive(Clone)]
pub struct Records {
    pub list: Vec<Vec<u8>>,
}

impl Records {
    /// The records of a model. The places noted in the model are not used.
    pub fn of(model: &Model) -> Records {
        let mut list = vec![header(model.clocks, model.labels.len() as u8, model.initial)];
        list.extend(model.labels.iter().map(|&label| location(label)));
        list.extend(model.invariants.iter().map(|&atom| invariant(atom)));
        for item in &model.edges {
            list.push(edge(item.source, item.action, item.denominator));
            list.extend(item.guards.iter().map(|&atom| guard(atom)));
            list.extend(item.branches.iter().map(|&part| branch(part)));
        }
        list.push(end());
        Records { list }
    }

    pub fn bytes(&self) -> Vec<u8> {
        self.list.concat()
    }

    /// Where the record of this index begins; the table's length for the index after the last.
    pub fn place(&self, index: usize) -> usize {
        self.list[..index].iter().map(Vec::len).sum()
    }

    /// The indices of the records of one kind.
    pub fn of_kind(&self, kind: u8) -> Vec<usize> {
        (0..self.list.len()).filter(|&index| self.list[index][0] == kind).collect()
    }

    /// The same records with one byte of one record changed.
    pub fn with_byte(&self, index: usize, position: usize, value: u8) -> Records {
        let mut changed = self.clone();
        changed.list[index][position] = value;
        changed
    }

    /// The same records with one more at this index.
    pub fn with_record(&self, index: usize, record: Vec<u8>) -> Records {
        let mut changed = self.clone();
        changed.list.insert(index, record);
        changed
    }

    /// The same records without the one at this index.
    pub fn without(&self, index: usize) -> Records {
        let mut changed = self.clone();
        changed.list.remove(index);
        changed
    }
}

/// The model with each edge's place noted as its table has it.
pub fn with_places(mut model: Model) -> Model {
    let records = Records::of(&model);
    for (item, index) in model.edges.iter_mut().zip(records.of_kind(EDGE)) {
        item.place = records.place(index);
    }
    model
}
