//! Changes of a table by chance, for the search: of single numbers, of single records, and of many records in the same way.

use crate::chance::Chance;
use crate::draft::{Draft, Edge, LARGEST_CONSTANT, MOST_CLOCKS, MOST_LOCATIONS};
use crate::table::{Branch, AT_MOST, EQUAL};
use std::ops::Range;

/// A table with one to 16 changes; some take edges from the other one. It is within the rules, but it may have no regions or too many.
pub fn changed(table: &[u8], other: &[u8], chance: &mut Chance) -> Vec<u8> {
    let mut draft = Draft::read(table);
    let other = Draft::read(other);
    for _ in 0..1 << chance.below(5) {
        change(&mut draft, &other, chance);
        draft.mend();
    }
    draft.table()
}

type Change = fn(&mut Draft, &mut Chance);

fn change(draft: &mut Draft, other: &Draft, chance: &mut Chance) {
    const SMALL: [Change; 13] = [
        change_guard,
        change_guard,
        change_mask,
        change_mask,
        change_weight,
        change_weight,
        change_target,
        change_target,
        change_action,
        change_source,
        change_label,
        change_invariant,
        change_invariant,
    ];
    const RECORDS: [Change; 10] = [
        double_edge,
        delete_edge,
        move_edge,
        swap_edges,
        double_branch,
        delete_branch,
        move_branch,
        copy_guard,
        delete_guard,
        move_invariant,
    ];
    const WIDE: [Change; 15] = [
        rename_constant,
        rename_action,
        rename_target,
        exchange_clocks,
        guard_run,
        turn_run,
        double_run,
        widen_run,
        shift_targets,
        draw_weights,
        scale_weights,
        one_mask,
        double_location,
        change_locations,
        change_header,
    ];
    match chance.below(10) {
        0..=4 => pick(&SMALL, chance).map(|one| one(draft, chance)),
        5..=6 => pick(&RECORDS, chance).map(|one| one(draft, chance)),
        7..=8 => pick(&WIDE, chance).map(|one| one(draft, chance)),
        _ => Some(splice(draft, other, chance)),
    };
}

/// A place in a list of this length, if it has any.
fn place(length: usize, chance: &mut Chance) -> Option<usize> {
    (length > 0).then(|| chance.number(length))
}

fn pick<T: Copy>(list: &[T], chance: &mut Chance) -> Option<T> {
    place(list.len(), chance).map(|place| list[place])
}

/// A place to put a record in.
fn gap(length: usize, chance: &mut Chance) -> usize {
    chance.number(length + 1)
}

/// A weight from 1 to the bound.
pub fn some_weight(bound: u16, chance: &mut Chance) -> u16 {
    1 + chance.number(bound.into()) as u16
}

/// Some neighbouring places of a list.
fn run(length: usize, chance: &mut Chance) -> Range<usize> {
    let [one, other] = [gap(length, chance), gap(length, chance)];
    one.min(other)..one.max(other)
}

fn some_edge<'a>(draft: &'a mut Draft, chance: &mut Chance) -> Option<&'a mut Edge> {
    let edge = place(draft.edges.len(), chance)?;
    Some(&mut draft.edges[edge])
}

fn some_branch<'a>(draft: &'a mut Draft, chance: &mut Chance) -> Option<&'a mut Branch> {
    let edge = some_edge(draft, chance)?;
    let branch = place(edge.branches.len(), chance)?;
    Some(&mut edge.branches[branch])
}

/// All constants of the table, invariants first.
fn constants(draft: &Draft) -> Vec<u8> {
    let guards = draft.edges.iter().flat_map(|edge| edge.guards.iter().map(|guard| guard.2));
    draft.invariants.iter().map(|invariant| invariant.3).chain(guards).collect()
}

/// A constant: one more or less than it was, another one of the table, or any.
fn new_constant(old: u8, known: &[u8], chance: &mut Chance) -> u8 {
    match chance.below(4) {
        0 => (old + 1).min(LARGEST_CONSTANT),
        1 => old.saturating_sub(1),
        2 => pick(known, chance).unwrap_or(old),
        _ => chance.below(LARGEST_CONSTANT + 1),
    }
}

fn change_guard(draft: &mut Draft, chance: &mut Chance) {
    let (known, clocks) = (constants(draft), draft.clocks.max(1));
    let Some(edge) = some_edge(draft, chance) else { return };
    let Some(guard) = place(edge.guards.len(), chance) else {
        edge.guards.push((chance.below(clocks), chance.below(EQUAL + 1), pick(&known, chance).unwrap_or(0)));
        return;
    };
    let (clock, comparison, constant) = &mut edge.guards[guard];
    match chance.below(4) {
        0 => *clock = chance.below(clocks),
        1 => *comparison = chance.below(EQUAL + 1),
        _ => *constant = new_constant(*constant, &known, chance),
    }
}

fn change_invariant(draft: &mut Draft, chance: &mut Chance) {
    let (known, clocks, locations) = (constants(draft), draft.clocks.max(1), draft.locations());
    let Some(invariant) = place(draft.invariants.len(), chance) else { return };
    let (location, clock, comparison, constant) = &mut draft.invariants[invariant];
    match chance.below(5) {
        0 => *location = chance.below(locations),
        1 => *clock = chance.below(clocks),
        2 => *comparison = chance.below(AT_MOST + 1),
        _ => *constant = new_constant(*constant, &known, chance),
    }
}

fn change_mask(draft: &mut Draft, chance: &mut Chance) {
    let all = draft.all_clocks();
    let Some((_, _, mask)) = some_branch(draft, chance) else { return };
    *mask = match chance.below(4) {
        0 => 0,
        1 => all,
        _ => *mask ^ 1 << chance.below(MOST_CLOCKS),
    };
}

fn change_weight(draft: &mut Draft, chance: &mut Chance) {
    let Some((weight, _, _)) = some_branch(draft, chance) else { return };
    *weight = match chance.below(5) {
        0 => weight.saturating_add(1),
        1 => weight.saturating_sub(1),
        2 => some_weight(7, chance),
        3 => some_weight(1000, chance),
        _ => some_weight(59_000, chance),
    };
}

fn change_target(draft: &mut Draft, chance: &mut Chance) {
    let locations = draft.locations();
    let Some((_, target, _)) = some_branch(draft, chance) else { return };
    *target = chance.below(locations);
}

fn change_action(draft: &mut Draft, chance: &mut Chance) {
    let known: Vec<u8> = draft.edges.iter().map(|edge| edge.action).collect();
    let any = chance.below(8);
    let action = if chance.below(2) == 0 { pick(&known, chance).unwrap_or(any) } else { any };
    let Some(edge) = some_edge(draft, chance) else { return };
    edge.action = action;
}

fn change_source(draft: &mut Draft, chance: &mut Chance) {
    let locations = draft.locations();
    let Some(edge) = some_edge(draft, chance) else { return };
    edge.source = chance.below(locations);
}

fn change_label(draft: &mut Draft, chance: &mut Chance) {
    let Some(location) = place(draft.labels.len(), chance) else { return };
    draft.labels[location] = if chance.below(2) == 0 { draft.labels[0] } else { chance.below(10u8) };
}

fn double_edge(draft: &mut Draft, chance: &mut Chance) {
    let Some(edge) = some_edge(draft, chance).cloned() else { return };
    let gap = gap(draft.edges.len(), chance);
    draft.edges.insert(gap, edge);
    // A table that has as many edges as there may be gives up another one.
    if draft.edges.len() > 128 {
        delete_edge(draft, chance);
    }
}

fn delete_edge(draft: &mut Draft, chance: &mut Chance) {
    let Some(edge) = place(draft.edges.len(), chance) else { return };
    draft.edges.remove(edge);
}

fn move_edge(draft: &mut Draft, chance: &mut Chance) {
    let Some(from) = place(draft.edges.len(), chance) else { return };
    let edge = draft.edges.remove(from);
    let gap = gap(draft.edges.len(), chance);
    draft.edges.insert(gap, edge);
}

fn swap_edges(draft: &mut Draft, chance: &mut Chance) {
    let (Some(one), Some(other)) = (place(draft.edges.len(), chance), place(draft.edges.len(), chance)) else { return };
    draft.edges.swap(one, other);
}

/// A branch once more, at the same edge.
fn double_branch(draft: &mut Draft, chance: &mut Chance) {
    let Some(edge) = some_edge(draft, chance) else { return };
    let Some(branch) = pick(&edge.branches, chance) else { return };
    let gap = gap(edge.branches.len(), chance);
    edge.branches.insert(gap, branch);
}

fn delete_branch(draft: &mut Draft, chance: &mut Chance) {
    let Some(edge) = some_edge(draft, chance) else { return };
    let Some(branch) = place(edge.branches.len(), chance) else { return };
    edge.branches.remove(branch);
}

/// A branch goes to another place, of the same edge or of another one.
fn move_branch(draft: &mut Draft, chance: &mut Chance) {
    let Some(from) = place(draft.edges.len(), chance) else { return };
    let Some(branch) = place(draft.edges[from].branches.len(), chance) else { return };
    let to = if chance.below(2) == 0 { from } else { chance.number(draft.edges.len()) };
    let branch = draft.edges[from].branches.remove(branch);
    let branches = &mut draft.edges[to].branches;
    branches.insert(gap(branches.len(), chance), branch);
}

/// A guard atom is put at another edge too.
fn copy_guard(draft: &mut Draft, chance: &mut Chance) {
    let Some(from) = some_edge(draft, chance) else { return };
    let Some(guard) = pick(&from.guards, chance) else { return };
    let Some(to) = some_edge(draft, chance) else { return };
    to.guards.insert(gap(to.guards.len(), chance), guard);
}

fn delete_guard(draft: &mut Draft, chance: &mut Chance) {
    let Some(edge) = some_edge(draft, chance) else { return };
    let Some(guard) = place(edge.guards.len(), chance) else { return };
    edge.guards.remove(guard);
}

/// An invariant atom is deleted, put at another location too, or goes to another place.
fn move_invariant(draft: &mut Draft, chance: &mut Chance) {
    let Some(from) = place(draft.invariants.len(), chance) else { return };
    let mut invariant = draft.invariants[from];
    match chance.below(3) {
        0 => _ = draft.invariants.remove(from),
        1 => {
            invariant.0 = chance.below(draft.locations());
            draft.invariants.insert(gap(draft.invariants.len(), chance), invariant);
        }
        _ => {
            let to = chance.number(draft.invariants.len());
            draft.invariants.swap(from, to);
        }
    }
}

/// A constant becomes another one wherever it stands.
fn rename_constant(draft: &mut Draft, chance: &mut Chance) {
    let known = constants(draft);
    let Some(old) = pick(&known, chance) else { return };
    let new = new_constant(old, &known, chance);
    let guards = draft.edges.iter_mut().flat_map(|edge| edge.guards.iter_mut().map(|guard| &mut guard.2));
    let all = draft.invariants.iter_mut().map(|invariant| &mut invariant.3).chain(guards);
    all.filter(|constant| **constant == old).for_each(|constant| *constant = new);
}

/// Some edges get the same action.
fn rename_action(draft: &mut Draft, chance: &mut Chance) {
    let run = run(draft.edges.len(), chance);
    let action = chance.below(4);
    draft.edges[run].iter_mut().for_each(|edge| edge.action = action);
}

/// All branches that lead to one location lead to another one.
fn rename_target(draft: &mut Draft, chance: &mut Chance) {
    let [old, new] = [chance.below(draft.locations()), chance.below(draft.locations())];
    let targets = draft.edges.iter_mut().flat_map(|edge| edge.branches.iter_mut().map(|branch| &mut branch.1));
    targets.filter(|target| **target == old).for_each(|target| *target = new);
}

/// Two clocks change places in the guard atoms of some edges, or in their masks.
fn exchange_clocks(draft: &mut Draft, chance: &mut Chance) {
    let clocks = draft.clocks.max(1);
    let [one, other] = [chance.below(clocks), chance.below(clocks)];
    let exchanged = |clock: u8| if clock == one { other } else if clock == other { one } else { clock };
    let run = run(draft.edges.len(), chance);
    let in_guards = chance.below(2) == 0;
    for edge in &mut draft.edges[run] {
        if in_guards {
            edge.guards.iter_mut().for_each(|guard| guard.0 = exchanged(guard.0));
        } else {
            let bits = |mask: u8| (0..clocks).map(|clock| (mask >> clock & 1) << exchanged(clock)).sum();
            edge.branches.iter_mut().for_each(|branch| branch.2 = bits(branch.2));
        }
    }
}

/// Some edges get the same guard atom, or lose all of theirs.
fn guard_run(draft: &mut Draft, chance: &mut Chance) {
    let guard = (chance.below(draft.clocks.max(1)), chance.below(EQUAL + 1), pick(&constants(draft), chance).unwrap_or(0));
    let run = run(draft.edges.len(), chance);
    let lose = chance.below(4) == 0;
    for edge in &mut draft.edges[run] {
        if lose {
            edge.guards.clear();
        } else {
            edge.guards.push(guard);
        }
    }
}

/// Some edges in another order, or their branches.
fn turn_run(draft: &mut Draft, chance: &mut Chance) {
    let run = run(draft.edges.len(), chance);
    let edges = &mut draft.edges[run];
    match chance.below(4) {
        0 => edges.reverse(),
        1 => edges.rotate_left(gap(edges.len(), chance)),
        2 => edges.iter_mut().for_each(|edge| edge.branches.reverse()),
        _ => edges.iter_mut().for_each(|edge| edge.branches.rotate_left(1)),
    }
}

/// Some edges stand there once more, in place of others where there would be too many.
fn double_run(draft: &mut Draft, chance: &mut Chance) {
    let run = run(draft.edges.len(), chance);
    let edges = draft.edges[run].to_vec();
    put_run(draft, edges, chance);
}

fn put_run(draft: &mut Draft, edges: Vec<Edge>, chance: &mut Chance) {
    let gap = gap(draft.edges.len(), chance);
    let too_many = (draft.edges.len() + edges.len()).saturating_sub(128);
    let end = (gap + too_many).min(draft.edges.len());
    draft.edges.splice(gap..end, edges);
}

/// Some edges get a branch more: one of theirs, to another location.
fn widen_run(draft: &mut Draft, chance: &mut Chance) {
    let locations = draft.locations();
    let run = run(draft.edges.len(), chance);
    for edge in &mut draft.edges[run] {
        let Some((weight, _, mask)) = pick(&edge.branches, chance) else { continue };
        edge.branches.push((weight, chance.below(locations), mask));
    }
}

/// The branches of some edges lead to other locations, each as far behind its old one as the others.
fn shift_targets(draft: &mut Draft, chance: &mut Chance) {
    let by = chance.below(draft.locations());
    let run = run(draft.edges.len(), chance);
    for branch in draft.edges[run].iter_mut().flat_map(|edge| &mut edge.branches) {
        branch.1 += by;
    }
}

/// New weights for some edges.
fn draw_weights(draft: &mut Draft, chance: &mut Chance) {
    let run = run(draft.edges.len(), chance);
    let bound = [2, 50, 1000, 7000][usize::from(chance.below(4))];
    for branch in draft.edges[run].iter_mut().flat_map(|edge| &mut edge.branches) {
        branch.0 = some_weight(bound, chance);
    }
}

/// The weights of some edges times a number, which their shares do not feel.
fn scale_weights(draft: &mut Draft, chance: &mut Chance) {
    let run = run(draft.edges.len(), chance);
    let times = 1 + some_weight(9, chance);
    for branch in draft.edges[run].iter_mut().flat_map(|edge| &mut edge.branches) {
        branch.0 = branch.0.saturating_mul(times);
    }
}

/// A bit of the masks of some edges is set everywhere, or nowhere.
fn one_mask(draft: &mut Draft, chance: &mut Chance) {
    let run = run(draft.edges.len(), chance);
    let bit = 1 << chance.below(draft.clocks.max(1));
    let set = chance.below(2) == 0;
    for branch in draft.edges[run].iter_mut().flat_map(|edge| &mut edge.branches) {
        branch.2 = if set { branch.2 | bit } else { branch.2 & !bit };
    }
}

/// A location gets a copy with its label, its invariant and its edges, to which some branches lead instead.
fn double_location(draft: &mut Draft, chance: &mut Chance) {
    if draft.labels.len() == MOST_LOCATIONS {
        return;
    }
    let [old, new] = [chance.below(draft.locations()), draft.locations()];
    draft.labels.push(draft.labels[usize::from(old)]);
    let invariants: Vec<_> = draft.invariants.iter().filter(|invariant| invariant.0 == old).map(|one| (new, one.1, one.2, one.3)).collect();
    draft.invariants.extend(invariants);
    let edges: Vec<Edge> = draft.edges.iter().filter(|edge| edge.source == old).map(|edge| Edge { source: new, ..edge.clone() }).collect();
    put_run(draft, edges, chance);
    for branch in draft.edges.iter_mut().flat_map(|edge| &mut edge.branches) {
        if branch.1 == old && chance.below(2) == 0 {
            branch.1 = new;
        }
    }
}

/// The last location goes, or one comes.
fn change_locations(draft: &mut Draft, chance: &mut Chance) {
    if draft.labels.len() > 1 && chance.below(2) == 0 {
        draft.labels.pop();
    } else if draft.labels.len() < MOST_LOCATIONS {
        draft.labels.push(chance.below(4));
    }
}

/// Another count of clocks, or another initial location.
fn change_header(draft: &mut Draft, chance: &mut Chance) {
    if chance.below(2) == 0 {
        draft.clocks = chance.below(MOST_CLOCKS + 1);
    } else {
        draft.initial = chance.below(draft.locations());
    }
}

/// Some edges of another table, as far as its locations go, in between or in place of others.
fn splice(draft: &mut Draft, other: &Draft, chance: &mut Chance) {
    let run = run(other.edges.len(), chance);
    let edges = other.edges[run].to_vec();
    put_run(draft, edges, chance);
    if chance.below(2) == 0 {
        draft.invariants.extend(&other.invariants);
    }
}
