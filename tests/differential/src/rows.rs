//! Rows without their leading zeros: numberings, what couples, and starts to lend. `tests/kernel` takes this file too.

use crate::case::{Call, Lent};
use crate::decks::{expanded, firsts, nodes_of, shrunk, starts_of, Chance, Groups, E, G};
use crate::limits::{built, replaceable};
use crate::plan::{deck, foreign, lend, replacement};
use crate::trial::Trial;

const FRAME: u32 = 19_000_000;

/// Starts to lend in the place of a deck's own: one wrong or some, too few, more than enough, those of another numbering, anything.
pub fn any(chance: &mut Chance, lent: &Lent) -> Vec<u32> {
    let nodes = nodes_of(&lent.table);
    let mut starts = starts_of(&lent.table);
    match chance.within(0, 11) {
        0 => starts.truncate(nodes - 1),
        1 => starts.truncate(chance.index(nodes)),
        2 => starts.extend((0..chance.within(1, 5)).map(|_| chance.unsigned())),
        // The packed form's.
        3 => starts = (0..nodes as u32).map(|row| row * (row + 1) / 2).collect(),
        4 => starts
            .iter_mut()
            .for_each(|start| *start = chance.unsigned()),
        5 => starts.fill(0),
        6 => starts.iter_mut().for_each(|start| *start += 1),
        7 => starts = starts[1..].iter().copied().chain([0]).collect(),
        _ => {
            for _ in 0..chance.within(1, 2) {
                let row = chance.index(nodes);
                starts[row] = wrong(chance, starts[row]);
            }
        }
    }
    starts
}

/// Another start: beside the right one, or as far as can be.
fn wrong(chance: &mut Chance, start: u32) -> u32 {
    match chance.within(0, 3) {
        0 => start.wrapping_add(1),
        1 => start.wrapping_sub(1),
        2 => start ^ 1 << chance.within(0, 31),
        _ => chance.unsigned(),
    }
}

/// What was built of one deck, lent to another of as many nodes: each number where that one has its row and column, and its starts.
pub fn borrowed(own: &Lent, table: Vec<u32>) -> Lent {
    let (from, to) = (firsts(&own.table), firsts(&table));
    Lent {
        matrices: own
            .matrices
            .each_ref()
            .map(|kept| shrunk(&to, &expanded(&from, kept, || 0))),
        starts: starts_of(&table),
        table,
        ..own.clone()
    }
}

/// A deck built into what held anything, stepped, its cards replaced, and stepped again.
fn worked(trial: &mut Trial, table: Vec<u32>, replacements: u32) {
    let mut lent = lend(&mut trial.chance, table);
    if trial.call(&mut lent, Call::Build) != 0 {
        return;
    }
    trial.call(&mut lent, Call::Step);
    let mut replaced = [0; 2];
    for _ in 0..replacements {
        let call = replacement(&mut trial.chance, &lent.table);
        if trial.call(&mut lent, call) == 0 {
            if let Call::Replace { new, .. } = call {
                replaced[0] += u32::from(new[0] == G);
                replaced[1] += u32::from(new[0] == b'V'.into());
            }
        }
    }
    trial.call(&mut lent, Call::Step);
    trial.as_built(&lent, replaced);
    // And over foreign numbers.
    foreign(&mut trial.chance, nodes_of(&lent.table), &mut lent);
    trial.call(&mut lent.clone(), Call::Step);
    for _ in 0..4 {
        let call = replacement(&mut trial.chance, &lent.table);
        trial.call(&mut lent.clone(), call);
    }
}

/// Strips along their shorter way, the same turned round, with the ends first, and by chance; blocks; boards of 96 nodes.
pub fn numberings(trial: &mut Trial) {
    for round in trial.times(40) {
        let chance = &mut trial.chance;
        let groups = match round % 4 {
            0 => {
                let (long, short) = (chance.within(4, 12), chance.within(2, 4));
                Groups::strip(chance, long, short)
            }
            1 => Groups::block(chance, 3, 3, 2),
            2 => Groups::sheet(chance, 6, 5),
            _ if round % 64 == 3 => Groups::strip(chance, 12, 8),
            _ => Groups::strip(chance, 16, 2),
        };
        let nodes = groups.nodes.len() as u32;
        let groups = match chance.within(0, 3) {
            0 => groups,
            1 => groups.numbered(&(1..=nodes).rev().collect::<Vec<u32>>()),
            // From both ends inwards: every row past the middle is long.
            2 => groups.numbered(&ends_first(nodes)),
            _ => groups.shuffled(chance),
        };
        worked(trial, groups.table(), 20);
    }
}

fn ends_first(nodes: u32) -> Vec<u32> {
    let place = |node: u32| match node * 2 <= nodes {
        true => 2 * node - 1,
        false => 2 * (nodes - node + 1),
    };
    let mut order: Vec<u32> = (1..=nodes).map(place).collect();
    // Of an odd count the middle one is last.
    if nodes % 2 == 1 {
        order[nodes as usize / 2] = nodes;
    }
    order
}

pub fn full(trial: &mut Trial) {
    for nodes in [3, 4, 5, 9, 24, 96] {
        let groups = match nodes {
            3 => Groups::base(),
            _ => Groups::fan(&mut trial.chance, nodes),
        };
        let replacements = if nodes < 96 { 20 } else { 5 };
        worked(trial, groups.table(), replacements);
        // The same with its hub last: each row has its rim's neighbours alone, but for the last.
        let order: Vec<u32> = (1..=nodes).map(|node| node % nodes + 1).collect();
        let order: Vec<u32> = order.iter().map(|&node| nodes + 1 - node).collect();
        worked(trial, groups.numbered(&order).table(), replacements);
    }
}

/// With an edge or not; the element at both ends, in the middle, together and apart, and its corners in every order.
pub fn lone(trial: &mut Trial) {
    for nodes in [3, 4, 7, 96] {
        let middle = nodes / 2 + 1;
        for corners in [
            [1, 2, 3],
            [nodes, 1, 2],
            [nodes - 1, nodes, nodes - 2],
            [middle, nodes, 1],
            [2, nodes, middle],
        ] {
            let [a, b, c] = corners;
            if a == b || b == c || a == c {
                continue;
            }
            for edge in [false, true] {
                worked(trial, Groups::lone(nodes, corners, edge).table(), 12);
            }
        }
    }
}

/// Decks whose first columns only a held node, an edge, a triangle or a tetrahedron gives; and, over what another deck built, elements of
/// no area, which a step takes, and an H or a T too.
pub fn couplings(trial: &mut Trial) {
    for low in 1..=3 {
        for high in 4..=6 {
            let mut groups = Groups::lone(6, [low, 4, high.max(5)], false);
            worked(trial, groups.table(), 6);
            groups.fixed = (1..=6).map(|node| [node, FRAME]).collect();
            worked(trial, groups.table(), 6);
            groups.edges.push([low, 6, 60_000, FRAME, 1_000]);
            let edged = groups.clone();
            worked(trial, edged.table(), 6);
            for (film, ambient) in [(1, 0), (100_000, FRAME)] {
                groups.edges = vec![[1, high, film, ambient, 1]];
                worked(trial, groups.table(), 6);
            }
            let own = built(trial, edged.table());
            for corners in [[low, high, high], [high, low, low], [1, 1, high], [6, 6, 6]] {
                let mut flat = edged.clone();
                flat.edges.clear();
                flat.elements
                    .push([corners[0], corners[1], corners[2], 1, 9]);
                flat.films = vec![[1, 480, FRAME]];
                let whole = borrowed(&own, flat.table());
                for call in replaceable(&whole.table).into_iter().chain([Call::Step]) {
                    trial.call(&mut whole.clone(), call);
                    // The starts of the deck without it.
                    let mut other = whole.clone();
                    flat.elements.truncate(1);
                    other.starts = starts_of(&flat.table());
                    trial.call(&mut other, call);
                }
            }
        }
    }
    let mut solid = Groups::two_solids();
    solid.fixed = vec![[1, FRAME], [2, FRAME]];
    worked(trial, solid.table(), 12);
}

/// Some decks, each with a card of every kind, the last with a node that shares none before and between its own.
fn decks() -> Vec<Groups> {
    let mut decks = vec![
        Groups::one_of_each(),
        Groups::one_of_each_solid(),
        Groups::two_solids(),
    ];
    for groups in [Groups::one_of_each(), Groups::one_of_each_solid()] {
        let mut groups = groups;
        let nodes = groups.nodes.len() as u32;
        groups.nodes.extend([[7, 7], [9, 9]]);
        if !groups.levels.is_empty() {
            groups.levels.extend([0, 0]);
        }
        groups
            .fixed
            .extend([[nodes + 1, FRAME], [nodes + 2, FRAME]]);
        let order: Vec<u32> = (2..=nodes).chain([nodes + 2, 1, nodes + 1]).collect();
        decks.push(groups.numbered(&order));
    }
    decks
}

/// Each row's start one more, one less, at the ends of 32 bits, and with that of a later row; beside what 10, 11, 13 and 4 refuse.
pub fn damaged(trial: &mut Trial) {
    for groups in decks() {
        let whole = built(trial, groups.table());
        let nodes = groups.nodes.len();
        for row in 0..nodes {
            let right = whole.starts[row];
            for start in [
                right + 1,
                right.wrapping_sub(1),
                right ^ 1 << 31,
                right + 65_536,
            ] {
                for later in [row, nodes - 1] {
                    let mut lent = whole.clone();
                    lent.starts[later] = start.wrapping_add(1);
                    lent.starts[row] = start;
                    each(trial, &lent);
                }
            }
        }
    }
    // A build takes any, refused or not.
    for _ in trial.times(200) {
        let chance = &mut trial.chance;
        let table = deck(chance);
        let mut lent = lend(chance, table);
        lent.starts = any(chance, &lent);
        trial.call(&mut lent, Call::Build);
    }
}

/// A build, a step and each replacement with what is lent; a step and one of them with a number past each bound of 10 and with a
/// temperature off the scale; and replacements that are refused before.
fn each(trial: &mut Trial, lent: &Lent) {
    let replacements = replaceable(&lent.table);
    for &call in replacements.iter().chain(&[Call::Step, Call::Build]) {
        trial.call(&mut lent.clone(), call);
    }
    for spoilt in 0..4 {
        let mut lent = lent.clone();
        match spoilt {
            0 => lent.matrices[0][0] = 1 << 34,
            1 => lent.matrices[2][0] = 15,
            2 => lent.carried[0] = i64::MIN,
            _ => lent.temperatures[0] = -1,
        }
        let call = trial.chance.pick(&replacements);
        trial.call(&mut lent.clone(), call);
        trial.call(&mut lent, Call::Step);
    }
    let call = match trial.chance.within(0, 2) {
        0 => (1, [E, 1, 2, 3, 1, 9]),
        1 => (6, [0; 6]),
        _ => (6, [E, 1, 2, 3, 1, 0]),
    };
    let (card, new) = call;
    trial.call(&mut lent.clone(), Call::Replace { card, new });
}

/// Every length from none to more than enough, the rest right or wrong: 9 before 17, and what lies past the last is not looked at.
pub fn lengths(trial: &mut Trial) {
    for groups in decks() {
        let whole = built(trial, groups.table());
        let nodes = groups.nodes.len();
        for length in 0..nodes + 4 {
            for first in [0, 1] {
                let mut lent = whole.clone();
                lent.starts.resize(length, 0xBAD);
                if let Some(start) = lent.starts.first_mut() {
                    *start = first;
                }
                each(trial, &lent);
            }
        }
    }
}
