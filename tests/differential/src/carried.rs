//! Cases of the carried residuals that chance seldom draws, and residuals for all other steps. `tests/kernel` takes this file too.

use crate::case::{Call, Lent};
use crate::decks::{
    area, expanded, firsts, nodes_of, triangle, Chance, Groups, Scales, H, MOST_CARRIED, R, T, TOP,
};
use crate::heats::weigh;
use crate::limits::built;
use crate::trial::Trial;
use reference::loss;

const FACTOR: usize = 2;

/// Residuals to lend to a deck's step in the place of its own: too few, just enough or more than that, of every size, some past
/// the bound.
pub fn any(chance: &mut Chance, lent: &Lent) -> Vec<i64> {
    let nodes = nodes_of(&lent.table);
    let length = match chance.within(0, 11) {
        0 => 0,
        1 => nodes.saturating_sub(1),
        2 => chance.index(nodes + 1),
        3 | 4 => nodes + chance.within(1, 5) as usize,
        _ => nodes,
    };
    let mut carried = chance.residuals(length.min(nodes));
    // Past the nodes anything may stand.
    carried.extend((carried.len()..length).map(|_| chance.signed()));
    carried
}

/// The paper's base with heat and a held node; the same storing so much that no residual takes it off the scale; and solid ones.
fn decks() -> [Groups; 4] {
    let mut light = Groups::base();
    light.heats.push([1, 3]);
    light.fixed.push([2, 19_660_801]);
    let mut heavy = light.clone();
    // 16,000,000 to the tick at each node: 2^33 is some 500 ticks.
    (heavy.d[0], heavy.elements[0][4], heavy.materials[0][2]) = (1, 4_000, 960);
    let mut solid = Groups::corner();
    solid.heats.push([1, 40]);
    solid.fixed.push([4, 19_660_801]);
    let mut thick = solid.clone();
    thick.nodes = vec![[0, 0], [200, 0], [0, 200], [0, 0]];
    (thick.d[0], thick.materials[0][2]) = (1, 960);
    [light, heavy, solid, thick]
}

/// 2^33 and one more by either sign, and both ends of 64 bits, at each node and past the last; and at all nodes at once.
pub fn bounds(trial: &mut Trial) {
    for groups in decks() {
        let mut whole = built(trial, groups.table());
        whole.carried.push(0);
        for value in [
            1,
            MOST_CARRIED - 1,
            MOST_CARRIED,
            MOST_CARRIED + 1,
            1 << 34,
            i64::MAX,
        ] {
            for value in [value, -value, -value - 1] {
                for at in 0..whole.carried.len() {
                    let mut lent = whole.clone();
                    lent.carried[at] = value;
                    trial.call(&mut lent, Call::Step);
                    // 10 before 11, and 11 where 10 passes.
                    let mut lent = whole.clone();
                    lent.carried[at] = value;
                    lent.temperatures[1] = i64::from(TOP) + 1;
                    trial.call(&mut lent, Call::Step);
                }
                let mut lent = whole.clone();
                lent.carried.fill(value);
                trial.call(&mut lent, Call::Step);
                trial.call(&mut lent, Call::Step);
            }
        }
    }
}

/// Every length from none to more than enough, with numbers that pass and with numbers that don't: 9 before 10.
pub fn lengths(trial: &mut Trial) {
    for groups in decks() {
        let whole = built(trial, groups.table());
        for length in 0..whole.carried.len() + 4 {
            for value in [0, 7, i64::MIN] {
                let mut lent = whole.clone();
                lent.carried = vec![value; length];
                trial.call(&mut lent, Call::Step);
                // The temperatures may be longer or too short beside it.
                lent = whole.clone();
                lent.carried = vec![value; length];
                lent.temperatures.resize(length, 19_660_800);
                trial.call(&mut lent, Call::Step);
            }
        }
    }
}

/// Each node's residual to a unit: as much less load with it weighs the same, and one more doesn't. A held node's weighs nothing.
pub fn weighed(trial: &mut Trial) {
    let sizes = [1, 2, 4_464, 1 << 20, MOST_CARRIED - 1, MOST_CARRIED];
    for size in sizes.into_iter().flat_map(|size| [size, -size]) {
        for node in 0..4 {
            for more in [-1, 0, 1, 2] {
                let mut carried = vec![0; 4];
                carried[node] = size;
                let loads = [21_846, 21_845, 21_845];
                let weighed = [0, 1, 2].map(|at| loads[at] + carried[at] + more);
                let scales = Scales::new([1, 2, 3], 1, weighed);
                weigh(trial, Scales { carried, ..scales });
            }
        }
    }
}

/// Held nodes a tick off their cards, which a pivot so large lets be settled: they leave 0, not the 2^20. And pivots of some
/// more than their size, so that it takes two, three or four corrections: the last one's residuals are left.
pub fn left(trial: &mut Trial) {
    for mut groups in decks() {
        let mut lent = built(trial, groups.table());
        let held = groups.fixed[0][0] as usize - 1;
        lent.matrices[FACTOR][triangle(held) + held] = 1 << 38;
        trial.call(&mut lent, Call::Step);
        trial.call(&mut lent, Call::Step);
        groups.heats[0][1] = 50_000;
        for parts in 64..160 {
            let mut lent = built(trial, groups.table());
            for i in 0..groups.nodes.len() {
                let pivot = &mut lent.matrices[FACTOR][triangle(i) + i];
                *pivot = *pivot * parts / 64;
            }
            lent.carried = vec![-9_999; groups.nodes.len()];
            for _ in 0..2 {
                trial.call(&mut lent, Call::Step);
            }
        }
    }
}

/// The book of decks without F, G and T: what the steps leave sums to what they were lent, all of the heat and what the R cards gave, less what they
/// took, as it fell, exactly.
pub fn books(trial: &mut Trial) {
    for round in trial.times(30) {
        let chance = &mut trial.chance;
        let mut groups = match round % 3 {
            0 => Groups::block(chance, 2, 2, 2),
            1 => Groups::block(chance, 3, 2, 2),
            _ => Groups::sheet(chance, 4, 3),
        };
        (groups.films, groups.edges, groups.fixed) = (vec![], vec![], vec![]);
        let most = chance.pick(&[1, 100, 10_000]);
        for heat in &mut groups.heats {
            heat[1] = chance.within(1, most);
        }
        if chance.one_in(2) {
            groups.dock(chance);
        }
        let mut lent = built(trial, groups.table());
        let mut book = in_the_board(&lent);
        for steps in 1..=20 {
            book += heat_of(&lent.table) - radiated(&lent);
            if trial.call(&mut lent, Call::Step) & 255 != 0 {
                break;
            }
            let apart = in_the_board(&lent) - book;
            assert_eq!(apart, 0, "the book after {steps} steps of {:?}", lent.table);
        }
    }
}

/// The sum of P·T, and of what is carried.
fn in_the_board(lent: &Lent) -> i128 {
    let n = nodes_of(&lent.table);
    let p = expanded(&firsts(&lent.table), &lent.matrices[0], || 0);
    let number = |i: usize, j: usize| p[triangle(i.max(j)) + i.min(j)];
    let all = (0..n).flat_map(|i| (0..n).map(move |j| (i, j)));
    let stored = all.map(|(i, j)| i128::from(number(i, j)) * i128::from(lent.temperatures[j]));
    let carried = lent.carried[..n].iter().map(|&c| i128::from(c));
    stored.sum::<i128>() + carried.sum::<i128>()
}

fn heat_of(table: &[u32]) -> i128 {
    let heats = table.chunks_exact(6).filter(|card| card[0] == H);
    heats.map(|card| 65_536 * i128::from(card[2])).sum()
}

/// What the R cards take from their triangles' corners, by the temperatures.
fn radiated(lent: &Lent) -> i128 {
    let table = &lent.table;
    let card = |row: usize| &table[6 * row..6 * row + 6];
    let nodes = nodes_of(table);
    let first = nodes + table[table.len() - 3] as usize;
    let sources = table.chunks_exact(6).filter(|card| card[0] == R);
    let losses = sources.map(|source| {
        let triangle = card(first + source[1] as usize);
        let corners = [1, 2, 3].map(|field| triangle[field] as usize);
        let points = corners.map(|node| [card(node)[1], card(node)[2]]);
        let sum: i64 = corners.iter().map(|node| lent.temperatures[node - 1]).sum();
        let emissivity = card(nodes + triangle[4] as usize)[5];
        3 * i128::from(loss(emissivity, area(points), sum as u64, source[2]))
    });
    losses.sum()
}

/// The nodes that T cards hold.
pub fn held(table: &[u32]) -> impl Iterator<Item = (usize, i64)> + '_ {
    let cards = table.chunks_exact(6).filter(|card| card[0] == T);
    cards.map(|card| (card[1] as usize - 1, i64::from(card[2])))
}
