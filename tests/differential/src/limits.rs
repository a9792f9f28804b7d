//! Cases just at a limit and just past it, which chance seldom draws. `tests/kernel` takes this file too.

use crate::case::{Call, Lent};
use crate::decks::{text_of, triangle, Groups};
use crate::trial::Trial;

const P: usize = 0;
const A: usize = 1;
const FACTOR: usize = 2;

/// A deck built, with all that the calls take exactly as long as they ask.
pub fn built(trial: &mut Trial, table: Vec<u32>) -> Lent {
    let mut lent = Lent {
        bytes: vec![b'?'; 7 * table.len()],
        ..Lent::of(table)
    };
    lent.starts.fill(0xBAD);
    assert_eq!(trial.call(&mut lent, Call::Build), 0);
    lent
}

/// The card in a row, put in its own place.
pub fn same(table: &[u32], row: usize) -> Call {
    Call::Replace {
        card: row as u32 + 1,
        new: table[6 * row..6 * row + 6].try_into().unwrap(),
    }
}

pub fn short_buffers(trial: &mut Trial) {
    for groups in [Groups::one_of_each(), Groups::one_of_each_solid()] {
        let whole = built(trial, groups.table());
        let replacements = replaceable(&whole.table);
        for which in 0..5 {
            for &call in replacements.iter().chain(&[Call::Build, Call::Step]) {
                let mut lent = whole.clone();
                match which {
                    4 => drop(lent.starts.pop()),
                    _ => drop(lent.matrices[which].pop()),
                }
                trial.call(&mut lent, call);
            }
        }
        let mut lent = whole.clone();
        lent.temperatures.pop();
        trial.call(&mut lent, Call::Step);
        let mut lent = whole.clone();
        lent.carried.pop();
        trial.call(&mut lent, Call::Step);
        let mut lent = whole.clone();
        lent.bytes.pop();
        trial.call(&mut lent, Call::Write);
        let mut lent = whole;
        trial.call(&mut lent, Call::Write);
        lent.table.pop();
        trial.call(&mut lent, Call::Read);
    }
}

/// Each card from the first element on, put in its own place.
pub fn replaceable(table: &[u32]) -> Vec<Call> {
    let trailer = table.len() / 6 - 1;
    let first = 1 + (table[6 * trailer + 2] + table[6 * trailer + 3]) as usize;
    (first..trailer).map(|row| same(table, row)).collect()
}

/// Pivots of some times their size: each correction then does less.
pub fn unsettled(trial: &mut Trial) {
    for mut groups in [Groups::base(), Groups::corner()] {
        groups.heats.push([1, 5_000]);
        for times in [1, 2, 4, 8, 16, 1_000] {
            let mut lent = built(trial, groups.table());
            for i in 0..groups.nodes.len() {
                lent.matrices[FACTOR][triangle(i) + i] *= times;
            }
            trial.call(&mut lent, Call::Step);
        }
    }
}

/// A held node some ticks off, and a pivot so large that no correction moves it: one tick is settled, two are not.
pub fn off_the_card(trial: &mut Trial) {
    let mut groups = Groups::base();
    groups.fixed.push([1, 19_660_800]);
    for off in [-2, -1, 1, 2] {
        let mut lent = built(trial, groups.table());
        lent.matrices[FACTOR][0] = 1 << 38;
        lent.temperatures[0] += off;
        trial.call(&mut lent, Call::Step);
    }
}

/// Refusal 10, and 7 and 8 of a replacement's factor.
pub fn lent_numbers(trial: &mut Trial) {
    for groups in [Groups::one_of_each(), Groups::one_of_each_solid()] {
        let whole = built(trial, groups.table());
        for at in 0..triangle(groups.nodes.len()) {
            let diagonal = [0, 2, 5, 9].contains(&at);
            let most = if diagonal { 1 << 38 } else { 1 << 24 };
            for value in [15, 16, most, most + 1, -most, -most - 1] {
                with(trial, &whole, FACTOR, at, value);
            }
            for matrix in [P, A] {
                let mut empty = whole.clone();
                empty.matrices[matrix].fill(0);
                for value in [1 << 33, (1 << 33) + 1, -1 << 33, (-1 << 33) - 1] {
                    with(trial, &empty, matrix, at, value);
                }
            }
        }
    }
    // Of the first row, with a pivot of d: w, whose l is at most 2^24.
    for (d, w) in [
        (15, 1),
        (16, 1),
        (1 << 20, 1 << 24),
        (1 << 20, (1 << 24) + 1),
    ] {
        first_row(trial, d, w);
        first_row(trial, d, -w);
    }
}

/// One number of what is lent to a step and to a replacement of each kind.
fn with(trial: &mut Trial, whole: &Lent, matrix: usize, at: usize, value: i64) {
    for call in replaceable(&whole.table).into_iter().chain([Call::Step]) {
        let mut lent = whole.clone();
        lent.matrices[matrix][at] = value;
        trial.call(&mut lent, call);
    }
}

/// Decks without T, so that no row of A is cleared, and their E, V, F and G put in their own places over such an A.
fn first_row(trial: &mut Trial, d: i64, w: i64) {
    for mut groups in [Groups::one_of_each(), Groups::one_of_each_solid()] {
        (groups.heats, groups.fixed) = (vec![], vec![]);
        let whole = built(trial, groups.table());
        let mut a = vec![d, w, 1 << 31, 0, 0, 1 << 31, 0, 0, 0, 1 << 31];
        a.truncate(whole.matrices[A].len());
        for call in replaceable(&whole.table) {
            let mut lent = whole.clone();
            lent.matrices[A] = a.clone();
            trial.call(&mut lent, call);
        }
    }
}

/// Every call with a table that is a deck or not; where it replaces, the card before Z in its own place.
pub fn each_call(trial: &mut Trial, table: &[u32]) {
    let whole = Lent {
        bytes: vec![b'?'; 7 * table.len()],
        ..Lent::of(table.to_vec())
    };
    let mut lent = whole.clone();
    trial.call(&mut lent, Call::Write);
    lent = whole.clone();
    trial.call(&mut lent, Call::Build);
    trial.call(&mut lent, Call::Step);
    if table.len() >= 12 {
        trial.call(&mut lent, same(table, table.len() / 6 - 2));
    }
    lent = Lent {
        bytes: text_of(table),
        table: vec![7; table.len()],
        ..Lent::default()
    };
    trial.call(&mut lent, Call::Read);
}

/// Refusals 1 and 2 at their limits and just past them, from the largest deck that there is.
pub fn lengths(trial: &mut Trial) {
    // The first and the last V of the largest solid deck, of other materials; and the card in its place again.
    let solid = Groups::largest_block(&mut trial.chance).table();
    let mut lent = built(trial, solid.clone());
    for row in [115, 264] {
        let mut new: [u32; 6] = solid[6 * row..6 * row + 6].try_into().unwrap();
        new[5] = 9 - new[5];
        let card = row as u32 + 1;
        trial.call(&mut lent, Call::Replace { card, new });
        trial.call(&mut lent, same(&solid, row));
    }
    trial.as_built(&lent, [0, 2]);
    let table = Groups::largest(&mut trial.chance).table();
    each_call(trial, &table);
    let mut lent = built(trial, table.clone());
    // The first and the last E, H, F, G, R and T, with one more in a field that may change; of an R none may.
    for (first, last, field) in [
        (105, 264, 5),
        (265, 424, 2),
        (425, 584, 2),
        (585, 744, 3),
        (745, 904, 2),
        (905, 1_000, 2),
    ] {
        for row in [first, last] {
            let mut new: [u32; 6] = table[6 * row..6 * row + 6].try_into().unwrap();
            new[field] += 1;
            let card = row as u32 + 1;
            trial.call(&mut lent, Call::Replace { card, new });
        }
    }
    for length in [6_390, 6_395, 6_397, 6_402] {
        let mut other = table[..6_390].to_vec();
        other.resize(length.max(6_396) - 6, 0);
        other.extend(&table[6_390..]);
        other.truncate(length);
        each_call(trial, &other);
    }
    // A last count that may be, and one more: so many H cards never rise.
    for count in [799, 800, 801] {
        let mut groups = Groups::base();
        groups.heats = vec![[1, 9]; count];
        each_call(trial, &groups.table());
    }
}
