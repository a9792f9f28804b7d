//! C cards, right and wrong, through every call that takes a deck. `tests/kernel` takes this file too.

use crate::case::{Call, Lent};
use crate::decks::{
    by_turn, put, swapped, text_of, with, Chance, Groups, C, D, E, F, G, H, M, MOST_CHANGES,
    MOST_VALUE, N, NAMED, NO_NUMBERS, R, T, TOP, V, Z,
};
use crate::limits::{built, each_call};
use crate::trial::Trial;

/// One of each with a change of each letter, at two increments: D, three N, M, E, H, F, G, T, four C, Z.
pub fn each() -> Groups {
    let mut groups = Groups::one_of_each();
    groups.d[2] = 4;
    groups.changes = vec![
        [1, E, 1, 1, 1_100],
        [1, H, 1, 9, 0],
        [1, T, 3, 19_100_000, 0],
        [3, F, 1, 900, 19_500_000],
    ];
    groups
}

/// The row of its first C.
pub const FIRST: usize = 10;

/// The same of a solid deck, which has no film on its V.
fn each_solid() -> Groups {
    let mut groups = Groups::two_solids();
    groups.changes = vec![
        [1, E, 1, 2, 1_100],
        [1, H, 2, 9, 0],
        [2, F, 1, 900, 19_500_000],
        [2, T, 3, 19_100_000, 0],
    ];
    groups
}

fn read(trial: &mut Trial, bytes: Vec<u8>) {
    let mut lent = Lent {
        table: vec![7; bytes.len() / 7],
        bytes,
        ..Lent::default()
    };
    trial.call(&mut lent, Call::Read);
}

/// Every call of a table, and of its text where each field fits its columns.
fn tried(trial: &mut Trial, table: &[u32]) {
    if table.iter().all(|&number| number <= MOST_VALUE) {
        each_call(trial, table);
        return;
    }
    let mut lent = Lent {
        bytes: vec![b'?'; 7 * table.len()],
        ..Lent::of(table.to_vec())
    };
    for call in [Call::Write, Call::Build, Call::Step] {
        trial.call(&mut lent, call);
    }
}

/// Each field at its ends and past them; new C cards in the place of others; builds, steps and replacements that pay no heed.
pub fn ranges(trial: &mut Trial) {
    for groups in [each(), each_solid()] {
        let table = groups.table();
        let first = table.len() / 6 - 1 - groups.changes.len();
        for row in first..table.len() / 6 - 1 {
            for field in 1..=5 {
                for value in [
                    0,
                    1,
                    2,
                    3,
                    4,
                    5,
                    4_001,
                    99_999,
                    100_000,
                    100_001,
                    TOP,
                    MOST_VALUE - 1,
                    MOST_VALUE,
                    MOST_VALUE + 1,
                    u32::MAX,
                ] {
                    tried(trial, &with(&table, row, field, value));
                }
            }
        }
    }
    let whole = built(trial, each().table());
    for card in (0..=16).chain([u32::MAX]) {
        for new in [
            [C, 1, H, 1, 9, 0],
            [C, 1, H, 1, 8, 0],
            [C, 1, H, 1, 9, 1],
            [C, 1, T, 3, 9, 1],
            [C, 3, F, 1, 900, 19_500_000],
            [C, 0, 0, 0, 0, 0],
            [C, 0, 0, 0, 0, 7],
            [H, 1, 9, 0, 0, 0],
            [E, 1, 2, 3, 1, 900],
            [T, 3, 7, 0, 0, 0],
        ] {
            trial.call(&mut whole.clone(), Call::Replace { card, new });
        }
    }
    for card in 6..=10 {
        let mut lent = whole.clone();
        for more in [1, 2] {
            let at = 6 * (card as usize - 1);
            let mut new: [u32; 6] = lent.table[at..at + 6].try_into().unwrap();
            let field = match new[0] {
                E | G => 5,
                _ => 2,
            };
            new[field] += more;
            trial.call(&mut lent, Call::Replace { card, new });
            trial.call(&mut lent, Call::Step);
        }
        trial.as_built(&lent, [0, 0]);
    }
}

/// Every code with the fifth field blank, 0, filled and no number; the code's own columns spelled otherwise.
pub fn fifth_fields(trial: &mut Trial) {
    let codes = (60..=92).chain([0, 1, 100, 101, 104, 116, 6_900, MOST_VALUE]);
    let codes: Vec<u32> = codes.collect();
    for code in codes {
        let mut groups = Groups::one_of_each();
        let key = if code == T { 3 } else { 1 };
        groups.changes = vec![[1, code, key, 1, 0]];
        let table = groups.table();
        for second in [0, 1, 19_660_800, MOST_VALUE, u32::MAX] {
            tried(trial, &with(&table, FIRST, 5, second));
        }
        let bytes = text_of(&table);
        for columns in [b"        ", b"       0", b"       7", b"99999999"] {
            read(trial, put(&bytes, FIRST, 5, columns));
        }
        for columns in NO_NUMBERS {
            for field in 1..=5 {
                read(trial, put(&bytes, FIRST, field, columns));
            }
        }
    }
    let bytes = text_of(&each().table());
    for row in FIRST..FIRST + 4 {
        for field in 1..=5 {
            read(trial, put(&bytes, row, field, b"        "));
        }
        for columns in [
            b"       E",
            b"       H",
            b"     072",
            b"72      ",
            b"      7 ",
        ] {
            read(trial, put(&bytes, row, 2, columns));
        }
    }
}

/// Each key of each letter in decks where some cards have one and some have none; a V's too.
pub fn keys(trial: &mut Trial) {
    let mut flat = Groups::sheet(&mut Chance::seeded(5), 3, 3);
    flat.heats = vec![[2, 1], [5, 1], [8, 1]];
    flat.films = vec![[1, 1, 1], [7, 1, 1], [8, 1, 1]];
    flat.fixed = vec![[3, 1], [9, 1]];
    let mut solid = Groups::two_solids();
    solid.heats = vec![[2, 3]];
    let mut bare = Groups::base();
    bare.heats.clear();
    for groups in [flat, solid, bare, Groups::corner(), Groups::one_of_each()] {
        for letter in NAMED {
            for key in (0..=11).chain([69, 84, 160, 161, MOST_VALUE]) {
                let mut groups = groups.clone();
                let second = if letter == E || letter == F { 3 } else { 0 };
                groups.changes = vec![[7, letter, key, 2, second]];
                each_call(trial, &groups.table());
            }
        }
    }
    // Of the largest decks each key, the last card of each letter too.
    for groups in [
        Groups::largest(&mut trial.chance),
        Groups::largest_block(&mut trial.chance),
    ] {
        for letter in NAMED {
            for key in [1, 10, 11, 96, 97, 159, 160, 161] {
                let mut groups = groups.clone();
                let second = if letter == E || letter == F { 3 } else { 0 };
                groups.changes = vec![[7, letter, key, 2, second]];
                each_call(trial, &groups.table());
            }
        }
    }
}

/// Each two of C cards that differ in one of increment, letter and key or in more; and long lists with one out of turn.
pub fn turns(trial: &mut Trial) {
    let mut groups = Groups::sheet(&mut Chance::seeded(5), 3, 3);
    groups.heats = vec![[2, 1], [5, 1]];
    groups.films = vec![[2, 1, 1], [5, 1, 1]];
    groups.fixed = vec![[2, 1], [5, 1]];
    let mut all = vec![];
    for step in [1, 100_000] {
        for letter in NAMED {
            for key in [2, 5] {
                let second = u32::from(letter == E || letter == F);
                all.push([step, letter, key, 1, second]);
            }
        }
    }
    for first in &all {
        for second in &all {
            groups.changes = vec![*first, *second];
            each_call(trial, &groups.table());
        }
    }
    for _ in 0..40 {
        let chance = &mut trial.chance;
        groups.changes = vec![];
        groups.change(chance, 30, 5, false);
        assert!(groups
            .changes
            .windows(2)
            .all(|two| by_turn(&two[0]) < by_turn(&two[1])));
        let at = chance.index(groups.changes.len());
        match chance.within(0, 2) {
            0 => {
                let again = groups.changes[at];
                groups.changes.insert(at, again);
            }
            1 => {
                let other = chance.index(groups.changes.len());
                groups.changes.swap(at, other);
            }
            _ => {}
        }
        each_call(trial, &groups.table());
    }
}

/// A C before each row, each row after a C; 64 of them, and more.
pub fn places(trial: &mut Trial) {
    for groups in [each(), each_solid()] {
        let table = groups.table();
        let rows = table.len() / 6;
        let first = rows - 1 - groups.changes.len();
        for row in 0..rows {
            for change in [first, first + 1] {
                let mut other = table.clone();
                let card: Vec<u32> = other.drain(6 * change..6 * change + 6).collect();
                let at = 6 * row.min(rows - 2);
                other.splice(at..at, card);
                each_call(trial, &other);
                each_call(trial, &swapped(&table, row, change));
            }
        }
        for letter in [D, N, M, E, V, H, F, G, R, T, Z, 0, 67, 68, 99, 256 + C] {
            for row in first..rows - 1 {
                let mut lent = Lent::of(with(&table, row, 0, letter));
                for call in [Call::Write, Call::Build, Call::Step] {
                    trial.call(&mut lent, call);
                }
            }
        }
    }
    let mut groups = Groups::one_of_each();
    for count in [
        1,
        MOST_CHANGES - 1,
        MOST_CHANGES,
        MOST_CHANGES + 1,
        MOST_CHANGES + 2,
    ] {
        groups.changes = (1..=count as u32).map(|at| [at, H, 1, 9, 0]).collect();
        each_call(trial, &groups.table());
        for last in [[0, 0, 0, 0, 0], [1, H, 1, 9, 0], [100_000, V, 1, 9, 9]] {
            groups.changes[count - 1] = last;
            each_call(trial, &groups.table());
        }
    }
    // After each kind that can be the last before it.
    let mut bare = Groups::base();
    bare.changes = vec![[1, E, 1, 1, 9]];
    each_call(trial, &bare.table());
    bare.heats = vec![[1, 3]];
    each_call(trial, &bare.table());
    bare.films = vec![[1, 480, 9]];
    each_call(trial, &bare.table());
    bare.edges = vec![[1, 2, 9, 9, 9]];
    each_call(trial, &bare.table());
    bare.fixed = vec![[1, 9]];
    each_call(trial, &bare.table());
    let mut corner = Groups::corner();
    corner.heats = vec![[1, 3]];
    corner.changes = vec![[1, H, 1, 1, 0]];
    each_call(trial, &corner.table());
}
