//! R cards and emissivities, right and wrong, and steps over sources of every temperature. `tests/kernel` takes this file too.

use crate::case::{Call, Lent};
use crate::decks::{
    kept_of, put, swapped, text_of, with, Groups, C, D, E, F, G, H, M, N, NO_NUMBERS, R, T, TOP, V,
    Z,
};
use crate::limits::{built, each_call, same};
use crate::trial::Trial;

/// One of each with a source: D, three N, M, E, H, F, G, R, T, Z.
fn docked() -> Groups {
    let mut groups = Groups::one_of_each();
    groups.emissivities = vec![900];
    groups.sources = vec![[1, 19_005_440]];
    groups
}

/// The rows of its M, its R and its T.
const STUFF: usize = 4;
const SOURCE: usize = 9;
const HELD: usize = 10;

/// The same of a solid deck, the R in its row 11; and of two triangles, with an R on each.
fn docked_solid() -> Groups {
    let mut groups = Groups::one_of_each_solid();
    groups.emissivities = vec![900];
    groups.sources = vec![[1, 19_005_440]];
    groups
}

fn pair() -> Groups {
    let mut groups = docked();
    groups.nodes.push([100, 100]);
    groups.elements.push([4, 3, 2, 1, 1_000]);
    groups.sources.push([2, 5]);
    groups
}

fn read(trial: &mut Trial, bytes: Vec<u8>) {
    let mut lent = Lent {
        table: vec![7; bytes.len() / 7],
        bytes,
        ..Lent::default()
    };
    trial.call(&mut lent, Call::Read);
}

/// Each field at its ends and past them, an R on a V, two that don't rise, and each card before and after it in its place.
pub fn cards(trial: &mut Trial) {
    for groups in [docked(), docked_solid(), pair()] {
        let table = groups.table();
        let rows = table.len() / 6;
        let first = rows - 1 - groups.fixed.len() - groups.sources.len();
        for row in first..first + groups.sources.len() {
            for (field, values) in [
                (1, [0, 1, 2, 3, 160]),
                (2, [0, 1, TOP, TOP + 1, 99_999_999]),
                (3, [0, 1, 2, TOP, 7]),
                (5, [0, 1, 2, TOP, 7]),
            ] {
                for value in values {
                    each_call(trial, &with(&table, row, field, value));
                }
            }
            for letter in [D, N, M, E, V, H, F, G, T, C, Z, 0, 81, 83, 114] {
                each_call(trial, &with(&table, row, 0, letter));
            }
        }
        for row in 1..first {
            each_call(trial, &with(&table, row, 0, R));
        }
        for row in first - 3..rows - 2 {
            each_call(trial, &swapped(&table, row, row + 1));
        }
    }
    // No C names it; and as many as there are triangles, and one more.
    let mut groups = docked();
    for change in [[1, R, 1, 7, 0], [1, R, 1, 7, 7], [1, T, 3, 7, 0]] {
        groups.changes = vec![change];
        each_call(trial, &groups.table());
    }
    let mut groups = Groups::base();
    for count in [1, 2] {
        groups.sources = vec![[1, 7]; count];
        each_call(trial, &groups.table());
    }
    replaced(trial);
}

/// An R can't be replaced, nor become another card; an M with an emissivity can't be either.
fn replaced(trial: &mut Trial) {
    let whole = built(trial, docked().table());
    for card in (0..=13).chain([u32::MAX]) {
        for new in [
            [R, 1, 19_005_440, 0, 0, 0],
            [R, 1, 7, 0, 0, 0],
            [R, 2, TOP + 1, 0, 0, 0],
            [R, 1, 7, 1, 0, 0],
            [R, 0, 0, 0, 0, 9],
            [M, 1_000, 1_000, 2_400, 0, 900],
            [M, 1_000, 1_000, 2_400, 0, 1_001],
            [T, 3, 7, 0, 0, 0],
            [F, 1, 7, 7, 0, 0],
        ] {
            trial.call(&mut whole.clone(), Call::Replace { card, new });
        }
    }
    // Those about it can, and a step heeds it after each.
    let mut lent = whole;
    for row in [5, 6, 7, 8, HELD] {
        let mut new = lent.table[6 * row..6 * row + 6].to_vec();
        new[if row == 5 || row == 8 { 5 } else { 2 }] += 3;
        let new = new.try_into().unwrap();
        let card = row as u32 + 1;
        trial.call(&mut lent, Call::Replace { card, new });
        trial.call(&mut lent, Call::Step);
        let again = same(&lent.table, SOURCE);
        trial.call(&mut lent, again);
    }
    trial.as_built(&lent, [1, 0]);
}

/// M's fifth field blank, 0, at its ends, past them and no number, in bytes and in tables of flat and solid decks.
pub fn emissivities(trial: &mut Trial) {
    for (groups, row) in [(docked(), STUFF), (docked_solid(), 5), (pair(), 5)] {
        let table = groups.table();
        for value in [0, 1, 2, 999, 1_000, 1_001, 2_000, 99_999_999] {
            each_call(trial, &with(&table, row, 5, value));
        }
        for value in [100_000_000, u32::MAX] {
            let mut lent = Lent::of(with(&table, row, 5, value));
            for call in [Call::Write, Call::Build, Call::Step] {
                trial.call(&mut lent, call);
            }
        }
        let bytes = text_of(&table);
        for columns in [
            b"        ",
            b"       0",
            b"       1",
            b"    1000",
            b"    1001",
            b"99999999",
        ] {
            read(trial, put(&bytes, row, 5, columns));
            // Without its kz too, and with one.
            for kz in [b"        ", b"       0", b"    1000"] {
                read(trial, put(&put(&bytes, row, 4, kz), row, 5, columns));
            }
        }
        for columns in NO_NUMBERS {
            read(trial, put(&bytes, row, 5, columns));
        }
    }
}

/// A deck of one triangle of such corners on such points, heated by nothing: built.
fn over(trial: &mut Trial, points: [[u32; 2]; 3], corners: [u32; 3], e: u32, source: u32) -> Lent {
    let mut groups = Groups::base();
    groups.d[0] = 20_000;
    groups.nodes = points.to_vec();
    groups.materials[0][2] = 5_000;
    groups.elements[0][..3].copy_from_slice(&corners);
    groups.emissivities = vec![e];
    groups.sources = vec![[1, source]];
    built(trial, groups.table())
}

/// Lent with P, A and a factor that are a diagonal: a step then is the loads alone.
fn plain(table: Vec<u32>) -> Lent {
    let mut lent = Lent::of(table);
    let ends = lent.starts[1..].iter().map(|&start| start as usize);
    let ends: Vec<usize> = ends.chain([kept_of(&lent.table)]).collect();
    for matrix in &mut lent.matrices[..3] {
        matrix.fill(0);
        ends.iter().for_each(|&end| matrix[end - 1] = 1 << 20);
    }
    lent
}

/// The deck with another source.
fn from(lent: &Lent, source: u32, temperatures: [u32; 3]) -> Lent {
    let mut lent = lent.clone();
    let at = lent.table.len() - 10;
    lent.table[at] = source;
    lent.temperatures = temperatures.map(i64::from).to_vec();
    lent
}

/// With S of 800·k, temperatures of 2^14·125·c and a source of 2^14·125·b a corner loses 188,987·k·(c⁴ - b⁴)/160, which for odd numbers
/// that leave an odd quotient by 80 is a half. There, a tick of the source beside it, a tick of a corner, and with corners that differ.
pub fn halves(trial: &mut Trial) {
    const UNIT: u32 = 2_048_000;
    for k in [1, 3] {
        let whole = over(trial, [[0, 0], [40, 0], [0, 20 * k]], [1, 2, 3], 1_000, 0);
        for (c, b) in [(3, 1), (7, 3), (9, 3), (11, 1), (13, 1), (3, 7), (1, 13)] {
            let warm = c * UNIT;
            for source in [b * UNIT - 1, b * UNIT, b * UNIT + 1] {
                for temperatures in [
                    [warm; 3],
                    [warm - 1, warm, warm],
                    [warm, warm + 1, warm],
                    [warm - 9_000, warm + 4_000, warm + 5_000],
                ] {
                    trial.call(&mut from(&whole, source, temperatures), Call::Step);
                }
            }
        }
    }
}

/// Corners and source at 0 K, at the top and between; emissivities at their ends; small, large and no areas; corners that are one node, and held.
pub fn warmths(trial: &mut Trial) {
    let right = [[0, 0], [100, 0], [0, 100]];
    let large = [[0, 0], [4_095, 0], [0, 4_095]];
    for (points, e) in [(right, 1_000), (right, 1), (right, 0), (large, 1_000)] {
        let whole = over(trial, points, [1, 2, 3], e, 0);
        for source in [0, 1, 19_660_800, TOP - 1, TOP] {
            for temperatures in [
                [0; 3],
                [1, 0, 0],
                [19_660_800; 3],
                [19_660_801, 19_660_800, 19_660_800],
                [TOP - 1, TOP, TOP],
                [TOP; 3],
                [0, 19_660_800, TOP],
            ] {
                trial.call(&mut from(&whole, source, temperatures), Call::Step);
            }
        }
    }
    // A step judges no element.
    for (points, corners) in [
        ([[0, 0], [1, 0], [0, 1]], [1, 2, 3]),
        ([[0, 0], [100, 0], [1, 1]], [3, 2, 1]),
        ([[0, 0], [100, 0], [50, 0]], [1, 2, 3]),
        (right, [1, 2, 2]),
        (right, [3, 3, 3]),
    ] {
        for source in [0, 19_660_800, TOP] {
            let mut groups = Groups::base();
            groups.nodes = points.to_vec();
            groups.elements[0][..3].copy_from_slice(&corners);
            groups.emissivities = vec![1_000];
            groups.sources = vec![[1, source]];
            for held in [None, Some([1, 19_660_800]), Some([3, 0])] {
                groups.fixed = held.into_iter().collect();
                trial.call(&mut plain(groups.table()), Call::Step);
            }
        }
    }
    // Beside all other loads.
    let mut lent = built(trial, docked().table());
    for _ in 0..5 {
        trial.call(&mut lent, Call::Step);
    }
}
