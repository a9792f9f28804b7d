//! Cases of solid decks that chance seldom draws. `tests/kernel` takes this file too.

use crate::case::{Call, Lent};
use crate::decks::row::*;
use crate::decks::{
    bytes_of, put, swapped, text_of, with, Groups, E, F, G, H, M, N, NO_NUMBERS, SOLID_RANGES, V,
};
use crate::edges::{film_of, reaches};
use crate::limits::{built, each_call, same};
use crate::trial::Trial;

const FRAME: u32 = 19_000_000;

fn read(trial: &mut Trial, bytes: Vec<u8>) {
    let table = vec![7; bytes.len() / 7];
    let mut lent = Lent {
        bytes,
        table,
        ..Lent::default()
    };
    trial.call(&mut lent, Call::Read);
}

/// Decks of V alone, of E and V, of as many as there may be and of one more; and what lies ill in them. Each in every call.
pub fn decks(trial: &mut Trial) {
    let mut decks = vec![Groups::corner(), Groups::one_of_each_solid()];
    decks.push(Groups::largest_block(&mut trial.chance));
    let mut add = |base: fn() -> Groups, change: &dyn Fn(&mut Groups)| {
        let mut groups = base();
        change(&mut groups);
        decks.push(groups);
    };
    for count in [159, 160, 161] {
        add(Groups::corner, &|deck| {
            deck.solids = vec![[1, 2, 3, 4, 1]; count]
        });
        add(Groups::one_of_each_solid, &|deck| {
            deck.elements = vec![[1, 2, 3, 1, 9]; count - 1];
            deck.heats = vec![[count as u32, 3]];
        });
    }
    // No element at all, and too few nodes for a volume.
    add(Groups::corner, &|deck| deck.solids.clear());
    add(Groups::corner, &|deck| {
        deck.nodes.truncate(3);
        deck.solids = vec![[1, 2, 3, 3, 1]];
    });
    for (node, z) in [(0, 1), (1, 1), (2, 1), (3, 0), (3, 1_023)] {
        add(Groups::one_of_each_solid, &|deck| deck.levels[node] = z);
    }
    for corners in [[1, 2, 4], [4, 2, 1], [1, 4, 3], [4, 4, 4], [4, 4, 1]] {
        add(Groups::one_of_each_solid, &|deck| {
            deck.elements[0][..3].copy_from_slice(&corners)
        });
    }
    // Films on an E, on a V, on what is no element; heat on each.
    for element in 0..4 {
        add(Groups::one_of_each_solid, &|deck| {
            deck.films[0][0] = element
        });
        add(Groups::one_of_each_solid, &|deck| {
            deck.heats[0][0] = element
        });
        add(Groups::corner, &|deck| deck.films = vec![[element, 9, 9]]);
    }
    add(Groups::one_of_each_solid, &|deck| {
        deck.films.push([2, 9, 9])
    });
    for groups in decks {
        each_call(trial, &groups.table());
    }
    lengths(trial);
    unsteady(trial);
}

/// Refusals 1 and 2 of what would be a solid deck.
fn lengths(trial: &mut Trial) {
    let table = Groups::one_of_each_solid().table();
    let (cards, trailer) = table.split_at(table.len() - 6);
    let mut long = cards.to_vec();
    long.resize(6_396, 0);
    long.extend(trailer);
    each_call(trial, &long);
    let mut notes = vec![b'.'; 65_537 - 7 * table.len()];
    notes.extend(bytes_of(&table));
    read(trial, notes);
    // One load more than there is, by the trailer; and bytes back that go elsewhere.
    let last = table.len() - 1;
    for (at, more) in [(last, 1), (last - 4, 42)] {
        let mut other = table.clone();
        other[at] += more;
        each_call(trial, &other);
    }
}

/// Each field of a solid deck at its ends and past them, and builds and steps that are refused.
fn unsteady(trial: &mut Trial) {
    let table = Groups::one_of_each_solid().table();
    for (row, field, least, most) in SOLID_RANGES {
        for value in [least, most, most + 1, least.max(1) - 1, 4_095, 99_999_999] {
            each_call(trial, &with(&table, row, field, value));
        }
    }
    // 7, a pivot of a step so slow that nothing holds it; 8, a needle.
    each_call(trial, &Groups::slow().table());
    let mut thin = Groups::corner();
    thin.nodes = vec![[0, 0], [100, 0], [101, 1], [100, 0]];
    thin.levels = vec![0, 0, 0, 1];
    thin.materials[0] = [10_000, 10_000, 1];
    thin.upward = vec![10_000];
    each_call(trial, &thin.table());
    // 11 and 8 of a step, and 12.
    let mut hot = Groups::corner();
    hot.heats.push([1, 5_000_000]);
    let whole = built(trial, hot.table());
    for (off, pivot) in [(-1, 1 << 20), (33_554_433, 1 << 20), (0, 16), (0, 1 << 38)] {
        let mut lent = whole.clone();
        lent.temperatures[2] = off;
        for i in 0..4 {
            lent.matrices[2][i * (i + 3) / 2] = pivot;
        }
        trial.call(&mut lent, Call::Step);
    }
}

/// E after V, V elsewhere, an H or an F before it, and the last element of any letter: what makes a deck solid is that one.
pub fn orders(trial: &mut Trial) {
    let table = Groups::one_of_each_solid().table();
    for (i, j) in [
        (TRIANGLE, SOLID),
        (SOLID, HEAT),
        (HEAT, FILM),
        (SOLID, FILM),
    ] {
        each_call(trial, &swapped(&table, i, j));
    }
    // The same in flat decks, which have no z that comes first.
    let turned = Groups::turned_flat();
    each_call(trial, &turned);
    let flat = swapped(&turned, TRIANGLE, SOLID);
    for table in [&table, &flat, &Groups::one_of_each().table()] {
        for row in 0..table.len() / 6 {
            for letter in [V, E, H, 256 + V] {
                each_call(trial, &with(table, row, 0, letter));
            }
        }
    }
    each_call(trial, &Groups::solid_among_triangles());
}

/// What may stand in the columns of a z or a kz, in its range or not.
const NUMBERS: [&[u8; 8]; 9] = [
    b"        ",
    b"       0",
    b"       1",
    b"     100",
    b"    1023",
    b"    1024",
    b"  500000",
    b"  500001",
    b"99999999",
];

/// The columns of z and kz in a flat deck and a solid one; and in tables.
pub fn fields(trial: &mut Trial) {
    let flat = Groups::one_of_each().table();
    let solid = Groups::one_of_each_solid().table();
    for (table, rows) in [
        (&flat, [(1, 3), (3, 3), (4, 4)]),
        (&solid, [(NODE, 3), (NODE + 3, 3), (MATERIAL, 4)]),
    ] {
        let bytes = bytes_of(table);
        for (row, field) in rows {
            for columns in NUMBERS.into_iter().chain(NO_NUMBERS) {
                let other = put(&bytes, row, field, columns);
                read(trial, other.clone());
                // 3 before 4: another fault in the card, at its front, behind, at its end, in D and in the next.
                for (fault, byte) in [
                    (42 * row + 8, b' '),
                    (42 * row + 40, b'0'),
                    (42 * row + 41, b' '),
                    (8, b' '),
                    (42 * row + 50, b' '),
                ] {
                    let mut two = other.clone();
                    two[fault] = byte;
                    read(trial, two);
                }
            }
            for value in [0, 1, 1_023, 1_024, 500_000, 500_001, u32::MAX] {
                let other = with(table, row, field, value);
                tables(trial, &other);
                tables(trial, &with(&other, row, 5, 1));
            }
        }
    }
    // The last element's letter alone makes it solid, whatever else stands on that card.
    let mut bytes = text_of(&flat);
    bytes[42 * 5] = b'V';
    read(trial, bytes.clone());
    bytes[42 * 5 + 1..42 * 6].fill(b'?');
    read(trial, bytes);
}

/// A deck of four nodes at most, not built.
fn lend(table: &[u32]) -> Lent {
    Lent {
        bytes: vec![b'?'; 7 * table.len()],
        matrices: [0; 4].map(|_| vec![7; 10]),
        temperatures: vec![i64::from(FRAME); 4],
        carried: vec![0; 4],
        ..Lent::of(table.to_vec())
    }
}

/// Every call but the reader: a field may have more digits than columns.
fn tables(trial: &mut Trial, table: &[u32]) {
    let mut lent = lend(table);
    for call in [Call::Write, Call::Build, Call::Step, same(table, 6)] {
        trial.call(&mut lent, call);
    }
}

/// u and a pair just at 4,000,000 and just past it, each pair in turn by the order of the corners; halves of both.
pub fn limits(trial: &mut Trial) {
    // S is 4,000,000 and one more, then 8,000,000 and one more.
    for (capacity, height) in [(960, 100), (480, 200), (961, 100), (479, 200)] {
        for ones in [0, 1] {
            each_call(trial, &Groups::full(capacity, height, ones).table());
        }
    }
    // kx·w·h/120, along each axis.
    let mut stiff = Groups::corner();
    stiff.d[0] = 100;
    for (k, w, h) in STIFF {
        for turn in 0..3 {
            let axis = |at: usize| [[1, w, h], [h, 1, w], [w, h, 1]][turn][at];
            stiff.nodes = vec![[0, 0], [axis(0), 0], [0, axis(1)], [0, 0]];
            stiff.levels = vec![0, 0, 0, axis(2)];
            let along = |at: usize| if axis(at) == 1 { k } else { 1 };
            stiff.materials[0] = [along(0), along(1), 5_000];
            stiff.upward = vec![along(2)];
            for order in orders_of_four() {
                stiff.solids[0][..4].copy_from_slice(&order);
                let mut lent = lend(&stiff.table());
                trial.call(&mut lent, Call::Build);
            }
        }
    }
    // Two edges that all but cross.
    let mut blunt = Groups::corner();
    blunt.nodes = vec![[0, 0], [100, 0], [50, 1], [50, 1]];
    blunt.levels = vec![10, 10, 0, 20];
    for k in [1, 1_000, 10_000, 500_000] {
        blunt.materials[0] = [k, k, 5_000];
        blunt.upward = vec![k];
        each_call(trial, &blunt.table());
    }
    refused_replacements(trial);
}

/// k, w and h: k·w·h/120 is 4,000,000, a half less, a half more, and two thirds more.
const STIFF: [(u32, u32, u32); 4] = [
    (480_000, 10, 100),
    (482_412, 5, 199),
    (477_612, 3, 335),
    (489_796, 10, 98),
];

fn orders_of_four() -> impl Iterator<Item = [u32; 4]> {
    let all = (0..256).map(|n| [n / 64 % 4 + 1, n / 16 % 4 + 1, n / 4 % 4 + 1, n % 4 + 1]);
    all.filter(|order| (1..=4).all(|node| order.contains(&node)))
}

/// 4 to 10 and 13 of a new V card; and new N and M cards.
fn refused_replacements(trial: &mut Trial) {
    // 1 D, 2-6 N, 7-8 M, 9 E, 10-11 V, 12 H, 13 F, 14 G, 15 T, 16 Z.
    let whole = built(trial, Groups::two_solids().table());
    let right = [V, 5, 3, 2, 4, 2];
    let mut ask = |card: u32, new: [u32; 6], change: &dyn Fn(&mut Lent)| {
        let mut lent = whole.clone();
        change(&mut lent);
        trial.call(&mut lent, Call::Replace { card, new });
    };
    for card in (0..=17).chain([u32::MAX]) {
        ask(card, right, &|_| {});
        ask(card, [V, 1, 2, 3, 4, 2], &|_| {});
        ask(card, [N, 0, 0, 100, 0, 0], &|_| {});
        ask(card, [N, 0, 0, 0, 1, 0], &|_| {});
        ask(card, [M, 1_000, 1_000, 2_400, 1_000, 0], &|_| {});
        ask(card, [M, 1_000, 1_000, 2_400, 1_000, 1], &|_| {});
        ask(card, [E, 1, 2, 3, 2, 900], &|_| {});
        ask(card, [F, 2, 9, 9, 0, 0], &|_| {});
    }
    for field in 1..6 {
        for value in [0, 1, 2, 3, 4, 5, 6, 99] {
            let mut new = right;
            new[field] = value;
            ask(11, new, &|_| {});
        }
    }
    for which in 0..4 {
        ask(11, right, &|lent| {
            lent.matrices[which].pop();
        });
    }
    ask(11, right, &|lent| lent.matrices[1][0] = 1 << 34);
    ask(11, right, &|lent| lent.matrices[2][2] = 15);
    // A V of no volume, and one too stiff, that no build has judged: new, and old alone.
    let flat = |lent: &mut Lent| lent.table[6 * 10 + 1] = 2;
    ask(11, [V, 2, 3, 2, 4, 2], &flat);
    for (materials, new) in [([1, 5_000], right), ([5_000, 1], right)] {
        let quick = |lent: &mut Lent| {
            lent.table[1] = 1;
            lent.table[6 * 6 + 3] = materials[0];
            lent.table[6 * 7 + 3] = materials[1];
        };
        ask(11, new, &quick);
    }
    // 7 and 8 at a row.
    for (at, value) in [(5, -1_000_000), (1, 1 << 32), (2, -1_000_000), (4, 1 << 32)] {
        ask(10, [V, 1, 2, 3, 4, 2], &|lent| {
            lent.matrices[1][at] = value;
            lent.table[6 * 14 + 1] = 5;
        });
    }
}

/// Every V and E of some blocks with each material in turn, and steps between; every order of the corners of one.
pub fn replaced(trial: &mut Trial) {
    for (columns, rows, floors) in [(2, 2, 2), (3, 2, 2), (2, 2, 3)] {
        let groups = Groups::block(&mut trial.chance, columns, rows, floors);
        let materials = groups.materials.len() as u32;
        let first = 1 + groups.nodes.len() + groups.materials.len();
        let last = first + groups.elements.len() + groups.solids.len();
        let mut lent = built(trial, groups.table());
        for row in first..last {
            for material in 1..=materials {
                let mut new: [u32; 6] = lent.table[6 * row..6 * row + 6].try_into().unwrap();
                new[if new[0] == V { 5 } else { 4 }] = material;
                let card = row as u32 + 1;
                trial.call(&mut lent, Call::Replace { card, new });
            }
            trial.call(&mut lent, Call::Step);
            trial.as_built(&lent, [0, u32::from(lent.table[6 * row] == V)]);
        }
    }
    for order in orders_of_four() {
        let [i, j, k, l] = order;
        let mut groups = Groups::corner();
        groups.nodes.insert(0, [7, 7]);
        groups.levels.insert(0, 7);
        groups.fixed = vec![[1, FRAME], [i + 1, FRAME]];
        groups.materials.push([3_000, 2_000, 1_900]);
        groups.upward.push(7_000);
        groups.solids = vec![[i + 1, j + 1, k + 1, l + 1, 1]];
        let mut lent = built(trial, groups.table());
        for material in [2, 2, 1] {
            let new = [V, i + 1, j + 1, k + 1, l + 1, material];
            trial.call(&mut lent, Call::Replace { card: 9, new });
            trial.call(&mut lent, Call::Step);
            trial.as_built(&lent, [0, 1]);
        }
    }
}

/// Upright edges and edges aslant in space, each at the least film that gives a g and at one less.
pub fn edges(trial: &mut Trial) {
    for (x, y, z, thickness) in [
        (0, 0, 100, 1_000),
        (0, 0, 1_023, 4_000),
        (20, 30, 60, 4_000),
        (100, 100, 100, 1_000),
        (1_023, 1_023, 1_023, 4_000),
        (1, 1, 1, 4_000),
        (0, 0, 0, 4_000),
    ] {
        let square = x * x + y * y + z * z;
        let edged = |film: u32| {
            let mut groups = Groups::corner();
            groups.nodes.push([x, y]);
            groups.levels.push(z);
            groups.edges.push([1, 5, film, FRAME, thickness]);
            groups.fixed.push([5, FRAME]);
            groups.table()
        };
        for g in [1, 2, 3, 83, 471] {
            let film = film_of(g, thickness, square).max(2);
            if g > 1 && !reaches(g, film, thickness, square) {
                continue;
            }
            for (film, other) in [(film, film - 1), (film - 1, film)] {
                let mut lent = built(trial, edged(film));
                trial.call(&mut lent, Call::Step);
                let new = [G, 1, 5, other, FRAME + 9, thickness];
                trial.call(&mut lent, Call::Replace { card: 9, new });
                trial.call(&mut lent, Call::Step);
                trial.as_built(&lent, [1, 0]);
            }
        }
    }
}
