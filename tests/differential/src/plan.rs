//! What is tried: each function is one kind of case. `tests/kernel` takes this file too, for LENT.

use crate::case::{Call, Lent};
use crate::decks::{
    bytes_of, firsts, kept_of, nodes_of, starts_of, Chance, Groups, C, D, E, F, G, H, M, N, R, T,
    TOP, V, Z,
};
use crate::trial::Trial;
use crate::{carried, changes, edges, heats, limits, rows, solids, sources, thin};
use reference::Card;

pub type Part = (&'static str, fn(&mut Trial));

/// Decks, own buffers and foreign ones.
pub const LENT: [Part; 49] = [
    ("decks read and written back", valid_decks),
    ("builds over slices short, exact and long", builds),
    ("the paper's checked decks", checked_decks),
    ("replacements in long sequences", replacements),
    ("replacements over foreign buffers", foreign_replacements),
    ("steps on the deck's own buffers", own_steps),
    ("steps on foreign buffers", foreign_steps),
    ("each buffer one too short", limits::short_buffers),
    ("pivots too large to settle by", limits::unsettled),
    ("held nodes a tick or two off", limits::off_the_card),
    (
        "each limit of lent numbers, and one past it",
        limits::lent_numbers,
    ),
    ("edges at a half of g and beside it", edges::halves),
    ("edges whose nodes are paired well and ill", edges::pairs),
    ("edges of no length", edges::of_no_length),
    ("a node that an edge alone carries", edges::alone),
    ("as many edges as there may be, and one more", edges::most),
    ("tables at the limits of length and count", limits::lengths),
    ("heats weighed at each corner", heats::shares),
    ("heats weighed in quarters", heats::quarters),
    ("residuals at the bound of 10 and past it", carried::bounds),
    ("residuals, from none to more than enough", carried::lengths),
    ("residuals weighed at each node", carried::weighed),
    ("residuals left by one to four corrections", carried::left),
    ("the heat book over some steps", carried::books),
    ("solid decks of each kind", solids::decks),
    (
        "the groups of a solid deck in and out of order",
        solids::orders,
    ),
    (
        "z and kz where they may stand and where not",
        solids::fields,
    ),
    (
        "tetrahedra at the limits of u and of a pair",
        solids::limits,
    ),
    ("every tetrahedron of a block replaced", solids::replaced),
    ("edges that rise", solids::edges),
    ("triangles about the limit of thinness", thin::about),
    (
        "triangles near the limit, by chance and along each side",
        thin::near,
    ),
    ("flat, thin and stiff elements in turn", thin::in_turn),
    ("thin triangles of solid decks", thin::of_solids),
    ("boards numbered well, ill and by chance", rows::numberings),
    ("decks whose rows are all full", rows::full),
    (
        "decks whose rows are a diagonal but for one element",
        rows::lone,
    ),
    (
        "what couples: held nodes, edges, elements of no area",
        rows::couplings,
    ),
    ("starts damaged in each row", rows::damaged),
    ("starts from none to more than enough", rows::lengths),
    ("C cards at their ends and past them", changes::ranges),
    (
        "the fifth field of a C, and every code",
        changes::fifth_fields,
    ),
    ("keys with a card to change and without", changes::keys),
    ("C cards that rise, and that don't", changes::turns),
    (
        "C cards where they may stand, and as many as there may be",
        changes::places,
    ),
    (
        "R cards at their ends and past them, in and out of order",
        sources::cards,
    ),
    ("emissivities blank, filled and none", sources::emissivities),
    ("sources at a half of a loss and beside it", sources::halves),
    ("sources and corners from 0 to the top", sources::warmths),
];

/// Damages come last, so that a fault in the plain work is met as such.
pub const DAMAGED: [Part; 6] = [
    ("every single byte of a small deck damaged", each_byte),
    (
        "every single byte of its C cards damaged",
        each_byte_of_changes,
    ),
    ("decks damaged at random", damaged_bytes),
    ("decks cut at every byte", cuts),
    ("random bytes", random_bytes),
    ("tables damaged at random", damaged_tables),
];

// ---- decks and buffers

/// A deck of any kind: most of them build. One in two with changes, one in two over a stand, one in three numbered by chance.
pub fn deck(chance: &mut Chance) -> Vec<u32> {
    let mut groups = match chance.within(0, 13) {
        0 => Groups::slivers(chance),
        1..=3 => Groups::wild(chance),
        4 => Groups::base(),
        5 => Groups::sheet(chance, 12, 8),
        6 => Groups::needles(chance),
        7 => match chance.one_in(4) {
            true => Groups::block(chance, 16, 3, 2),
            false => Groups::one_of_each_solid(),
        },
        8 | 9 => {
            let [columns, rows, floors] = [0; 3].map(|_| chance.within(2, 3));
            Groups::block(chance, columns, rows, floors)
        }
        _ => {
            let (columns, rows) = (chance.within(2, 8), chance.within(2, 6));
            Groups::sheet(chance, columns, rows)
        }
    };
    if chance.one_in(2) {
        groups.dock(chance);
    }
    let groups = groups.varied(chance);
    match chance.one_in(3) {
        true => groups.shuffled(chance).table(),
        false => groups.table(),
    }
}

/// A sheet of nodes as on a board, with its nodes numbered along the rows.
fn sheet(chance: &mut Chance, columns: u32, rows: u32) -> Vec<u32> {
    Groups::sheet(chance, columns, rows).table()
}

/// The paper's P6.
fn small() -> Vec<u32> {
    let mut groups = Groups::base();
    groups.heats.push([1, 3]);
    groups.table()
}

/// Numbers of every size.
fn numbers(chance: &mut Chance, length: usize) -> Vec<i64> {
    (0..length).map(|_| chance.signed()).collect()
}

/// As long as asked, or a little longer.
fn roomy(chance: &mut Chance, length: usize) -> usize {
    length + chance.pick(&[0, 0, 1, 5])
}

/// All that build, replace and step take, long enough and full of anything; the starts, one time in two, the deck's own.
pub fn lend(chance: &mut Chance, table: Vec<u32>) -> Lent {
    let (n, length) = (nodes_of(&table), kept_of(&table));
    let matrices = [0; 4].map(|_| {
        let length = roomy(chance, length);
        numbers(chance, length)
    });
    let length = roomy(chance, n);
    let mut starts: Vec<u32> = (0..length).map(|_| chance.unsigned()).collect();
    if chance.one_in(2) {
        starts[..n].copy_from_slice(&starts_of(&table));
    }
    let length = roomy(chance, n);
    let mut temperatures = numbers(chance, length);
    temperatures[..n].fill(i64::from(table[2]));
    let length = roomy(chance, n);
    let mut carried = numbers(chance, length);
    carried[..n].fill(0);
    Lent {
        table,
        matrices,
        starts,
        temperatures,
        carried,
        ..Lent::default()
    }
}

/// A slice cut short, one time in some.
pub fn shorten<A>(chance: &mut Chance, slice: &mut Vec<A>, length: usize) {
    if chance.one_in(12) {
        let less = if chance.one_in(2) {
            1
        } else {
            chance.within(1, length as u32) as usize
        };
        slice.truncate(length - less);
    }
}

/// Temperatures on the scale, near each other or anywhere.
pub fn warm(chance: &mut Chance, temperatures: &mut [i64]) {
    let middle = chance.within(0, TOP);
    let spread = chance.pick(&[0, 10, 1_000_000, TOP]);
    for ticks in temperatures {
        let (low, high) = (
            middle.saturating_sub(spread),
            middle.saturating_add(spread).min(TOP),
        );
        *ticks = i64::from(chance.within(low, high));
    }
}

fn card_of(table: &[u32], index: usize) -> Card {
    table[6 * index..6 * index + 6].try_into().unwrap()
}

// ---- reader and writer

fn valid_decks(trial: &mut Trial) {
    for _ in trial.times(1_500) {
        let chance = &mut trial.chance;
        let table = deck(chance);
        let notes = chance.pick(&[0, 0, 1, 41, 42, 300]);
        let mut bytes: Vec<u8> = (0..notes).map(|_| chance.bits() as u8).collect();
        bytes.extend(bytes_of(&table));
        let room = match chance.within(0, 5) {
            0 => chance.index(table.len() + 1),
            1 => table.len() - 1,
            2 => table.len(),
            _ => table.len() + chance.within(1, 20) as usize,
        };
        let mut lent = Lent {
            bytes,
            ..Lent::default()
        };
        lent.table = (0..room).map(|_| chance.unsigned()).collect();
        trial.call(&mut lent, Call::Read);

        let chance = &mut trial.chance;
        let room = match chance.within(0, 3) {
            0 => chance.index(7 * table.len()),
            1 => 7 * table.len() - 1,
            2 => 7 * table.len(),
            _ => 7 * table.len() + chance.within(1, 100) as usize,
        };
        lent.bytes = (0..room).map(|_| chance.bits() as u8).collect();
        lent.table = table;
        trial.call(&mut lent, Call::Write);
    }
}

fn read(trial: &mut Trial, bytes: &[u8], room: usize) {
    let mut lent = Lent {
        bytes: bytes.to_vec(),
        table: vec![7; room],
        ..Lent::default()
    };
    trial.call(&mut lent, Call::Read);
}

fn each_byte(trial: &mut Trial) {
    for groups in [Groups::one_of_each(), Groups::one_of_each_solid()] {
        let table = groups.table();
        let mut bytes = bytes_of(&table);
        for at in 0..bytes.len() {
            let right = bytes[at];
            for value in 0..=255 {
                bytes[at] = value;
                read(trial, &bytes, table.len());
            }
            bytes[at] = right;
        }
    }
}

fn each_byte_of_changes(trial: &mut Trial) {
    let table = changes::each().table();
    let mut bytes = bytes_of(&table);
    let first = 42 * (table.len() / 6 - 5);
    for at in first..bytes.len() - 42 {
        let right = bytes[at];
        for value in 0..=255 {
            bytes[at] = value;
            read(trial, &bytes, table.len());
        }
        bytes[at] = right;
    }
}

fn damaged_bytes(trial: &mut Trial) {
    for _ in trial.times(20_000) {
        let chance = &mut trial.chance;
        let groups = match chance.within(0, 5) {
            0 => Groups::block(chance, 2, 2, 2),
            1 | 2 => Groups::sheet(chance, 4, 3),
            _ => Groups::wild(chance),
        };
        let table = groups.varied(chance).table();
        let mut bytes = bytes_of(&table);
        for _ in 0..chance.within(1, 3) {
            let at = chance.index(bytes.len());
            bytes[at] = any_byte(chance);
        }
        read(trial, &bytes, table.len() + 3);
    }
}

fn any_byte(chance: &mut Chance) -> u8 {
    match chance.within(0, 2) {
        0 => chance.bits() as u8,
        _ => chance.pick(b"0123456789 \nDNMEVHFGRTCZ-+"),
    }
}

fn cuts(trial: &mut Trial) {
    let sheet = sheet(&mut trial.chance, 3, 3);
    for table in [small(), sheet, Groups::one_of_each_solid().table()] {
        let mut bytes = b"notes\nnotes".to_vec();
        bytes.extend(bytes_of(&table));
        for at in 0..=bytes.len() {
            read(trial, &bytes[at..], table.len());
            read(trial, &bytes[..at], table.len());
        }
        // Too long by one, just not, and by more.
        for length in [65_535, 65_536, 65_537, 70_000] {
            let mut long = vec![b'.'; length - bytes.len()];
            long.extend(&bytes);
            read(trial, &long, table.len());
        }
    }
}

fn random_bytes(trial: &mut Trial) {
    for _ in trial.times(4_000) {
        let chance = &mut trial.chance;
        let length = match chance.within(0, 9) {
            0 => chance.within(65_500, 65_600),
            1..=3 => chance.within(0, 100),
            4..=6 => 42 * chance.within(1, 20),
            _ => chance.within(0, 3_000),
        } as usize;
        let mut bytes: Vec<u8> = (0..length).map(|_| any_byte(chance)).collect();
        // A trailer that can be followed, over anything.
        if chance.one_in(2) && length >= 42 {
            let counts = [
                chance.within(2, 5),
                chance.within(0, 2),
                chance.within(0, 3),
                chance.within(0, 4),
            ];
            let back = 42 * (1 + counts.iter().sum::<u32>());
            let [n, m, e, l] = counts;
            let trailer = format!("Z{back:8}{n:8}{m:8}{e:8}{l:8}\n");
            bytes.truncate(length - 42);
            bytes.extend(trailer.bytes());
        }
        let room = chance.within(0, 200) as usize;
        read(trial, &bytes, room);
    }
}

// ---- builds

/// The paper's P list, and the edges of its limits.
fn checked_decks(trial: &mut Trial) {
    let base = Groups::base;
    let mut decks = vec![
        base(),
        base(),
        base(),
        base(),
        base(),
        base(),
        base(),
        base(),
        Groups::leaning(),
    ];
    decks[1].elements[0] = [1, 3, 2, 1, 1_000];
    decks[2].heats.push([1, 3]);
    (decks[3].materials[0][2], decks[3].d[0]) = (1, 60_000);
    decks[4].nodes = vec![[0, 0], [100, 0], [101, 1]];
    decks[4].materials[0] = [10_000, 10_000, 1];
    for (at, capacity) in [(5, 960), (6, 961)] {
        (
            decks[at].d[0],
            decks[at].elements[0][4],
            decks[at].materials[0][2],
        ) = (1, 4_000, capacity);
    }
    decks[7].nodes = vec![[0, 0], [50, 50], [100, 100]];
    for film in [479, 480] {
        let mut groups = base();
        groups.films.push([1, film, 19_660_800]);
        decks.push(groups);
    }
    for groups in decks {
        let mut lent = lend(&mut trial.chance, groups.table());
        trial.call(&mut lent, Call::Build);
        trial.call(&mut lent, Call::Step);
        trial.call(
            &mut lent,
            Call::Replace {
                card: 6,
                new: [E, 1, 2, 3, 1, 2_000],
            },
        );
        trial.call(&mut lent, Call::Step);
    }
}

fn builds(trial: &mut Trial) {
    for _ in trial.times(8_000) {
        let chance = &mut trial.chance;
        let table = deck(chance);
        let (n, length) = (nodes_of(&table), kept_of(&table));
        let mut lent = lend(chance, table);
        for matrix in &mut lent.matrices {
            shorten(chance, matrix, length);
        }
        shorten(chance, &mut lent.starts, n);
        trial.call(&mut lent, Call::Build);
    }
}

// ---- replacements

/// A card to ask for, and what to put there: most often one that may be changed so.
pub fn replacement(chance: &mut Chance, table: &[u32]) -> Call {
    let rows = table.len() / 6;
    let changeable: Vec<usize> = (0..rows)
        .filter(|&index| [E, V, H, F, G, T].contains(&table[6 * index]))
        .collect();
    let index = if chance.one_in(12) {
        chance.index(rows)
    } else {
        chance.pick(&changeable)
    };
    let mut new = card_of(table, index);
    let ranges: &[(usize, u32, u32)] = match new[0] {
        E => &[(4, 1, 8), (5, 1, 4_000)],
        V => &[(5, 1, 8)],
        H => &[(2, 1, 5_000_000)],
        F => &[(2, 1, 100_000), (3, 0, TOP)],
        G => &[(3, 1, 100_000), (4, 0, TOP), (5, 1, 4_000)],
        T => &[(2, 0, TOP)],
        _ => &[(1, 0, 100), (5, 0, 100)],
    };
    for &(field, least, most) in ranges {
        new[field] = match chance.within(0, 11) {
            0 => least,
            1 => most,
            2 => least.wrapping_sub(1),
            3 => most + 1,
            4 => chance.unsigned(),
            5..=7 => chance.within(least, most),
            // Near what it was, so that the sequence goes on with a deck that builds.
            _ => (new[field] + chance.within(0, 9)).clamp(least, most),
        };
    }
    if new[0] == E && !chance.one_in(8) {
        new[4] = chance.within(1, table[table.len() - 3]);
        new[5] = new[5].clamp(1, 4_000);
    }
    if new[0] == V && !chance.one_in(8) {
        new[5] = chance.within(1, table[table.len() - 3]);
    }
    let mut card = index as u32 + 1;
    match chance.within(0, 40) {
        0 => new[0] = chance.pick(&[D, N, M, E, V, H, F, G, R, T, C, Z, 0, 65]),
        1 => new[chance.within(1, 5) as usize] = chance.unsigned(),
        2 => card = chance.unsigned(),
        3 => card = chance.pick(&[0, 1, rows as u32, rows as u32 + 1, u32::MAX]),
        _ => {}
    }
    Call::Replace { card, new }
}

fn replacements(trial: &mut Trial) {
    for _ in trial.times(220) {
        let chance = &mut trial.chance;
        let table = deck(chance);
        let length = kept_of(&table);
        let mut lent = lend(chance, table);
        trial.call(&mut lent, Call::Build);
        let mut replaced = [0; 2];
        for _ in 0..60 {
            let chance = &mut trial.chance;
            let call = replacement(chance, &lent.table);
            let mut now = lent.clone();
            if chance.one_in(20) {
                let which = chance.index(4);
                shorten(chance, &mut now.matrices[which], length);
            }
            let answer = trial.call(&mut now, call);
            if answer == 0 {
                lent = now;
                for (count, letter) in replaced.iter_mut().zip([G, V]) {
                    *count +=
                        u32::from(matches!(call, Call::Replace { new, .. } if new[0] == letter));
                }
            }
            if trial.chance.one_in(8) {
                trial.call(&mut lent, Call::Step);
            }
            if trial.chance.one_in(10) {
                trial.as_built(&lent, replaced);
            }
        }
        trial.as_built(&lent, replaced);
    }
}

/// Buffers that are none of the deck's, yet may pass refusal 10; with its starts.
pub fn foreign(chance: &mut Chance, n: usize, lent: &mut Lent) {
    lent.starts[..n].copy_from_slice(&starts_of(&lent.table));
    let [p, a, factor, _] = &mut lent.matrices;
    // A row sum of at most 2^33, most times: up to 2^26 each at 96 nodes.
    let most = ((1_u64 << 33) / n as u64) as i64;
    let size = chance.within(0, 40);
    for matrix in [p, a] {
        for number in matrix.iter_mut().take(kept_of(&lent.table)) {
            *number = (chance.bits() as i64 >> 20) % ((most >> size.min(33)) + 1);
        }
    }
    let (size, pivots) = (chance.within(0, 30), chance.within(4, 38));
    let mut at = 0;
    for (i, first) in firsts(&lent.table).into_iter().enumerate() {
        for l in &mut factor[at..at + i - first] {
            *l = (chance.bits() as i64 >> 20) % ((1 << 24 >> size.min(24)) + 1);
        }
        at += i - first + 1;
        factor[at - 1] = 16 + (chance.bits() >> 20) as i64 % ((1 << pivots) - 15);
    }
}

/// One number or a few set to anything, at both ends of the bounds or of i64.
fn spoil(chance: &mut Chance, slice: &mut [i64]) {
    for _ in 0..chance.within(1, 3) {
        let at = chance.index(slice.len());
        let bound = 1_i64 << chance.pick(&[4, 20, 24, 25, 33, 36, 38, 52, 62]);
        slice[at] = match chance.within(0, 3) {
            0 => chance.signed(),
            1 => chance.pick(&[i64::MIN, i64::MAX, i64::MIN + 1]),
            _ => chance.pick(&[bound, bound + 1, bound - 1, -bound, -bound - 1, 1 - bound]),
        };
    }
}

/// The buffers of another deck of as many nodes or more, as long as this one asks; one time in two its starts too.
fn borrowed(trial: &mut Trial, lent: &mut Lent) {
    let n = nodes_of(&lent.table);
    let table = sheet(&mut trial.chance, 8, n.div_ceil(8).max(2) as u32);
    let mut other = lend(&mut trial.chance, table);
    if trial.call(&mut other, Call::Build) == 0 {
        for which in 0..3 {
            if trial.chance.one_in(2) {
                lent.matrices[which] = other.matrices[which].clone();
                let length = lent.matrices[which].len().max(kept_of(&lent.table));
                lent.matrices[which].resize(length, 16);
            }
        }
        if trial.chance.one_in(2) {
            lent.starts = other.starts;
        }
    }
}

/// A deck with buffers that are not, or not wholly, its own.
pub fn strange(trial: &mut Trial) -> Lent {
    let table = deck(&mut trial.chance);
    let (n, length) = (nodes_of(&table), kept_of(&table));
    let mut lent = lend(&mut trial.chance, table);
    trial.call(&mut lent, Call::Build);
    match trial.chance.within(0, 5) {
        // As they are: numbers of every size, where the build was refused.
        0 => {}
        1 | 2 => foreign(&mut trial.chance, n, &mut lent),
        3 => borrowed(trial, &mut lent),
        4 => {
            foreign(&mut trial.chance, n, &mut lent);
            let which = trial.chance.index(3);
            spoil(&mut trial.chance, &mut lent.matrices[which][..length]);
        }
        _ => {
            let which = trial.chance.index(3);
            spoil(&mut trial.chance, &mut lent.matrices[which][..length]);
        }
    }
    lent
}

fn foreign_replacements(trial: &mut Trial) {
    for _ in trial.times(1_500) {
        let mut lent = strange(trial);
        for _ in 0..4 {
            let call = replacement(&mut trial.chance, &lent.table);
            trial.call(&mut lent, call);
        }
    }
}

// ---- steps

fn own_steps(trial: &mut Trial) {
    for _ in trial.times(600) {
        let table = deck(&mut trial.chance);
        let n = nodes_of(&table);
        let mut lent = lend(&mut trial.chance, table);
        if trial.call(&mut lent, Call::Build) != 0 {
            continue;
        }
        if trial.chance.one_in(2) {
            warm(&mut trial.chance, &mut lent.temperatures[..n]);
        }
        for _ in 0..10 {
            trial.call(&mut lent, Call::Step);
        }
    }
}

fn foreign_steps(trial: &mut Trial) {
    for _ in trial.times(6_000) {
        let mut lent = strange(trial);
        let chance = &mut trial.chance;
        let n = nodes_of(&lent.table);
        match chance.within(0, 3) {
            0 => {}
            1 => spoil(chance, &mut lent.temperatures[..n]),
            _ => warm(chance, &mut lent.temperatures[..n]),
        }
        shorten(chance, &mut lent.temperatures, n);
        shorten(chance, &mut lent.carried, n);
        let which = chance.index(3);
        let length = kept_of(&lent.table);
        shorten(chance, &mut lent.matrices[which], length);
        trial.call(&mut lent, Call::Step);
    }
}

// ---- tables

/// Damages a table in one place or by a row.
fn damage(chance: &mut Chance, table: &mut Vec<u32>) {
    let rows = table.len() / 6;
    if rows == 0 {
        return;
    }
    let row = 6 * chance.index(rows);
    match chance.within(0, 12) {
        0 => drop(table.drain(row..row + 6)),
        1 => {
            let copy = card_of(table, row / 6);
            table.splice(row..row, copy);
        }
        2 => table.truncate(chance.index(table.len() + 1)),
        3 => table.extend((0..chance.within(1, 13)).map(|_| 0)),
        4 => table[row] = chance.pick(&[D, N, M, E, V, H, F, G, R, T, C, Z, 0, u32::MAX]),
        // The trailer's own numbers.
        5 => {
            let at = table.len() - 1 - chance.index(6);
            table[at] = edge(chance, table[at]);
        }
        6 => {
            let other = 6 * chance.index(rows);
            (0..6).for_each(|i| table.swap(row + i, other + i));
        }
        _ => {
            let at = row + chance.within(1, 5) as usize;
            table[at] = edge(chance, table[at]);
        }
    }
}

/// Another number: beside this one, at a limit of the paper or beside it, or anything.
fn edge(chance: &mut Chance, number: u32) -> u32 {
    const LIMITS: [u32; 21] = [
        0, 1, 3, 8, 69, 70, 72, 82, 84, 96, 160, 800, 1_000, 1_023, 4_000, 4_095, 5_000, 60_000,
        100_000, 500_000, 5_000_000,
    ];
    match chance.within(0, 5) {
        5 => 99_999_999 + chance.within(0, 1),
        0 => number.wrapping_add(1),
        1 => number.wrapping_sub(1),
        2 => chance
            .pick(&LIMITS)
            .wrapping_add(chance.pick(&[0, 1, u32::MAX])),
        3 => TOP + chance.within(0, 1),
        _ => chance.unsigned(),
    }
}

fn damaged_tables(trial: &mut Trial) {
    for _ in trial.times(12_000) {
        let chance = &mut trial.chance;
        let table = if chance.one_in(20) {
            deck(chance)
        } else {
            Groups::wild(chance).varied(chance).table()
        };
        let new = replacement(chance, &table);
        let mut lent = lend(chance, table);
        for _ in 0..chance.within(1, 2) {
            damage(chance, &mut lent.table);
        }
        lent.bytes = vec![b'?'; 7 * lent.table.len() + 5];
        trial.call(&mut lent, Call::Write);
        trial.call(&mut lent, Call::Build);
        trial.call(&mut lent, Call::Step);
        trial.call(&mut lent, new);
        // D's steps may be damaged too, to as many as there may be.
        if lent
            .table
            .get(3)
            .is_some_and(|steps| !(50..=100_000).contains(steps))
        {
            trial.call(&mut lent, Call::Run);
        }
    }
}
