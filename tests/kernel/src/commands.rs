//! What is tried, part by part.

use crate::changes::each;
use crate::decks::{
    about_thin, bytes_of, put, text_of, turned, Chance, Groups, C, D, E, F, G, H, M, N, R, SIDES,
    T, TOP, V, Z,
};
use crate::model::Zones;
use crate::plan::LENT;
use crate::record::Record;
use crate::trial::Trial;
use reference::{Card, MAX_BYTES};

pub fn all(record: &mut Record) {
    before_any_deck(record);
    checked_decks(record);
    a_triangle_replaced(record);
    solids(record);
    changes(record);
    refusing_replacements(record);
    refused_steps(record);
    boards(record);
    closed_board(record);
    zones(record);
    largest(record);
    wild_decks(record);
    edges(record);
    limits(record);
    thin(record);
    damaged_decks(record);
    random_bytes(record);
    lengths(record);
    nonsense(record);
    enough(record);
    record.traced = [small(), bytes_of(&Groups::one_of_each_solid().table())];
}

/// As many numbers as the board of 96 nodes in decks/ keeps.
pub const FEW: usize = 716;

/// With just so many numbers: that board, the same numbered ill, which is refused and leaves it at work, and smaller ones.
pub fn few(record: &mut Record) {
    let deck = include_bytes!("../../../decks/board96.deck");
    record.deck(deck);
    record.steps(5);
    let mut more = Groups::sheet(&mut record.chance, 12, 8);
    more.fixed.clear();
    record.deck(&bytes_of(&more.table()));
    record.steps(1);
    replaced(record, 10, 2);
    let fan = Groups::fan(&mut record.chance, 38).table();
    record.deck(&bytes_of(&fan));
    let fan = Groups::fan(&mut record.chance, 37).table();
    record.deck(&bytes_of(&fan));
    record.steps(3);
    record.back();
    assert!(record.met[0][0] == 2 && record.met[0][9] == 2);
}

fn before_any_deck(record: &mut Record) {
    record.back();
    record.steps(1);
    record.replace(6, [E, 1, 2, 3, 1, 2_000]);
    record.deck(b"");
}

/// A groups' deck, read back and stepped.
fn tried(record: &mut Record, groups: &Groups) {
    record.deck(&bytes_of(&groups.table()));
    record.back();
    record.steps(1);
}

/// P6 to P11 of the paper, and what P9 showed before a thin element was named.
fn checked_decks(record: &mut Record) {
    let base = Groups::base;
    let mut decks = [(); 8].map(|()| base());
    decks[0].heats.push([1, 3]);
    (decks[2].materials[0][2], decks[2].d[0]) = (1, 60_000);
    decks[3].nodes = vec![[0, 0], [100, 0], [101, 1]];
    decks[3].materials[0] = [10_000, 10_000, 1];
    for (at, capacity) in [(4, 960), (5, 961)] {
        decks[at].d[0] = 1;
        decks[at].elements[0][4] = 4_000;
        decks[at].materials[0][2] = capacity;
    }
    decks[6].nodes = vec![[0, 0], [50, 50], [100, 100]];
    decks[7] = Groups::leaning();
    for groups in &decks {
        tried(record, groups);
    }
}

// ---- replacements

/// The base with heat, film, an edge in a frame and a held node: a hundred replacements, and steps between them.
fn a_triangle_replaced(record: &mut Record) {
    let mut groups = Groups::base();
    groups.materials.push([20_000, 400, 1_900]);
    groups.heats.push([1, 3_000]);
    groups.films.push([1, 48_000, 18_000_000]);
    groups.edges.push([1, 3, 60_000, 18_500_000, 1_000]);
    groups.fixed.push([2, 21_000_000]);
    tried(record, &groups);
    replaced(record, 100, 1);
    // A film out of its range, and other ends.
    record.replace(10, [G, 1, 3, 0, 18_500_000, 1_000]);
    record.replace(10, [G, 1, 2, 9, 18_500_000, 1_000]);
    record.back();
}

/// The tetrahedron's checked deck, two of them with a card of every kind and other materials, blocks of 8 to 96 nodes; and decks
/// whose z, kz, triangles or films are where they may not be.
fn solids(record: &mut Record) {
    tried(record, &Groups::corner());
    tried(record, &Groups::two_solids());
    replaced(record, 60, 2);
    for material in [0, 1, 2, 3] {
        record.replace(11, [V, 5, 3, 2, 4, material]);
        record.replace(11, [V, 5, 3, 4, 2, material]);
    }
    for [columns, rows, floors] in [[2, 2, 2], [3, 3, 2], [2, 2, 3], [16, 3, 2]] {
        let groups = Groups::block(&mut record.chance, columns, rows, floors);
        tried(record, &groups);
        replaced(record, 20, 2);
        record.steps(10);
        record.back();
    }
    let largest = Groups::largest_block(&mut record.chance);
    tried(record, &largest);
    let each = Groups::one_of_each_solid;
    let mut decks = [(); 9].map(|()| each());
    decks[0].levels[1] = 1;
    decks[1].films[0][0] = 2;
    decks[2].solids.clear();
    decks[3].nodes[0] = [0, 1_024];
    decks[4].levels[3] = 1_024;
    decks[5].upward[0] = 500_001;
    decks[6].levels[3] = 0;
    decks[7].levels.clear();
    decks[8].solids[0] = [1, 2, 3, 5, 1];
    for groups in &decks {
        record.deck(&text_of(&groups.table()));
    }
    // The columns of a z and of a kz, of a solid deck and a flat one: blank, a number, none.
    for (deck, rows) in [
        (each().table(), [4, 5]),
        (Groups::one_of_each().table(), [3, 4]),
    ] {
        for (row, field) in rows.into_iter().zip([3, 4]) {
            for columns in [b"        ", b"       0", b"       7", b"      07"] {
                let mut bytes = bytes_of(&deck);
                let at = 42 * row + 8 * field - 7;
                bytes[at..at + 8].copy_from_slice(columns);
                record.deck(&bytes);
            }
        }
    }
    record.steps(1);
}

/// Replacements by chance, a step after each `between`.
fn replaced(record: &mut Record, count: usize, between: usize) {
    for turn in 1..=count {
        let (card, new) = replacement(&mut record.chance, &record.model.table);
        record.replace(card, new);
        if turn % between == 0 {
            record.steps(1);
        }
        if turn % 10 == 0 && record.model.table.len() < 300 {
            record.back();
        }
    }
}

/// A card that may change and its new values; one time in three with a fault.
fn replacement(chance: &mut Chance, table: &[u32]) -> (u32, Card) {
    let cards: Vec<&[u32]> = table.chunks_exact(6).collect();
    let free: Vec<usize> = (0..cards.len())
        .filter(|&index| [E, V, H, F, G, T].contains(&cards[index][0]))
        .collect();
    let materials = cards.iter().filter(|card| card[0] == M).count() as u32;
    let index = chance.pick(&free);
    let mut new: Card = cards[index].try_into().unwrap();
    match new[0] {
        E => (new[4], new[5]) = (chance.within(1, materials), chance.within(800, 2_000)),
        V => new[5] = chance.within(1, materials),
        H => new[2] = chance.within(1, 500_000),
        F => (new[2], new[3]) = (chance.within(1, 100_000), warmth(chance)),
        G => {
            (new[3], new[4]) = (chance.within(1, 100_000), warmth(chance));
            new[5] = chance.within(1, 4_000);
        }
        _ => new[2] = warmth(chance),
    }
    let mut card = index as u32 + 1;
    if chance.one_in(3) {
        fault(chance, &mut card, &mut new, cards.len() as u32);
    }
    (card, new)
}

fn warmth(chance: &mut Chance) -> u32 {
    chance.within(18_000_000, 22_000_000)
}

fn fault(chance: &mut Chance, card: &mut u32, new: &mut Card, cards: u32) {
    match chance.within(0, 4) {
        0 => *card = chance.pick(&[0, 1, 2, cards, cards + 1, u32::MAX]),
        1 => new[0] = chance.pick(&[D, N, M, E, V, H, F, G, R, T, C, Z, 0, 256 + E, u32::MAX]),
        2 => *card = chance.within(1, cards),
        _ => new[chance.within(1, 5) as usize] = chance.unsigned(),
    }
}

/// Decks with C cards, to which no step pays heed: read back, replaced and stepped past their increments; then each field of a C at
/// its ends and past them, and the 65th.
fn changes(record: &mut Record) {
    tried(record, &each());
    replaced(record, 20, 2);
    record.steps(6);
    record.back();
    for (row, field, value) in [
        (10, 1, 0),
        (10, 1, 100_000),
        (11, 1, 100_001),
        (10, 2, V),
        (10, 2, 0),
        (10, 3, 0),
        (10, 3, 2),
        (11, 3, 2),
        (12, 3, 1),
        (11, 5, 0),
        (12, 1, 4),
        (13, 4, 99_999_999),
        (13, 5, 99_999_999),
        (13, 1, 1),
    ] {
        let mut table = each().table();
        table[6 * row + field] = value;
        record.deck(&text_of(&table));
    }
    for columns in [b"        ", b"       0", b"       7", b"      07"] {
        for row in [10, 11] {
            record.deck(&put(&text_of(&each().table()), row, 5, columns));
        }
    }
    record.replace(11, [C, 1, E, 1, 1, 1_100]);
    record.replace(11, [C, 1, H, 1, 9, 1]);
    let mut many = each();
    for count in [64, 65] {
        many.changes = (1..=count).map(|at| [at, H, 1, 9, 0]).collect();
        record.deck(&text_of(&many.table()));
    }
    record.steps(2);
    record.back();
}

/// A second material with which the one element is refused: by 6, by 7 at a row's end, by 8.
fn refusing_replacements(record: &mut Record) {
    let base = Groups::base;
    let mut decks = [base(), base(), Groups::leaning()];
    (decks[0].d[0], decks[0].elements[0][4]) = (1, 4_000);
    decks[0].materials = vec![[1_000, 1_000, 960], [1_000, 1_000, 961]];
    decks[1].d[0] = 60_000;
    decks[1].materials.push([1_000, 1_000, 1]);
    decks[2].d[0] = 100;
    decks[2].materials.insert(0, [10_000, 10_000, 5_000]);
    for groups in &mut decks {
        groups.heats.push([1, 700]);
        tried(record, groups);
        let [i, j, k, _, thickness] = groups.elements[0];
        for material in [2, 1, 2] {
            record.replace(7, [E, i, j, k, material, thickness]);
            record.steps(2);
        }
        record.back();
    }
}

/// So much heat that the second step is off the scale, and less again; and so much on so little that x is past its bound.
fn refused_steps(record: &mut Record) {
    let mut groups = Groups::base();
    groups.heats.push([1, 5_000_000]);
    record.deck(&bytes_of(&groups.table()));
    record.steps(1_000);
    record.steps(1);
    record.replace(7, [H, 1, 5, 0, 0, 0]);
    record.steps(1_000);

    groups.d = [41_030, 0, 2];
    groups.nodes = vec![[4_095, 0], [4, 1_442], [2_065, 1_318]];
    groups.materials = vec![[490_825, 1, 2_879]];
    groups.elements = vec![[1, 2, 3, 1, 4]];
    groups.fixed.push([3, 549_536]);
    tried(record, &groups);
}

/// Sheets of nodes as on a board, the last of the most nodes that there may be.
fn boards(record: &mut Record) {
    for (columns, rows, count) in [(4, 3, 60), (6, 6, 30), (12, 8, 30)] {
        let groups = Groups::sheet(&mut record.chance, columns, rows);
        tried(record, &groups);
        replaced(record, count, 3);
        record.steps(20);
        record.back();
    }
}

/// Heat that no film, edge or held node lets out, over many steps: what is carried then tells. It stays when a heat or a
/// thickness is replaced, and a new deck starts with none.
fn closed_board(record: &mut Record) {
    let deck = include_bytes!("../../../decks/book.deck");
    record.deck(deck);
    record.steps(1_000);
    record.replace(28, [H, 9, 100, 0, 0, 0]);
    record.steps(500);
    record.replace(16, [E, 4, 7, 5, 1, 1_601]);
    record.steps(500);
    record.back();
    record.deck(deck);
    record.steps(1);
}

/// A board's zones over steps and replacements, zones that are refused and leave the old ones, and a new deck that has none.
fn zones(record: &mut Record) {
    record.zones(Zones::default());
    let start = 298 * 65_536;
    for (columns, rows, many) in [(4, 3, 4), (6, 6, 16), (12, 8, 16)] {
        let mut groups = Groups::sheet(&mut record.chance, columns, rows);
        groups.d[1] = start;
        record.deck(&bytes_of(&groups.table()));
        record.steps(2);
        let nodes = columns * rows;
        let each = |many: u32| -> Vec<Vec<u32>> {
            let nodes = 1..=nodes;
            let zone = |zone: u32| nodes.clone().filter(move |node| node % many == zone);
            (0..many).map(|number| zone(number).collect()).collect()
        };
        let right = Zones {
            edges: (0..14).map(|edge| start - 30_000 + 9_000 * edge).collect(),
            each: each(many),
        };
        record.zones(right.clone());
        for _ in 0..4 {
            record.steps(1);
            replaced(record, 3, 2);
        }
        record.steps(25);
        // Each of these leaves the right ones at work.
        let mut wrong = [(); 7].map(|()| right.clone());
        wrong[0].edges.push(u32::MAX);
        wrong[1].each = each(17);
        wrong[2].each[1] = vec![1; 97];
        wrong[3].each[2].clear();
        wrong[4].each[3][0] = 0;
        wrong[5].each[3].push(nodes + 1);
        wrong[6].edges[5] = wrong[6].edges[4];
        for wrong in wrong {
            record.zones(wrong);
            record.steps(1);
        }
        record.zones(Zones {
            edges: vec![],
            each: vec![vec![nodes; 96], vec![1, 1, 2]],
        });
        record.steps(3);
    }
    for line in [
        "zones x;1",
        "zones 5;1 x",
        "zones 5;1,2",
        "zones 1 2 3 4 5 6 7 8 9 10 11 12 13 14 15 16;1",
        "zones ;1;1;1;1;1;1;1;1;1;1;1;1;1;1;1;1;1;1",
        "zones 5;-1",
        "zones 5;4294967296",
    ] {
        record.nonsense(line);
    }
    assert!([0, 1, 18, 19]
        .iter()
        .all(|&number: &usize| record.zones[number] > 0));
}

/// As many cards of each kind as there may be; then one more, which no trailer allows.
fn largest(record: &mut Record) {
    let groups = Groups::largest(&mut record.chance);
    tried(record, &groups);
    replaced(record, 10, 5);
    for kind in 0..7 {
        let mut more = groups.clone();
        match kind {
            0 => more.nodes.push([0, 0]),
            1 => more.materials.push([1_000, 1_000, 2_400]),
            2 => more.elements.push(groups.elements[0]),
            3 => more.edges.push([95, 96, 1, 1, 1]),
            // In the place of an H: its letter alone is refused.
            4 => {
                more.heats.pop();
                more.edges.push([95, 96, 1, 1, 1]);
            }
            5 => {
                more.heats.pop();
                more.changes.push([100_000, E, 1, 1, 1]);
            }
            _ => more.fixed.push([96, 19_000_000]),
        }
        record.deck(&text_of(&more.table()));
    }
}

/// Any accepted cards, every field at its ends: few build, and of those some don't step.
fn wild_decks(record: &mut Record) {
    for turn in 0..40 {
        let chance = &mut record.chance;
        let groups = if turn % 2 == 0 {
            Groups::wild(chance)
        } else {
            Groups::slivers(chance)
        };
        record.deck(&bytes_of(&groups.table()));
        record.steps(3);
    }
}

// ---- bytes that are no deck

fn small() -> Vec<u8> {
    bytes_of(&Groups::one_of_each().table())
}

/// Card, field, and the field's range in `one_of_each`.
const RANGES: [(usize, usize, u32, u32); 22] = [
    (0, 1, 1, 60_000),
    (0, 2, 0, TOP),
    (0, 3, 1, 100_000),
    (1, 1, 0, 4_095),
    (1, 2, 0, 4_095),
    (4, 1, 1, 500_000),
    (4, 2, 1, 500_000),
    (4, 3, 1, 5_000),
    (5, 1, 1, 3),
    (5, 4, 1, 1),
    (5, 5, 1, 4_000),
    (6, 1, 1, 1),
    (6, 2, 1, 5_000_000),
    (7, 2, 1, 100_000),
    (7, 3, 0, TOP),
    (8, 1, 1, 1),
    (8, 2, 2, 3),
    (8, 3, 1, 100_000),
    (8, 4, 0, TOP),
    (8, 5, 1, 4_000),
    (9, 1, 1, 3),
    (9, 2, 0, TOP),
];

/// Each field at the ends of its range, and past them.
fn edges(record: &mut Record) {
    for (card, field, least, most) in RANGES {
        for value in [least.saturating_sub(1), least, most, most + 1] {
            let mut table = Groups::one_of_each().table();
            table[6 * card + field] = value;
            record.deck(&text_of(&table));
        }
    }
    record.back();
}

fn any_byte(chance: &mut Chance) -> u8 {
    match chance.within(0, 2) {
        0 => chance.bits() as u8,
        _ => chance.pick(b"0123456789 \nDNMEVHFGRTCZ"),
    }
}

/// Just at a bound that is worked out, and just past it: u and each pair of 4,000,000, a first and a last pivot of 16.
fn limits(record: &mut Record) {
    let mut groups = Groups::base();
    (groups.d[0], groups.elements[0][4]) = (1, 1);
    for nodes in [
        [[0, 0], [4_000, 0], [0, 4_000]],
        [[0, 0], [4_001, 999], [4, 4_000]],
    ] {
        groups.nodes = nodes.to_vec();
        tried(record, &groups);
    }
    groups = Groups::base();
    for (long, k, thickness) in [(4, 500_000, 4_000), (5, 487_805, 3_280)] {
        groups.nodes = vec![[0, 0], [1, 0], [0, long]];
        groups.materials = vec![[k, 1, 1]];
        for [i, j, k] in [[1, 2, 3], [2, 3, 1], [3, 1, 2]] {
            groups.elements = vec![[i, j, k, 1, thickness]];
            tried(record, &groups);
        }
    }
    groups = Groups::base();
    groups.d[0] = 60_000;
    groups.materials = vec![[1, 1, 403]];
    tried(record, &groups);
    groups.nodes.swap(0, 1);
    tried(record, &groups);
    groups.materials = vec![[10, 10, 375]];
    tried(record, &groups);
}

/// With some longest sides the largest triangle that is thin and the least that is not, in every order of the corners. A deck that
/// is refused leaves the one before it, which has no thin triangle, so that no replacement meets one here.
fn thin(record: &mut Record) {
    for side in &SIDES[..4] {
        let (thin, fair) = about_thin(*side);
        for points in thin.into_iter().chain([fair]).flat_map(turned) {
            tried(record, &Groups::narrow(points));
            record.replace(7, [E, 1, 2, 3, 2, 3_000]);
        }
    }
}

/// The old deck goes on stepping under each. First the newline of Z, a letter and a range, then by chance.
fn damaged_decks(record: &mut Record) {
    record.deck(&small());
    for (at, byte) in [(small().len() - 1, b' '), (42, b'M'), (4, b'9')] {
        let mut bytes = small();
        bytes[at] = byte;
        record.deck(&bytes);
    }
    for _ in 0..40 {
        let mut bytes = small();
        let chance = &mut record.chance;
        let at = chance.index(bytes.len());
        bytes[at] = any_byte(chance);
        record.deck(&bytes);
        record.steps(1);
    }
    record.back();
}

fn random_bytes(record: &mut Record) {
    for length in [
        1, 41, 42, 43, 84, 420, 3_000, 4_096, 4_097, 20_000, 65_536, 65_537,
    ] {
        let chance = &mut record.chance;
        let mut bytes: Vec<u8> = (0..length).map(|_| any_byte(chance)).collect();
        record.deck(&bytes);
        // The same with a trailer that can be followed.
        if length >= 420 {
            let trailer = format!("Z{:8}{:8}{:8}{:8}{:8}\n", 294, 3, 1, 1, 1);
            bytes[length - 42..].copy_from_slice(trailer.as_bytes());
            record.deck(&bytes);
        }
    }
    record.steps(1);
}

/// A deck behind so many notes that it is just not too long, too long by one, and by far.
fn lengths(record: &mut Record) {
    let deck = small();
    for length in [
        MAX_BYTES - 1,
        MAX_BYTES,
        MAX_BYTES + 1,
        MAX_BYTES + 42,
        200_000,
    ] {
        let mut bytes = vec![b'.'; length - deck.len()];
        bytes.extend(&deck);
        record.deck(&bytes);
        record.steps(1);
    }
    record.back();
}

/// What is no count of numbers, or past 32 bits.
fn nonsense(record: &mut Record) {
    for line in [
        "steps",
        "steps 0",
        "steps 100001",
        "steps 1 1",
        "steps -1",
        "steps 1.5",
        "steps one",
        "steps 4294967297",
        "steps 18446744073709551617",
        "replace",
        "replace 8 70 1 480 19660800 0",
        "replace 8 70 1 480 19660800 0 0 0",
        "replace 8 70 1 480 19660800 0 4294967296",
        "replace 8 F 1 480 19660800 0 0",
        "replace 8 70  1 480 19660800 0 0",
    ] {
        record.nonsense(line);
    }
    record.nonsense(&format!("steps {}", "1".repeat(4_000)));
    record.replace(8, [F, 1, 481, TOP, 0, 0]);
    record.steps(3);
}

/// Whatever the seed, it is no test where hardly anything was accepted, or where a kind of refusal is not met.
fn enough(record: &Record) {
    let [decks, replacements, steps] = record.met;
    assert!(decks[0] >= 15 && replacements[0] >= 60 && steps[0] >= 150);
    assert!((1..=8).chain([14]).all(|number| decks[number] > 0));
    assert!([3, 4, 6, 7, 8, 13]
        .iter()
        .all(|&number| replacements[number] > 0));
    assert!([1, 8, 11].iter().all(|&number| steps[number] > 0));
    for met in [record.edges, record.solids] {
        assert!([0, 4, 13].iter().all(|&number| met[number] > 0));
    }
}

/// The differential test's cases of own and foreign buffers.
pub fn lent(trial: &mut Trial) {
    for (_, part) in LENT {
        part(trial);
    }
    let met = trial.met;
    assert!(met.iter().all(|met| met[0] >= 5 && met[9] > 0));
    let [.., replace, step] = met;
    assert!([7, 8, 10, 13, 14, 17]
        .iter()
        .all(|&number| replace[number] > 0));
    assert!([8, 10, 11, 12, 17].iter().all(|&number| step[number] > 0));
    let unmet = trial.things.unmet();
    assert!(unmet.is_empty(), "not met: {unmet:?}");
}
