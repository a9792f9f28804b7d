//! Request [8]: rows without their leading zeros, against the packed form and by its words.

mod common;

use common::*;
use reference::{Answer, Ran, Refusal, Stepped};

/// A deck of any kind, numbered well or ill.
fn any_deck(chance: &mut Chance) -> Vec<u32> {
    let groups = match chance.within(0, 12) {
        0 => Groups::slivers(chance),
        1 | 2 => Groups::wild(chance),
        3 => Groups::needles(chance),
        4 => Groups::wild_of(chance, true),
        5 => {
            let (columns, rows) = (chance.within(2, 3), chance.within(2, 3));
            Groups::block(chance, columns, rows, 2)
        }
        6 => {
            let nodes = chance.within(4, 16);
            return Groups::fan(chance, nodes).table();
        }
        7 => {
            let nodes = chance.within(3, 12);
            let order: Vec<u32> = (1..=nodes).collect();
            let low = chance.index(order.len() - 2);
            let corners = [order[low], order[low + 1], nodes];
            return Groups::lone(nodes, corners, chance.one_in(2)).table();
        }
        8 => {
            let long = chance.within(4, 8);
            return Groups::strip(chance, long, 2).table();
        }
        _ => {
            let (columns, rows) = (chance.within(2, 5), chance.within(2, 5));
            Groups::sheet(chance, columns, rows)
        }
    };
    match chance.one_in(2) {
        true => groups.shuffled(chance).table(),
        false => groups.table(),
    }
}

/// Own buffers bent, or foreign ones, where the deck has none of its own.
fn lend(chance: &mut Chance, table: Vec<u32>) -> KeptLent {
    let mut lent = KeptLent::new(table);
    let n = nodes_of(&lent.table);
    let firsts = firsts(&lent.table);
    if lent.build() != Answer::Done {
        lent = KeptLent::of(&Lent::new(lent.table));
        let most = chance.pick(&[
            10,
            1_000,
            100_000,
            (1 << 33) / n as i64,
            (3 << 32) / n as i64,
        ]);
        let shift = chance.within(0, 24);
        let length = kept_of(&lent.table);
        for at in 0..length {
            lent.p[at] = chance.bits() as i64 % (most + 1);
            lent.a[at] = chance.bits() as i64 % (most + 1);
            lent.factor[at] = (chance.bits() as i64 % ((1 << 24) + 1)) >> shift;
        }
        let shift = chance.within(0, 34);
        for row in 0..n {
            let at = kept_place(&lent.table, row, row);
            lent.factor[at] = 16 + (chance.bits() >> 27 >> shift) as i64;
        }
    } else if chance.one_in(2) {
        let bend = i64::from(chance.pick(&[1, 2, 3, 5, 10, 30, 100]));
        for row in 0..n {
            let at = kept_place(&lent.table, row, row);
            lent.factor[at] += lent.factor[at] * bend / 100;
        }
        let row = chance.index(n);
        let at = kept_place(&lent.table, row, firsts[row]);
        lent.a[at] += i64::from(chance.within(0, 2_000)) - 1_000;
        lent.p[at] -= i64::from(chance.within(0, 2_000)) - 1_000;
    }
    lent.work.fill(MARK);
    lent.carried[..n].copy_from_slice(&chance.residuals(n));
    lent
}

/// A build over the two forms: the same answer, and read back by row and column the same numbers.
#[test]
fn builds() {
    let mut chance = Chance::seeded(21);
    let (mut met, mut left_out) = ([0; NUMBERS], 0);
    for _ in 0..3_000 {
        let before = KeptLent::new(any_deck(&mut chance));
        let mut lent = before.clone();
        let mut packed = Lent::new(before.table.clone());
        let answer = lent.build();
        assert_eq!(packed.build(), answer);
        met[(answer.packed() & 255) as usize] += 1;
        let worked = [0, 7, 8].contains(&(answer.packed() & 255));
        let mut expected = before.clone();
        if worked {
            expected.work[..kept_of(&before.table)].fill(0);
        }
        if answer == Answer::Done {
            let of = KeptLent::of(&packed);
            (expected.p, expected.a, expected.factor) = (of.p, of.a, of.factor);
            expected.starts = of.starts;
            // Nothing that is left out is another than zero.
            assert_eq!(lent.packed(), packed);
            left_out += usize::from(lent.p.len() < packed.p.len());
        }
        assert_eq!(lent, expected);
    }
    let enough = [0, 5, 6, 7, 8, 14].iter().all(|&number| met[number] > 20);
    assert!(enough && left_out > 500, "{met:?} {left_out}");
}

#[test]
fn replacements() {
    let mut chance = Chance::seeded(22);
    let mut met = [[0; NUMBERS]; 2];
    for _ in 0..6_000 {
        let table = any_deck(&mut chance);
        let before = lend(&mut chance, table);
        let table = &before.table;
        let trailer = table.len() / 6 - 1;
        let first = 1 + (table[6 * trailer + 2] + table[6 * trailer + 3]) as usize;
        let index = first + chance.index(trailer - first);
        let mut new: [u32; 6] = table[6 * index..6 * index + 6].try_into().unwrap();
        match new[0] {
            E => {
                (new[4], new[5]) = (
                    chance.within(1, table[6 * trailer + 3]),
                    chance.within(1, 4_000),
                )
            }
            V => new[5] = chance.within(1, table[6 * trailer + 3]),
            F => new[2] = chance.within(1, 100_000),
            G => (new[3], new[5]) = (chance.within(1, 100_000), chance.within(1, 4_000)),
            _ => new[2] = chance.within(1, 1_000_000),
        }
        let (mut lent, mut packed) = (before.clone(), before.packed());
        let answer = lent.replace(index as u32 + 1, new);
        assert_eq!(packed.replace(index as u32 + 1, new), answer);
        assert_eq!(lent.packed(), packed);
        assert_eq!(lent.starts, before.starts);
        met[usize::from(new[0] == V)][(answer.packed() & 255) as usize] += 1;
    }
    let enough = |met: &[u32; NUMBERS]| [0, 5, 6, 7, 8, 10].iter().all(|&number| met[number] > 10);
    assert!(met.iter().all(enough), "{met:?}");
}

#[test]
fn steps() {
    let mut chance = Chance::seeded(23);
    let (mut met, mut corrected) = ([0; NUMBERS], [0; 5]);
    for _ in 0..4_000 {
        let table = any_deck(&mut chance);
        let mut before = lend(&mut chance, table);
        let n = nodes_of(&before.table);
        let spread = chance.pick(&[0, 10, 1_000, 1_000_000]);
        for t in &mut before.temperatures[..n] {
            *t = (*t + i64::from(chance.within(0, spread))).min(i64::from(TOP));
        }
        let (mut lent, mut packed) = (before.clone(), before.packed());
        let answer = lent.step();
        assert_eq!(packed.step(), answer);
        assert_eq!(lent.packed(), packed);
        assert_eq!(lent.starts, before.starts);
        match answer {
            Stepped::Settled(corrections) => corrected[corrections as usize] += 1,
            Stepped::Refused(refusal) => met[usize::from(refusal.number)] += 1,
        }
        let (mut lent, mut packed) = (before.clone(), before.packed());
        assert_eq!(lent.run(), packed.run());
        assert_eq!(lent.packed(), packed);
    }
    assert!(
        corrected[1..].iter().all(|&times| times > 20),
        "{corrected:?}"
    );
    assert!(
        [8, 10, 11, 12].iter().all(|&number| met[number] > 20),
        "{met:?}"
    );
}

/// By hand. Nodes 2, 3 and 4 of one triangle, node 4 and node 6 of an edge, node 5 alone; node 1 is coupled by nothing.
#[test]
fn starts_by_hand() {
    let mut groups = Groups::lone(6, [4, 2, 3], false);
    groups.edges.push([4, 6, 60_000, 19_660_000, 4_000]);
    let lent = KeptLent::built(groups.table());
    // Rows of 1, 1, 2, 3, 1 and 3 numbers.
    assert_eq!(lent.starts[..6], [0, 1, 2, 4, 7, 8]);
    assert_eq!(lent.starts[6..], [NO_START; EXTRA]);
    assert_eq!(lent.p.len() - EXTRA, 11);
    // P is 2u on the diagonal and u off it, u being 2,500; row 6 has an edge alone.
    let u = 2_500;
    assert_eq!(lent.p[..11], [0, 2 * u, u, 2 * u, u, u, 2 * u, 0, 0, 0, 0]);
    assert_eq!(lent.p[11..], [MARK; EXTRA]);
}

/// A held node couples as any other, an edge alone does, and so does an element of no area, which only a step takes.
#[test]
fn what_couples() {
    let rows = |groups: &Groups| starts_of(&groups.table());
    let mut groups = Groups::lone(5, [1, 3, 5], false);
    assert_eq!(rows(&groups), [0, 1, 2, 5, 6]);
    groups.fixed.push([1, 9]);
    groups.fixed.sort_unstable();
    let held = KeptLent::built(groups.table());
    assert_eq!(held.starts[..5], [0, 1, 2, 5, 6]);
    groups.edges.push([2, 4, 9, 9, 9]);
    let edged = KeptLent::built(groups.table());
    assert_eq!(edged.starts[..5], [0, 1, 2, 5, 8]);
    groups.elements.push([2, 2, 4, 1, 9]);
    groups.edges.clear();
    let mut flat = KeptLent {
        table: groups.table(),
        ..edged
    };
    let (mut temperatures, mut carried) = (vec![9; 5], vec![0; 5]);
    temperatures.swap_with_slice(&mut flat.temperatures[..5]);
    carried.swap_with_slice(&mut flat.carried[..5]);
    assert_ne!(flat.step(), step_refused(17, 4));
    flat.starts[4] = 6;
    assert_eq!(flat.step(), step_refused(17, 5));
}

/// No row leaves a number out: the two forms are the same slices.
#[test]
fn full_rows() {
    let mut chance = Chance::seeded(24);
    for nodes in [4, 9, 20] {
        let table = Groups::fan(&mut chance, nodes).table();
        let (mut lent, mut packed) = (KeptLent::new(table.clone()), Lent::new(table));
        assert_eq!(lent.build(), packed.build());
        assert_eq!(
            (lent.p, lent.a, lent.factor, lent.work),
            (packed.p, packed.a, packed.factor, packed.work)
        );
        let n = nodes as usize;
        let right: Vec<u32> = (0..n).map(|row| triangle(row) as u32).collect();
        assert_eq!(lent.starts[..n], right);
    }
}

/// Each card of one deck from its first element on, put in its own place.
fn same(table: &[u32]) -> Vec<(u32, [u32; 6])> {
    let trailer = table.len() / 6 - 1;
    let first = 1 + (table[6 * trailer + 2] + table[6 * trailer + 3]) as usize;
    let card = |row: usize| {
        (
            row as u32 + 1,
            table[6 * row..6 * row + 6].try_into().unwrap(),
        )
    };
    (first..trailer).map(card).collect()
}

/// Decks with a card of every kind.
fn of_every_kind() -> [KeptLent; 2] {
    [Groups::one_of_each(), Groups::one_of_each_solid()].map(|mut groups| {
        // A node in front that nothing couples.
        let order: Vec<u32> = (2..=groups.nodes.len() as u32 + 1).chain([1]).collect();
        groups.nodes.push([7, 7]);
        groups.fixed.push([groups.nodes.len() as u32, 9]);
        let mut lent = KeptLent::built(groups.numbered(&order).table());
        lent.work.fill(MARK);
        lent
    })
}

/// 9: each slice one too short, and long enough; before 17, and before 10.
#[test]
fn short() {
    for whole in of_every_kind() {
        let (n, length) = (nodes_of(&whole.table), kept_of(&whole.table));
        let cut = |which: usize, less: usize| {
            let mut lent = whole.clone();
            match which {
                0 => lent.p.truncate(length - less),
                1 => lent.a.truncate(length - less),
                2 => lent.factor.truncate(length - less),
                3 => lent.work.truncate(length - less),
                4 => lent.starts.truncate(n - less),
                5 => lent.temperatures.truncate(n - less),
                _ => lent.carried.truncate(n - less),
            }
            lent
        };
        for which in 0..7 {
            let mut lent = cut(which, 0);
            assert_eq!(lent.build(), Answer::Done);
            assert_ne!(lent.step(), step_refused(9, 0));
            for spoilt in [false, true] {
                let mut short = cut(which, 1);
                if spoilt {
                    short.starts[0] = 1;
                    short.factor[0] = 0;
                }
                let before = short.clone();
                if which < 5 {
                    assert_eq!(short.build(), refused(9, 0));
                    for (card, new) in same(&whole.table) {
                        assert_eq!(short.replace(card, new), refused(9, 0));
                    }
                }
                if which != 3 {
                    assert_eq!(short.step(), step_refused(9, 0));
                    let refusal = Refusal {
                        number: 9,
                        place: 0,
                    };
                    assert_eq!(short.run(), Ran::Refused(refusal));
                }
                assert_eq!(short, before);
            }
        }
    }
}

/// 17: a start of each row another, or of some rows, the first of them named; after 13, 4 and 9, before 10, and nothing is written.
#[test]
fn stray() {
    for whole in of_every_kind() {
        let n = nodes_of(&whole.table);
        for row in 0..n {
            for wrong in [1, u32::MAX, 1 << 31, 7] {
                let mut lent = whole.clone();
                lent.starts[row] = lent.starts[row].wrapping_add(wrong);
                for also in [row, n - 1] {
                    lent.starts[also] ^= 1 << 30;
                    // 10 of each of the lent, and 11.
                    for spoilt in 0..5 {
                        let mut lent = lent.clone();
                        match spoilt {
                            0 => lent.p[0] = i64::MAX,
                            1 => lent.a[0] = i64::MAX,
                            2 => lent.factor[0] = 15,
                            3 => (lent.carried[0], lent.temperatures[0]) = (i64::MIN, -1),
                            _ => {}
                        }
                        let before = lent.clone();
                        let place = row as u32 + 1;
                        assert_eq!(lent.step(), step_refused(17, place));
                        assert_eq!(lent.run(), Ran::Refused(Refusal { number: 17, place }));
                        for (card, new) in same(&whole.table) {
                            assert_eq!(lent.replace(card, new), refused(17, place));
                            assert_eq!(lent.replace(card + 1, new), refused(13, card + 1));
                        }
                        assert_eq!(lent, before);
                        // A build never judges what they held.
                        assert_eq!(lent.build(), Answer::Done);
                        assert_eq!(lent.starts, whole.starts);
                    }
                }
            }
        }
        // What lies past the starts doesn't matter.
        let mut lent = whole.clone();
        lent.starts[n] = 0;
        assert!(matches!(lent.step(), Stepped::Settled(_)));
    }
}

/// A refused build leaves the starts.
#[test]
fn starts_on_acceptance_alone() {
    let mut thin = Groups::base();
    thin.nodes[2] = [101, 1];
    let mut flat = Groups::base();
    flat.nodes[2] = [200, 0];
    let mut slow = Groups::base();
    (slow.materials[0][2], slow.d[0]) = (1, 60_000);
    for (groups, number) in [(thin, 14), (flat, 5), (slow, 7), (Groups::leaning(), 8)] {
        let mut lent = KeptLent::new(groups.table());
        let answer = lent.build().packed();
        assert_eq!(answer & 255, number);
        assert!(lent.starts.iter().all(|&start| start == NO_START));
    }
}

/// Replacements in sequences leave what a fresh build makes.
#[test]
fn sequences() {
    let mut chance = Chance::seeded(25);
    for round in 0..60 {
        let groups = match round % 3 {
            0 => Groups::block(&mut chance, 3, 2, 2),
            1 => Groups::strip(&mut chance, 8, 3),
            _ => Groups::sheet(&mut chance, 5, 4),
        };
        let groups = match chance.one_in(2) {
            true => groups.shuffled(&mut chance),
            false => groups,
        };
        let mut lent = KeptLent::built(groups.table());
        let cards = same(&lent.table);
        for _ in 0..40 {
            let (card, mut new) = chance.pick(&cards);
            let at = 6 * (card as usize - 1);
            new.copy_from_slice(&lent.table[at..at + 6]);
            match new[0] {
                E => new[5] = chance.within(1, 4_000),
                V => new[5] = chance.within(1, groups.materials.len() as u32),
                F => new[2] = chance.within(1, 100_000),
                G => new[3] = chance.within(1, 100_000),
                _ => new[2] = chance.within(1, 1_000),
            }
            let before = lent.clone();
            let answer = lent.replace(card, new);
            let mut table = before.table.clone();
            table[at..at + 6].copy_from_slice(&new);
            let mut fresh = KeptLent::new(table);
            assert_eq!(fresh.build(), answer);
            let right = if answer == Answer::Done {
                fresh
            } else {
                before
            };
            assert_eq!(lent, right);
        }
    }
}

/// Slices of any length, starts of any numbers and numbers of any size: a refusal writes nothing but a work slice, and nothing panics.
#[test]
fn any_slices() {
    let mut chance = Chance::seeded(26);
    let mut met = [0; NUMBERS];
    for _ in 0..10_000 {
        let table = any_deck(&mut chance);
        let mut before = lend(&mut chance, table);
        for _ in 0..chance.within(0, 3) {
            let start = chance.unsigned();
            match chance.within(0, 8) {
                0 => before.p = (0..chance.index(40)).map(|_| chance.signed()).collect(),
                1 => before.a = (0..chance.index(40)).map(|_| chance.signed()).collect(),
                2 => before.factor = (0..chance.index(40)).map(|_| chance.signed()).collect(),
                3 => before.work.truncate(chance.index(40)),
                4 => before.starts.truncate(chance.index(12)),
                5 if !before.starts.is_empty() => {
                    let at = chance.index(before.starts.len());
                    before.starts[at] = start;
                }
                6 => before.temperatures.truncate(chance.index(12)),
                7 => before.carried.truncate(chance.index(12)),
                _ => {
                    let at = chance.index(before.table.len());
                    before.table[at] = start;
                }
            }
        }
        let (card, mut new) = (chance.within(0, before.table.len() as u32 / 6 + 1), [0; 6]);
        let at = 6 * (card as usize).saturating_sub(1);
        if let Some(old) = before.table.get(at..at + 6) {
            new.copy_from_slice(old);
        }
        let mut lent = before.clone();
        let answer = lent.build().packed() & 255;
        met[answer as usize] += 1;
        lent.work.clone_from(&before.work);
        assert!(answer == 0 || lent == before);
        let mut lent = before.clone();
        let answer = lent.replace(card, new).packed() & 255;
        met[answer as usize] += 1;
        lent.work.clone_from(&before.work);
        assert!(answer == 0 || lent == before);
        let mut lent = before.clone();
        let answer = lent.step().packed() & 255;
        met[answer as usize] += 1;
        assert!(answer == 0 || lent == before);
    }
    let enough = (2..15).chain([17]).all(|number| met[number] > 0);
    assert!(enough, "{met:?}");
}
