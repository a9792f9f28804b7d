//! The carried residuals: what a step adds of them, leaves of them and refuses, and the heat book that they keep.

mod common;

use common::*;
use reference::{loss, Ran, Refusal, Stepped};

fn heated(microwatts: u32) -> Groups {
    let mut groups = Groups::base();
    groups.heats.push([1, microwatts]);
    groups
}

/// The first n numbers of a slice, and the marks past them, which stay.
fn first(slice: &[i64], n: usize) -> &[i64] {
    assert_eq!(slice[n..], [MARK; EXTRA]);
    &slice[..n]
}

// ---- the checked numbers

/// By hand: a step brings 65,536 to each node, and a tick takes 10,000. So 7 ticks and -4,464; then 6 and 1,072; then 7.
#[test]
fn p6_leaves_its_residuals() {
    let mut lent = Lent::built(heated(3).table());
    for (ticks, residual) in [(7, -4_464), (13, 1_072), (20, -3_392), (26, 2_144)] {
        assert_eq!(lent.step(), Stepped::Settled(1));
        assert_eq!(first(&lent.temperatures, 3), [19_660_800 + ticks; 3]);
        assert_eq!(first(&lent.carried, 3), [residual; 3]);
    }
    // Forgotten, it is 7 ticks each time.
    let mut lent = Lent::built(heated(3).table());
    for steps in 1..=4 {
        lent.carried[..3].fill(0);
        assert_eq!(lent.step(), Stepped::Settled(1));
        assert_eq!(first(&lent.temperatures, 3), [19_660_800 + 7 * steps; 3]);
    }
}

#[test]
fn p7_leaves_none() {
    let mut lent = Lent::built(Groups::base().table());
    for _ in 0..3 {
        assert_eq!(lent.step(), Stepped::Settled(1));
        assert_eq!(first(&lent.temperatures, 3), [19_660_800; 3]);
        assert_eq!(first(&lent.carried, 3), [0; 3]);
    }
}

/// A fifth of a tick a step: alone no step moves anything.
#[test]
fn a_slow_warming_comes_about() {
    let mut groups = heated(1);
    groups.d = [100, 19_660_800, 1_000];
    let mut lent = Lent::built(groups.table());
    assert_eq!(lent.run(), Ran::Done(1_000));
    let risen = 65_536 * 1_000 / (3 * 100_000);
    for ticks in first(&lent.temperatures, 3) {
        assert!((ticks - 19_660_800 - risen).abs() <= 1);
    }
    let mut lent = Lent::built(groups.table());
    for _ in 0..1_000 {
        lent.carried[..3].fill(0);
        assert_eq!(lent.step(), Stepped::Settled(1));
    }
    assert_eq!(first(&lent.temperatures, 3), [19_660_800; 3]);
}

// ---- what is added, and what is left

/// Each free node's residual counts to a unit, as its load does; a held node's doesn't at all.
#[test]
fn added_at_free_nodes_alone() {
    let mut chance = Chance::seeded(20);
    for _ in 0..2_000 {
        let [c1, c2, c3, held] = [0; 4].map(|_| (chance.bits() as i64) >> chance.within(30, 63));
        for (more, risen) in [(0, 1), (1, 0)] {
            let loads = [21_846 + c1, 21_845 + c2, 21_845 + c3];
            let mut it = Scales::new([1, 2, 3], 1, loads.map(|load| load + more));
            it.carried = vec![c1, c2, c3, held];
            let (temperatures, carried) = (&mut it.temperatures, &mut it.carried);
            assert_eq!(
                reference::step(&it.table, &it.p, &it.a, &it.factor, temperatures, carried),
                Stepped::Settled(1)
            );
            let warm = Scales::WARM + risen;
            assert_eq!(it.temperatures, [warm, warm, warm, 1]);
            let left = 8 - more - 16 * risen;
            assert_eq!(it.carried, [left, left, left, 0]);
        }
    }
}

/// A held node's residual is not added to its neighbours' either, and is 0 after the step, whatever it was.
#[test]
fn held_nodes() {
    let mut groups = Groups::base();
    groups.fixed.push([2, 19_000_000]);
    let plain = {
        let mut lent = Lent::built(groups.table());
        assert!(matches!(lent.step(), Stepped::Settled(_)));
        lent
    };
    assert_eq!(plain.carried[1], 0);
    assert!(plain.carried[0] != 0 && plain.carried[2] != 0);
    for residual in [1, -1, 12_345, MOST_CARRIED, -MOST_CARRIED] {
        let mut lent = Lent::built(groups.table());
        lent.carried[1] = residual;
        assert!(matches!(lent.step(), Stepped::Settled(_)));
        assert_eq!(lent, plain);
    }
    // Settled a tick off its card, as a foreign factor lets it, it leaves 0 too and not the 2^20.
    groups.fixed[0][1] = 19_660_801;
    let mut lent = Lent::built(groups.table());
    lent.factor[2] = 1 << 38;
    assert!(matches!(lent.step(), Stepped::Settled(_)));
    assert_eq!((lent.temperatures[1], lent.carried[1]), (19_660_800, 0));
}

/// Numbers past the n stay, and are not judged; a slice of just n is enough.
#[test]
fn past_the_nodes() {
    let mut lent = Lent::built(heated(3).table());
    lent.carried.truncate(3);
    assert_eq!(lent.step(), Stepped::Settled(1));
    assert_eq!(lent.carried, [-4_464; 3]);
    lent.carried.extend([i64::MIN, i64::MAX, MOST_CARRIED + 1]);
    assert_eq!(lent.step(), Stepped::Settled(1));
    let past = [i64::MIN, i64::MAX, MOST_CARRIED + 1];
    assert_eq!(lent.carried[3..], past);
    assert_eq!(lent.run(), Ran::Done(1));
    assert_eq!(lent.carried[3..], past);
}

// ---- refusals

fn refuses(before: &Lent, number: u8, place: u32) {
    let mut lent = before.clone();
    assert_eq!(lent.step(), step_refused(number, place));
    assert_eq!(lent.run(), Ran::Refused(Refusal { number, place }));
    assert_eq!(lent, *before);
}

/// 2^33 passes by either sign and one more does not, at every node, held or not.
#[test]
fn the_bound_of_10() {
    let mut groups = heated(3);
    groups.nodes.push([100, 100]);
    groups.elements.push([2, 4, 3, 1, 1_000]);
    groups.fixed.push([4, 19_660_800]);
    let own = Lent::built(groups.table());
    for node in 0..4 {
        for sign in [1, -1] {
            let mut lent = own.clone();
            lent.carried[node] = sign * MOST_CARRIED;
            // So much heat at a free node takes it off the scale, or is settled: it is no 10.
            let answer = lent.step();
            assert_ne!(answer, step_refused(10, 0));
            assert_eq!(matches!(answer, Stepped::Settled(_)), lent != own);
            lent = own.clone();
            lent.carried[node] = sign * (MOST_CARRIED + 1);
            refuses(&lent, 10, 0);
        }
        for wrong in [i64::MIN, i64::MIN + 1, i64::MAX] {
            let mut lent = own.clone();
            lent.carried[node] = wrong;
            refuses(&lent, 10, 0);
        }
    }
    // At a node that stores so much that 2^33 is a few ticks, it is accepted.
    let mut groups = heated(3);
    (groups.d[0], groups.elements[0][4], groups.materials[0][2]) = (1, 4_000, 960);
    let own = Lent::built(groups.table());
    for sign in [1, -1] {
        let mut lent = own.clone();
        lent.carried[..3].fill(sign * MOST_CARRIED);
        assert_eq!(lent.step(), Stepped::Settled(1));
        let ticks = sign * MOST_CARRIED / 16_000_000;
        let risen = lent.temperatures[0] - 19_660_800;
        assert!((risen - ticks).abs() <= 1);
    }
}

/// The deck, 9, 10, 11: each before the next.
#[test]
fn the_order() {
    let own = Lent::built(heated(3).table());
    for length in 0..3 {
        let mut lent = own.clone();
        lent.carried.truncate(length);
        refuses(&lent, 9, 0);
        lent.carried.fill(i64::MIN);
        lent.p[0] = i64::MIN;
        lent.temperatures[0] = -1;
        refuses(&lent, 9, 0);
        lent.table[0] = 0;
        refuses(&lent, 3, 1);
    }
    let mut lent = own.clone();
    lent.temperatures[1] = -1;
    refuses(&lent, 11, 2);
    lent.carried[2] = MOST_CARRIED + 1;
    refuses(&lent, 10, 0);
}

/// 8, 11 and 12 of a step's own work leave the residuals too.
#[test]
fn refused_work_leaves_them() {
    let carried = [4_464, -1, MOST_CARRIED];
    let with = |groups: &Groups, factor: [i64; 6]| {
        let mut lent = Lent::built(groups.table());
        lent.carried[..3].copy_from_slice(&carried);
        lent.factor[..6].copy_from_slice(&factor);
        lent
    };
    let mut hot = heated(5_000_000);
    refuses(&with(&hot, [16, 0, 16, 0, 0, 16]), 8, 3);
    refuses(&with(&hot, [1 << 38, 0, 1 << 38, 0, 0, 1 << 38]), 12, 1);
    hot.d[1] = TOP - 6;
    hot.heats[0][1] = 3;
    let mut warm = Lent::built(hot.table());
    warm.carried[..3].fill(1_000);
    refuses(&warm, 11, 1);
}

// ---- the book

/// The sum of P·T over all nodes, and of the carried residuals.
fn book(lent: &Lent) -> i128 {
    let n = nodes_of(&lent.table);
    let mut sum = 0;
    for i in 0..n {
        for j in 0..n {
            let at = triangle(i.max(j)) + i.min(j);
            sum += i128::from(lent.p[at]) * i128::from(lent.temperatures[j]);
        }
        sum += i128::from(lent.carried[i]);
    }
    sum
}

/// What a step's loads sum to: all of the heat.
fn loads(table: &[u32]) -> i128 {
    let heats = table.chunks(6).filter(|card| card[0] == H);
    heats.map(|card| 65_536 * i128::from(card[2])).sum()
}

/// What all corners lose by the R cards, by the temperatures before a step.
fn radiated(table: &[u32], temperatures: &[i64]) -> i128 {
    let cards: Vec<&[u32]> = table.chunks_exact(6).collect();
    let trailer = cards[cards.len() - 1];
    let (nodes, materials) = (trailer[2] as usize, trailer[3] as usize);
    let each = |card: &&[u32]| {
        let triangle = cards[nodes + materials + card[1] as usize];
        let corners = [1, 2, 3].map(|field| triangle[field] as usize);
        let [[ax, ay], [bx, by], [cx, cy]] =
            corners.map(|node| [1, 2].map(|axis| i64::from(cards[node][axis])));
        let doubled = (bx - ax) * (cy - ay) - (cx - ax) * (by - ay);
        let sum: i64 = corners.iter().map(|&node| temperatures[node - 1]).sum();
        let emissivity = cards[nodes + triangle[4] as usize][5];
        3 * i128::from(loss(
            emissivity,
            doubled.unsigned_abs(),
            sum as u64,
            card[2],
        ))
    };
    cards.iter().filter(|card| card[0] == R).map(each).sum()
}

/// Without F, G and T, and with heats that leave the plate on the scale.
fn closed(chance: &mut Chance, mut groups: Groups) -> Vec<u32> {
    (groups.films, groups.edges, groups.fixed) = (vec![], vec![], vec![]);
    let most = chance.pick(&[1, 30, 1_000]);
    for heat in &mut groups.heats {
        heat[1] = chance.within(1, most);
    }
    groups.table()
}

/// From temperatures and residuals of many sizes, after every step, of flat decks and of solid ones.
#[test]
fn the_book_is_exact() {
    let mut chance = Chance::seeded(21);
    let (mut kept, mut drifted, mut radiates) = (0, 0, 0);
    for round in 0..120 {
        let mut groups = match round % 4 {
            0 => Groups::block(&mut chance, 2, 2, 2),
            1 => Groups::block(&mut chance, 3, 2, 2),
            _ => {
                let (columns, rows) = (chance.within(2, 6), chance.within(2, 5));
                Groups::sheet(&mut chance, columns, rows)
            }
        };
        groups.dock(&mut chance);
        let table = closed(&mut chance, groups);
        let n = nodes_of(&table);
        let mut lent = Lent::built(table);
        for t in &mut lent.temperatures[..n] {
            *t += i64::from(chance.within(0, 1_000_000));
        }
        for residual in &mut lent.carried[..n] {
            *residual = (chance.bits() as i64) >> chance.within(40, 63);
        }
        let (start, each) = (book(&lent), loads(&lent.table));
        let mut forgetful = lent.clone();
        let mut fallen = 0;
        for _ in 1..=200 {
            let falls = each - radiated(&lent.table, &lent.temperatures);
            if !matches!(lent.step(), Stepped::Settled(_)) {
                break;
            }
            fallen += falls;
            radiates += u32::from(falls != each);
            assert_eq!(book(&lent), start + fallen);
            kept += 1;
            // The same with the residuals forgotten goes astray.
            forgetful.carried[..n].fill(0);
            forgetful.step();
            drifted += u32::from(book(&forgetful) != start + fallen);
        }
    }
    assert!(
        kept > 15_000 && drifted > 15_000 && radiates > 5_000,
        "{kept} {drifted} {radiates}"
    );
}

/// A refused step counts as none: the book goes on from where it stood.
#[test]
fn a_refused_step_counts_as_none() {
    let mut lent = Lent::built(heated(3).table());
    let (start, each) = (book(&lent), loads(&lent.table));
    for steps in 1..=50 {
        let before = lent.clone();
        lent.factor[0] = 15;
        assert_eq!(lent.step(), step_refused(10, 0));
        lent.factor[0] = before.factor[0];
        assert_eq!(lent, before);
        assert_eq!(lent.step(), Stepped::Settled(1));
        assert_eq!(book(&lent), start + steps * each);
    }
}

/// A film, an edge or a held node brings or takes what no heat does: the book is of decks without them.
#[test]
fn the_book_is_of_heat_alone() {
    for groups in [0, 1, 2].map(|kind| {
        let mut groups = heated(3);
        match kind {
            0 => groups.films.push([1, 50_000, 1_000_000]),
            1 => groups.edges.push([1, 2, 90_000, 1_000_000, 4_000]),
            _ => groups.fixed.push([3, 1_000_000]),
        }
        groups
    }) {
        let mut lent = Lent::built(groups.table());
        let (start, each) = (book(&lent), loads(&lent.table));
        assert!(matches!(lent.step(), Stepped::Settled(_)));
        assert_ne!(book(&lent), start + each);
    }
}

// ---- the bounds

/// The sum of |A'| along a row.
fn row_bound(lent: &Lent, row: usize) -> i64 {
    let fixed = |node: usize| {
        let mut cards = lent.table.chunks(6);
        cards.any(|card| card[0] == T && card[1] as usize == node + 1)
    };
    if fixed(row) {
        return 1 << 20;
    }
    let n = nodes_of(&lent.table);
    let free = (0..n).filter(|&column| !fixed(column));
    free.map(|j| lent.a[triangle(row.max(j)) + row.min(j)].abs())
        .sum()
}

/// Whatever the deck, the matrices and the residuals were: what an accepted step leaves is within its row bound, so within
/// 2^33, and the next step does not refuse it by 10.
#[test]
fn within_the_row_bounds() {
    let mut chance = Chance::seeded(22);
    // Accepted steps on the deck's own matrices, and on others.
    let mut met = [0; 2];
    for _ in 0..4_000 {
        let groups = match chance.within(0, 3) {
            0 => Groups::wild(&mut chance),
            1 => Groups::block(&mut chance, 2, 2, 2),
            _ => Groups::sheet(&mut chance, 3, 3),
        };
        let mut lent = Lent::new(groups.table());
        let n = groups.nodes.len();
        let built = lent.build() == reference::Answer::Done;
        let foreign = !built || chance.one_in(3);
        if foreign {
            for at in 0..triangle(n) {
                lent.p[at] = chance.bits() as i64 % ((1 << 33) / n as i64);
                lent.a[at] = chance.bits() as i64 % ((1 << 33) / n as i64);
                lent.factor[at] = 0;
            }
            for i in 0..n {
                // One far larger than the rest, so that a correction can be right.
                let diagonal = triangle(i) + i;
                for at in triangle(i)..diagonal {
                    lent.a[at] >>= 8;
                    lent.p[at] = lent.a[at];
                }
                lent.a[diagonal] = lent.a[diagonal].abs() + 16;
                lent.p[diagonal] = lent.a[diagonal] - i64::from(chance.within(0, 16));
                lent.factor[diagonal] = lent.a[diagonal];
            }
        }
        lent.carried[..n].copy_from_slice(&chance.residuals(n));
        for _ in 0..3 {
            if matches!(lent.step(), Stepped::Refused(_)) {
                break;
            }
            for i in 0..n {
                assert!(lent.carried[i].abs() <= row_bound(&lent, i));
                assert!(lent.carried[i].abs() <= MOST_CARRIED);
            }
            assert_ne!(lent.clone().step(), step_refused(10, 0));
            met[usize::from(foreign)] += 1;
        }
    }
    assert!(met.iter().all(|&times| times > 500), "{met:?}");
}
