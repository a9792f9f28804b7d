//! Tetrahedra: the checked figures, each refusal with a solid deck, and z and kz where they may stand and where not.

mod common;

use common::row::*;
use common::*;
use reference::{read, step, write, Answer, Card, Stepped};

fn each() -> Vec<u32> {
    Groups::one_of_each_solid().table()
}

/// All that takes a table refuses it, and so does the reader of its bytes.
fn refuses(table: &[u32], number: u8, place: u32) {
    table_refused(table, number, place);
    if table.iter().all(|&field| field <= 99_999_999) {
        bytes_refused(&text_of(table), number, place);
    }
}

// ---- figures

#[test]
fn the_checked_corner() {
    let lent = Lent::built(Groups::corner().table());
    let u = 2_500;
    assert_eq!(lent.p[..10], [2 * u, u, 2 * u, u, u, 2 * u, u, u, u, 2 * u]);
    let conductance: Vec<i64> = (0..10).map(|i| lent.a[i] - lent.p[i]).collect();
    assert_eq!(
        conductance,
        [2_499, -833, 833, -833, 0, 833, -833, 0, 0, 833]
    );
}

/// Corners in any order give the same matrices.
#[test]
fn any_order() {
    let one = Lent::built(Groups::corner().table());
    for number in 0..256 {
        let corners = [number / 64, number / 16 % 4, number / 4 % 4, number % 4].map(|at| at + 1);
        let mut groups = Groups::corner();
        groups.solids[0][..4].copy_from_slice(&corners);
        let mut sorted = corners;
        sorted.sort_unstable();
        if sorted == [1, 2, 3, 4] {
            let lent = Lent::built(groups.table());
            assert_eq!([&lent.p, &lent.a], [&one.p, &one.a]);
        } else {
            assert_eq!(Lent::new(groups.table()).build(), refused(5, 1));
        }
    }
}

/// Each k has its own axis: of kx alone pair 12 is large, of ky 13, of kz 14.
#[test]
fn each_axis_has_its_own() {
    for (axis, place) in [(0, 1), (1, 3), (2, 6)] {
        let mut groups = Groups::corner();
        let mut k = [12; 3];
        k[axis] = 12_000;
        groups.materials[0] = [k[0], k[1], 2_400];
        groups.upward = vec![k[2]];
        let lent = Lent::built(groups.table());
        let pairs = [1, 3, 6].map(|at| lent.a[at] - lent.p[at]);
        assert_eq!(
            pairs.map(|pair| pair == -10_000),
            [1, 3, 6].map(|at| at == place)
        );
        assert_eq!(pairs.iter().sum::<i64>(), -10_020);
    }
}

/// In a mixed deck the triangle is document 01's, at any z: P1 and P2.
#[test]
fn a_triangle_among_them() {
    for z in [0, 7, 1_023] {
        let mut groups = Groups::corner();
        groups.levels = vec![z, z, z, if z == 0 { 100 } else { z - 5 }];
        let without = Lent::built(groups.table());
        groups.elements = vec![[1, 2, 3, 1, 1_000]];
        let lent = Lent::built(groups.table());
        let more = |now: &[i64], before: &[i64]| -> Vec<i64> {
            (0..10).map(|i| now[i] - before[i]).collect()
        };
        assert_eq!(
            more(&lent.p, &without.p),
            [5_000, 2_500, 5_000, 2_500, 2_500, 5_000, 0, 0, 0, 0]
        );
        assert_eq!(
            more(&lent.a, &without.a),
            [6_000, 2_000, 5_500, 2_000, 2_500, 5_500, 0, 0, 0, 0]
        );
    }
}

/// An upright edge of 100 and one aslant in space: L² is 30,000, and 400,000,000·√30,000/120,000,000 is 577.35.
#[test]
fn edges_in_space() {
    let mut groups = Groups::corner();
    groups.nodes.push([100, 100]);
    groups.levels.push(100);
    groups.fixed.push([5, 19_660_800]);
    let without = Lent::built(groups.table());
    for (low, high, film, thickness, g) in [
        (1, 4, 599, 1_000, 0),
        (1, 4, 600, 1_000, 1),
        (1, 4, 1_799, 1_000, 1),
        (1, 4, 1_800, 1_000, 2),
        (2, 4, 100_000, 4_000, 471),
        (1, 5, 100_000, 4_000, 577),
    ] {
        groups.edges = vec![[low, high, film, 0, thickness]];
        let lent = Lent::built(groups.table());
        let mut more = vec![0; 15];
        let at = |i: u32| (i * (i + 1) / 2 - 1) as usize;
        more[at(low)] = 2 * g;
        more[at(high)] = 2 * g;
        more[at(high) - (high - low) as usize] = g;
        let now: Vec<i64> = (0..15).map(|i| lent.a[i] - without.a[i]).collect();
        assert_eq!(now, more);
        assert_eq!(lent.p, without.p);
    }
}

/// Quarters of any heat are whole: each node a tick warmer by just its load, and not by one more. Corners may be one node.
#[test]
fn heat_in_quarters() {
    for corners in [[1, 2, 3, 1], [3, 2, 1, 1], [2, 2, 2, 2], [1, 3, 3, 1]] {
        for microwatts in Scales::HEATS {
            let quarter = 16_384 * i64::from(microwatts);
            let loads = Scales::loads(&corners, quarter);
            for (more, risen) in [(0, 1), (1, 0)] {
                let it = Scales::new_solid(corners, microwatts, loads.map(|load| load + more));
                let (mut temperatures, mut carried) = (it.temperatures, it.carried);
                let (p, a, factor) = (&it.p, &it.a, &it.factor);
                let answer = step(&it.table, p, a, factor, &mut temperatures, &mut carried);
                assert_eq!(answer, Stepped::Settled(1));
                assert_eq!(temperatures[..3], [Scales::WARM + risen; 3]);
            }
        }
    }
}

#[test]
fn a_solid_at_rest() {
    let mut groups = Groups::corner();
    let mut lent = Lent::built(groups.table());
    assert_eq!(lent.step(), Stepped::Settled(1));
    assert_eq!(lent.temperatures[..4], [19_660_800; 4]);
    // 40 µW over four times 5u = 12,500: 52 ticks.
    groups.heats.push([1, 40]);
    let mut lent = Lent::built(groups.table());
    assert_eq!(lent.step(), Stepped::Settled(1));
    assert_eq!(lent.temperatures[..4], [19_660_852; 4]);
}

// ---- the deck

#[test]
fn accepted_decks() {
    accepts(&each());
    accepts(&Groups::corner().table());
    let mut chance = Chance::seeded(17);
    let largest = Groups::largest_block(&mut chance);
    accepts(&largest.table());
    let mut lent = Lent::built(largest.table());
    assert!(matches!(lent.step(), Stepped::Settled(_)));
    // As many cards as a solid deck may have: all but one of its elements are triangles.
    let mut most = Groups::largest(&mut chance);
    for node in &mut most.nodes {
        *node = node.map(|side| side.min(1_023));
    }
    most.levels = vec![0; 95];
    most.levels.push(9);
    most.upward = vec![9; 8];
    most.elements.retain(|e| !e[..3].contains(&96));
    while most.elements.len() < 159 {
        most.elements.push([1, 2, 3, 1, 1]);
    }
    most.solids = vec![[1, 2, 13, 96, 1]];
    most.films.pop();
    most.sources.pop();
    assert_eq!(most.table().len(), 6_384);
    accepts(&most.table());
    // 160 together, and one more.
    most.solids.push([1, 2, 13, 96, 1]);
    refuses(&most.table(), 2, 0);
    let mut alone = Groups::corner();
    alone.solids = vec![[1, 2, 3, 4, 1]; 160];
    accepts(&alone.table());
    alone.solids.push([1, 2, 3, 4, 1]);
    refuses(&alone.table(), 2, 0);
    alone.solids.clear();
    refuses(&alone.table(), 2, 0);
    // Three nodes are enough to be judged: such a V is flat.
    let mut few = Groups::corner();
    few.nodes.pop();
    few.solids = vec![[1, 2, 3, 3, 1]];
    accepts(&few.table());
    assert_eq!(Lent::new(few.table()).build(), refused(5, 1));
}

#[test]
fn each_range() {
    let table = each();
    for (row, field, least, most) in SOLID_RANGES {
        for value in [least, most] {
            accepts(&with(&table, row, field, value));
        }
        for value in [least.wrapping_sub(1), most + 1, 4_096, u32::MAX] {
            if value > most || value < least {
                refuses(&with(&table, row, field, value), 4, row as u32 + 1);
            }
        }
    }
    // Of all nodes at once: the first is the place.
    let mut far = Groups::corner();
    far.nodes = vec![[1_024, 0]; 4];
    refuses(&far.table(), 4, 2);
}

#[test]
fn a_triangle_lies_level() {
    let mut groups = Groups::one_of_each_solid();
    groups.elements.push([1, 2, 3, 1, 9]);
    groups.films[0][0] = 2;
    for node in 0..3 {
        let mut table = groups.table();
        table[6 * (NODE + node) + 3] = 1;
        refuses(&table, 4, TRIANGLE as u32 + 1);
    }
    accepts(&groups.table());
    for at in 0..3 {
        let mut unlike = groups.clone();
        unlike.elements[1][at] = 4;
        refuses(&unlike.table(), 4, TRIANGLE as u32 + 2);
    }
    // The upper node alone, three times: one z.
    groups.elements[1] = [4, 4, 4, 1, 9];
    accepts(&groups.table());
    // A card that comes before has its own 4.
    groups.elements[0] = [1, 2, 4, 1, 0];
    groups.elements[1] = [4, 4, 3, 1, 9];
    refuses(&groups.table(), 4, TRIANGLE as u32 + 1);
}

#[test]
fn a_film_lies_on_a_triangle() {
    let mut groups = Groups::one_of_each_solid();
    groups.films[0][0] = 2;
    refuses(&groups.table(), 4, FILM as u32 + 1);
    groups.films = vec![[1, 480, 9], [2, 480, 9]];
    refuses(&groups.table(), 4, FILM as u32 + 2);
    groups.films.pop();
    groups.heats = vec![[1, 9], [2, 9]];
    accepts(&groups.table());
    // With no triangle there is no film.
    let mut alone = Groups::corner();
    alone.films.push([1, 480, 9]);
    refuses(&alone.table(), 4, 8);
    alone.films.clear();
    alone.heats = vec![[1, 9]];
    accepts(&alone.table());
}

#[test]
fn the_order_of_groups() {
    let table = each();
    // E after V: the last element is an E, so the deck is flat, and its first filled z or kz comes first.
    refuses(&swapped(&table, TRIANGLE, SOLID), 4, NODE as u32 + 4);
    refuses(&Groups::turned_flat(), 3, SOLID as u32 + 1);
    refuses(&swapped(&table, SOLID, HEAT), 4, NODE as u32 + 4);
    refuses(&swapped(&table, HEAT, FILM), 3, HEAT as u32 + 2);
    for (row, letter, number, place) in [
        // An element of another letter, and V where no element is.
        (TRIANGLE, H, 3, TRIANGLE),
        (TRIANGLE, 256 + V, 3, TRIANGLE),
        (HEAT, V, 3, HEAT),
        (FILM, V, 3, FILM),
        (HELD, V, 3, HELD),
        (NODE, V, 3, NODE),
        (MATERIAL, V, 3, MATERIAL),
        (0, V, 3, 0),
        // The last element is then no V: the deck is flat, whatever that letter is.
        (SOLID, H, 4, NODE + 3),
        (SOLID, 0, 4, NODE + 3),
        (SOLID, 256 + V, 4, NODE + 3),
        (SOLID, E, 4, NODE + 3),
    ] {
        let table = with(&table, row, 0, letter);
        let mut lent = Lent::new(table.clone());
        assert_eq!(
            lent.build(),
            refused(number, place as u32 + 1),
            "{row} {letter}"
        );
        if letter < 256 {
            // In bytes a z of 0 is filled too, so the first node has the first.
            let place = if row == SOLID { NODE } else { place };
            bytes_refused(&text_of_as(&table, &each()), number, place as u32 + 1);
        }
    }
    refuses(&Groups::solid_among_triangles(), 3, TRIANGLE as u32 + 3);
}

/// The bytes of a table with the columns of another: so that a z stays where the first is flat.
fn text_of_as(table: &[u32], like: &[u32]) -> Vec<u8> {
    let mut text = text_of(like);
    for (row, card) in table.chunks_exact(6).enumerate() {
        text[42 * row] = card[0] as u8;
    }
    text
}

// ---- z and kz

const BLANK: &[u8; 8] = b"        ";

#[test]
fn z_and_kz_of_a_solid_deck() {
    let bytes = bytes_of(&each());
    for (row, field) in [(NODE, 3), (NODE + 3, 3), (MATERIAL, 4)] {
        bytes_refused(&put(&bytes, row, field, BLANK), 3, row as u32 + 1);
        for columns in NO_NUMBERS {
            bytes_refused(&put(&bytes, row, field, columns), 3, row as u32 + 1);
        }
        let range = [
            (b"    1024", NODE, true),
            (b"99999999", NODE, true),
            (b"  500001", MATERIAL, true),
            (b"       0", MATERIAL, true),
            (b"       0", NODE, false),
            (b"    1023", NODE + 3, false),
            (b"  500000", MATERIAL, false),
        ];
        for (columns, of, wrong) in range {
            if (of == MATERIAL) != (row == MATERIAL) {
                continue;
            }
            let bytes = put(&bytes, row, field, columns);
            let mut table = vec![9; 6_396];
            let answer = read(&bytes, &mut table).0;
            // A foot of the triangle that is not level with the others: 4 there.
            let place = if row == NODE && !wrong && columns != b"       0" {
                TRIANGLE
            } else {
                row
            };
            match wrong || place == TRIANGLE {
                true => assert_eq!(answer, refused(4, place as u32 + 1)),
                false => assert_eq!(answer, Answer::Done),
            }
        }
        // The fields past a z stay unused; a 0 is no emissivity.
        let number = if row == MATERIAL { 4 } else { 3 };
        bytes_refused(&put(&bytes, row, 5, b"       0"), number, row as u32 + 1);
    }
    bytes_refused(&put(&bytes, NODE, 4, b"       0"), 3, NODE as u32 + 1);
    // In a table a z of 0 is a number, a kz of 0 is out of its range.
    accepts(&with(&each(), NODE + 3, 3, 0));
    refuses(&with(&each(), MATERIAL, 4, 0), 4, MATERIAL as u32 + 1);
    for (row, field) in [(NODE, 4), (NODE, 5)] {
        let mut lent = Lent::new(with(&each(), row, field, 1));
        assert_eq!(lent.build(), refused(3, row as u32 + 1));
    }
}

#[test]
fn z_and_kz_of_a_flat_deck() {
    // D, three N, M, E, H, F, G, T, Z.
    let table = Groups::one_of_each().table();
    let bytes = bytes_of(&table);
    for (row, field) in [(1, 3), (3, 3), (4, 4)] {
        let place = row as u32 + 1;
        for columns in [b"       0", b"       7", b"    1024", b"99999999"] {
            bytes_refused(&put(&bytes, row, field, columns), 4, place);
        }
        for columns in NO_NUMBERS {
            bytes_refused(&put(&bytes, row, field, columns), 3, place);
        }
        // 3 before 4 of one card: an unused field, or an emissivity that is no number, a field before it, the newline.
        let filled = put(&bytes, row, field, b"       7");
        bytes_refused(&put(&filled, row, 5, b"      07"), 3, place);
        bytes_refused(&put(&filled, row, 1, BLANK), 3, place);
        let mut broken = filled.clone();
        broken[42 * row + 41] = b' ';
        bytes_refused(&broken, 3, place);
        // And card by card: D's 4 first, the next card's 3 last.
        bytes_refused(&put(&filled, 0, 1, b"       0"), 4, 1);
        bytes_refused(&put(&filled, row + 1, 1, BLANK), 4, place);
        for value in [1, 7, 1_024, u32::MAX] {
            let filled = with(&table, row, field, value);
            let mut lent = Lent::new(filled.clone());
            assert_eq!(lent.build(), refused(4, place));
            assert_eq!(lent.step(), step_refused(4, place));
            let mut bytes = vec![0; 7 * filled.len()];
            assert_eq!(write(&filled, &mut bytes), refused(4, place));
            lent.table = with(&filled, row, 5, 1);
            let number = if field == 4 { 4 } else { 3 };
            assert_eq!(lent.build(), refused(number, place));
        }
        accepts(&with(&table, row, field, 0));
    }
    bytes_refused(&put(&bytes, 1, 4, b"       0"), 3, 2);
    // Far out is right as before.
    accepts(&with(&table, 1, 1, 4_095));
}

/// What makes a deck solid is a letter alone, at its place by Z's counts: seen before any card is judged.
#[test]
fn the_letter_of_the_last_element() {
    let flat = Groups::one_of_each().table();
    let row = 5;
    // As a V its fields are wrong, but a blank z comes first.
    let solid = with(&flat, row, 0, V);
    let mut bytes = bytes_of(&flat);
    bytes[42 * row] = b'V';
    bytes_refused(&bytes, 3, 2);
    // In a table z is 0 and right, kz is 0 and not.
    assert_eq!(Lent::new(solid.clone()).build(), refused(4, 5));
    let solid = with(&solid, 4, 4, 1);
    assert_eq!(Lent::new(solid.clone()).build(), refused(4, 6));
    // x past 1,023 comes before both.
    assert_eq!(Lent::new(with(&solid, 1, 1, 1_024)).build(), refused(4, 2));
    // Even where the rest of that card is no card at all.
    bytes[42 * row + 1..42 * row + 42].fill(b'?');
    bytes_refused(&bytes, 3, 2);
    // D is judged before it in turn.
    bytes[41] = b' ';
    bytes_refused(&bytes, 3, 1);
    // An F on the element that the letter made a V: its own card is refused first.
    let mut groups = Groups::one_of_each_solid();
    groups.elements.clear();
    refuses(&groups.table(), 4, 8);
}

// ---- elements and the factor

#[test]
fn r5_and_r6() {
    let mut groups = Groups::one_of_each_solid();
    groups.levels[3] = 0;
    build_refused(&groups, 5, 2);
    groups.solids.insert(0, [1, 2, 3, 4, 1]);
    build_refused(&groups, 5, 2);
    // u: 960·S/(960·1). A half goes up: 480·8,000,001/960.
    for (capacity, height) in [(960, 100), (480, 200)] {
        let most = Groups::full(capacity, height, 0);
        assert_eq!(Lent::built(most.table()).p[1], 4_000_000);
        build_refused(&Groups::full(capacity, height, 1), 6, 1);
    }
    // A pair: b of corner 2 is long, S is the product of the three edges.
    // kx·(200·w)²/(120·200·w·1): with w = 96, kx = 25,000 it is 25,000·200·96/120 = 4,000,000.
    let mut stiff = Groups::corner();
    stiff.nodes = vec![[0, 0], [1, 0], [0, 96], [0, 0]];
    stiff.levels = vec![0, 0, 0, 200];
    stiff.materials[0] = [25_000, 1, 5_000];
    stiff.upward = vec![1];
    assert_eq!(Lent::built(stiff.table()).a[1], -4_000_000 + 100);
    stiff.materials[0][0] = 25_001;
    build_refused(&stiff, 6, 1);
    // Every pair is asked: this one is the last of six, then the first, by the order of the corners.
    for corners in [[1, 2, 3, 4], [3, 4, 1, 2], [4, 1, 3, 2], [2, 3, 4, 1]] {
        stiff.solids[0][..4].copy_from_slice(&corners);
        build_refused(&stiff, 6, 1);
    }
    // Two edges that all but cross: two pairs are of the other sign.
    let mut blunt = Groups::corner();
    blunt.nodes = vec![[0, 0], [1_000, 0], [500, 1], [500, 1]];
    blunt.levels = vec![10, 10, 0, 20];
    blunt.materials[0] = [500_000, 500_000, 1];
    blunt.upward = vec![500_000];
    build_refused(&blunt, 6, 1);
}

#[test]
fn r7_and_r8() {
    // A node of no element.
    let mut groups = Groups::corner();
    groups.nodes.insert(2, [7, 7]);
    groups.levels.insert(2, 7);
    groups.solids[0] = [1, 2, 4, 5, 1];
    build_refused(&groups, 7, 3);
    groups.fixed.push([3, 9]);
    assert_eq!(Lent::built(groups.table()).factor[5], 1 << 20);
    build_refused(&Groups::slow(), 7, 4);
    let mut chance = Chance::seeded(18);
    let mut met = [0; NUMBERS];
    for _ in 0..200 {
        let groups = Groups::needles(&mut chance);
        if let Answer::Refused(refusal) = Lent::new(groups.table()).build() {
            build_refused(&groups, refusal.number, refusal.place);
            met[usize::from(refusal.number)] += 1;
        }
    }
    // None but these two, and 14 of a triangle beside them.
    assert!(met[7] > 0 && met[8] > 0, "{met:?}");
    assert_eq!(met[7] + met[8] + met[14], met.iter().sum::<u32>());
}

// ---- replacements

/// The second V of `two_solids`, whose cards are 1 D, 2-6 N, 7-8 M, 9 E, 10-11 V, 12 H, 13 F, 14 G, 15 T, 16 Z.
const SECOND: Card = [V, 5, 3, 2, 4, 1];

#[test]
fn a_solid_replaced() {
    let before = Lent::built(Groups::two_solids().table());
    let mut lent = before.clone();
    lent.work.fill(MARK);
    assert_eq!(lent.replace(11, [V, 5, 3, 2, 4, 2]), Answer::Done);
    let mut groups = Groups::two_solids();
    groups.solids[1][4] = 2;
    let fresh = Lent::built(groups.table());
    assert_eq!(lent.p, fresh.p);
    assert_eq!(lent.a, fresh.a);
    assert_eq!(lent.factor, fresh.factor);
    assert_eq!(lent.work[..15], [0; 15]);
    assert_eq!(lent.work[15..], [MARK; EXTRA]);
    assert_eq!(lent.table, groups.table());
    // Ten places of P and A, of the nodes 2 to 5; the rows before the least are not even read.
    let changed = (0..15).filter(|&i| lent.p[i] != before.p[i]).count();
    assert_eq!(changed, 10);
    let mut foreign = before.clone();
    foreign.factor[0] = 1 << 30;
    let first = foreign.factor[0];
    foreign.replace(11, [V, 5, 3, 2, 4, 2]);
    assert_eq!(foreign.factor[0], first);
}

#[test]
fn r13_and_4_of_replacements() {
    let own = Lent::built(Groups::two_solids().table());
    for number in [0, 1, 2, 7, 9, 10, 12, 13, 14, 15, 16, 17, u32::MAX] {
        own.answers(number, SECOND, refused(13, number));
    }
    // Each of the four nodes stays.
    for at in 1..5 {
        let mut new = SECOND;
        new[at] = 1;
        own.answers(11, new, refused(13, 11));
    }
    for (card, new, number) in [
        (11, [V, 5, 2, 3, 4, 1], 13),
        (11, [E, 5, 3, 2, 1, 1], 13),
        (9, [V, 1, 2, 3, 1, 1], 13),
        // 13 before 4.
        (11, [V, 5, 3, 2, 1, 9], 13),
        (11, [V, 5, 3, 2, 4, 0], 4),
        (11, [V, 5, 3, 2, 4, 3], 4),
        (11, [V, 5, 3, 2, 4, u32::MAX], 4),
        // N and M with z and kz, the same or another.
        (2, [N, 0, 0, 0, 0, 0], 13),
        (5, [N, 0, 0, 100, 0, 0], 13),
        (7, [M, 1_000, 1_000, 2_400, 1_000, 0], 13),
        (7, [M, 1_000, 1_000, 2_400, 0, 0], 13),
        (7, [M, 1_000, 1_000, 2_400, 1_000, 1], 13),
        (2, [N, 0, 0, 0, 1, 0], 3),
        (13, [F, 2, 9, 9, 0, 0], 13),
    ] {
        own.answers(card, new, refused(number, card));
    }
    // The others as in a flat deck.
    for (card, new) in [
        (11, SECOND),
        (9, [E, 1, 2, 3, 2, 500]),
        (12, [H, 2, 9, 0, 0, 0]),
        (13, [F, 1, 9, 9, 0, 0]),
        (14, [G, 1, 4, 9, 9, 9]),
        (15, [T, 3, 9, 0, 0, 0]),
    ] {
        own.answers(card, new, Answer::Done);
    }
    // 9 and 10.
    let new = [V, 5, 3, 2, 4, 2];
    for which in 0..4 {
        let mut lent = own.clone();
        [&mut lent.p, &mut lent.a, &mut lent.factor, &mut lent.work][which].truncate(14);
        lent.answers(11, new, refused(9, 0));
    }
    let mut lent = own.clone();
    lent.a[0] = 1 << 34;
    lent.answers(11, new, refused(10, 0));
}

#[test]
fn r5_to_r8_of_replacements() {
    // A flat V that no build has judged: 5, its number among all elements.
    let own = Lent::built(Groups::two_solids().table());
    let mut lent = own.clone();
    lent.table[6 * 10 + 1] = 2;
    lent.answers(11, [V, 2, 3, 2, 4, 2], refused(5, 3));
    // 6 is of the new form alone.
    let mut groups = Groups::two_solids();
    groups.d[0] = 1;
    groups.materials = vec![[1_000, 1_000, 5_000], [1_000, 1_000, 1]];
    groups.upward = vec![1_000; 2];
    let mut lent = own.clone();
    lent.table = groups.table();
    lent.answers(11, SECOND, refused(6, 3));
    lent.a.iter_mut().take(15).for_each(|a| *a *= 1_000);
    lent.p.iter_mut().take(15).for_each(|p| *p *= 1_000);
    let answer = lent.replace(11, [V, 5, 3, 2, 4, 2]);
    assert_ne!(answer, refused(6, 3));
    // 7 and 8 at a row: work zeroed, all else as it was.
    for (at, value, number, row) in [(5, -1_000_000, 7, 3), (1, 1 << 32, 8, 2)] {
        let mut lent = own.clone();
        lent.a[at] = value;
        lent.table[6 * 14 + 1] = 5;
        lent.answers(10, [V, 1, 2, 3, 4, 2], refused(number, row));
    }
}
