//! Refusal 14: triangles about the limit of thinness, in every order of their corners, and what judges them.

mod common;

use common::*;
use reference::{Answer, Stepped};

/// 1 D, 2-4 N, 5-6 M, 7 E, 8 H, 9 F, 10 G, 11 Z.
const E_CARD: u32 = 7;
const H_CARD: u32 = 8;
const F_CARD: u32 = 9;
const G_CARD: u32 = 10;

/// A deck over buffers of another one, which no test of 10 refuses.
fn over_others(groups: &Groups) -> Lent {
    Lent {
        table: groups.table(),
        ..Lent::built(Groups::base().table())
    }
}

/// The answers of a build, of E and of F replacements are this refusal, and nothing is written.
fn refused_by_all(groups: &Groups, number: u8) {
    build_refused(groups, number, 1);
    let lent = over_others(groups);
    for (material, thickness) in [(1, 4_000), (2, 4_000), (1, 1)] {
        let new = card(E, &[1, 2, 3, material, thickness]);
        lent.answers(E_CARD, new, refused(number, 1));
    }
    for film in [480, 1, 100_000] {
        lent.answers(F_CARD, card(F, &[1, film, 9]), refused(number, 1));
    }
}

/// It builds, and its E and F replaced leave what a fresh build makes.
fn accepted_by_all(groups: &Groups) {
    let mut lent = Lent::built(groups.table());
    let mut anew = groups.clone();
    anew.elements[0][3..].copy_from_slice(&[2, 3_000]);
    let new = card(E, &[1, 2, 3, 2, 3_000]);
    assert_eq!(lent.replace(E_CARD, new), Answer::Done);
    assert_eq!(lent, Lent::built(anew.table()));
    anew.films[0] = [1, 90_000, 20_000_000];
    let new = card(F, &[1, 90_000, 20_000_000]);
    assert_eq!(lent.replace(F_CARD, new), Answer::Done);
    assert_eq!(lent, Lent::built(anew.table()));
}

/// What judges no element doesn't see that it is thin.
fn unseen(groups: &Groups) {
    let mut lent = over_others(groups);
    lent.answers(H_CARD, card(H, &[1, 9]), Answer::Done);
    lent.answers(G_CARD, card(G, &[1, 2, 9, 9, 9]), Answer::Done);
    assert!(matches!(lent.step(), Stepped::Settled(_)));
    accepts(&groups.table());
}

#[test]
fn about_the_limit() {
    // How many have 64·S one less than the square, three more, and the same.
    let mut met = [0; 3];
    for side in SIDES {
        let (thin, fair) = about_thin(side);
        for points in thin.iter().flat_map(|&points| turned(points)) {
            assert!(64 * area(points) < squares(points)[2]);
            let groups = Groups::narrow(points);
            refused_by_all(&groups, 14);
            unseen(&groups);
            met[0] += usize::from(64 * area(points) + 1 == squares(points)[2]);
        }
        for points in turned(fair) {
            accepted_by_all(&Groups::narrow(points));
            met[1] += usize::from(64 * area(points) == squares(points)[2] + 3);
            met[2] += usize::from(64 * area(points) == squares(points)[2]);
        }
    }
    assert!(met.iter().all(|&times| times >= 6), "{met:?}");
}

/// Nothing lies nearer above the limit than three: of no two squares is the sum one or two less than a multiple of 64.
#[test]
fn the_nearest_above() {
    let left: Vec<u32> = (0..64)
        .flat_map(|x| (0..64).map(move |y| (x * x + y * y) % 64))
        .collect();
    assert_eq!(
        [61, 62, 63, 0, 1].map(|rest| left.contains(&rest)),
        [true, false, false, true, true]
    );
}

/// By the sides alone: 4·S² is 4pq - (p + q - r)² of their squares, and 64·S under r where 4,096·S² is under r².
#[test]
fn any_triangle() {
    let mut chance = Chance::seeded(19);
    let mut met = [0; NUMBERS];
    for _ in 0..20_000 {
        let far = chance.pick(&[4, 20, 100, 1_000, 4_095]);
        let high = (far / chance.pick(&[1, 8, 30, 60, 70])).max(1);
        let tall = chance.one_in(2);
        let points = [0; 3].map(|_| {
            let [x, y] = [far, high].map(|most| chance.within(0, most));
            if tall {
                [y, x]
            } else {
                [x, y]
            }
        });
        let [p, q, r] = squares(points).map(i128::from);
        let square = 4 * p * q - (p + q - r) * (p + q - r);
        let number = match square {
            0 => 5,
            _ if 1_024 * square < r * r => 14,
            _ => 0,
        };
        let mut lent = Lent::new(Groups::narrow(points).table());
        match number {
            0 => assert_eq!(lent.build(), Answer::Done, "{points:?}"),
            _ => assert_eq!(lent.build(), refused(number, 1), "{points:?}"),
        }
        met[usize::from(number)] += 1;
    }
    assert!(
        [0, 5, 14].iter().all(|&number| met[number] > 1_000),
        "{met:?}"
    );
}

/// Of a triangle that is not thin no pair is more than 32·t·k/1,000, rounded, k being the larger of kx and ky; and one comes near.
#[test]
fn no_pair_is_more() {
    let largest = |points, [kx, ky]: [u32; 2]| {
        let mut groups = Groups::narrow(points);
        (groups.films, groups.edges) = (vec![], vec![]);
        groups.materials[0] = [kx, ky, 5_000];
        let lent = Lent::built(groups.table());
        let pairs = [1, 3, 4].map(|at| (lent.a[at] - lent.p[at]).abs());
        pairs.into_iter().max().unwrap()
    };
    let fair = SIDES.map(|side| about_thin(side).1);
    let sharp = [[0, 0], [63, 0], [63, 1]];
    for points in fair.into_iter().chain([sharp]).flat_map(turned) {
        for k in [[1, 1], [1, 9], [9, 1], [7, 8]] {
            assert!(largest(points, k) <= 128 * i64::from(k[0].max(k[1])));
        }
    }
    // S is 63, and 63·63 the product of the sides that meet in its sharp corner: 31.5·t·k/1,000.
    assert_eq!(largest(sharp, [10, 10]), 1_260);
}

/// Flat, thin, stiff: each of them also what comes after it.
#[test]
fn after_5_and_before_6() {
    let thin = [[0, 0], [4_000, 0], [2_000, 1]];
    let stiff = |points| {
        let mut groups = Groups::narrow(points);
        groups.materials = vec![[500_000, 500_000, 5_000]; 2];
        groups.d[0] = 1;
        groups
    };
    refused_by_all(&stiff([[0, 0], [4_000, 0], [2_000, 0]]), 5);
    refused_by_all(&stiff([[7, 7], [7, 7], [7, 7]]), 5);
    refused_by_all(&stiff(thin), 14);
    refused_by_all(&stiff([[0, 0], [4_000, 0], [0, 4_000]]), 6);
    // 9 and 10 come before it.
    let mut lent = over_others(&Groups::narrow(thin));
    lent.a[0] = 1 << 34;
    let new = card(E, &[1, 2, 3, 1, 9]);
    lent.answers(E_CARD, new, refused(10, 0));
    lent.work.truncate(5);
    lent.answers(E_CARD, new, refused(9, 0));
    assert_eq!(lent.build(), refused(9, 0));
    // And so do 13 and 4 of the new card.
    let lent = over_others(&Groups::narrow(thin));
    lent.answers(E_CARD, card(E, &[1, 3, 2, 1, 9]), refused(13, 7));
    lent.answers(E_CARD, card(E, &[1, 2, 3, 3, 9]), refused(4, 7));
}

/// Elements in turn: the first that is refused, whatever by.
#[test]
fn elements_in_turn() {
    let mut groups = Groups::base();
    groups.d[0] = 1;
    groups.nodes = vec![[0, 0], [100, 0], [0, 100], [101, 1], [50, 0]];
    groups.materials = vec![[1_000, 1_000, 5_000]];
    // Flat, thin, stiff, and none of them, by their nodes and thicknesses.
    let kinds = [
        ([1, 2, 5], 1, 5),
        ([1, 2, 4], 1, 14),
        ([1, 2, 3], 4_000, 6),
        ([1, 2, 3], 1, 0),
    ];
    for (i, first) in kinds.iter().enumerate() {
        for (j, second) in kinds.iter().enumerate() {
            groups.elements = [*first, *second]
                .map(|([a, b, c], thickness, _)| [a, b, c, 1, thickness])
                .to_vec();
            let answer = Lent::new(groups.table()).build();
            match (first.2, second.2) {
                // The nodes of no element have no pivot.
                (0, 0) => assert_eq!(answer, refused(7, 4)),
                (0, number) => assert_eq!(answer, refused(number, 2), "{i} {j}"),
                (number, _) => assert_eq!(answer, refused(number, 1), "{i} {j}"),
            }
        }
    }
}

/// A replacement judges the element that it names and no other.
#[test]
fn the_one_named() {
    let mut groups = Groups::base();
    groups.nodes.push([101, 1]);
    groups.elements = vec![[1, 2, 3, 1, 1_000], [1, 2, 4, 1, 1_000]];
    groups.films = vec![[1, 480, 9], [2, 480, 9]];
    let mut other = Groups::base();
    other.nodes.push([100, 100]);
    other.elements.push([2, 4, 3, 1, 1_000]);
    let mut lent = Lent::built(other.table());
    lent.table = groups.table();
    // 1 D, 2-5 N, 6 M, 7-8 E, 9-10 F, 11 Z.
    lent.answers(7, card(E, &[1, 2, 3, 1, 1_001]), Answer::Done);
    lent.answers(9, card(F, &[1, 481, 9]), Answer::Done);
    lent.answers(8, card(E, &[1, 2, 4, 1, 1_001]), refused(14, 2));
    lent.answers(10, card(F, &[2, 481, 9]), refused(14, 2));
}

/// In a solid deck a triangle is judged as ever, by x and y; a tetrahedron has no 14, however thin.
#[test]
fn of_solid_decks() {
    let mut groups = Groups::one_of_each_solid();
    let mut lent = Lent::built(groups.table());
    groups.nodes[2] = [101, 1];
    lent.table = groups.table();
    build_refused(&groups, 14, 1);
    // 1 D, 2-5 N, 6 M, 7 E, 8 V, 9 H, 10 F, 11 G, 12 T, 13 Z.
    lent.answers(7, card(E, &[1, 2, 3, 1, 900]), refused(14, 1));
    lent.answers(10, card(F, &[1, 481, 9]), refused(14, 1));
    lent.answers(8, card(V, &[1, 2, 3, 4, 1]), Answer::Done);
    // Without the triangle: 300 times as long as it is high.
    let mut needle = Groups::corner();
    needle.nodes = vec![[0, 0], [900, 0], [450, 3], [450, 0]];
    needle.levels = vec![0, 0, 0, 3];
    needle.materials = vec![[1, 1, 5_000]];
    needle.upward = vec![1];
    let lent = Lent::built(needle.table());
    lent.answers(7, card(V, &[1, 2, 3, 4, 1]), Answer::Done);
}
