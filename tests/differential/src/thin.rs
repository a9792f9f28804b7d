//! Triangles about the limit of thinness, refusal 14, which chance seldom draws. `tests/kernel` takes this file too.

use crate::case::{Call, Lent};
use crate::decks::{about_thin, turned, Chance, Groups, E, F, G, H, SIDES, V};
use crate::limits::{built, each_call, same};
use crate::rows;
use crate::trial::Trial;

/// Rows of `narrow`: E, H, F, G.
const ROWS: [usize; 4] = [6, 7, 8, 9];

/// A deck with one triangle built; then stepped and its cards replaced over the buffers of another deck, which 10 lets pass.
fn tried(trial: &mut Trial, groups: &Groups, others: &Lent) {
    trial.call(&mut lend(groups), Call::Build);
    let others = Lent {
        table: groups.table(),
        ..others.clone()
    };
    trial.call(&mut others.clone(), Call::Step);
    for row in ROWS {
        for call in [same(&others.table, row), changed(&others.table, row)] {
            trial.call(&mut others.clone(), call);
        }
    }
}

/// The card in a row with other values.
fn changed(table: &[u32], row: usize) -> Call {
    let mut new: [u32; 6] = table[6 * row..6 * row + 6].try_into().unwrap();
    match new[0] {
        E => (new[4], new[5]) = (2, 3_000),
        H => new[2] = 9,
        F => new[2] = 90_000,
        _ => new[3] = 900,
    }
    let card = row as u32 + 1;
    Call::Replace { card, new }
}

/// With each longest side the largest triangle that is thin and the least that is not, in every order of the corners. One that is
/// not is replaced in its own buffers too.
pub fn about(trial: &mut Trial) {
    let others = built(trial, Groups::base().table());
    for side in SIDES {
        let (thin, fair) = about_thin(side);
        for points in thin.into_iter().chain([fair]).flat_map(turned) {
            tried(trial, &Groups::narrow(points), &others);
        }
        for points in turned(fair) {
            let mut lent = built(trial, Groups::narrow(points).table());
            for row in ROWS {
                let call = changed(&lent.table, row);
                trial.call(&mut lent, call);
            }
            trial.as_built(&lent, [1, 0]);
        }
    }
}

/// Triangles by chance about as high as the limit allows, and those whose third corner goes along a side at that height: from a
/// side that is the longest to one that is not.
pub fn near(trial: &mut Trial) {
    for _ in trial.times(1_500) {
        let points = narrow(&mut trial.chance);
        trial.call(&mut lend(&Groups::narrow(points)), Call::Build);
    }
    for x in 0..=70 {
        for points in turned([[3, 0], [67, 0], [x, 1]]) {
            trial.call(&mut lend(&Groups::narrow(points)), Call::Build);
        }
    }
}

/// A third corner near the line of the other two, beside it or past its ends.
fn narrow(chance: &mut Chance) -> [[u32; 2]; 3] {
    let far = chance.pick(&[20, 130, 1_000, 4_000]);
    let high = (far / chance.pick(&[20, 50, 64, 80])).max(1);
    let upright = chance.one_in(2);
    let points = [0; 3].map(|_| [chance.within(0, far), chance.within(0, high)]);
    points.map(|[x, y]| if upright { [y, x] } else { [x, y] })
}

fn lend(groups: &Groups) -> Lent {
    Lent::of(groups.table())
}

/// Two elements, each flat, thin, stiff, thin and stiff, or none of it; and one of them replaced, beside the other.
pub fn in_turn(trial: &mut Trial) {
    let kinds = [
        ([1, 2, 5], 1),
        ([1, 2, 4], 1),
        ([1, 2, 3], 4_000),
        ([1, 6, 7], 4_000),
        ([2, 3, 7], 1),
    ];
    let mut groups = Groups::base();
    groups.d[0] = 1;
    groups.nodes = vec![
        [0, 0],
        [100, 0],
        [0, 100],
        [101, 1],
        [50, 0],
        [4_000, 0],
        [2_000, 1],
    ];
    groups.materials = vec![[500_000, 500_000, 5_000], [1_000, 1_000, 5_000]];
    groups.films = vec![[1, 480, 9], [2, 480, 9]];
    groups.edges = vec![[1, 2, 480, 9, 9]];
    groups.fixed = (4..=7).map(|node| [node, 9]).collect();
    let mut own = Groups::base();
    own.nodes.clone_from(&groups.nodes);
    own.fixed.clone_from(&groups.fixed);
    let own = built(trial, own.table());
    for (first, thickness) in kinds {
        for (second, other) in kinds {
            let element = |[a, b, c]: [u32; 3], t: u32| [a, b, c, 1 + u32::from(t == 1), t];
            groups.elements = vec![element(first, thickness), element(second, other)];
            trial.call(&mut lend(&groups), Call::Build);
            // 1 D, 2-8 N, 9-10 M, 11-12 E, 13-14 F, 15 G.
            for row in 10..15 {
                let mut lent = rows::borrowed(&own, groups.table());
                let call = same(&lent.table, row);
                trial.call(&mut lent, call);
                trial.call(&mut lent, Call::Step);
            }
        }
    }
}

/// A thin triangle at some z beside a tetrahedron; and tetrahedra thinner than any triangle may be, which are not refused.
pub fn of_solids(trial: &mut Trial) {
    let own = built(trial, Groups::one_of_each_solid().table());
    for third in [[101, 1], [0, 100], [50, 1], [50, 0], [50, 2]] {
        for z in [0, 9] {
            let mut groups = Groups::one_of_each_solid();
            groups.nodes[2] = third;
            groups.levels[..3].fill(z);
            each_call(trial, &groups.table());
            // 1 D, 2-5 N, 6 M, 7 E, 8 V, 9 H, 10 F, 11 G, 12 T.
            for row in 6..12 {
                let mut lent = Lent {
                    table: groups.table(),
                    ..own.clone()
                };
                let call = same(&lent.table, row);
                trial.call(&mut lent, call);
            }
        }
    }
    for high in [1, 2, 3, 10] {
        let mut needle = Groups::corner();
        needle.nodes = vec![[0, 0], [1_000, 0], [500, high], [500, 0]];
        needle.levels = vec![0, 0, 0, high];
        needle.materials = vec![[1, 1, 5_000]];
        (needle.d[0], needle.upward) = (1, vec![1]);
        each_call(trial, &needle.table());
        let mut lent = built(trial, needle.table());
        let new = [V, 1, 2, 3, 4, 1];
        trial.call(&mut lent, Call::Replace { card: 7, new });
        // With a card that judges no element.
        needle.edges.push([1, 2, 480, 9, 9]);
        let mut lent = built(trial, needle.table());
        let new = [G, 1, 2, 490, 9, 9];
        trial.call(&mut lent, Call::Replace { card: 8, new });
    }
}
