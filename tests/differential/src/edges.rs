//! Cases of G cards that chance seldom draws. `tests/kernel` takes this file too.

use crate::case::Call;
use crate::decks::{Groups, G};
use crate::limits::{built, each_call, same};
use crate::trial::Trial;

const FRAME: u32 = 19_000_000;

/// The base with one more node, which the first holds an edge to: from (0, 0) to (x, y), of so much film and thickness.
fn edged(x: u32, y: u32, film: u32, thickness: u32) -> Groups {
    let mut groups = Groups::base();
    groups.nodes.push([x, y]);
    groups.edges.push([1, 4, film, FRAME, thickness]);
    groups.fixed.push([4, FRAME]);
    groups
}

/// The squares of g - 1/2, times 120,000,000, and of film·t·L.
pub fn reaches(g: u128, film: u32, thickness: u32, square: u32) -> bool {
    let (half_less, top) = (
        (2 * g - 1) * 60_000_000,
        u128::from(film) * u128::from(thickness),
    );
    half_less * half_less <= top * top * u128::from(square)
}

/// The least film with which an edge has a g.
pub fn film_of(g: u128, thickness: u32, square: u32) -> u32 {
    let (mut low, mut high) = (1, 100_000);
    while low < high {
        let middle = (low + high) / 2;
        if reaches(g, middle, thickness, square) {
            high = middle;
        } else {
            low = middle + 1;
        }
    }
    low
}

/// Each g in turn at the least film that gives it, and at one less: built, stepped, and each replaced by the other. Of lengths
/// that are whole, aslant or not, and of lengths that are no whole number.
pub fn halves(trial: &mut Trial) {
    for (x, y, thickness) in [
        (100, 0, 1_000),
        (0, 60, 4_000),
        (30, 40, 4_000),
        (300, 400, 1_200),
        (1, 1, 4_000),
        (100, 101, 1_000),
        (4_095, 4_095, 4_000),
        (4_095, 1, 17),
    ] {
        let square = x * x + y * y;
        let mut most = 0;
        while reaches(most + 1, 100_000, thickness, square) {
            most += 1;
        }
        for g in [1, 2, 3, 16, 83, most / 2, most - 1, most] {
            if g == 0 || g > most {
                continue;
            }
            let film = film_of(g, thickness, square);
            for (film, other) in [(film, film - 1), (film - 1, film)] {
                let mut lent = built(trial, edged(x, y, film.max(1), thickness).table());
                trial.call(&mut lent, Call::Step);
                let new = [G, 1, 4, other.max(1), FRAME + 9, thickness];
                trial.call(&mut lent, Call::Replace { card: 8, new });
                trial.call(&mut lent, Call::Step);
                trial.as_built(&lent, [1, 0]);
            }
        }
    }
}

/// Ends that are equal, unordered or not there; pairs that rise by either node, and pairs that don't. Each in every call.
pub fn pairs(trial: &mut Trial) {
    for pairs in [
        &[(1, 2)][..],
        &[(2, 3)],
        &[(1, 1)],
        &[(3, 3)],
        &[(2, 1)],
        &[(3, 1)],
        &[(0, 1)],
        &[(3, 4)],
        &[(1, 4)],
        &[(4, 5)],
        &[(1, 2), (1, 3)],
        &[(1, 2), (1, 3), (2, 3)],
        &[(1, 3), (2, 3)],
        &[(1, 3), (1, 2)],
        &[(1, 3), (1, 3)],
        &[(2, 3), (1, 3)],
        &[(2, 3), (1, 2)],
        &[(1, 2), (2, 3), (1, 3)],
    ] {
        let mut groups = Groups::base();
        groups.edges = pairs
            .iter()
            .map(|&(low, high)| [low, high, 60_000, FRAME, 1_000])
            .collect();
        each_call(trial, &groups.table());
    }
    // The pairs rise, and the higher nodes fall.
    let mut groups = edged(100, 100, 60_000, 1_000);
    groups.edges.push([2, 3, 60_000, FRAME, 1_000]);
    each_call(trial, &groups.table());
    groups.edges.swap(0, 1);
    each_call(trial, &groups.table());
    // Each field at its ends and past them.
    for (field, least, most) in [(2, 1, 100_000), (3, 0, 33_554_432), (4, 1, 4_000)] {
        for value in [least, most, most + 1, least.max(1) - 1, 99_999_999] {
            let mut groups = Groups::one_of_each();
            groups.edges[0][field] = value;
            each_call(trial, &groups.table());
            // And of a new card, in a deck that stands.
            let mut lent = built(trial, Groups::one_of_each().table());
            let [low, high, film, ambient, thickness] = groups.edges[0];
            let new = [G, low, high, film, ambient, thickness];
            trial.call(&mut lent, Call::Replace { card: 9, new });
            trial.call(&mut lent, Call::Step);
        }
    }
    others(trial);
}

/// New cards that keep not both nodes, or are asked for where there is no such G; and other cards where a G is.
fn others(trial: &mut Trial) {
    let mut lent = built(trial, Groups::one_of_each().table());
    let edge = [G, 1, 2, 600, FRAME, 1_000];
    for card in [0, 1, 2, 5, 6, 7, 8, 10, 11, 12, u32::MAX] {
        trial.call(&mut lent, Call::Replace { card, new: edge });
    }
    for (low, high) in [(1, 3), (2, 3), (2, 1), (1, 1), (0, 2), (1, 0)] {
        let new = [G, low, high, 600, FRAME, 1_000];
        trial.call(&mut lent, Call::Replace { card: 9, new });
    }
    for row in [5, 6, 7, 9] {
        if let Call::Replace { new, .. } = same(&lent.table, row) {
            trial.call(&mut lent, Call::Replace { card: 9, new });
        }
    }
    for new in [
        [0, 1, 2, 600, FRAME, 1_000],
        [256 + G, 1, 2, 600, FRAME, 1_000],
    ] {
        trial.call(&mut lent, Call::Replace { card: 9, new });
    }
}

/// Two nodes at one point: g is 0, and nothing is refused.
pub fn of_no_length(trial: &mut Trial) {
    for (x, y) in [(0, 0), (1, 0), (0, 1)] {
        let groups = edged(x, y, 100_000, 4_000);
        each_call(trial, &groups.table());
        let mut lent = built(trial, groups.table());
        let new = [G, 1, 4, 1, FRAME, 1];
        trial.call(&mut lent, Call::Replace { card: 8, new });
        trial.as_built(&lent, [1, 0]);
    }
}

/// A node of no element, carried by an edge to a held one: its pivot is 2g, refused at 14 and not at 16. And decks that are
/// refused by 8 with an edge in them.
pub fn alone(trial: &mut Trial) {
    let carried = |film| {
        let mut groups = edged(100, 0, film, 1_000);
        groups.fixed = vec![[1, FRAME]];
        groups.table()
    };
    for film in [1, 600 * 13, 600 * 15 - 1, 600 * 15, 600 * 17] {
        each_call(trial, &carried(film));
        let mut lent = built(trial, carried(60_000));
        let new = [G, 1, 4, film, FRAME, 1_000];
        trial.call(&mut lent, Call::Replace { card: 8, new });
        trial.as_built(&lent, [1, 0]);
    }
    let mut groups = Groups::leaning();
    for film in [1, 100_000] {
        groups.edges = vec![[2, 3, film, FRAME, 4_000]];
        each_call(trial, &groups.table());
    }
}

/// 160 edges and 161, the last with fields that are in their range or not; and 160 with a T after them.
pub fn most(trial: &mut Trial) {
    let pairs: Vec<(u32, u32)> = (1..20)
        .flat_map(|low| (low + 1..=20).map(move |high| (low, high)))
        .collect();
    let mut groups = Groups::base();
    groups.nodes.extend((1..=17).map(|x| [x, 50]));
    for count in [159, 160, 161, 162] {
        groups.edges = pairs[..count]
            .iter()
            .map(|&(low, high)| [low, high, 60_000, FRAME, 4_000])
            .collect();
        for held in [0, 1] {
            groups.fixed = (1..=held).map(|node| [node, FRAME]).collect();
            each_call(trial, &groups.table());
        }
    }
    for wrong in [[1, 1, 9, 9, 9], [20, 21, 0, 9, 9]] {
        groups.edges.truncate(160);
        groups.edges.push(wrong);
        each_call(trial, &groups.table());
    }
}
