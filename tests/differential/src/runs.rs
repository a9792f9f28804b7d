//! Runs: with changes, accepted and refused, and without; against what a hand does with the other calls.

use crate::case::{Call, Lent, MATRICES};
use crate::changes;
use crate::decks::{
    changes_of, kept_of, nodes_of, replacement_of, starts_of, Chance, Groups, E, F, H, T,
};
use crate::limits::built;
use crate::plan::{lend, shorten, strange, warm, Part};
use crate::trial::Trial;
use std::process::exit;

pub const ALL: [Part; 7] = [
    ("evenings with changes, and the same by hand", evenings),
    ("changes refused at each step", refused),
    (
        "changes of elements that have no area or are thin",
        flat_and_thin,
    ),
    ("runs without changes, and their steps", plain),
    ("runs with a slice too short", short),
    ("runs whose change makes what is lent too large", grown),
    ("runs on foreign buffers", foreign),
];

/// Ends the program where a run left something else than a hand did.
fn same(what: &str, ran: &Lent, hand: &Lent, work: bool) {
    let apart = |which: usize| ran.matrices[which] != hand.matrices[which];
    let slices = (0..3 + usize::from(work)).find(|&which| apart(which));
    let name = match slices {
        Some(which) => MATRICES[which],
        None if ran.table != hand.table => "table",
        None if ran.starts != hand.starts => "starts",
        None if ran.temperatures != hand.temperatures => "temperatures",
        None if ran.carried != hand.carried => "carried",
        None => return,
    };
    println!(
        "a run and {what} leave another {name}, of the table {:?}",
        ran.table
    );
    exit(1);
}

/// Ends the program where a run answers something else.
fn answers(what: &str, ran: u64, hand: u64, table: &[u32]) {
    if ran != hand {
        println!("a run answers {ran}, {what} {hand}, of the table {table:?}");
        exit(1);
    }
}

/// The deck's steps by single calls of the archive, changes as replacements. What the run must answer.
fn by_calls(trial: &mut Trial, lent: &mut Lent) -> u64 {
    let (changes, steps) = (changes_of(&lent.table), lent.table[3]);
    for step in 1..=steps {
        for (_, change) in changes.iter().filter(|(_, change)| change[1] == step) {
            let (card, new) = replacement_of(&lent.table, change).expect("an accepted deck's");
            let answer = trial.call(lent, Call::Replace { card, new });
            if answer != 0 {
                return answer;
            }
        }
        let answer = trial.call(lent, Call::Step);
        if answer & 255 != 0 {
            return answer;
        }
    }
    65_536 * u64::from(steps)
}

/// The same with the cards written by hand and the present deck built afresh, at each increment with changes. Of a deck that was built.
fn by_builds(trial: &mut Trial, lent: &mut Lent) -> u64 {
    let (changes, steps) = (changes_of(&lent.table), lent.table[3]);
    for step in 1..=steps {
        for (_, change) in changes.iter().filter(|(_, change)| change[1] == step) {
            let (card, new) = replacement_of(&lent.table, change).expect("an accepted deck's");
            let old = lent.clone();
            let at = 6 * (card as usize - 1);
            lent.table[at..at + 6].copy_from_slice(&new);
            lent.matrices[..3]
                .iter_mut()
                .for_each(|matrix| matrix.iter_mut().take(3).for_each(|n| *n = 5));
            let answer = trial.call(lent, Call::Build);
            // Of the new deck only what changed can be refused: as its replacement is, which leaves the deck before it.
            if answer != 0 {
                *lent = old;
                return answer;
            }
        }
        let answer = trial.call(lent, Call::Step);
        if answer & 255 != 0 {
            return answer;
        }
    }
    65_536 * u64::from(steps)
}

/// A run, and its single calls: each answer and each lent number. What it answers and leaves.
fn as_its_calls(trial: &mut Trial, lent: &Lent) -> (u64, Lent) {
    let [mut ran, mut called] = [0; 2].map(|_| lent.clone());
    let answer = trial.call(&mut ran, Call::Run);
    let hand = by_calls(trial, &mut called);
    answers("its calls", answer, hand, &lent.table);
    same("its calls", &ran, &called, true);
    (answer, ran)
}

/// A run of a built deck, by single calls, and by fresh builds.
fn run(trial: &mut Trial, lent: &Lent) {
    let table = &lent.table;
    let (answer, ran) = as_its_calls(trial, lent);
    let mut anew = lent.clone();
    answers("fresh builds", answer, by_builds(trial, &mut anew), table);
    // A build clears the work slice, where an H or a T replaced leaves it.
    same("fresh builds", &ran, &anew, false);
    trial.as_by_hand(changes_of(table).len());
    // P, A and the factor are those of the present deck.
    trial.as_built(&ran, [0, 0]);
}

/// A board or block with a second material that some elements can't be made of.
fn board(chance: &mut Chance) -> Groups {
    let mut groups = match chance.within(0, 6) {
        0 => Groups::block(chance, 2, 3, 2),
        1 => Groups::slivers(chance),
        2 => Groups::one_of_each(),
        3 => Groups::two_solids(),
        _ => {
            let (columns, rows) = (chance.within(2, 6), chance.within(2, 5));
            Groups::sheet(chance, columns, rows)
        }
    };
    groups.d[2] = chance.within(1, 9);
    if chance.one_in(2) {
        groups.dock(chance);
    }
    // Too little capacity to factor, or too much.
    let hard = match chance.within(0, 3) {
        0 => Some([500_000, 1, 1]),
        1 => {
            groups.d[0] = 1;
            Some([1_000, 1_000, 5_000])
        }
        _ => None,
    };
    if let Some(hard) = hard {
        groups.materials = vec![[1_000, 1_000, 1_000], hard];
        groups.upward = vec![1_000; if groups.solids.is_empty() { 0 } else { 2 }];
        groups.elements.iter_mut().for_each(|card| card[3] = 1);
        groups.solids.iter_mut().for_each(|card| card[4] = 1);
    }
    groups
}

fn evenings(trial: &mut Trial) {
    for turn in trial.times(120) {
        let chance = &mut trial.chance;
        let mut groups = board(chance);
        let many = chance.pick(&[1, 2, 5, 20, 64]);
        let last = groups.d[2];
        groups.change(chance, many, last, turn % 3 == 0);
        // One time in some with so much heat that a later step is off the scale.
        if chance.one_in(8) && !groups.heats.is_empty() {
            let (element, step) = (groups.heats[0][0], chance.within(1, last));
            groups.changes.insert(0, [step, H, element, 5_000_000, 0]);
            groups.sort_changes();
            groups.changes.truncate(64);
            groups
                .materials
                .iter_mut()
                .for_each(|material| material[2] = 1_000);
        }
        let mut lent = lend(chance, groups.table());
        if trial.call(&mut lent, Call::Build) == 0 {
            run(trial, &lent);
        }
    }
    for groups in [
        Groups::largest(&mut trial.chance),
        Groups::largest_block(&mut trial.chance),
        changes::each(),
    ] {
        let mut groups = groups;
        groups.d[2] = groups.d[2].max(3);
        let lent = built(trial, groups.table());
        run(trial, &lent);
    }
}

/// P10, P8 and the leaning triangle in the place of what was there, and values out of their range, at each step of five; each alone,
/// after others of its increment, and before others.
fn refused(trial: &mut Trial) {
    let mut stiff = Groups::one_of_each();
    stiff.d[0] = 1;
    stiff.materials = vec![[1_000, 1_000, 960], [1_000, 1_000, 961]];
    stiff.elements[0][4] = 4_000;
    let mut slow = Groups::one_of_each();
    slow.d[0] = 60_000;
    (slow.films[0][1], slow.edges[0][2]) = (1, 1);
    slow.fixed.clear();
    slow.materials = vec![[1_000, 1_000, 5_000], [1_000, 1_000, 1]];
    let mut leaning = Groups::leaning();
    leaning.heats.push([1, 3]);
    leaning.films.push([1, 1, 19_660_800]);
    leaning.materials = vec![[1, 1, 5_000], [10_000, 10_000, 1]];
    let mut decks = vec![
        (stiff, [E, 1, 2, 4_000]),
        (slow, [E, 1, 2, 1_000]),
        (leaning, [E, 1, 2, 1_000]),
    ];
    for [letter, key, first, second] in [
        [E, 1, 0, 1_000],
        [E, 1, 2, 1_000],
        [E, 1, 1, 0],
        [E, 1, 1, 4_001],
        [H, 1, 0, 0],
        [H, 1, 5_000_001, 0],
        [F, 1, 0, 9],
        [F, 1, 100_001, 9],
        [F, 1, 9, 33_554_433],
        [T, 3, 33_554_433, 0],
        [T, 3, 99_999_999, 0],
    ] {
        decks.push((Groups::one_of_each(), [letter, key, first, second]));
    }
    for (mut groups, [letter, key, first, second]) in decks {
        groups.d[2] = 5;
        for step in 1..=6 {
            let change = [step, letter, key, first, second];
            for mask in 0..16 {
                groups.changes = vec![change];
                let thickness = groups.elements[0][4];
                let others = [
                    [step, E, 1, 1, thickness - 1],
                    [step, H, 1, 7, 0],
                    [step, F, 1, 2, 19_000_000],
                    [step, T, 3, 19_200_000, 0],
                ];
                for (at, other) in others.into_iter().enumerate() {
                    let has = groups.changeable().contains(&(other[1], other[2]));
                    if mask >> at & 1 == 1 && other[1] != letter && has {
                        groups.changes.push(other);
                    }
                }
                groups.sort_changes();
                let mut lent = lend(&mut trial.chance, groups.table());
                assert_eq!(trial.call(&mut lent, Call::Build), 0);
                run(trial, &lent);
            }
        }
    }
}

/// Of slices that are not the deck's own: 5 and 14 at each step.
fn flat_and_thin(trial: &mut Trial) {
    let mut groups = Groups::one_of_each();
    groups.d[2] = 5;
    for third in [[100, 100], [101, 102], [98, 100]] {
        for step in 1..=6 {
            for change in [
                [step, E, 1, 1, 900],
                [step, F, 1, 481, 19_660_800],
                [step, H, 1, 7, 0],
            ] {
                groups.changes = vec![change];
                let own = built(trial, groups.table());
                let mut other = groups.clone();
                other.nodes = vec![[0, 0], [50, 50], third];
                let lent = Lent {
                    table: other.table(),
                    ..own
                };
                as_its_calls(trial, &lent);
            }
        }
    }
}

/// Without C cards a run is its steps, whatever is lent.
fn plain(trial: &mut Trial) {
    for _ in trial.times(60) {
        let chance = &mut trial.chance;
        let groups = board(chance);
        let n = groups.nodes.len();
        let mut lent = lend(chance, groups.table());
        if trial.call(&mut lent, Call::Build) != 0 {
            continue;
        }
        let chance = &mut trial.chance;
        if chance.one_in(2) {
            warm(chance, &mut lent.temperatures[..n]);
        }
        let length = kept_of(&lent.table);
        // No change asks for it.
        shorten(chance, &mut lent.matrices[3], length);
        as_its_calls(trial, &lent);
    }
}

/// Each slice one too short, with no change, and with one at each step.
fn short(trial: &mut Trial) {
    for base in [Groups::one_of_each(), Groups::two_solids()] {
        let heated = base.heats[0][0];
        for step in 0..=4 {
            for letter in [E, H] {
                let mut groups = base.clone();
                groups.d[2] = 3;
                if step > 0 {
                    let change = match letter {
                        E => [step, E, 1, 1, 900],
                        _ => [step, H, heated, 7, 0],
                    };
                    groups.changes = vec![change];
                }
                let whole = built(trial, groups.table());
                for which in 0..9 {
                    let mut lent = whole.clone();
                    match which {
                        0..=3 => drop(lent.matrices[which].pop()),
                        4 => drop(lent.starts.pop()),
                        5 => drop(lent.temperatures.pop()),
                        6 => drop(lent.carried.pop()),
                        7 => lent.starts[1] += 1,
                        _ => lent.carried[0] = (1 << 33) + 1,
                    }
                    as_its_calls(trial, &lent);
                }
            }
        }
    }
}

/// A row of the lent P or A just at the bound of 10: a change brings it past, and the change or the step after it is refused. With no
/// heat, all cold, every step before it leaves all at 0.
fn grown(trial: &mut Trial) {
    let mut groups = Groups::one_of_each();
    groups.d[1..].copy_from_slice(&[0, 3]);
    groups.heats.clear();
    groups.fixed.clear();
    (groups.films[0][2], groups.edges[0][3]) = (0, 0);
    for step in 1..=3 {
        groups.changes = vec![[step, E, 1, 1, 1_500], [step, F, 1, 481, 0]];
        for count in [2, 1] {
            groups.changes.truncate(count);
            let own = built(trial, groups.table());
            for which in [0, 1] {
                let row = [0, 1, 3].iter().map(|&at| own.matrices[which][at].abs());
                let most = (1 << 33) - row.sum::<i64>();
                for more in [most, most - 1, most - 2_000, most - 100_000, i64::MAX >> 1] {
                    let mut lent = own.clone();
                    lent.matrices[which][0] += more;
                    as_its_calls(trial, &lent);
                }
            }
        }
    }
}

/// Buffers of another deck, spoiled or anything; short ones too.
fn foreign(trial: &mut Trial) {
    for _ in trial.times(500) {
        let mut lent = strange(trial);
        let chance = &mut trial.chance;
        let n = nodes_of(&lent.table);
        if chance.one_in(2) {
            warm(chance, &mut lent.temperatures[..n]);
        }
        if chance.one_in(2) {
            lent.starts = starts_of(&lent.table);
        }
        let length = kept_of(&lent.table);
        let which = chance.index(4);
        shorten(chance, &mut lent.matrices[which], length);
        as_its_calls(trial, &lent);
    }
}
