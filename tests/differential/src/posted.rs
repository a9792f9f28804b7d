//! Changes posted in two orders, changes taken back, and the same elements listed in another order: every number, bit for bit.

use crate::case::{Call, Lent, MATRICES};
use crate::decks::{by_turn, card, kept_of, nodes_of, Chance, Groups, E, F, G, H, M, N, V, Z};
use crate::limits::built;
use crate::plan::{deck, lend, replacement, warm, Part};
use crate::trial::Trial;
use reference::Card;
use std::process::exit;

pub const ALL: [Part; 5] = [
    ("a foil and a fan, in both orders", foil_and_fan),
    ("pairs of changes in both orders", pairs),
    ("changes taken back", undone),
    ("some changes in two orders", several),
    ("elements listed in another order", listed),
];

const THINGS: [&str; 15] = [
    "pairs accepted in both orders, both of E, V, F or G",
    "pairs accepted in both orders, one of them of H or T",
    "pairs accepted in both orders, both of H or T",
    "pairs accepted in both orders that share a node",
    "pairs accepted in both orders, an element and its film",
    "pairs accepted each alone, the later one refused in both orders",
    "pairs of which one order is accepted and the other refused at its first",
    "changes of E, V, F or G taken back",
    "changes of H or T taken back",
    "changes taken back after others",
    "three or more changes accepted in two orders",
    "decks with elements in another order that build",
    "solid decks with E and V in another order that build",
    "decks with elements in another order and C cards in another order",
    "decks with elements in another order and R cards in another order",
];

/// Counts of THINGS, none of which may stay at zero.
#[derive(Default)]
pub struct Posted([u64; THINGS.len()]);

impl Posted {
    fn count(&mut self, which: usize, met: bool) {
        self.0[which] += u64::from(met);
    }

    pub fn lines(&self) -> Vec<String> {
        let lines = THINGS.iter().zip(&self.0);
        lines.map(|(thing, n)| format!("{n:>8}  {thing}")).collect()
    }

    pub fn unmet(&self) -> Vec<String> {
        let unmet = THINGS.iter().zip(&self.0).filter(|(_, &n)| n == 0);
        unmet.map(|(thing, _)| thing.to_string()).collect()
    }
}

/// The first of all that is lent that two hold otherwise.
fn apart(one: &Lent, other: &Lent, matrices: usize) -> Option<&'static str> {
    let slices = (0..matrices).find(|&which| one.matrices[which] != other.matrices[which]);
    match slices {
        Some(which) => Some(MATRICES[which]),
        None if one.table != other.table => Some("table"),
        None if one.starts != other.starts => Some("starts"),
        None if one.temperatures != other.temperatures => Some("temperatures"),
        None if one.carried != other.carried => Some("carried"),
        None => None,
    }
}

/// Ends the program where two hold otherwise what they must hold the same.
fn same(what: &str, one: &Lent, other: &Lent, table: &[u32], calls: &[Call]) {
    if let Some(name) = apart(one, other, 4) {
        println!("{what}: another {name}, of the table {table:?} and {calls:?}");
        exit(1);
    }
}

fn ensure(right: bool, what: &str, table: &[u32], calls: &[Call]) {
    if !right {
        println!("{what}, of the table {table:?} and {calls:?}");
        exit(1);
    }
}

/// Past the matrix length all is as it was.
fn past(before: &Lent, after: &Lent, calls: &[Call]) {
    let length = kept_of(&before.table);
    let stays = |which: usize| before.matrices[which][length..] == after.matrices[which][length..];
    let right = (0..4).all(stays) && before.starts == after.starts;
    ensure(
        right,
        "changes wrote past the matrix length",
        &before.table,
        calls,
    );
}

fn asked(call: Call) -> (u32, Card) {
    match call {
        Call::Replace { card, new } => (card, new),
        _ => unreachable!(),
    }
}

fn stirs(call: Call) -> bool {
    [E, V, F, G].contains(&asked(call).1[0])
}

/// The nodes of a card, or of the element that it names.
fn nodes(table: &[u32], new: &Card) -> Vec<u32> {
    let count = |letters: &[u32]| {
        table
            .chunks_exact(6)
            .filter(|c| letters.contains(&c[0]))
            .count()
    };
    match new[0] {
        E => new[1..4].to_vec(),
        V => new[1..5].to_vec(),
        G => new[1..3].to_vec(),
        F | H => {
            let row = count(&[N, M]) + new[1] as usize;
            let element: Card = table[6 * row..6 * row + 6].try_into().unwrap();
            nodes(table, &element)
        }
        _ => vec![],
    }
}

/// A deck that builds, in what held anything before, with the work slice soiled again.
fn ready(trial: &mut Trial) -> Option<Lent> {
    let chance = &mut trial.chance;
    let table = match chance.within(0, 3) {
        0 => deck(chance),
        1 => Groups::block(chance, 2, 2, 2).table(),
        2 => Groups::one_of_each().table(),
        _ => Groups::sheet(chance, 3, 3).table(),
    };
    let mut lent = lend(chance, table);
    if trial.call(&mut lent, Call::Build) != 0 {
        return None;
    }
    soil(trial, &mut lent);
    Some(lent)
}

fn soil(trial: &mut Trial, lent: &mut Lent) {
    let chance = &mut trial.chance;
    lent.matrices[3]
        .iter_mut()
        .for_each(|n| *n = chance.signed());
}

/// Two in turn: what each is answered, and what is left.
fn in_turn(trial: &mut Trial, lent: &Lent, first: Call, second: Call) -> ([u64; 2], Lent) {
    let mut lent = lent.clone();
    let answers = [first, second].map(|call| trial.call(&mut lent, call));
    (answers, lent)
}

/// Both orders of two changes of different cards.
fn both_orders(trial: &mut Trial, lent: &Lent, q: Call, r: Call) {
    let (table, calls) = (&lent.table, [q, r]);
    let (qr, one) = in_turn(trial, lent, q, r);
    let (rq, other) = in_turn(trial, lent, r, q);
    if qr == [0; 2] && rq == [0; 2] {
        same(
            "two changes in the other order",
            &one,
            &other,
            table,
            &calls,
        );
        past(lent, &one, &calls);
        let stirring = [q, r].iter().filter(|&&call| stirs(call)).count();
        let [a, b] = [q, r].map(|call| asked(call).1);
        let [p, o] = [a, b].map(|new| nodes(table, &new));
        let film = |e: &Card, f: &Card| e[0] == E && f[0] == F && nodes(table, f) == e[1..4];
        let met = &mut trial.posted;
        met.count(2 - stirring, true);
        met.count(3, p.iter().any(|node| o.contains(node)));
        met.count(4, film(&a, &b) || film(&b, &a));
    }
    if qr[0] == 0 && rq[0] == 0 {
        let right = qr[1] == rq[1];
        ensure(
            right,
            "the later of two changes is answered otherwise in the other order",
            table,
            &calls,
        );
        trial.posted.count(5, qr[1] != 0);
    }
    let taken = |answers: [u64; 2]| answers == [0; 2];
    trial
        .posted
        .count(6, taken(qr) && rq[0] != 0 || taken(rq) && qr[0] != 0);
}

/// An element that is too thin without its film: refused by 7 where it comes first, accepted where the film does. The deck and what is said of
/// it stand in docs/PROMISES.md.
fn foil_and_fan(trial: &mut Trial) {
    let mut groups = Groups::base();
    groups.d[0] = 60_000;
    groups.films.push([1, 1, 19_660_800]);
    let lent = built(trial, groups.table());
    let foil = Call::Replace {
        card: 6,
        new: card(E, &[1, 2, 3, 1, 10]),
    };
    let fan = Call::Replace {
        card: 7,
        new: card(F, &[1, 48_000, 19_660_800]),
    };
    let (first, _) = in_turn(trial, &lent, foil, fan);
    let (last, left) = in_turn(trial, &lent, fan, foil);
    ensure(
        first == [7 + (1 << 16), 0],
        "a foil first",
        &lent.table,
        &[foil, fan],
    );
    ensure(
        last == [0, 0],
        "a foil under a fan",
        &lent.table,
        &[fan, foil],
    );
    both_orders(trial, &lent, foil, fan);
    // From there, the fan stopped and the foil gone: each accepted alone, or not.
    let still = Call::Replace {
        card: 7,
        new: card(F, &[1, 1, 19_660_800]),
    };
    let sheet = Call::Replace {
        card: 6,
        new: card(E, &[1, 2, 3, 1, 1_000]),
    };
    both_orders(trial, &left, still, sheet);
    let (_, thick) = in_turn(trial, &lent, fan, fan);
    both_orders(trial, &thick, foil, still);
}

fn pairs(trial: &mut Trial) {
    for _ in trial.times(60) {
        let Some(lent) = ready(trial) else { continue };
        for _ in 0..12 {
            let q = replacement(&mut trial.chance, &lent.table);
            let r = replacement(&mut trial.chance, &lent.table);
            if asked(q).0 != asked(r).0 {
                both_orders(trial, &lent, q, r);
            }
        }
    }
}

/// An accepted change and then the old card: all as it was, the work slice zeroed where the card stirs.
fn undone(trial: &mut Trial) {
    for _ in trial.times(60) {
        let Some(mut lent) = ready(trial) else {
            continue;
        };
        let mut others = 0;
        for _ in 0..12 {
            let call = replacement(&mut trial.chance, &lent.table);
            let mut now = lent.clone();
            if trial.call(&mut now, call) != 0 {
                continue;
            }
            let after = now.clone();
            let (card, _) = asked(call);
            let at = 6 * (card as usize - 1);
            let old: Card = lent.table[at..at + 6].try_into().unwrap();
            let back = Call::Replace { card, new: old };
            let answer = trial.call(&mut now, back);
            ensure(
                answer == 0,
                "the old card is refused",
                &lent.table,
                &[call, back],
            );
            let mut right = lent.clone();
            if stirs(call) {
                right.matrices[3][..kept_of(&lent.table)].fill(0);
            }
            same(
                "a change taken back",
                &now,
                &right,
                &lent.table,
                &[call, back],
            );
            let met = &mut trial.posted;
            met.count(if stirs(call) { 7 } else { 8 }, true);
            met.count(9, others > 0);
            lent = after;
            soil(trial, &mut lent);
            others += 1;
        }
    }
}

fn all(trial: &mut Trial, lent: &Lent, calls: &[Call]) -> (bool, Lent) {
    let mut lent = lent.clone();
    let answers: Vec<u64> = calls
        .iter()
        .map(|&call| trial.call(&mut lent, call))
        .collect();
    (answers.iter().all(|&answer| answer == 0), lent)
}

fn shuffle<A>(chance: &mut Chance, list: &mut [A]) {
    (1..list.len()).for_each(|at| list.swap(at, chance.index(at + 1)));
}

fn several(trial: &mut Trial) {
    for _ in trial.times(60) {
        let Some(lent) = ready(trial) else { continue };
        let mut calls: Vec<Call> = vec![];
        for _ in 0..trial.chance.within(3, 9) {
            let call = replacement(&mut trial.chance, &lent.table);
            let new = calls.iter().all(|&other| asked(other).0 != asked(call).0);
            // One that is refused alone is left out: then most orders are accepted.
            if new && trial.call(&mut lent.clone(), call) == 0 {
                calls.push(call);
            }
        }
        let (taken, one) = all(trial, &lent, &calls);
        let mut others = calls.clone();
        shuffle(&mut trial.chance, &mut others);
        let (others_taken, other) = all(trial, &lent, &others);
        if taken && others_taken {
            same(
                "changes in another order",
                &one,
                &other,
                &lent.table,
                &calls,
            );
            past(&lent, &one, &calls);
            trial.posted.count(10, calls.len() >= 3 && calls != others);
        }
    }
}

// ---- elements

/// By the words: an order of the numbers within E and within V, the cards listed so, and what names elements renumbered and rising again.
fn relisted(chance: &mut Chance, groups: &Groups) -> Groups {
    let triangles = groups.elements.len();
    let mut order: Vec<usize> = (0..triangles + groups.solids.len()).collect();
    shuffle(chance, &mut order[..triangles]);
    shuffle(chance, &mut order[triangles..]);
    let number = |e: u32| order[e as usize - 1] as u32 + 1;
    let mut other = groups.clone();
    for (e, card) in groups.elements.iter().enumerate() {
        other.elements[order[e]] = *card;
    }
    for (v, card) in groups.solids.iter().enumerate() {
        other.solids[order[triangles + v] - triangles] = *card;
    }
    other
        .heats
        .iter_mut()
        .for_each(|heat| heat[0] = number(heat[0]));
    other.heats.sort_unstable();
    other
        .films
        .iter_mut()
        .for_each(|film| film[0] = number(film[0]));
    other.films.sort_unstable();
    other
        .sources
        .iter_mut()
        .for_each(|source| source[0] = number(source[0]));
    other.sources.sort_unstable();
    for change in &mut other.changes {
        if [E, H, F].contains(&change[1]) {
            change[2] = number(change[2]);
        }
    }
    other.changes.sort_by_key(by_turn);
    other
}

/// The same P, A, factor and starts; a refusal of the factor the same, of an element one of the elements'; and the same steps.
fn listed(trial: &mut Trial) {
    for round in trial.times(60) {
        let chance = &mut trial.chance;
        let mut groups = match round % 4 {
            0 => Groups::block(chance, 2, 2, 2),
            1 => Groups::two_solids(),
            2 => Groups::wild(chance),
            _ => Groups::sheet(chance, 4, 3),
        };
        groups.dock(chance);
        groups.changes.clear();
        groups.change(chance, 12, 2, false);
        let other = relisted(chance, &groups);
        let values = |it: &Groups| it.changes.iter().map(|c| [c[3], c[4]]).collect::<Vec<_>>();
        let moved = values(&groups) != values(&other);
        let mut one = lend(chance, groups.table());
        let table = one.table.clone();
        let mut two = Lent {
            table: other.table(),
            ..one.clone()
        };
        assert!(two.table[two.table.len() - 6] == Z);
        let answers = [
            trial.call(&mut one, Call::Build),
            trial.call(&mut two, Call::Build),
        ];
        let right = match answers.map(|answer| answer & 255) {
            [5 | 6 | 14, 5 | 6 | 14] => true,
            _ => answers[0] == answers[1],
        };
        ensure(
            right,
            "elements in another order are answered otherwise",
            &table,
            &[],
        );
        if answers[0] != 0 {
            continue;
        }
        let apart = |one: &Lent, two: &Lent| {
            apart(
                one,
                &Lent {
                    table: one.table.clone(),
                    ..two.clone()
                },
                4,
            )
        };
        ensure(
            apart(&one, &two).is_none(),
            "elements in another order make another matrix",
            &table,
            &[],
        );
        for _ in 0..3 {
            let n = nodes_of(&table);
            warm(&mut trial.chance, &mut one.temperatures[..n]);
            two.temperatures.clone_from(&one.temperatures);
            let answers = [
                trial.call(&mut one, Call::Step),
                trial.call(&mut two, Call::Step),
            ];
            ensure(
                answers[0] == answers[1],
                "elements in another order step otherwise",
                &table,
                &[],
            );
            ensure(
                apart(&one, &two).is_none(),
                "elements in another order warm otherwise",
                &table,
                &[],
            );
        }
        let met = &mut trial.posted;
        met.count(11, one.table != two.table);
        met.count(
            12,
            !groups.solids.is_empty()
                && groups.elements != other.elements
                && groups.solids != other.solids,
        );
        met.count(13, moved);
        let ticks = |it: &Groups| it.sources.iter().map(|r| r[1]).collect::<Vec<_>>();
        met.count(14, ticks(&groups) != ticks(&other));
    }
}
