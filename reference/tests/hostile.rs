//! Slices of every length and numbers of every size: no call panics, and a
//! refusal leaves every number as it was.

mod common;

use common::*;
use reference::{read, write, Answer, Ran, Stepped};

fn numbers(chance: &mut Chance, length: usize) -> Vec<i64> {
    (0..length).map(|_| chance.signed()).collect()
}

/// Own buffers, some numbers of them changed and some lengths cut.
fn spoil(chance: &mut Chance, lent: &mut Lent) {
    for _ in 0..chance.within(0, 2) {
        let wild = chance.signed();
        let whole = chance.one_in(8);
        let wilds = numbers(chance, lent.p.len());
        let list = match chance.within(0, 6) {
            0 => &mut lent.p,
            1 => &mut lent.a,
            2 => &mut lent.factor,
            3 => &mut lent.work,
            4 => &mut lent.carried,
            _ => &mut lent.temperatures,
        };
        if whole {
            for (number, wild) in list.iter_mut().zip(wilds) {
                *number = wild;
            }
        } else if chance.one_in(4) {
            list.truncate(chance.within(0, list.len() as u32) as usize);
        } else if !list.is_empty() {
            let at = chance.index(list.len());
            list[at] = wild;
        }
    }
    if chance.one_in(3) {
        let at = chance.index(lent.table.len());
        lent.table[at] = chance.unsigned();
    }
    if chance.one_in(20) {
        lent.table
            .truncate(chance.within(0, lent.table.len() as u32) as usize);
    }
}

/// The work slice may be zeroed on 7 and 8, over the matrix length alone.
fn unwritten(before: &Lent, after: &Lent, number: u8, redone: bool) {
    if redone && (number == 7 || number == 8) {
        assert_eq!(*after, before.clone().with_zeroed_work());
    } else {
        assert_eq!(after, before);
    }
}

#[test]
fn spoiled_buffers() {
    let mut chance = Chance::seeded(10);
    let mut met = [0; NUMBERS];
    for _ in 0..10_000 {
        let table = if chance.one_in(2) {
            Groups::wild(&mut chance).table()
        } else {
            match chance.one_in(3) {
                true => Groups::block(&mut chance, 2, 2, 2).table(),
                false => Groups::sheet(&mut chance, 2, 3).table(),
            }
        };
        let mut before = Lent::new(table);
        before.build();
        let cards = before.table.len() as u32 / 6;
        let number = if chance.one_in(20) {
            chance.unsigned()
        } else {
            chance.within(0, cards + 1)
        };
        let mut new = [0; 6];
        if let Some(card) = before
            .table
            .chunks(6)
            .nth((number as usize).saturating_sub(1))
        {
            new.copy_from_slice(card);
        }
        new[chance.index(6)] = chance.unsigned();
        spoil(&mut chance, &mut before);

        let mut lent = before.clone();
        if let Answer::Refused(refusal) = lent.build() {
            unwritten(&before, &lent, refusal.number, true);
            met[refusal.number as usize] += 1;
        }
        let mut lent = before.clone();
        if let Answer::Refused(refusal) = lent.replace(number, new) {
            unwritten(
                &before,
                &lent,
                refusal.number,
                [E, V, F, G].contains(&new[0]),
            );
            met[refusal.number as usize] += 1;
        }
        let mut lent = before.clone();
        match lent.step() {
            Stepped::Refused(refusal) => {
                unwritten(&before, &lent, refusal.number, false);
                met[refusal.number as usize] += 1;
            }
            Stepped::Settled(corrections) => assert!((1..=4).contains(&corrections)),
        }
        let mut lent = before.clone();
        if let Some(steps) = lent.table.get_mut(3) {
            *steps = (*steps).min(3);
        }
        if let Ran::Done(steps) = lent.run() {
            assert_eq!(steps, lent.table[3]);
        }
    }
    // 15 and 16 are of records, 17 of the kept form.
    assert!(met[1..15].iter().all(|&times| times > 0), "{met:?}");
}

/// The largest numbers that pass refusal 10 don't overflow.
#[test]
fn largest_numbers() {
    let mut chance = Chance::seeded(11);
    for round in 0..60 {
        let mut groups = Groups::sheet(&mut chance, 12, 8);
        groups.fixed.clear();
        for heat in &mut groups.heats {
            heat[1] = 5_000_000;
        }
        for film in &mut groups.films {
            *film = [film[0], 100_000, TOP];
        }
        for edge in &mut groups.edges {
            *edge = [edge[0], edge[1], 100_000, TOP, 4_000];
        }
        let n = groups.nodes.len();
        let diagonal = |i: usize| triangle(i) + i;
        let each = (1 << 33) / n as i64;
        let mut lent = Lent::new(groups.table());
        let mut sign = || if chance.one_in(2) { 1 } else { -1 };
        for at in 0..triangle(n) {
            lent.p[at] = sign() * each;
            lent.a[at] = sign() * each;
            lent.factor[at] = sign() * (1 << 24);
        }
        for i in 0..n {
            lent.factor[diagonal(i)] = if round % 2 == 0 { 16 } else { 1 << 38 };
            lent.temperatures[i] = if sign() == 1 { i64::from(TOP) } else { 0 };
        }
        let before = lent.clone();
        assert!(matches!(lent.step(), Stepped::Refused(_)));
        assert_eq!(lent, before);
        let first_element = 1 + n + groups.materials.len();
        let e = groups.elements[0];
        lent.replace(
            first_element as u32 + 1,
            card(E, &[e[0], e[1], e[2], e[3], 4_000]),
        );
    }
}

/// The longest forward sum: 95 y of 2^52, each 2^24 times into a last r of 2^58.
#[test]
fn longest_sum() {
    for sign in [1, -1] {
        let mut groups = Groups::sheet(&mut Chance::seeded(13), 12, 8);
        (groups.heats, groups.films) = (vec![], vec![]);
        (groups.edges, groups.fixed) = (vec![], vec![]);
        let mut lent = Lent::new(groups.table());
        let n = groups.nodes.len();
        lent.p[..triangle(n)].fill(0);
        lent.a[..triangle(n)].fill(0);
        lent.factor[..triangle(n)].fill(0);
        for i in 0..n {
            lent.p[triangle(i) + i] = sign * if i == n - 1 { 1 << 33 } else { 1 << 27 };
            lent.factor[triangle(i) + i] = 1 << 38;
            lent.factor[triangle(n - 1) + i] = -(1 << 24);
            lent.temperatures[i] = i64::from(TOP);
        }
        lent.factor[triangle(n) - 1] = 1 << 38;
        assert_eq!(lent.step(), step_refused(8, 96));
    }
}

#[test]
fn any_slices() {
    let mut chance = Chance::seeded(12);
    for _ in 0..20_000 {
        let length = chance.pick(&[0, 1, 5, 6, 12, 18, 42, 48, 6_396, 6_402]);
        let table: Vec<u32> = (0..length).map(|_| chance.unsigned()).collect();
        let size = chance.within(0, 40) as usize;
        let mut lent = Lent {
            table,
            p: numbers(&mut chance, size),
            a: numbers(&mut chance, size),
            factor: numbers(&mut chance, size),
            work: numbers(&mut chance, size),
            temperatures: numbers(&mut chance, size),
            carried: numbers(&mut chance, size),
        };
        let before = lent.clone();
        lent.build();
        lent.replace(chance.unsigned(), [0; 6].map(|_: u32| chance.unsigned()));
        lent.step();
        lent.run();
        write(&lent.table, &mut [0; 100]);
        assert_eq!(lent, before);

        let bytes: Vec<u8> = (0..chance.within(0, 300))
            .map(|_| chance.bits() as u8)
            .collect();
        let (answer, start, end) = read(&bytes, &mut lent.table);
        assert!(answer != Answer::Done && (start, end) == (0, 0));
        assert_eq!(lent, before);
    }
}
