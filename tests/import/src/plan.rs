//! What is tried: each function is one kind of case.

use crate::case::Case;
use crate::decks::{
    kind::*, laid, single, with_tail, Chance, Groups, Record, C, D, E, F, G, H, INFINITY, M, N, R,
    RECORD_BYTES, SIGN, T, UNITS, V, Z,
};
use crate::trial::Trial;

pub const PARTS: [(&str, fn(&mut Trial)); 14] = [
    ("right records on decks of every kind", right),
    ("exact halves and both sides of them", halves),
    ("the ends of each range, and past them", ends),
    ("any bits as a value", values),
    ("infinities and NaNs beside right records", not_finite),
    ("numbers at their limits, on triangles and solids", numbers),
    ("records with a field or two changed", spoilt),
    ("each tail", tails),
    ("every single byte of some records changed", each_byte),
    ("records cut at every byte, and long ones", lengths),
    ("random bytes", random_bytes),
    ("decks that have H, F or T already", loaded),
    ("as many cards as there may be, and one more", largest),
    ("tables damaged at random", damaged_tables),
];

/// A deck of any kind, with loads for records to be of, one in two with changes.
fn deck(chance: &mut Chance) -> Groups {
    let mut groups = match chance.within(0, 7) {
        0 => Groups::one_of_each(),
        1 => Groups::two_solids(),
        2 => {
            let [columns, rows, floors] = [0; 3].map(|_| chance.within(2, 3));
            Groups::block(chance, columns, rows, floors)
        }
        3 => {
            let (columns, rows) = (chance.within(2, 8), chance.within(2, 6));
            Groups::sheet(chance, columns, rows)
        }
        _ => Groups::wild(chance),
    };
    if chance.one_in(2) {
        groups.dock(chance);
    }
    groups.varied(chance)
}

/// With a second table that is one too short, just right, longer or of any length.
fn lend(chance: &mut Chance, table: Vec<u32>, records: Vec<u8>) -> Case {
    let wanted = table.len() + 6 * (records.len() / RECORD_BYTES).saturating_sub(1);
    let room = match chance.within(0, 9) {
        0 => chance.index(wanted + 1),
        1 => wanted.saturating_sub(1),
        2 | 3 => wanted,
        _ => wanted + chance.within(1, 20) as usize,
    };
    let second = (0..room).map(|_| chance.unsigned()).collect();
    Case {
        table,
        records,
        second,
    }
}

fn call(trial: &mut Trial, groups: &Groups, records: Vec<u8>) {
    let case = lend(&mut trial.chance, groups.bare().table(), records);
    trial.call(case);
}

fn right(trial: &mut Trial) {
    for _ in 0..60_000 {
        let groups = deck(&mut trial.chance);
        let records = match trial.chance.one_in(50) {
            true => vec![],
            false => trial.chance.records(&groups),
        };
        call(trial, &groups, with_tail(&records));
    }
}

/// A value in each of the four places where one is used, alone on the papers' base.
fn one_value(trial: &mut Trial, bits: u32) {
    let base = Groups::base();
    let one = 1f32.to_bits();
    for record in [
        Record::new(HEAT, 1, [bits, 0]),
        Record::new(FILM, 1, [bits, one]),
        Record::new(FILM, 1, [one, bits]),
        Record::new(HELD, 1, [bits, 0]),
    ] {
        trial.call(Case {
            table: base.table(),
            records: with_tail(&[record]),
            second: vec![7; 50],
        });
    }
}

fn halves(trial: &mut Trial) {
    for (part, odds, by) in [
        (128.0, 640, 2),
        (16.0, 1_602, 2),
        (131_072.0, 1 << 24, 4_098),
    ] {
        for odd in (1..odds).step_by(by) {
            let bits = ((f64::from(odd) / part) as f32).to_bits();
            for near in [bits - 1, bits, bits + 1] {
                one_value(trial, near);
                one_value(trial, SIGN | near);
            }
        }
    }
    for _ in 0..20_000 {
        let unit = trial.chance.pick(&UNITS);
        let bits = trial.chance.half(unit);
        one_value(trial, bits);
    }
}

fn ends(trial: &mut Trial) {
    for unit in UNITS {
        for whole in [
            0.0,
            0.5,
            1.0,
            1.5,
            1e5,
            1e5 + 0.5,
            5e6,
            5e6 + 0.5,
            33_554_432.0,
            33_554_432.5,
        ] {
            let bits = single(whole, unit);
            for near in bits.saturating_sub(40)..=bits + 40 {
                one_value(trial, near);
                one_value(trial, SIGN | near);
            }
        }
    }
    // About 2^31, 2^32, 2^63 and 2^64 of each unit, where a number of fixed width would end.
    for (unit, power) in UNITS
        .into_iter()
        .flat_map(|u| [31, 32, 33, 52, 63, 64].map(|p| (u, p)))
    {
        let bits = single(2f64.powi(power), unit);
        for near in bits - 3..=bits + 3 {
            one_value(trial, near);
            one_value(trial, SIGN | near);
        }
    }
    for exponent in 0..512 {
        for low in [0, 1, (1 << 23) - 1] {
            one_value(trial, exponent << 23 | low);
        }
    }
}

fn values(trial: &mut Trial) {
    for _ in 0..150_000 {
        let bits = match trial.chance.one_in(3) {
            true => trial.chance.bits() as u32,
            false => trial.chance.single(),
        };
        one_value(trial, bits);
    }
}

fn not_finite(trial: &mut Trial) {
    for _ in 0..20_000 {
        let groups = deck(&mut trial.chance);
        let mut records = trial.chance.records(&groups);
        if records.is_empty() {
            continue;
        }
        let chance = &mut trial.chance;
        let at = chance.index(records.len());
        let value = chance.index(2);
        let fraction =
            chance.pick(&[0, 1, 1 << 22, (1 << 23) - 1]) | chance.bits() as u32 & 0x7F_FFFF;
        let fraction = if chance.one_in(3) { 0 } else { fraction };
        records[at].values[value] = INFINITY | fraction | chance.pick(&[0, SIGN]);
        // And often something else that is wrong.
        if chance.one_in(3) {
            chance.spoil(&mut records);
        }
        call(trial, &groups, with_tail(&records));
    }
}

fn numbers(trial: &mut Trial) {
    for _ in 0..20_000 {
        let groups = deck(&mut trial.chance);
        let chance = &mut trial.chance;
        let [e, v, n] = [
            &groups.elements.len(),
            &groups.solids.len(),
            &groups.nodes.len(),
        ]
        .map(|&count| count as u16);
        let near = [
            0,
            1,
            2,
            e,
            e + 1,
            e + v,
            e + v + 1,
            n,
            n + 1,
            256,
            257,
            256 * e,
            u16::MAX,
        ];
        let records: Vec<Record> = (0..chance.within(1, 3))
            .map(|_| match chance.within(1, 3) {
                1 => Record::heat(chance.pick(&near), 1.0),
                2 => Record::film(chance.pick(&near), 1.0, 300.0),
                _ => Record::held(chance.pick(&near), 300.0),
            })
            .collect();
        call(trial, &groups, with_tail(&records));
    }
}

fn spoilt(trial: &mut Trial) {
    for _ in 0..80_000 {
        let groups = deck(&mut trial.chance);
        let mut records = trial.chance.records(&groups);
        trial.chance.spoil(&mut records);
        let mut bytes = with_tail(&records);
        let chance = &mut trial.chance;
        if chance.one_in(8) {
            let at = chance.index(bytes.len());
            bytes[at] = chance.bits() as u8;
        }
        call(trial, &groups, bytes);
    }
}

fn tails(trial: &mut Trial) {
    for _ in 0..20_000 {
        let groups = deck(&mut trial.chance);
        let mut records = trial.chance.records(&groups);
        let chance = &mut trial.chance;
        let count = records.len() as u16;
        if chance.one_in(4) {
            chance.spoil(&mut records);
        }
        let mut tail = Record::tail(count);
        match chance.within(0, 5) {
            0 => tail.kind = chance.pick(&[1, 2, 3, 4, 256]),
            1 => {
                tail.number =
                    chance.pick(&[0, count.wrapping_sub(1), count + 1, 256 * count, 65_535])
            }
            2 => tail.values[0] = chance.single(),
            3 => tail.values[1] = chance.single(),
            4 => tail.values = [chance.pick(&[0, SIGN]), chance.pick(&[0, SIGN])],
            _ => {}
        }
        // Sometimes two of them, or none.
        match chance.within(0, 9) {
            0 => records.extend([Record::tail(count), Record::tail(count + 1)]),
            1 => {}
            _ => records.push(tail),
        }
        call(trial, &groups, laid(&records));
    }
}

fn each_byte(trial: &mut Trial) {
    for groups in [Groups::one_of_each(), Groups::one_of_each_solid()] {
        let mut records = with_tail(&groups.records());
        for at in 0..records.len() {
            let right = records[at];
            for value in 0..=255 {
                records[at] = value;
                call(trial, &groups, records.clone());
            }
            records[at] = right;
        }
    }
}

fn lengths(trial: &mut Trial) {
    let groups = Groups::two_solids();
    let records = with_tail(&groups.records());
    for at in 0..=records.len() {
        call(trial, &groups, records[at..].to_vec());
        call(trial, &groups, records[..at].to_vec());
    }
    for length in (65_500..65_560).chain([131_064, 131_072]) {
        for kind in 0..=3 {
            let record = Record::new(kind, 1, [1f32.to_bits(), 0]).bytes();
            let bytes = record.into_iter().cycle().take(length).collect();
            call(trial, &groups, bytes);
        }
    }
}

fn random_bytes(trial: &mut Trial) {
    for _ in 0..20_000 {
        let groups = deck(&mut trial.chance);
        let chance = &mut trial.chance;
        let length = match chance.within(0, 3) {
            0 => chance.within(0, 200),
            _ => 12 * chance.within(1, 12),
        };
        let few = chance.pick(&[2, 5, 256]);
        let byte = |chance: &mut Chance| chance.within(0, few - 1) as u8;
        let bytes = (0..length).map(|_| byte(chance)).collect();
        call(trial, &groups, bytes);
    }
}

fn loaded(trial: &mut Trial) {
    for _ in 0..20_000 {
        let mut groups = deck(&mut trial.chance);
        let mut records = trial.chance.records(&groups);
        let chance = &mut trial.chance;
        if chance.one_in(2) {
            groups.heats.clear();
        }
        if chance.one_in(2) {
            groups.films.clear();
        }
        if chance.one_in(2) {
            groups.fixed.clear();
        }
        if chance.one_in(2) {
            chance.spoil(&mut records);
        }
        let mut bytes = with_tail(&records);
        if chance.one_in(4) {
            bytes.truncate(chance.index(bytes.len()));
        }
        let case = lend(chance, groups.table(), bytes);
        trial.call(case);
    }
}

fn largest(trial: &mut Trial) {
    for _ in 0..60 {
        let chance = &mut trial.chance;
        let mut groups = match chance.one_in(2) {
            true => Groups::largest(chance),
            false => Groups::largest_block(chance),
        };
        // Of E alone, which a deck without H, F and T can have.
        groups.changes = (1..=64).map(|at| [at, E, 1 + at % 10, 1, 900]).collect();
        let mut records = chance.records(&groups);
        match chance.within(0, 4) {
            0 => chance.spoil(&mut records),
            1 => {
                let at = chance.index(records.len());
                let again = records[at];
                records.insert(at, again);
            }
            2 => drop(records.remove(chance.index(records.len()))),
            _ => {}
        }
        let bytes = with_tail(&records);
        for less in [0, 1] {
            let room = groups.bare().table().len() + 6 * records.len() - less;
            trial.call(Case {
                table: groups.bare().table(),
                records: bytes.clone(),
                second: vec![3; room],
            });
        }
    }
}

fn damaged_tables(trial: &mut Trial) {
    for _ in 0..40_000 {
        let groups = deck(&mut trial.chance);
        let chance = &mut trial.chance;
        let records = with_tail(&chance.records(&groups));
        let mut table = groups.bare().table();
        for _ in 0..chance.within(1, 2) {
            let at = chance.index(table.len());
            table[at] = match (at % 6, chance.one_in(3)) {
                (0, false) => chance.pick(&[D, N, M, E, V, H, F, G, R, T, C, Z]),
                (_, false) => table[at].wrapping_add(chance.pick(&[1, u32::MAX, 42, 6])),
                _ => chance.unsigned(),
            };
        }
        if chance.one_in(10) {
            table.truncate(chance.index(table.len() + 1));
        }
        let case = lend(chance, table, records);
        trial.call(case);
    }
}
