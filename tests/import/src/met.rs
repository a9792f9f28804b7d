//! What the cases met. Each thing must be met.

use crate::case::{Case, Outcome};
use crate::decks::{
    field, is_solid, kind::*, Record, C, E, F, G, H, INFINITY, R, SIGN, T, UNITS, V,
};

/// A case with what it answered, taken apart.
struct Seen<'a> {
    case: &'a Case,
    number: u64,
    place: usize,
    records: Vec<Record>,
}

type Thing = (&'static str, fn(&Seen) -> bool);

pub struct Met([u64; THINGS.len()]);

impl Default for Met {
    fn default() -> Met {
        Met([0; THINGS.len()])
    }
}

impl Met {
    pub fn see(&mut self, case: &Case, outcome: &Outcome) {
        let seen = Seen {
            case,
            number: outcome.answer & 255,
            place: (outcome.answer >> 16) as usize,
            records: case.records(),
        };
        for (count, (_, test)) in self.0.iter_mut().zip(THINGS) {
            *count += u64::from(test(&seen));
        }
    }

    /// How many things there are, and the rarest.
    pub fn print(&self) {
        let mut all: Vec<_> = self.0.iter().zip(THINGS).collect();
        all.sort_by_key(|(&count, _)| count);
        println!("{} things were looked for, of which the rarest:", all.len());
        for (count, (name, _)) in all.into_iter().take(6) {
            println!("{count:>8} cases  {name}");
        }
    }

    pub fn unmet(&self) -> Vec<&'static str> {
        let zero = self.0.iter().zip(THINGS).filter(|(&count, _)| count == 0);
        zero.map(|(_, (name, _))| name).collect()
    }
}

impl Seen<'_> {
    fn done(&self) -> bool {
        self.number == 0
    }

    /// Of an accepted case: does a used value of that place pass the test? 0 is a heat, 1 a film, 2 an ambient, 3 a fixed node's.
    fn value(&self, place: usize, test: impl Fn(u32, f64) -> bool) -> bool {
        let used = |record: &Record| match (record.kind, place) {
            (HEAT, 0) => Some((record.values[0], UNITS[0])),
            (FILM, 1) => Some((record.values[0], UNITS[1])),
            (FILM, 2) => Some((record.values[1], UNITS[2])),
            (HELD, 3) => Some((record.values[0], UNITS[2])),
            _ => None,
        };
        let mut all = self.records.iter().filter_map(used);
        self.done() && all.any(|(bits, unit)| test(bits, unit))
    }

    /// The record that is refused, where one is: not the deck's own 4, whose place is a card.
    fn refused(&self, number: u64) -> Option<&Record> {
        let own = self.number == number && (number > 13 || self.deck_is_right());
        self.records.get(self.place.checked_sub(1)?).filter(|_| own)
    }

    fn deck_is_right(&self) -> bool {
        let mut bytes = vec![0; 7 * self.case.table.len()];
        reference::write(&self.case.table, &mut bytes) == reference::Answer::Done
    }

    fn before(&self) -> Option<&Record> {
        self.records.get(self.place.checked_sub(2)?)
    }

    fn is_tail(&self) -> bool {
        self.place == self.records.len()
    }

    /// Is it refused by 4, in this kind, its number and order right, for a value that passes the test?
    fn out_of_range(&self, kind: u16, value: usize, test: impl Fn(f64) -> bool) -> bool {
        let unit = match (kind, value) {
            (HEAT, _) => UNITS[0],
            (FILM, 0) => UNITS[1],
            _ => UNITS[2],
        };
        let alone = self.records.len() == 2;
        self.refused(4).is_some_and(|record| {
            alone
                && record.kind == kind
                && record.number == 1
                && test(field(record.values[value], unit))
        })
    }

    fn letter(&self, place: usize) -> Option<u32> {
        self.case
            .table
            .chunks(6)
            .nth(place.checked_sub(1)?)
            .map(|card| card[0])
    }

    fn count(&self, letter: u32) -> usize {
        let cards = self.case.table.chunks(6);
        cards.filter(|card| card[0] == letter).count()
    }

    fn wanted(&self) -> usize {
        self.case.table.len() + 6 * self.records.len().saturating_sub(1)
    }
}

fn is_half(bits: u32, unit: f64) -> bool {
    (f64::from(f32::from_bits(bits)) * unit).abs().fract() == 0.5
}

/// The next one towards zero of an exact half.
fn is_under(bits: u32, unit: f64) -> bool {
    is_half(bits + 1, unit)
}

fn is_nan(bits: u32) -> bool {
    bits & !SIGN > INFINITY
}

fn is_infinite(bits: u32) -> bool {
    bits & !SIGN == INFINITY
}

fn is_subnormal(bits: u32) -> bool {
    f32::from_bits(bits).is_subnormal()
}

const THINGS: [Thing; 72] = [
    ("an exact half of a µW", |s| s.value(0, is_half)),
    ("one just under it", |s| s.value(0, is_under)),
    ("an exact half of a mW", |s| s.value(1, is_half)),
    ("one just under it", |s| s.value(1, is_under)),
    ("an ambient of an exact half of a tick", |s| {
        s.value(2, is_half)
    }),
    ("one just under it", |s| s.value(2, is_under)),
    ("a fixed node of an exact half of a tick", |s| {
        s.value(3, is_half)
    }),
    ("one just under it", |s| s.value(3, is_under)),
    ("a used negative zero, in an ambient", |s| {
        s.value(2, |bits, _| bits == SIGN)
    }),
    ("a used negative zero, in a fixed node", |s| {
        s.value(3, |bits, _| bits == SIGN)
    }),
    ("a negative ambient that is 0", |s| {
        s.value(2, |bits, _| bits > SIGN)
    }),
    ("a negative fixed node that is 0", |s| {
        s.value(3, |bits, _| bits > SIGN)
    }),
    ("a subnormal ambient", |s| {
        s.value(2, |bits, _| is_subnormal(bits))
    }),
    ("a subnormal fixed node", |s| {
        s.value(3, |bits, _| is_subnormal(bits))
    }),
    ("the largest heat", |s| {
        s.value(0, |bits, unit| field(bits, unit) == 5e6)
    }),
    ("the largest film", |s| {
        s.value(1, |bits, unit| field(bits, unit) == 1e5)
    }),
    ("the top of the scale, an ambient", |s| {
        s.value(2, |bits, _| bits == 512f32.to_bits())
    }),
    ("the top of the scale, a fixed node", |s| {
        s.value(3, |bits, _| bits == 512f32.to_bits())
    }),
    ("H, F and T about G cards", |s| {
        let has = |kind| s.records.iter().any(|record| record.kind == kind);
        s.done() && s.count(G) > 0 && has(HEAT) && has(FILM) && has(HELD)
    }),
    ("heat on a V", |s| {
        let on = |record: &Record| record.kind == HEAT && usize::from(record.number) > s.count(E);
        s.done() && s.records.iter().any(on)
    }),
    ("a film in a solid deck", |s| {
        s.done() && is_solid(&s.case.table) && s.records.iter().any(|record| record.kind == FILM)
    }),
    ("no record but the last", |s| {
        s.done() && s.records.len() == 1
    }),
    ("1,066 cards", |s| s.done() && s.wanted() == 6_396),
    ("sources between new F and new T cards", |s| {
        let has = |kind| s.records.iter().any(|record| record.kind == kind);
        s.done() && s.count(R) > 0 && has(FILM) && has(HELD)
    }),
    ("sources, edges, changes and no new T card", |s| {
        let held = s.records.iter().any(|record| record.kind == HELD);
        let all = s.count(R) > 0 && s.count(G) > 0 && s.count(C) > 0;
        s.done() && all && !held
    }),
    ("changes after new T cards", |s| {
        s.done() && s.count(C) > 0 && s.records.iter().any(|record| record.kind == HELD)
    }),
    ("changes, edges and no new T card", |s| {
        let held = s.records.iter().any(|record| record.kind == HELD);
        s.done() && s.count(C) > 0 && s.count(G) > 0 && !held
    }),
    ("64 changes", |s| s.done() && s.count(C) == 64),
    ("4 at a C, whose card only a record would be", |s| {
        s.number == 4 && s.letter(s.place) == Some(C) && s.count(H) + s.count(F) + s.count(T) == 0
    }),
    ("just enough room", |s| {
        s.done() && s.case.second.len() == s.wanted()
    }),
    ("more room", |s| {
        s.done() && s.case.second.len() > s.wanted()
    }),
    ("9 for one number", |s| {
        s.number == 9 && s.case.second.len() + 1 == s.wanted()
    }),
    ("13 at an H", |s| {
        s.number == 13 && s.letter(s.place) == Some(H)
    }),
    ("13 at an F", |s| {
        s.number == 13 && s.letter(s.place) == Some(F)
    }),
    ("13 at a T", |s| {
        s.number == 13 && s.letter(s.place) == Some(T)
    }),
    ("13 at a T after a G", |s| {
        s.number == 13 && s.letter(s.place) == Some(T) && s.letter(s.place - 1) == Some(G)
    }),
    ("13 with records that 1 would refuse", |s| {
        s.number == 13 && s.case.records.len() % 12 != 0
    }),
    ("1 of no records", |s| {
        s.number == 1 && s.case.records.is_empty()
    }),
    ("1 of records not in twelves", |s| {
        s.number == 1 && s.case.records.len() % 12 != 0
    }),
    ("1 of too many records", |s| {
        s.number == 1 && s.case.records.len() == 65_544
    }),
    ("as many records as there may be", |s| {
        s.case.records.len() == 65_532 && s.place > 0
    }),
    ("16 for kind 0 before the last", |s| {
        !s.is_tail() && s.refused(16).is_some_and(|record| record.kind == 0)
    }),
    ("16 for kind 4", |s| {
        !s.is_tail() && s.refused(16).is_some_and(|record| record.kind == 4)
    }),
    ("16 for a kind above 255", |s| {
        !s.is_tail() && s.refused(16).is_some_and(|record| record.kind > 255)
    }),
    ("16 for an unused negative zero", |s| {
        filled(s, |bits| bits == SIGN)
    }),
    ("16 for an unused NaN", |s| filled(s, is_nan)),
    ("16 for an unused infinity", |s| filled(s, is_infinite)),
    ("16 for an unused subnormal", |s| filled(s, is_subnormal)),
    ("16 beside a NaN that is used", |s| {
        filled(s, |bits| bits != 0) && s.refused(16).is_some_and(|record| is_nan(record.values[0]))
    }),
    ("16 for a last record of another kind", |s| {
        s.is_tail()
            && s.refused(16)
                .is_some_and(|record| (1..=3).contains(&record.kind))
    }),
    ("16 for a last record that counts one less", |s| {
        s.is_tail()
            && s.refused(16)
                .is_some_and(|r| r.kind == 0 && usize::from(r.number) + 2 == s.place)
    }),
    ("16 for a last record that counts one more", |s| {
        s.is_tail()
            && s.refused(16)
                .is_some_and(|r| r.kind == 0 && usize::from(r.number) == s.place)
    }),
    ("16 for a last record's negative zero", |s| {
        let count = s.place.wrapping_sub(1);
        let right = |r: &Record| r.kind == 0 && usize::from(r.number) == count;
        s.is_tail()
            && s.refused(16)
                .is_some_and(|r| right(r) && r.values.contains(&SIGN))
    }),
    ("15 for an infinite heat", |s| {
        spoils(s, HEAT, 0, is_infinite)
    }),
    ("15 for a heat that is a NaN", |s| {
        spoils(s, HEAT, 0, is_nan)
    }),
    ("15 for an infinite film", |s| {
        spoils(s, FILM, 0, is_infinite)
    }),
    ("15 for a film that is a NaN", |s| {
        spoils(s, FILM, 0, is_nan)
    }),
    ("15 for an infinite ambient", |s| {
        spoils(s, FILM, 1, is_infinite)
    }),
    ("15 for an ambient that is a NaN", |s| {
        spoils(s, FILM, 1, is_nan)
    }),
    ("15 for an infinite fixed node", |s| {
        spoils(s, HELD, 0, is_infinite)
    }),
    ("15 for a fixed node that is a NaN", |s| {
        spoils(s, HELD, 0, is_nan)
    }),
    ("15 beside a number that is out of range", |s| {
        s.refused(15)
            .is_some_and(|record| record.number == 0 || record.number > 160)
    }),
    ("4 for the number 0", |s| {
        s.refused(4).is_some_and(|record| record.number == 0)
    }),
    ("4 for F on a V", |s| {
        let elements = s.count(E) + s.count(V);
        let on =
            |r: &Record| s.count(E) < usize::from(r.number) && usize::from(r.number) <= elements;
        s.refused(4)
            .is_some_and(|record| record.kind == FILM && on(record))
    }),
    ("4 for a kind that falls", |s| {
        let falls = |r: &Record| s.before().is_some_and(|before| before.kind > r.kind);
        s.refused(4).is_some_and(falls)
    }),
    ("4 for a number twice", |s| {
        let twice = |r: &Record| {
            s.before()
                .is_some_and(|b| b.kind == r.kind && b.number == r.number)
        };
        s.refused(4).is_some_and(twice)
    }),
    ("4 for a heat of 0", |s| {
        s.out_of_range(HEAT, 0, |whole| whole == 0.0)
    }),
    ("4 for a heat past the range by 1", |s| {
        s.out_of_range(HEAT, 0, |whole| whole == 5_000_001.0)
    }),
    ("4 for a film past the range by 1", |s| {
        s.out_of_range(FILM, 0, |whole| whole == 100_001.0)
    }),
    ("4 for a fixed node past the top", |s| {
        s.out_of_range(HELD, 0, |whole| {
            whole > 33_554_432.0 && whole < 33_554_440.0
        })
    }),
    ("4 for a fixed node of -1 tick", |s| {
        s.out_of_range(HELD, 0, |whole| whole == -1.0)
    }),
    ("4 before a later record's 16", |s| {
        let later =
            |record: &Record| record.kind > 3 || (record.kind != FILM && record.values[1] != 0);
        s.refused(4).is_some() && s.records[s.place..].iter().any(later)
    }),
];

/// Is a record but the last refused by 16 for an unused value that passes the test?
fn filled(seen: &Seen, test: impl Fn(u32) -> bool) -> bool {
    let of = |record: &Record| [HEAT, HELD].contains(&record.kind) && test(record.values[1]);
    !seen.is_tail() && seen.refused(16).is_some_and(of)
}

/// Is a record of this kind refused by 15 for this value alone?
fn spoils(seen: &Seen, kind: u16, value: usize, test: impl Fn(u32) -> bool) -> bool {
    let other = |record: &Record| record.values[1 - value] & INFINITY != INFINITY;
    let of = |record: &Record| record.kind == kind && test(record.values[value]) && other(record);
    seen.refused(15).is_some_and(of)
}
