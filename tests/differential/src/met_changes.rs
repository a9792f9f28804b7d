//! What was met of C cards: counts that must not stay at zero. `tests/kernel` takes this file too.

use crate::case::Call;
use crate::decks::{C, E, F, G, H, MOST_CHANGES, MOST_VALUE, NAMED, T, V};
use crate::met_solids::Seen;

type Thing = (&'static str, fn(&Seen) -> bool);

const THINGS: [Thing; 37] = [
    ("decks with 64 C cards accepted", |seen| {
        seen.accepted() && seen.count(C) == MOST_CHANGES
    }),
    ("65th C cards refused by 3", |seen| {
        seen.at(3, C) && seen.count(C) > MOST_CHANGES && seen.turn() == MOST_CHANGES + 1
    }),
    (
        "C cards of one increment accepted, letters rising",
        |seen| seen.accepted() && seen.pairs().any(|(a, b)| a[1] == b[1] && a[2] != b[2]),
    ),
    ("C cards of one increment accepted, T after F", |seen| {
        seen.accepted()
            && seen
                .pairs()
                .any(|(a, b)| a[1] == b[1] && a[2] == F && b[2] == T)
    }),
    (
        "C cards of one increment and letter accepted, keys rising",
        |seen| seen.accepted() && seen.pairs().any(|(a, b)| a[1..3] == b[1..3]),
    ),
    (
        "C cards accepted whose key falls with the increment rising",
        |seen| seen.accepted() && seen.pairs().any(|(a, b)| a[1] < b[1] && a[3] > b[3]),
    ),
    (
        "C cards accepted whose letter falls with the increment rising",
        |seen| {
            seen.accepted()
                && seen
                    .pairs()
                    .any(|(a, b)| a[1] < b[1] && a[2] == T && b[2] == E)
        },
    ),
    ("C cards accepted past the number of steps", |seen| {
        seen.accepted() && seen.cards(C).any(|card| card[1] > seen.table[3])
    }),
    (
        "C cards accepted with a value that no card may have",
        |seen| seen.accepted() && seen.cards(C).any(|card| card[4] == MOST_VALUE),
    ),
    ("C cards accepted in solid decks", |seen| {
        seen.accepted() && seen.solid() && seen.count(C) > 0
    }),
    ("C cards refused by 4, increment 0", |seen| {
        seen.of(4) && seen.field(1) == 0
    }),
    ("C cards refused by 4, increment past 100,000", |seen| {
        seen.of(4) && seen.field(1) > 100_000
    }),
    ("C cards refused by 4, of a V", |seen| {
        seen.of(4) && seen.field(2) == V
    }),
    ("C cards refused by 4, of a G", |seen| {
        seen.of(4) && seen.field(2) == G
    }),
    ("C cards refused by 4, of no letter", |seen| {
        seen.of(4) && !(65..=90).contains(&seen.field(2))
    }),
    ("C cards refused by 4, key 0", |seen| {
        seen.of(4) && NAMED.contains(&seen.field(2)) && seen.field(3) == 0
    }),
    ("C cards refused by 4, an E that is a V", |seen| {
        let elements = seen.count(E) + seen.count(V);
        let key = seen.field(3) as usize;
        seen.of(4) && seen.field(2) == E && seen.count(E) < key && key <= elements
    }),
    ("C cards refused by 4, an E past the elements", |seen| {
        let elements = seen.count(E) + seen.count(V);
        seen.of(4) && seen.field(2) == E && seen.field(3) as usize > elements
    }),
    ("C cards refused by 4, an element without H", |seen| {
        seen.keyless(H)
    }),
    ("C cards refused by 4, an element without F", |seen| {
        seen.keyless(F)
    }),
    ("C cards refused by 4, a node without T", |seen| {
        seen.keyless(T)
    }),
    ("C cards refused by 4, whose H comes after them", |seen| {
        let mut later = seen.table.chunks_exact(6).skip(seen.place);
        let key = [H, seen.field(3)];
        seen.of(4) && seen.field(2) == H && later.any(|card| card[..2] == key)
    }),
    (
        "C cards refused by 4, a first value past eight columns",
        |seen| seen.of(4) && seen.field(4) > MOST_VALUE,
    ),
    (
        "C cards refused by 4, a second value past eight columns",
        |seen| seen.of(4) && seen.field(5) > MOST_VALUE,
    ),
    ("C cards refused by 4, the same as the one before", |seen| {
        seen.after_change(|a, b| a[1..4] == b[1..4])
    }),
    ("C cards refused by 4, an increment that falls", |seen| {
        seen.after_change(|a, b| a[1] > b[1])
    }),
    ("C cards refused by 4, a letter that falls", |seen| {
        seen.after_change(|a, b| a[1] == b[1] && a[2] == T && b[2] == F)
    }),
    ("C cards refused by 4, a key that falls", |seen| {
        seen.after_change(|a, b| a[1..3] == b[1..3] && a[3] > b[3])
    }),
    (
        "C cards refused by 3 in bytes, a fifth field with an H or T",
        |seen| seen.fifth(3, &[H, T], |columns| columns == "0" || columns == "7"),
    ),
    (
        "C cards refused by 3 in bytes, no fifth field with an E or F",
        |seen| seen.fifth(3, &[E, F], str::is_empty),
    ),
    (
        "C cards refused by 3 in bytes, no fifth field with another code",
        |seen| {
            let other = !NAMED.contains(&seen.field(2));
            other && seen.spelled(3, C, 5).is_some_and(str::is_empty)
        },
    ),
    (
        "C cards refused by 4 in bytes, a fifth field with another code",
        |seen| {
            let other = !NAMED.contains(&seen.field(2));
            other && seen.spelled(4, C, 5).is_some_and(|columns| columns == "7")
        },
    ),
    (
        "C cards refused by 3 in tables, a fifth field with an H or T",
        |seen| {
            let one = [H, T].contains(&seen.field(2));
            seen.call != Call::Read && seen.of(3) && one && seen.field(5) != 0
        },
    ),
    ("C cards refused by 3, where none may stand", |seen| {
        seen.of(3) && seen.turn() == 1 && ![H, F, G, T, E, V].contains(&seen.letter(seen.place - 1))
    }),
    ("H, F, G and T cards refused by 3, after a C", |seen| {
        let after = seen.letter(seen.place.wrapping_sub(1)) == C;
        seen.number == 3 && after && [H, F, G, T].contains(&seen.letter(seen.place))
    }),
    ("new C cards refused by 3", |seen| {
        seen.number == 3
            && seen
                .new_card()
                .is_some_and(|new| new[0] == C && new[5] != 0)
    }),
    ("new C cards refused by 13 in their own place", |seen| {
        let own = seen.card(seen.place);
        seen.number == 13
            && seen
                .new_card()
                .is_some_and(|new| Some(&new[..]) == own && new[0] == C)
    }),
];

impl<'a> Seen<'a> {
    /// A C of the deck, and no new card, is refused so.
    fn of(&self, number: u64) -> bool {
        self.at(number, C) && self.new_card().is_none()
    }

    fn pairs(&self) -> impl Iterator<Item = (&'a [u32], &'a [u32])> + '_ {
        self.cards(C).zip(self.cards(C).skip(1))
    }

    /// Which C the place is, from 1.
    fn turn(&self) -> usize {
        let before = self.table.chunks_exact(6).take(self.place);
        before.filter(|card| card[0] == C).count()
    }

    fn keyless(&self, letter: u32) -> bool {
        let key = self.field(3);
        self.of(4) && self.field(2) == letter && key > 0 && self.cards(letter).all(|c| c[1] != key)
    }

    /// 4 at a C after a C, both of letters that a C may name.
    fn after_change(&self, test: impl Fn(&[u32], &[u32]) -> bool) -> bool {
        let two = self
            .card(self.place.wrapping_sub(1))
            .zip(self.card(self.place));
        let named = |card: &[u32]| card[0] == C && NAMED.contains(&card[2]);
        self.of(4) && two.is_some_and(|(a, b)| named(a) && named(b) && test(a, b))
    }

    /// The reader's fifth field of a C of such a code.
    fn fifth(&self, number: u64, codes: &[u32], test: impl Fn(&str) -> bool) -> bool {
        codes.contains(&self.field(2)) && self.spelled(number, C, 5).is_some_and(test)
    }
}

pub struct Changes {
    /// Decks accepted with a C of each letter, by call.
    accepted: [[u64; 4]; 5],
    things: [u64; THINGS.len()],
}

impl Default for Changes {
    fn default() -> Changes {
        Changes {
            accepted: [[0; 4]; 5],
            things: [0; THINGS.len()],
        }
    }
}

impl Changes {
    pub fn see(&mut self, seen: &Seen) {
        for (count, letter) in self.accepted[seen.call.index()].iter_mut().zip(NAMED) {
            *count += u64::from(seen.accepted() && seen.cards(C).any(|card| card[2] == letter));
        }
        for (count, (_, test)) in self.things.iter_mut().zip(&THINGS) {
            *count += u64::from(test(seen));
        }
    }

    pub fn lines(&self) -> Vec<String> {
        let mut lines = vec![format!("{:14}      E      H      F      T", "with C of")];
        for (name, met) in Call::NAMES.iter().zip(&self.accepted) {
            let counts: String = met.iter().map(|count| format!(" {count:>6}")).collect();
            lines.push(format!("{name:14}{counts}"));
        }
        let things = self.things.iter().zip(&THINGS);
        lines.extend(things.map(|(count, (thing, _))| format!("{count:>8} {thing}")));
        lines
    }

    pub fn unmet(&self) -> Vec<String> {
        let mut unmet = vec![];
        for (name, met) in Call::NAMES.iter().zip(&self.accepted) {
            for (letter, _) in "EHFT".chars().zip(met).filter(|(_, count)| **count == 0) {
                unmet.push(format!("{name} accepted with a C of {letter}"));
            }
        }
        let things = self.things.iter().zip(&THINGS);
        let none = things.filter(|(count, _)| **count == 0);
        unmet.extend(none.map(|(_, (thing, _))| thing.to_string()));
        unmet
    }
}
