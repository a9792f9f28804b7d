//! What was met of kept rows and their starts: counts that must not stay at zero. `tests/kernel` takes this file too.

use crate::case::{Call, Lent};
use crate::decks::{firsts, kept_of, nodes_of, starts_of, triangle, E, F, G, H, T, V};
use reference::kept;

/// A call that takes starts: what it was lent, what it left and its answer.
pub struct Told<'a> {
    pub call: Call,
    pub before: &'a Lent,
    pub after: &'a Lent,
    pub answer: u64,
}

type Thing = (&'static str, fn(&Told) -> bool);

const THINGS: [Thing; 45] = [
    (
        "builds accepted of more than three nodes with all rows full",
        |told| told.built() && told.nodes() > 3 && told.kept() == triangle(told.nodes()),
    ),
    (
        "builds accepted with all rows a diagonal but for one element",
        |told| told.built() && told.sharing().count() == 1 && told.nodes() > 4,
    ),
    (
        "builds accepted of 96 nodes with less than a fifth of the triangle kept",
        |told| told.built() && told.nodes() == 96 && 5 * told.kept() < triangle(96),
    ),
    (
        "builds accepted of 96 nodes with more than three fifths of it kept",
        |told| told.built() && told.nodes() == 96 && 5 * told.kept() > 3 * triangle(96),
    ),
    (
        "builds accepted with a column that a held node alone gives",
        |told| told.built() && told.otherwise(|card| card[0] != T && !told.holds(card)),
    ),
    (
        "builds accepted with a column that an edge alone gives",
        |told| told.built() && told.otherwise(|card| card[0] != G),
    ),
    (
        "builds accepted with a column that an edge of a g of 0 alone gives",
        |told| told.built() && told.otherwise(|card| card[0] != G || card[3] > 1),
    ),
    (
        "builds accepted with a column that a triangle alone gives",
        |told| told.built() && told.otherwise(|card| card[0] != E),
    ),
    (
        "builds accepted with a column that a tetrahedron alone gives",
        |told| told.built() && told.otherwise(|card| card[0] != V),
    ),
    (
        "steps accepted with a column that an element of no area alone gives",
        |told| told.stepped() && told.otherwise(|card| card[0] != E || !twice(card)),
    ),
    (
        "builds accepted with a row whose first column is later than that of a row it meets",
        |told| told.built() && told.meets(|row, other| row > other),
    ),
    (
        "builds accepted with a row whose first column is earlier",
        |told| told.built() && told.meets(|row, other| row < other),
    ),
    (
        "replacements of E, V, F and G accepted, a row of them reaching further left than one that it meets",
        |told| {
            told.replaced(&[E, V, F, G]) && told.accepted() && told.meets(|row, other| row < other)
        },
    ),
    (
        "steps accepted with less than a half of the triangle kept",
        |told| told.stepped() && 2 * told.kept() < triangle(told.nodes()),
    ),
    (
        "steps of more than one correction with rows left out",
        |told| told.stepped() && told.answer >> 8 > 1 && told.kept() < triangle(told.nodes()),
    ),
    ("builds accepted over starts that were another's", |told| {
        told.built() && told.stray()
    }),
    ("builds accepted over the deck's own starts", |told| {
        told.built() && !told.stray()
    }),
    (
        "builds accepted with starts past the last node that stay",
        |told| told.built() && told.before.starts.len() > told.nodes(),
    ),
    ("builds refused by 5, the starts as they were", |told| {
        told.left(5)
    }),
    ("builds refused by 6, the starts as they were", |told| {
        told.left(6)
    }),
    ("builds refused by 7, the starts as they were", |told| {
        told.left(7)
    }),
    ("builds refused by 8, the starts as they were", |told| {
        told.left(8)
    }),
    ("builds refused by 9, the starts as they were", |told| {
        told.left(9)
    }),
    ("builds refused by 14, the starts as they were", |told| {
        told.left(14)
    }),
    ("builds refused by 9 for the starts alone", |told| {
        told.call == Call::Build && told.short()
    }),
    ("steps refused by 9 for the starts alone", |told| {
        told.call == Call::Step && told.short()
    }),
    (
        "replacements of E and V refused by 9 for the starts alone",
        |told| told.replaced(&[E, V]) && told.short(),
    ),
    (
        "replacements of H and T refused by 9 for the starts alone",
        |told| told.replaced(&[H, T]) && told.short(),
    ),
    ("9 for the starts, the first of them wrong too", |told| {
        told.short() && told.before.starts.first().is_some_and(|&start| start != 0)
    }),
    ("17 at the first row", |told| told.at(17, 1)),
    ("17 at the last row", |told| {
        told.at(17, told.nodes() as u64)
    }),
    ("17 at a row between, a later one wrong too", |told| {
        let (nodes, place) = (told.nodes() as u64, told.answer >> 16);
        told.number() == 17 && 1 < place && place < nodes && told.wrongs() > 1
    }),
    ("17 for a start one more", |told| {
        told.by(|right, lent| lent == right + 1)
    }),
    ("17 for a start one less", |told| {
        told.by(|right, lent| right > 0 && lent == right - 1)
    }),
    ("17 for the packed form's starts", |told| {
        let packed = |row: usize| triangle(row) as u32;
        told.number() == 17 && (0..told.nodes()).all(|row| told.before.starts[row] == packed(row))
    }),
    ("17 of a step", |told| {
        told.call == Call::Step && told.number() == 17
    }),
    ("17 of an E", |told| told.stray_of(E)),
    ("17 of a V", |told| told.stray_of(V)),
    ("17 of an H", |told| told.stray_of(H)),
    ("17 of an F", |told| told.stray_of(F)),
    ("17 of a G", |told| told.stray_of(G)),
    ("17 of a T", |told| told.stray_of(T)),
    ("17 where it would be 10", |told| {
        told.number() == 17 && told.with_own_starts() == 10
    }),
    ("17 where it would be 11", |told| {
        told.number() == 17 && told.with_own_starts() == 11
    }),
    ("3, 4 and 13 of a new card, the starts wrong too", |told| {
        [3, 4, 13].contains(&told.number()) && told.asked() && told.stray()
    }),
];

fn twice(card: &[u32]) -> bool {
    card[1] == card[2] || card[2] == card[3] || card[1] == card[3]
}

impl Told<'_> {
    fn number(&self) -> u64 {
        self.answer & 255
    }

    fn accepted(&self) -> bool {
        self.number() == 0
    }

    fn built(&self) -> bool {
        self.call == Call::Build && self.accepted()
    }

    fn stepped(&self) -> bool {
        self.call == Call::Step && self.accepted()
    }

    fn replaced(&self, letters: &[u32]) -> bool {
        matches!(self.call, Call::Replace { new, .. } if letters.contains(&new[0]))
    }

    fn stray_of(&self, letter: u32) -> bool {
        self.number() == 17 && self.replaced(&[letter])
    }

    /// A replacement whose deck stands: 3, 4 and 13 are of its own card.
    fn asked(&self) -> bool {
        let place = self.answer >> 16;
        matches!(self.call, Call::Replace { card, .. } if u64::from(card) == place)
            && reference::write(
                &self.before.table,
                &mut vec![0; 7 * self.before.table.len()],
            )
            .packed()
                == 0
    }

    fn nodes(&self) -> usize {
        nodes_of(&self.before.table)
    }

    fn kept(&self) -> usize {
        kept_of(&self.before.table)
    }

    fn cards(&self) -> impl Iterator<Item = &[u32]> {
        self.before.table.chunks_exact(6)
    }

    fn sharing(&self) -> impl Iterator<Item = &[u32]> {
        self.cards().filter(|card| [E, V, G].contains(&card[0]))
    }

    /// Does a card name a node that is held?
    fn holds(&self, card: &[u32]) -> bool {
        let count = match card[0] {
            V => 4,
            E => 3,
            G => 2,
            _ => 0,
        };
        let held = |node: &u32| self.cards().any(|card| card[0] == T && card[1] == *node);
        card[1..=count].iter().any(held)
    }

    /// Would some row begin elsewhere if only those cards were there?
    fn otherwise(&self, keep: impl Fn(&[u32]) -> bool) -> bool {
        let cards = self.cards().filter(|card| keep(card));
        let table: Vec<u32> = cards.flatten().copied().collect();
        firsts(&table) != firsts(&self.before.table)
    }

    /// A row and a column of it that is left of the diagonal, the first columns of both so.
    fn meets(&self, test: impl Fn(usize, usize) -> bool) -> bool {
        let firsts = firsts(&self.before.table);
        let rows = firsts.iter().enumerate();
        let mut pairs =
            rows.flat_map(|(row, &first)| (first..row).map(move |column| (row, column)));
        pairs.any(|(row, column)| test(firsts[row], firsts[column]))
    }

    fn starts(&self) -> &[u32] {
        &self.before.starts
    }

    /// How many of the lent starts are another's.
    fn wrongs(&self) -> usize {
        let own = starts_of(&self.before.table);
        let both = own.iter().zip(self.starts());
        both.filter(|(own, lent)| own != lent).count()
    }

    fn stray(&self) -> bool {
        self.starts().len() >= self.nodes() && self.wrongs() > 0
    }

    /// Of a build: refused by this, and starts were lent that it could have changed.
    fn left(&self, number: u64) -> bool {
        self.call == Call::Build
            && self.number() == number
            && self.wrongs() > 0
            && self.after.starts == self.before.starts
    }

    fn at(&self, number: u64, place: u64) -> bool {
        self.answer == number + 65_536 * place
    }

    /// 17 by one start alone, of which this is so.
    fn by(&self, test: impl Fn(u32, u32) -> bool) -> bool {
        let row = (self.answer >> 16).saturating_sub(1) as usize;
        self.number() == 17
            && self.wrongs() == 1
            && test(starts_of(&self.before.table)[row], self.starts()[row])
    }

    /// 9, and with starts that are long enough another answer.
    fn short(&self) -> bool {
        self.number() == 9 && self.starts().len() < self.nodes() && self.with_own_starts() != 9
    }

    /// The number that the same call answers with the deck's own starts.
    fn with_own_starts(&self) -> u64 {
        let mut lent = self.before.clone();
        let mut starts = starts_of(&lent.table);
        let [p, a, factor, work] = &mut lent.matrices;
        let (temperatures, carried) = (&mut lent.temperatures, &mut lent.carried);
        let table = &mut lent.table;
        let answer = match self.call {
            Call::Build => kept::build(table, p, a, factor, work, &mut starts).packed(),
            Call::Replace { card, new } => {
                kept::replace(table, p, a, factor, work, &starts, card, new).packed()
            }
            _ => kept::step(table, p, a, factor, &starts, temperatures, carried).packed(),
        };
        answer & 255
    }
}

pub struct Rows {
    things: [u64; THINGS.len()],
}

impl Default for Rows {
    fn default() -> Rows {
        Rows {
            things: [0; THINGS.len()],
        }
    }
}

impl Rows {
    /// A call whose deck was none says nothing of starts; of a replacement 3 and 4 can be of its own card.
    pub fn see(&mut self, told: &Told) {
        let number = told.number();
        if (1..=4).contains(&number) && !((number == 3 || number == 4) && told.asked()) {
            return;
        }
        for (count, (_, test)) in self.things.iter_mut().zip(&THINGS) {
            // Once met often, a thing is not asked for any more: some cost a call.
            if *count < ENOUGH {
                *count += u64::from(test(told));
            }
        }
    }

    pub fn lines(&self) -> Vec<String> {
        let things = self.things.iter().zip(&THINGS);
        let more = |count: u64| if count == ENOUGH { "+" } else { " " };
        things
            .map(|(&count, (thing, _))| format!("{count:>8}{}{thing}", more(count)))
            .collect()
    }

    pub fn unmet(&self) -> Vec<String> {
        let things = self.things.iter().zip(&THINGS);
        let none = things.filter(|(count, _)| **count == 0);
        none.map(|(_, (thing, _))| thing.to_string()).collect()
    }
}

/// A count goes no further.
const ENOUGH: u64 = 1_000;
