//! What was met of solid decks and V cards: counts that must not stay at zero. `tests/kernel` takes this file too.

use crate::case::Call;
use crate::decks::{is_solid, E, F, G, H, M, N, NUMBERS, T, V};
use crate::met::cards_in;

/// A call, the cards that it was lent, and its answer.
pub struct Seen<'a> {
    pub call: Call,
    /// The reader's.
    pub bytes: &'a [u8],
    pub table: &'a [u32],
    pub number: u64,
    pub place: usize,
}

/// The numbers that each call can answer with a solid deck.
const WANTED: [&[usize]; 5] = [
    &[0, 1, 2, 3, 4, 9],
    &[0, 1, 2, 3, 4, 9],
    &[0, 1, 2, 3, 4, 5, 6, 7, 8, 9, 14],
    &[0, 1, 2, 3, 4, 5, 6, 7, 8, 9, 10, 13, 14],
    &[0, 1, 2, 3, 4, 8, 9, 10, 11, 12],
];

/// And a replacement by a V card, of what is its own: it uses all its fields, so it is never 3.
const REPLACED: [usize; 9] = [0, 4, 5, 6, 7, 8, 9, 10, 13];

const AS_BUILT: &str = "V replacements accepted, then as a fresh build";

type Thing = (&'static str, fn(&Seen) -> bool);

/// What else is to be met.
const THINGS: [Thing; 46] = [
    ("decks of V alone accepted", |seen| {
        seen.accepted() && seen.count(V) > 0 && seen.count(E) == 0
    }),
    ("decks of E and V accepted", |seen| {
        seen.accepted() && seen.count(V) > 0 && seen.count(E) > 0
    }),
    ("decks with 160 V cards accepted", |seen| {
        seen.accepted() && seen.count(V) == 160
    }),
    ("decks with 160 elements of both kinds accepted", |seen| {
        seen.accepted() && seen.count(V) > 0 && seen.count(E) > 0 && seen.elements() == 160
    }),
    ("E cards refused by 4, their nodes at two levels", |seen| {
        seen.at(4, E) && seen.solid() && seen.aslant()
    }),
    ("F cards refused by 4, on a V", |seen| {
        seen.at(4, F) && seen.named().is_some_and(|card| card[0] == V)
    }),
    ("V cards refused by 3, where none may stand", |seen| {
        seen.at(3, V)
    }),
    ("V cards refused by 4", |seen| {
        seen.at(4, V) && !seen.asked()
    }),
    ("E cards refused by 3, after a V", |seen| {
        seen.at(3, E) && seen.letter(seen.place - 1) == V
    }),
    ("H cards after a V accepted", |seen| {
        seen.accepted() && seen.solid() && seen.count(H) > 0
    }),
    ("nodes past 1,023 refused by 4", |seen| {
        seen.at(4, N) && seen.solid()
    }),
    ("nodes past 1,023 accepted, of a flat deck", |seen| {
        seen.accepted() && !seen.solid() && seen.cards(N).any(|n| n[1].max(n[2]) > 1_023)
    }),
    ("a z in a flat table, 4", |seen| seen.filled(N, 3)),
    ("a kz in a flat table, 4", |seen| seen.filled(M, 4)),
    ("a z of 0 in the bytes of a flat deck, 4", |seen| {
        seen.spelled(4, N, 3) == Some("0") && !seen.solid()
    }),
    ("a z of more in the bytes of a flat deck, 4", |seen| {
        seen.spelled(4, N, 3).is_some_and(is_more) && !seen.solid()
    }),
    ("a kz of 0 in the bytes of a flat deck, 4", |seen| {
        seen.spelled(4, M, 4) == Some("0") && !seen.solid()
    }),
    ("a kz of more in the bytes of a flat deck, 4", |seen| {
        seen.spelled(4, M, 4).is_some_and(is_more) && !seen.solid()
    }),
    ("a blank z in the bytes of a solid deck, 3", |seen| {
        seen.spelled(3, N, 3) == Some("") && seen.solid()
    }),
    ("a blank kz in the bytes of a solid deck, 3", |seen| {
        seen.spelled(3, M, 4) == Some("") && seen.solid()
    }),
    ("a z that is no number in a flat deck, 3", |seen| {
        seen.spelled(3, N, 3).is_some_and(is_none) && !seen.solid()
    }),
    ("a z that is no number in a solid deck, 3", |seen| {
        seen.spelled(3, N, 3).is_some_and(is_none) && seen.solid()
    }),
    ("a kz that is no number in a flat deck, 3", |seen| {
        seen.spelled(3, M, 4).is_some_and(is_none) && !seen.solid()
    }),
    ("a kz that is no number in a solid deck, 3", |seen| {
        seen.spelled(3, M, 4).is_some_and(is_none) && seen.solid()
    }),
    ("a kz of 0 in a solid table, 4", |seen| {
        seen.at(4, M) && seen.solid() && seen.call != Call::Read && seen.field(4) == 0
    }),
    ("builds refused by 5 at a V", |seen| {
        seen.built_to(5) && seen.element(seen.place)[0] == V
    }),
    ("builds refused by 6 at a V", |seen| {
        seen.built_to(6) && seen.element(seen.place)[0] == V
    }),
    ("builds refused by 5 at an E before a V", |seen| {
        seen.built_to(5) && seen.solid() && seen.element(seen.place)[0] == E
    }),
    ("builds with a V of u 4,000,000", |seen| {
        seen.built_to(0) && seen.forms().any(|(u, _)| u == MOST)
    }),
    ("builds refused by 6 for a u of 4,000,001", |seen| {
        seen.built_to(6) && seen.form().is_some_and(|(u, _)| u == MOST + 1)
    }),
    ("builds with a V of a pair of 4,000,000", |seen| {
        seen.built_to(0) && seen.forms().any(|(_, pairs)| largest(pairs) == MOST)
    }),
    ("builds refused by 6 for a pair of 4,000,001", |seen| {
        seen.built_to(6)
            && seen
                .form()
                .is_some_and(|(_, pairs)| largest(pairs) == MOST + 1)
    }),
    ("builds with a V of some pairs above zero", |seen| {
        seen.built_to(0)
            && seen
                .forms()
                .any(|(_, pairs)| pairs.iter().any(|&pair| pair > 0))
    }),
    ("builds with an edge that rises", |seen| {
        seen.built_to(0) && seen.cards(G).any(|g| seen.level(g[1]) != seen.level(g[2]))
    }),
    ("steps with heat in a V", |seen| {
        seen.stepped() && seen.heated().any(|card| card[0] == V)
    }),
    ("steps with heat in an E before a V", |seen| {
        seen.stepped() && seen.solid() && seen.heated().any(|card| card[0] == E)
    }),
    ("steps with heat in a V of fewer than four nodes", |seen| {
        seen.stepped() && seen.heated().any(|card| card[0] == V && twice(&card[1..5]))
    }),
    ("new N cards with a z, 13", |seen| {
        seen.number == 13
            && seen
                .new_card()
                .is_some_and(|new| new[0] == N && new[3] != 0)
    }),
    ("new M cards with a kz, 13", |seen| {
        seen.number == 13
            && seen
                .new_card()
                .is_some_and(|new| new[0] == M && new[4] != 0)
    }),
    ("new V cards of other nodes, 13", |seen| {
        let old = seen.card(seen.place);
        let moved = |new: [u32; 6]| old.is_some_and(|old| old[0] == V && old[1..5] != new[1..5]);
        seen.number == 13 && seen.new_card().is_some_and(|new| new[0] == V && moved(new))
    }),
    ("V replaced, its first corner the least", |seen| {
        seen.least(0)
    }),
    ("V replaced, its second corner the least", |seen| {
        seen.least(1)
    }),
    ("V replaced, its third corner the least", |seen| {
        seen.least(2)
    }),
    ("V replaced, its fourth corner the least", |seen| {
        seen.least(3)
    }),
    ("V replaced over a held corner", |seen| {
        let held =
            |new: [u32; 6]| new[0] == V && seen.cards(T).any(|held| new[1..5].contains(&held[1]));
        seen.accepted() && seen.new_card().is_some_and(held)
    }),
    ("E replaced before a V", |seen| {
        seen.accepted() && seen.solid() && seen.new_card().is_some_and(|new| new[0] == E)
    }),
];

/// The greatest u, and the greatest magnitude of a pair's conductance.
const MOST: i64 = 4_000_000;

pub fn is_more(columns: &str) -> bool {
    !columns.starts_with('0') && columns.parse::<u32>().is_ok()
}

pub fn is_none(columns: &str) -> bool {
    !columns.is_empty() && columns != "0" && !is_more(columns)
}

fn twice(nodes: &[u32]) -> bool {
    (1..nodes.len()).any(|at| nodes[..at].contains(&nodes[at]))
}

fn largest(pairs: [i64; 6]) -> i64 {
    pairs.map(i64::abs).into_iter().fold(0, i64::max)
}

impl<'a> Seen<'a> {
    pub fn accepted(&self) -> bool {
        self.number == 0
    }

    pub fn stepped(&self) -> bool {
        self.accepted() && self.call == Call::Step
    }

    pub fn built_to(&self, number: u64) -> bool {
        self.call == Call::Build && self.number == number
    }

    pub fn solid(&self) -> bool {
        is_solid(self.table)
    }

    pub fn cards(&self, letter: u32) -> impl Iterator<Item = &'a [u32]> {
        let cards = self.table.chunks_exact(6);
        cards.filter(move |card| card[0] == letter)
    }

    pub fn count(&self, letter: u32) -> usize {
        self.cards(letter).count()
    }

    fn elements(&self) -> usize {
        self.count(E) + self.count(V)
    }

    /// A card by its number, D being 1.
    pub fn card(&self, number: usize) -> Option<&'a [u32]> {
        self.table.chunks_exact(6).nth(number.wrapping_sub(1))
    }

    pub fn letter(&self, number: usize) -> u32 {
        self.card(number).map_or(0, |card| card[0])
    }

    /// A refusal by that number at a card of that letter.
    pub fn at(&self, number: u64, letter: u32) -> bool {
        self.number == number && self.letter(self.place) == letter
    }

    /// A field of the card that is the place.
    pub fn field(&self, field: usize) -> u32 {
        self.card(self.place).map_or(0, |card| card[field])
    }

    pub fn new_card(&self) -> Option<[u32; 6]> {
        match self.call {
            Call::Replace { new, .. } => Some(new),
            _ => None,
        }
    }

    /// The place is the card that a replacement asks for.
    fn asked(&self) -> bool {
        matches!(self.call, Call::Replace { card, .. } if card as usize == self.place)
    }

    /// The element that the card at the place names.
    fn named(&self) -> Option<&'a [u32]> {
        let nodes = self.count(N) + self.count(M);
        self.card(1 + nodes + self.field(1) as usize)
    }

    pub fn element(&self, number: usize) -> &'a [u32] {
        let nodes = self.count(N) + self.count(M);
        self.card(1 + nodes + number).expect("an element")
    }

    fn level(&self, node: u32) -> u32 {
        self.card(1 + node as usize).map_or(0, |card| card[3])
    }

    fn aslant(&self) -> bool {
        let nodes = [1, 2, 3].map(|field| self.field(field));
        let there = nodes.iter().all(|&n| n >= 1 && n as usize <= self.count(N));
        let [a, b, c] = nodes.map(|node| self.level(node));
        there && (a != b || a != c)
    }

    /// A flat table refused for what a field holds that only a solid deck uses.
    fn filled(&self, letter: u32, field: usize) -> bool {
        let table = self.call != Call::Read && self.at(4, letter);
        table && !self.solid() && self.field(field) != 0
    }

    /// What the reader found in the columns of a field of the refused card, without the blanks before it.
    pub fn spelled(&self, number: u64, letter: u32, field: usize) -> Option<&'a str> {
        if self.call != Call::Read || !self.at(number, letter) {
            return None;
        }
        let card = cards_in(self.bytes).chunks_exact(42).nth(self.place - 1)?;
        let columns = std::str::from_utf8(&card[8 * field - 7..=8 * field]).ok()?;
        Some(columns.trim_start_matches(' '))
    }

    fn heated(&self) -> impl Iterator<Item = &'a [u32]> + '_ {
        self.cards(H).map(|card| self.element(card[1] as usize))
    }

    /// u and the six pairs of each V.
    fn forms(&self) -> impl Iterator<Item = (i64, [i64; 6])> + '_ {
        self.cards(V).filter_map(|card| self.form_of(card))
    }

    /// Of the V that is the place.
    fn form(&self) -> Option<(i64, [i64; 6])> {
        let card = self.element(self.place);
        (card[0] == V).then(|| self.form_of(card)).flatten()
    }

    fn form_of(&self, card: &[u32]) -> Option<(i64, [i64; 6])> {
        let points = [1, 2, 3, 4].map(|field| {
            let node = self.card(1 + card[field] as usize).expect("a node");
            [node[1], node[2], node[3]].map(i64::from)
        });
        let first = 1 + self.count(N) + card[5] as usize;
        let material = self.card(first).expect("a material");
        form(points, material, i64::from(self.table[1]))
    }

    /// A V was replaced whose least corner is this one.
    fn least(&self, corner: usize) -> bool {
        let least = |new: [u32; 6]| {
            let nodes = &new[1..5];
            new[0] == V && (0..4).all(|at| at == corner || nodes[at] > nodes[corner])
        };
        self.accepted() && self.new_card().is_some_and(least)
    }
}

/// u, and the pairs 12, 13, 14, 23, 24, 34; none of a V of no volume.
fn form(points: [[i64; 3]; 4], material: &[u32], step: i64) -> Option<(i64, [i64; 6])> {
    let face = |a: usize, b: usize, c: usize| {
        let side = |to: usize| [0, 1, 2].map(|axis| points[to][axis] - points[a][axis]);
        let ([u, v, w], [x, y, z]) = (side(b), side(c));
        [v * z - w * y, w * x - u * z, u * y - v * x]
    };
    // All four the same way round.
    let faces = [face(1, 3, 2), face(0, 2, 3), face(0, 3, 1), face(0, 1, 2)];
    let to = [0, 1, 2].map(|axis| points[3][axis] - points[0][axis]);
    let s: i64 = (0..3).map(|axis| to[axis] * faces[3][axis]).sum();
    let s = s.abs();
    if s == 0 {
        return None;
    }
    let k = [material[1], material[2], material[4]].map(i64::from);
    let pairs = [(0, 1), (0, 2), (0, 3), (1, 2), (1, 3), (2, 3)].map(|(i, j)| {
        let sum = (0..3).map(|axis| k[axis] * faces[i][axis] * faces[j][axis]);
        nearest(sum.sum(), 120 * s)
    });
    Some((nearest(i64::from(material[3]) * s, 960 * step), pairs))
}

fn nearest(n: i64, d: i64) -> i64 {
    n.signum() * ((2 * n.abs() + d) / (2 * d))
}

pub struct Solids {
    /// Calls that were lent a solid deck, by their answers.
    answers: [[u64; NUMBERS]; 5],
    /// Replacements by a V card.
    replaced: [u64; NUMBERS],
    things: [u64; THINGS.len()],
    as_built: u64,
}

impl Default for Solids {
    fn default() -> Solids {
        Solids {
            answers: [[0; NUMBERS]; 5],
            replaced: [0; NUMBERS],
            things: [0; THINGS.len()],
            as_built: 0,
        }
    }
}

impl Solids {
    pub fn see(&mut self, seen: &Seen) {
        let number = seen.number as usize;
        self.answers[seen.call.index()][number] += u64::from(seen.solid());
        let new = seen.new_card().is_some_and(|new| new[0] == V);
        // 4 of the new card, not of the deck.
        self.replaced[number] += u64::from(new && (number != 4 || seen.asked()));
        for (count, (_, test)) in self.things.iter_mut().zip(&THINGS) {
            *count += u64::from(test(seen));
        }
    }

    /// A deck as a fresh build makes it, after so many replacements of V cards.
    pub fn as_built(&mut self, solids: u32) {
        self.as_built += u64::from(solids > 0);
    }

    pub fn lines(&self) -> Vec<String> {
        let counts = |met: &[u64; NUMBERS]| -> String {
            met[1..]
                .iter()
                .map(|count| format!(" {count:>6}"))
                .collect()
        };
        let heads: String = (1..NUMBERS).map(|number| format!(" {number:>6}")).collect();
        let mut lines = vec![format!("{:14} accepted{heads}", "solid decks")];
        for (name, met) in Call::NAMES.iter().zip(&self.answers) {
            lines.push(format!("{name:14} {:>8}{}", met[0], counts(met)));
        }
        let met = &self.replaced;
        lines.push(format!(
            "{:14} {:>8}{}",
            "replace by V",
            met[0],
            counts(met)
        ));
        let things = self.things.iter().zip(&THINGS);
        lines.extend(things.map(|(count, (thing, _))| format!("{count:>8} {thing}")));
        lines.push(format!("{:>8} {AS_BUILT}", self.as_built));
        lines
    }

    pub fn unmet(&self) -> Vec<String> {
        let mut unmet = vec![];
        for (call, wanted) in WANTED.iter().enumerate() {
            for number in wanted
                .iter()
                .filter(|&&number| self.answers[call][number] == 0)
            {
                unmet.push(format!(
                    "{} of a solid deck, answer {number}",
                    Call::NAMES[call]
                ));
            }
        }
        for number in REPLACED
            .iter()
            .filter(|&&number| self.replaced[number] == 0)
        {
            unmet.push(format!("replace by V, answer {number}"));
        }
        let things = self.things.iter().zip(&THINGS);
        unmet.extend(
            things
                .filter(|(count, _)| **count == 0)
                .map(|(_, (thing, _))| thing.to_string()),
        );
        if self.as_built == 0 {
            unmet.push(AS_BUILT.to_string());
        }
        unmet
    }
}
