//! What was met of G cards, of heats, of carried residuals, of solid decks, of thin triangles, of starts, of C cards and of R cards: counts
//! that must not stay at zero.
//! `tests/kernel` takes this file too.

use crate::case::{Call, Lent};
use crate::decks::{E, G, H, N};
use crate::met_carried::{Carried, Stepped};
use crate::met_changes::Changes;
use crate::met_rows::{Rows, Told};
use crate::met_solids::{Seen, Solids};
use crate::met_sources::Sources;
use crate::met_thin::Thin;

/// Acceptance, and the refusals that a G card can be the cause of, or stand in the way of.
const ANSWERS: [u64; 6] = [0, 3, 4, 7, 8, 13];

/// Which of ANSWERS each call can give: 7 and 8 are the factor's and a step's, 13 a replacement's.
const WANTED: [[bool; 6]; 5] = [
    [true, true, true, false, false, false],
    [true, true, true, false, false, false],
    [true, true, true, true, true, false],
    [true, true, true, true, true, true],
    [true, true, true, false, true, false],
];

/// What else is to be met.
const THINGS: [&str; 15] = [
    "decks with 160 G cards accepted",
    "161st G cards refused by 3",
    "decks of 6,396 numbers accepted",
    "decks accepted whose pairs rise by the higher node alone",
    "decks accepted whose pairs rise while the higher node falls",
    "pairs refused that rise by no node, with the same lower one",
    "pairs refused whose lower node falls",
    "pairs refused that are equal or the higher node first",
    "builds with an edge between two nodes at one point",
    "builds with a g that is a half, gone up",
    "builds with a g just under a half, by a film of one less",
    "builds with a g just over a half, of a length that is no whole number",
    "builds with the largest g, 19,304",
    "new G cards refused by 4, in a deck that stands",
    "G replacements accepted, then as a fresh build",
];
const AS_BUILT: usize = 14;

/// The corners of a heated element as its card has them: which is the least, the middle and the greatest node.
const ORDERS: [&str; 7] = ["123", "132", "213", "231", "312", "321", "same"];

#[derive(Default)]
pub struct Met {
    answers: [[u64; 6]; 5],
    things: [u64; 15],
    /// Heats in accepted steps, by the remainder of their units by three and by the order of the corners.
    heats: [[u64; 7]; 3],
    carried: Carried,
    solids: Solids,
    thin: Thin,
    rows: Rows,
    changes: Changes,
    sources: Sources,
}

impl Met {
    /// A call, the table or bytes that it was lent, and its answer.
    pub fn see(&mut self, call: Call, before: &Lent, after: &Lent, answer: u64) {
        let (number, place) = (answer & 255, (answer >> 16) as usize);
        let unread;
        let table = match call {
            Call::Read if number == 0 => {
                &after.table[..(after.part[1] - after.part[0]) as usize / 7]
            }
            Call::Read => {
                unread = cards_of(&before.bytes);
                &unread[..]
            }
            _ => &before.table[..],
        };
        if call == Call::Step {
            self.carried.see(&Stepped {
                before,
                after,
                answer,
            });
        }
        let seen = Seen {
            call,
            bytes: &before.bytes,
            table,
            number,
            place,
        };
        self.solids.see(&seen);
        self.thin.see(&seen);
        self.changes.see(&seen);
        self.sources.see(&seen, before);
        if call.index() >= 2 {
            self.rows.see(&Told {
                call,
                before,
                after,
                answer,
            });
        }
        let card = |number: usize| table.chunks_exact(6).nth(number.wrapping_sub(1));
        let letter = |number: usize| card(number).map_or(0, |card| card[0]);
        let concerned = match (call, number) {
            (_, 3 | 4) => letter(place) == G,
            (Call::Replace { new, .. }, 13) => new[0] == G || letter(place) == G,
            (Call::Replace { new, .. }, _) => new[0] == G,
            _ => edges(table).next().is_some(),
        };
        if let Some(which) = ANSWERS.iter().position(|&answer| answer == number) {
            self.answers[call.index()][which] += u64::from(concerned);
        }
        let pair = card(place.wrapping_sub(1)).zip(card(place));
        match number {
            0 => self.accepted(call, table),
            3 => self.count(1, edges(table).count() > 160 && letter(place) == G),
            4 if letter(place) == G => {
                self.ill_paired(pair);
                let asked = matches!(call, Call::Replace { card, new } if card as usize == place && new[0] == G);
                self.count(13, asked);
            }
            _ => {}
        }
    }

    /// Of a deck that stepped; a tetrahedron leaves nothing.
    fn heated(&mut self, table: &[u32]) {
        let cards = || table.chunks_exact(6);
        let triangles: Vec<&[u32]> = cards().filter(|card| card[0] == E).collect();
        for card in cards().filter(|card| card[0] == H) {
            if let Some(triangle) = triangles.get(card[1] as usize - 1) {
                // 65,536 leaves 1.
                self.heats[card[2] as usize % 3][order_of(&triangle[1..4])] += 1;
            }
        }
    }

    fn accepted(&mut self, call: Call, table: &[u32]) {
        if call == Call::Step {
            self.heated(table);
        }
        self.count(0, edges(table).count() == 160);
        self.count(2, table.len() == 6_396);
        let pairs = || edges(table).zip(edges(table).skip(1));
        self.count(3, pairs().any(|(before, card)| before[1] == card[1]));
        self.count(4, pairs().any(|(before, card)| before[2] > card[2]));
        if call == Call::Build {
            for card in edges(table) {
                self.built(card[3], card[5], square_of(table, card));
            }
        }
    }

    fn built(&mut self, film: u32, thickness: u32, square: u64) {
        let g = |film| nearest(film, thickness, square);
        let length = (square as f64).sqrt().round() as u64;
        let whole = length * length == square;
        let half = whole
            && u128::from(film) * u128::from(thickness) * u128::from(length) % 120_000_000
                == 60_000_000;
        self.count(8, square == 0);
        self.count(9, half);
        self.count(10, g(film) < g(film + 1));
        self.count(11, !whole && g(film - 1) < g(film));
        self.count(12, g(film) == 19_304);
    }

    fn ill_paired(&mut self, pair: Option<(&[u32], &[u32])>) {
        let Some((before, card)) = pair else { return };
        let paired = before[0] == G && card[1] < card[2];
        self.count(5, paired && before[1] == card[1] && before[2] >= card[2]);
        self.count(6, paired && before[1] > card[1]);
        self.count(7, card[1] >= card[2]);
    }

    fn count(&mut self, thing: usize, met: bool) {
        self.things[thing] += u64::from(met);
    }

    /// A deck as a fresh build makes it, after so many replacements of G and of V cards.
    pub fn as_built(&mut self, [edges, solids]: [u32; 2]) {
        self.count(AS_BUILT, edges > 0);
        self.solids.as_built(solids);
    }

    /// What was met, a line each.
    pub fn lines(&self) -> Vec<String> {
        let mut lines =
            vec![format!("{:14}", "with G") + " accepted      3      4      7      8     13"];
        for (name, met) in Call::NAMES.iter().zip(&self.answers) {
            let counts: String = met[1..]
                .iter()
                .map(|count| format!(" {count:>6}"))
                .collect();
            lines.push(format!("{name:14} {:>8}{counts}", met[0]));
        }
        lines.push(
            format!("{:14}", "heats left") + &ORDERS.map(|order| format!(" {order:>6}")).concat(),
        );
        for (left, met) in self.heats.iter().enumerate() {
            let counts: String = met.iter().map(|count| format!(" {count:>6}")).collect();
            lines.push(format!("{left:<14}{counts}"));
        }
        let things = self.things.iter().zip(THINGS);
        lines.extend(things.map(|(count, thing)| format!("{count:>8} {thing}")));
        lines.extend(self.carried.lines());
        lines.extend(self.solids.lines());
        lines.extend(self.thin.lines());
        lines.extend(self.rows.lines());
        lines.extend(self.changes.lines());
        lines.extend(self.sources.lines());
        lines
    }

    /// What was not met, and had to be.
    pub fn unmet(&self) -> Vec<String> {
        let mut unmet = vec![];
        for (call, wanted) in WANTED.iter().enumerate() {
            for (which, answer) in ANSWERS.iter().enumerate() {
                if wanted[which] && self.answers[call][which] == 0 {
                    unmet.push(format!("{} with G, answer {answer}", Call::NAMES[call]));
                }
            }
        }
        for (left, met) in self.heats.iter().enumerate() {
            for (order, _) in ORDERS.iter().zip(met).filter(|(_, count)| **count == 0) {
                unmet.push(format!("heats that leave {left}, corners {order}"));
            }
        }
        let things = self.things.iter().zip(THINGS);
        unmet.extend(
            things
                .filter(|(count, _)| **count == 0)
                .map(|(_, thing)| thing.to_string()),
        );
        unmet.extend(self.carried.unmet());
        unmet.extend(self.solids.unmet());
        unmet.extend(self.thin.unmet());
        unmet.extend(self.rows.unmet());
        unmet.extend(self.changes.unmet());
        unmet.extend(self.sources.unmet());
        unmet
    }
}

fn edges(table: &[u32]) -> impl Iterator<Item = &[u32]> {
    table.chunks_exact(6).filter(|card| card[0] == G)
}

/// The cards that the trailer of some bytes goes back over, as bytes; none where it can't be followed.
pub fn cards_in(bytes: &[u8]) -> &[u8] {
    let back = bytes
        .len()
        .checked_sub(42)
        .and_then(|at| number(&bytes[at + 1..at + 9]));
    let start = back.and_then(|back| (bytes.len() - 42).checked_sub(back as usize));
    start.map_or(&[], |start| &bytes[start..])
}

fn number(columns: &[u8]) -> Option<u32> {
    std::str::from_utf8(columns).ok()?.trim_start().parse().ok()
}

/// Those cards as a table: of a number that isn't one, 0.
fn cards_of(bytes: &[u8]) -> Vec<u32> {
    let cards = cards_in(bytes).chunks_exact(42);
    cards
        .flat_map(|card| {
            let fields = card[1..41].chunks_exact(8);
            std::iter::once(u32::from(card[0]))
                .chain(fields.map(|field| number(field).unwrap_or(0)))
        })
        .collect()
}

/// The place in ORDERS.
fn order_of(corners: &[u32]) -> usize {
    let rank = |node: u32| 1 + corners.iter().filter(|&&other| other < node).count();
    let order: String = corners.iter().map(|&node| rank(node).to_string()).collect();
    let place = ORDERS.iter().position(|&known| known == order);
    place.unwrap_or(ORDERS.len() - 1)
}

fn square_of(table: &[u32], card: &[u32]) -> u64 {
    let nodes: Vec<&[u32]> = table.chunks_exact(6).filter(|card| card[0] == N).collect();
    let [from, to] = [card[1], card[2]].map(|node| nodes[node as usize - 1]);
    let side = |field: usize| u64::from(from[field].abs_diff(to[field]));
    (1..4).map(|field| side(field) * side(field)).sum()
}

/// g, by the squares.
fn nearest(film: u32, thickness: u32, square: u64) -> u128 {
    let top = u128::from(film) * u128::from(thickness);
    let reaches = |g: u128| ((2 * g - 1) * 60_000_000).pow(2) <= top * top * u128::from(square);
    let (mut low, mut high) = (0, 1 << 15);
    while low + 1 < high {
        let middle = (low + high) / 2;
        if reaches(middle) {
            low = middle;
        } else {
            high = middle;
        }
    }
    low
}
