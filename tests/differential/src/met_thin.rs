//! What was met of thin triangles, refusal 14: counts that must not stay at zero. `tests/kernel` takes this file too.

use crate::case::Call;
use crate::decks::{area, squares, E, F, G, H, M, N, V};
use crate::met_solids::Seen;

/// The calls that judge a triangle.
const JUDGES: [&str; 3] = ["build", "E", "F"];

/// How 64·S of the triangle judged lies to the square of its longest side: one less, which is refused, the same, and three more, the
/// least that there is.
const LIES: [&str; 3] = ["1 less", "equal", "3 more"];

/// Its longest side, by the card's corners, and which way they go round.
const TURNS: [&str; 6] = ["12+", "23+", "31+", "12-", "23-", "31-"];

type Thing = (&'static str, fn(&Seen) -> bool);

/// What else is to be met.
const THINGS: [Thing; 16] = [
    ("steps taken with a thin triangle in the deck", |seen| {
        seen.stepped() && thin_ones(seen) > 0
    }),
    ("new H cards in a deck with a thin triangle", |seen| {
        asks(seen, H) && seen.accepted() && thin_ones(seen) > 0
    }),
    ("new G cards in a deck with a thin triangle", |seen| {
        asks(seen, G) && seen.accepted() && thin_ones(seen) > 0
    }),
    ("new E cards accepted beside a thin triangle", |seen| {
        asks(seen, E) && seen.accepted() && thin_ones(seen) > 0
    }),
    ("new F cards accepted beside a thin triangle", |seen| {
        asks(seen, F) && seen.accepted() && thin_ones(seen) > 0
    }),
    ("new V cards accepted beside a thin triangle", |seen| {
        asks(seen, V) && seen.accepted() && thin_ones(seen) > 0
    }),
    ("E cards of a solid deck refused by 14", |seen| {
        asks(seen, E) && seen.number == 14 && seen.solid()
    }),
    ("F cards of a solid deck refused by 14", |seen| {
        asks(seen, F) && seen.number == 14 && seen.solid()
    }),
    ("builds refused by 5 before a thin triangle", |seen| {
        seen.built_to(5) && next(seen) == 14
    }),
    ("builds refused by 14 before a flat triangle", |seen| {
        seen.built_to(14) && next(seen) == 5
    }),
    ("builds refused by 6 before a thin triangle", |seen| {
        seen.built_to(6) && next(seen) == 14
    }),
    ("builds refused by 14 at a triangle that 6 fits", |seen| {
        seen.built_to(14) && stiff(seen)
    }),
    ("builds refused by 14 at a second element", |seen| {
        seen.built_to(14) && seen.place == 2
    }),
    ("builds refused by 14 with a largest S", |seen| {
        seen.built_to(14) && judged(seen).is_some_and(|points| area(points) > 500_000)
    }),
    ("builds with the least S that a side allows", |seen| {
        let large = |points| area(points) > 500_000 && 63 * area(points) < squares(points)[2];
        seen.built_to(0) && triangles(seen).any(large)
    }),
    ("builds with a V thinner than a triangle may be", |seen| {
        seen.built_to(0) && seen.cards(V).any(|card| needle(seen, card))
    }),
];

fn asks(seen: &Seen, letter: u32) -> bool {
    seen.new_card().is_some_and(|new| new[0] == letter)
}

/// The corners of an E card.
fn points(seen: &Seen, card: &[u32]) -> [[u32; 2]; 3] {
    [1, 2, 3].map(|field| {
        let node = seen.card(1 + card[field] as usize).expect("a node");
        [node[1], node[2]]
    })
}

fn triangles<'a>(seen: &'a Seen<'a>) -> impl Iterator<Item = [[u32; 2]; 3]> + 'a {
    seen.cards(E).map(|card| points(seen, card))
}

/// 5, 14 or 0 of a triangle.
fn number(points: [[u32; 2]; 3]) -> u64 {
    match area(points) {
        0 => 5,
        s if 64 * s < squares(points)[2] => 14,
        _ => 0,
    }
}

fn thin_ones(seen: &Seen) -> usize {
    triangles(seen)
        .filter(|&points| number(points) == 14)
        .count()
}

/// The triangle that was refused, or that a replacement named; the one triangle that there is, of a build that was accepted.
fn judged(seen: &Seen) -> Option<[[u32; 2]; 3]> {
    let first = 1 + seen.cards(N).count() + seen.cards(M).count();
    let element = match (seen.call, seen.number) {
        (Call::Build, 14) => seen.place,
        (Call::Build, 0) if seen.cards(E).count() == 1 => 1,
        (Call::Replace { card, new }, 0 | 14) if new[0] == E => card as usize - first,
        (Call::Replace { new, .. }, 0 | 14) if new[0] == F => new[1] as usize,
        _ => return None,
    };
    let card = seen.element(element);
    (card[0] == E).then(|| points(seen, card))
}

/// What the element after the refused one is, where it is a triangle.
fn next(seen: &Seen) -> u64 {
    let mut rest = seen.cards(E).skip(seen.place);
    rest.next().map_or(0, |card| number(points(seen, card)))
}

/// u or a pair of the refused triangle is past 4,000,000 too, where its kx and ky are the same.
fn stiff(seen: &Seen) -> bool {
    let card = seen.element(seen.place);
    let first = 1 + seen.cards(N).count();
    let material = seen.card(first + card[4] as usize).expect("a material");
    let points = points(seen, card);
    let (s, [short, long, longest]) = (area(points), squares(points));
    let t = u64::from(card[5]);
    let u = u64::from(material[3]) * t * s / (9_600 * u64::from(seen.table[1]));
    // The two longest sides meet in the sharpest corner: their product there is half of what the third leaves.
    let pair = t * u64::from(material[1]) * (long + longest - short) / 2;
    material[1] == material[2] && (u > 4_000_001 || pair / (2_000 * s) > 4_000_001)
}

/// 64·S under the cube of the longest side.
fn needle(seen: &Seen, card: &[u32]) -> bool {
    let corners = [1, 2, 3, 4].map(|field| {
        let node = seen.card(1 + card[field] as usize).expect("a node");
        [node[1], node[2], node[3]].map(i64::from)
    });
    let way = |to: usize| [0, 1, 2].map(|axis| corners[to][axis] - corners[0][axis]);
    let ([a, b, c], [d, e, f], [g, h, i]) = (way(1), way(2), way(3));
    let s = (a * (e * i - f * h) - b * (d * i - f * g) + c * (d * h - e * g)).abs();
    let square = |from: [i64; 3], to: [i64; 3]| -> i64 {
        (0..3).map(|axis| (from[axis] - to[axis]).pow(2)).sum()
    };
    let pairs = corners
        .iter()
        .flat_map(|&from| corners.map(|to| square(from, to)));
    let longest = pairs.max().unwrap_or(0);
    (64 * i128::from(s)).pow(2) < i128::from(longest).pow(3)
}

/// The place in LIES.
fn lie(points: [[u32; 2]; 3]) -> Option<usize> {
    let (times, square) = (64 * area(points), squares(points)[2]);
    [times + 1 == square, times == square, times == square + 3]
        .iter()
        .position(|&lies| lies)
}

/// The place in TURNS.
fn turn([p, q, r]: [[u32; 2]; 3]) -> usize {
    let longest = squares([p, q, r])[2];
    let square = |from: [u32; 2], to: [u32; 2]| {
        from[0].abs_diff(to[0]).pow(2) + from[1].abs_diff(to[1]).pow(2)
    };
    let side = [(p, q), (q, r), (r, p)]
        .iter()
        .position(|&(from, to)| u64::from(square(from, to)) == longest);
    let way = |to: [u32; 2], axis: usize| i64::from(to[axis]) - i64::from(p[axis]);
    let left = way(q, 0) * way(r, 1) > way(r, 0) * way(q, 1);
    side.unwrap_or(0) + if left { 0 } else { 3 }
}

#[derive(Default)]
pub struct Thin {
    /// By JUDGES, LIES and TURNS.
    lies: [[[u64; 6]; 3]; 3],
    things: [u64; THINGS.len()],
}

impl Thin {
    pub fn see(&mut self, seen: &Seen) {
        let judge = match seen.call {
            Call::Build => Some(0),
            _ if asks(seen, E) => Some(1),
            _ if asks(seen, F) => Some(2),
            _ => None,
        };
        if let Some((judge, points)) = judge.zip(judged(seen)) {
            if let Some(lie) = lie(points) {
                self.lies[judge][lie][turn(points)] += 1;
            }
        }
        for (count, (_, test)) in self.things.iter_mut().zip(&THINGS) {
            *count += u64::from(test(seen));
        }
    }

    fn each(&self) -> impl Iterator<Item = (String, &[u64; 6])> {
        let judges = JUDGES.iter().zip(&self.lies);
        judges.flat_map(|(judge, met)| {
            let lies = LIES.iter().zip(met);
            lies.map(move |(lie, met)| (format!("{judge}, {lie}"), met))
        })
    }

    pub fn lines(&self) -> Vec<String> {
        let heads: String = TURNS.map(|turn| format!(" {turn:>6}")).concat();
        let mut lines = vec![format!("{:14}{heads}", "thin or not")];
        lines.extend(self.each().map(|(name, met)| {
            let counts: String = met.iter().map(|count| format!(" {count:>6}")).collect();
            format!("{name:14}{counts}")
        }));
        let things = self.things.iter().zip(&THINGS);
        lines.extend(things.map(|(count, (thing, _))| format!("{count:>8} {thing}")));
        lines
    }

    pub fn unmet(&self) -> Vec<String> {
        let mut unmet = vec![];
        for (name, met) in self.each() {
            let missed = TURNS.iter().zip(met).filter(|(_, count)| **count == 0);
            unmet.extend(missed.map(|(turn, _)| format!("triangles judged: {name}, {turn}")));
        }
        let things = self.things.iter().zip(&THINGS);
        unmet.extend(
            things
                .filter(|(count, _)| **count == 0)
                .map(|(_, (thing, _))| thing.to_string()),
        );
        unmet
    }
}
