//! What was met of R cards and of emissivities: counts that must not stay at zero. `tests/kernel` takes this file too.

use crate::case::{Call, Lent};
use crate::decks::{area, C, E, F, G, H, M, N, R, T, TOP, V};
use crate::met_solids::{is_more, is_none, Seen};

/// An R card in a step that was taken, with what its flux is made of.
struct Radiated {
    emissivity: u32,
    doubled: u64,
    corners: [u32; 3],
    warm: [i64; 3],
    source: u32,
    held: bool,
}

impl Radiated {
    fn sum(&self) -> i64 {
        self.warm.iter().sum()
    }

    /// All corners are as warm as this.
    fn all(&self, ticks: u32) -> bool {
        self.warm == [i64::from(ticks); 3]
    }

    /// Above zero where it loses, below where it gains.
    fn way(&self) -> i64 {
        (self.sum() - 3 * i64::from(self.source)).signum()
    }

    /// Twice e·566,961·S·(s⁴ - 81·Ts⁴) over 2^69·5^18·3^5 is odd.
    fn half(&self) -> bool {
        let fourth = |ticks: i64| (ticks as u128).pow(4);
        let gap = fourth(self.sum()).abs_diff(fourth(3 * i64::from(self.source)));
        let rate = u128::from(self.emissivity) * 566_961 * u128::from(self.doubled);
        let times = |prime: u128| power(rate, prime) + power(gap, prime);
        rate > 0 && gap > 0 && times(2) == 68 && times(5) >= 18 && times(3) >= 5
    }

    /// With a source a tick off it would be one.
    fn beside(&self) -> bool {
        let [less, more] = [self.source.wrapping_sub(1), self.source + 1];
        [less, more].iter().any(|&source| {
            let other = Radiated { source, ..*self };
            source <= TOP && other.half()
        })
    }
}

/// How often a number above zero is divisible.
fn power(mut number: u128, prime: u128) -> u32 {
    let mut times = 0;
    while number > 0 && number % prime == 0 {
        number /= prime;
        times += 1;
    }
    times
}

type Kind = (&'static str, fn(&Radiated) -> bool);

/// Of the R cards of steps that were taken.
const RADIATED: [Kind; 21] = [
    ("losses of a half, gone up", |it| it.half() && it.way() > 0),
    ("gains of a half, gone down", |it| it.half() && it.way() < 0),
    ("losses beside a half", |it| it.beside() && it.way() > 0),
    ("gains beside a half", |it| it.beside() && it.way() < 0),
    ("corners and source at 0", |it| it.all(0) && it.source == 0),
    ("corners at 0, the source at the top", |it| {
        it.all(0) && it.source == TOP
    }),
    ("corners at the top, the source at 0", |it| {
        it.all(TOP) && it.source == 0
    }),
    ("corners and source at the top", |it| {
        it.all(TOP) && it.source == TOP
    }),
    ("corners at the source's temperature", |it| {
        it.source > 0 && it.all(it.source)
    }),
    (
        "corners at three temperatures, 0 and the top of them",
        |it| it.warm.contains(&0) && it.warm.contains(&i64::from(TOP)),
    ),
    ("a sum that leaves 1 by three", |it| it.sum() % 3 == 1),
    ("a sum that leaves 2 by three", |it| it.sum() % 3 == 2),
    ("an emissivity that is blank", |it| it.emissivity == 0),
    ("an emissivity of 1", |it| it.emissivity == 1),
    ("an emissivity of 1,000", |it| it.emissivity == 1_000),
    ("a triangle of no area", |it| it.doubled == 0),
    ("the least triangle", |it| it.doubled == 1),
    ("the largest triangle", |it| it.doubled == 4_095 * 4_095),
    ("two corners that are one node", |it| {
        let [a, b, c] = it.corners;
        (a == b) != (b == c)
    }),
    ("three corners that are one node", |it| {
        it.corners == [it.corners[0]; 3]
    }),
    ("a held corner", |it| it.held),
];

type Thing = (&'static str, fn(&Seen) -> bool);

/// What else is to be met.
const THINGS: [Thing; 31] = [
    ("decks with 160 R cards accepted", |seen| {
        seen.accepted() && seen.count(R) == 160
    }),
    ("solid decks with R cards accepted", |seen| {
        seen.accepted() && seen.solid() && seen.count(R) > 0
    }),
    ("decks with R and C cards accepted", |seen| {
        seen.accepted() && seen.count(C) > 0 && seen.count(R) > 0
    }),
    ("R cards refused by 4, on a V", |seen| {
        seen.of_source(4) && seen.names(|card| card[0] == V)
    }),
    ("R cards refused by 4, past the elements", |seen| {
        seen.of_source(4) && seen.field(1) as usize > seen.count(E) + seen.count(V)
    }),
    ("R cards refused by 4, element 0", |seen| {
        seen.of_source(4) && seen.field(1) == 0
    }),
    ("R cards refused by 4, a source past the top", |seen| {
        seen.of_source(4) && seen.field(2) > TOP
    }),
    ("R cards refused by 4, the same as the one before", |seen| {
        seen.after_source(|before, now| before == now)
    }),
    ("R cards refused by 4, an element that falls", |seen| {
        seen.after_source(|before, now| before > now)
    }),
    ("R cards refused by 3, a third field", |seen| {
        seen.of_source(3) && seen.call != Call::Read && seen.field(3) != 0
    }),
    ("R cards refused by 3, after a T", |seen| {
        seen.of_source(3) && seen.letter(seen.place - 1) == T
    }),
    ("R cards refused by 3, after a C", |seen| {
        seen.of_source(3) && seen.letter(seen.place - 1) == C
    }),
    ("R cards refused by 3, before the elements end", |seen| {
        seen.of_source(3) && [N, M].contains(&seen.letter(seen.place - 1))
    }),
    ("H cards refused by 3, after an R", |seen| seen.behind(H)),
    ("F cards refused by 3, after an R", |seen| seen.behind(F)),
    ("G cards refused by 3, after an R", |seen| seen.behind(G)),
    ("C cards refused by 4, of an R", |seen| {
        seen.at(4, C) && seen.field(2) == R
    }),
    ("an emissivity of 1 accepted", |seen| seen.emits(1)),
    ("an emissivity of 1,000 accepted", |seen| seen.emits(1_000)),
    (
        "a blank emissivity accepted beside one that is not",
        |seen| seen.emits(0) && seen.cards(M).any(|card| card[5] > 0),
    ),
    ("emissivities of solid decks accepted", |seen| {
        seen.accepted() && seen.solid() && seen.cards(M).any(|card| card[5] > 0)
    }),
    ("an emissivity of 0 in bytes, 4", |seen| {
        seen.spelled(4, M, 5) == Some("0") && seen.well(4)
    }),
    ("an emissivity past 1,000 in bytes, 4", |seen| {
        let past = |columns: &str| is_more(columns) && columns.parse::<u32>().unwrap() > 1_000;
        seen.spelled(4, M, 5).is_some_and(past)
    }),
    ("an emissivity past 1,000 in a table, 4", |seen| {
        seen.call != Call::Read && seen.at(4, M) && seen.field(5) > 1_000
    }),
    ("an emissivity that is no number, 3", |seen| {
        seen.spelled(3, M, 5).is_some_and(is_none)
    }),
    ("new R cards refused by 13 in their own place", |seen| {
        let own = seen.card(seen.place);
        let same = |new: [u32; 6]| new[0] == R && own == Some(&new[..]);
        seen.number == 13 && seen.new_card().is_some_and(same)
    }),
    ("new R cards refused by 13, another source", |seen| {
        let own = seen.letter(seen.place) == R;
        seen.number == 13 && own && seen.new_card().is_some_and(|new| new[0] == R)
    }),
    ("new cards refused by 13, in an R's place", |seen| {
        let own = seen.letter(seen.place) == R;
        seen.number == 13 && own && seen.new_card().is_some_and(|new| new[0] != R)
    }),
    ("new R cards refused by 3", |seen| {
        seen.number == 3
            && seen
                .new_card()
                .is_some_and(|new| new[0] == R && new[3] != 0)
    }),
    ("new M cards with an emissivity, 13", |seen| {
        seen.number == 13
            && seen
                .new_card()
                .is_some_and(|new| new[0] == M && new[5] != 0)
    }),
    ("replacements accepted in decks with R cards", |seen| {
        seen.accepted() && seen.new_card().is_some() && seen.count(R) > 0
    }),
];

impl Seen<'_> {
    /// An R of the deck, and no new card, is refused so.
    fn of_source(&self, number: u64) -> bool {
        self.at(number, R) && self.new_card().is_none()
    }

    /// The R that is refused names such an element.
    fn names(&self, test: impl Fn(&[u32]) -> bool) -> bool {
        let elements = self.count(E) + self.count(V);
        let number = self.field(1) as usize;
        (1..=elements).contains(&number) && test(self.element(number))
    }

    /// 4 at an R after an R, by their elements.
    fn after_source(&self, test: impl Fn(u32, u32) -> bool) -> bool {
        let before = self.card(self.place.wrapping_sub(1));
        let one = before.filter(|card| card[0] == R);
        self.of_source(4) && one.is_some_and(|before| test(before[1], self.field(1)))
    }

    /// A card of that letter is refused by 3 directly after an R.
    fn behind(&self, letter: u32) -> bool {
        self.at(3, letter) && self.letter(self.place.wrapping_sub(1)) == R
    }

    fn emits(&self, thousandths: u32) -> bool {
        self.accepted() && self.cards(M).any(|card| card[5] == thousandths)
    }

    /// All else of the M that is refused is in its range: a field alone is at fault.
    fn well(&self, field: usize) -> bool {
        let kz = [0, 1_000].contains(&self.field(field));
        kz && (1..=2).all(|k| (1..=500_000).contains(&self.field(k)))
    }

    fn radiated<'b>(&'b self, lent: &'b Lent) -> impl Iterator<Item = Radiated> + 'b {
        self.cards(R).map(|card| {
            let triangle = self.element(card[1] as usize);
            let corners: [u32; 3] = triangle[1..4].try_into().unwrap();
            let point = |node: u32| {
                let card = self.card(1 + node as usize).expect("a node");
                [card[1], card[2]]
            };
            let material = self.card(1 + self.count(N) + triangle[4] as usize);
            Radiated {
                emissivity: material.expect("a material")[5],
                doubled: area(corners.map(point)),
                corners,
                warm: corners.map(|node| lent.temperatures[node as usize - 1]),
                source: card[2],
                held: self.cards(T).any(|held| corners.contains(&held[1])),
            }
        })
    }
}

/// The calls' answers to decks with R cards: accepted, and 3 and 4 at one of them.
const ANSWERS: [&str; 3] = ["accepted", "3", "4"];

pub struct Sources {
    answers: [[u64; 3]; 5],
    radiated: [u64; RADIATED.len()],
    things: [u64; THINGS.len()],
}

impl Default for Sources {
    fn default() -> Sources {
        Sources {
            answers: [[0; 3]; 5],
            radiated: [0; RADIATED.len()],
            things: [0; THINGS.len()],
        }
    }
}

impl Sources {
    /// What was lent holds the temperatures before a step.
    pub fn see(&mut self, seen: &Seen, before: &Lent) {
        let met = [
            seen.accepted() && seen.count(R) > 0,
            seen.at(3, R),
            seen.at(4, R),
        ];
        for (count, met) in self.answers[seen.call.index()].iter_mut().zip(met) {
            *count += u64::from(met);
        }
        if seen.stepped() {
            for it in seen.radiated(before) {
                for (count, (_, test)) in self.radiated.iter_mut().zip(&RADIATED) {
                    *count += u64::from(test(&it));
                }
            }
        }
        for (count, (_, test)) in self.things.iter_mut().zip(&THINGS) {
            *count += u64::from(test(seen));
        }
    }

    pub fn lines(&self) -> Vec<String> {
        let heads: String = ANSWERS.map(|answer| format!(" {answer:>8}")).concat();
        let mut lines = vec![format!("{:14}{heads}", "with R")];
        for (name, met) in Call::NAMES.iter().zip(&self.answers) {
            let counts: String = met.iter().map(|count| format!(" {count:>8}")).collect();
            lines.push(format!("{name:14}{counts}"));
        }
        let radiated = self.radiated.iter().zip(&RADIATED);
        lines.extend(radiated.map(|(count, (kind, _))| format!("{count:>8} radiated: {kind}")));
        let things = self.things.iter().zip(&THINGS);
        lines.extend(things.map(|(count, (thing, _))| format!("{count:>8} {thing}")));
        lines
    }

    pub fn unmet(&self) -> Vec<String> {
        let mut unmet = vec![];
        for (name, met) in Call::NAMES.iter().zip(&self.answers) {
            for (answer, _) in ANSWERS.iter().zip(met).filter(|(_, count)| **count == 0) {
                unmet.push(format!("{name} with R, {answer}"));
            }
        }
        let radiated = self.radiated.iter().zip(&RADIATED);
        let none = radiated.filter(|(count, _)| **count == 0);
        unmet.extend(none.map(|(_, (kind, _))| format!("radiated: {kind}")));
        let things = self.things.iter().zip(&THINGS);
        let none = things.filter(|(count, _)| **count == 0);
        unmet.extend(none.map(|(_, (thing, _))| thing.to_string()));
        unmet
    }
}
