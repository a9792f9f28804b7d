//! What was met of runs: how each ended, at which step, and by what. Counts that must not stay at zero.

use crate::case::{Lent, Outcome};
use crate::decks::{changes_of, is_solid, kept_of, replacement_of, E, F, H, NAMED, NUMBERS, R, T};
use reference::kept::{replace, step};
use reference::{Answer, Card, Stepped};

/// Where a run ended, by the words: replacements and steps of reference/, one after another.
struct Ended {
    /// The step that it was at, from 1; of a run that finished, the last.
    step: u32,
    /// The changes made in all, and of that step.
    made: Vec<Card>,
    now: usize,
    /// The change that was refused.
    refused: Option<Card>,
}

fn replay(before: &Lent) -> Ended {
    let mut lent = before.clone();
    let changes = changes_of(&lent.table);
    let steps = lent.table[3];
    let mut ended = Ended {
        step: 0,
        made: vec![],
        now: 0,
        refused: None,
    };
    let [p, a, factor, work] = &mut lent.matrices;
    let (table, starts) = (&mut lent.table, &lent.starts);
    for at in 1..=steps {
        (ended.step, ended.now) = (at, 0);
        for (_, change) in changes.iter().filter(|(_, change)| change[1] == at) {
            let (card, new) = replacement_of(table, change).expect("a judged deck's");
            if replace(table, p, a, factor, work, starts, card, new) != Answer::Done {
                ended.refused = Some(*change);
                return ended;
            }
            ended.made.push(*change);
            ended.now += 1;
        }
        let (temperatures, carried) = (&mut lent.temperatures, &mut lent.carried);
        let answer = step(table, p, a, factor, starts, temperatures, carried);
        if let Stepped::Refused(_) = answer {
            return ended;
        }
    }
    ended
}

/// A run whose deck is one.
struct Seen<'a> {
    before: &'a Lent,
    number: u64,
    changes: Vec<Card>,
    ended: Ended,
}

type Thing = (&'static str, fn(&Seen) -> bool);

const THINGS: [Thing; 31] = [
    ("runs finished without C cards", |seen| {
        seen.finished() && seen.changes.is_empty()
    }),
    ("runs finished with a change of E", |seen| seen.with(E)),
    ("runs finished with a change of H", |seen| seen.with(H)),
    ("runs finished with a change of F", |seen| seen.with(F)),
    ("runs finished with a change of T", |seen| seen.with(T)),
    (
        "runs finished with all four letters at one increment",
        |seen| {
            let at =
                |step: u32, letter: u32| seen.changes.iter().any(|c| c[1..3] == [step, letter]);
            seen.finished() && (1..=seen.steps()).any(|step| NAMED.iter().all(|&l| at(step, l)))
        },
    ),
    (
        "runs finished with two changes of one letter at one increment",
        |seen| {
            let made = &seen.ended.made;
            seen.finished() && made.windows(2).any(|two| two[0][1..3] == two[1][1..3])
        },
    ),
    ("runs finished with one card changed twice", |seen| {
        let made = &seen.ended.made;
        let twice =
            |(at, change): (usize, &Card)| made[..at].iter().any(|c| c[2..4] == change[2..4]);
        seen.finished() && made.iter().enumerate().any(twice)
    }),
    ("runs finished with a change at the first step", |seen| {
        seen.finished() && seen.changes.iter().any(|change| change[1] == 1)
    }),
    (
        "runs finished with a change at the last of many steps",
        |seen| {
            let steps = seen.steps();
            seen.finished() && steps > 2 && seen.changes.iter().any(|change| change[1] == steps)
        },
    ),
    (
        "runs finished with a change one past the last step",
        |seen| {
            seen.finished()
                && seen
                    .changes
                    .iter()
                    .any(|change| change[1] == seen.steps() + 1)
        },
    ),
    ("runs finished with no change ever reached", |seen| {
        seen.finished() && !seen.changes.is_empty() && seen.ended.made.is_empty()
    }),
    ("runs finished over a stand, of some steps", |seen| {
        seen.finished() && seen.docked() && seen.steps() > 2
    }),
    (
        "runs finished over a stand, with a change of E and of T",
        |seen| seen.docked() && seen.with(E) && seen.with(T),
    ),
    ("runs finished with 64 changes made", |seen| {
        seen.finished() && seen.ended.made.len() == 64
    }),
    ("runs finished of solid decks, with changes", |seen| {
        seen.finished() && is_solid(&seen.before.table) && !seen.ended.made.is_empty()
    }),
    (
        "runs finished without C cards, the work slice short",
        |seen| seen.finished() && seen.changes.is_empty() && seen.short_work(),
    ),
    (
        "changes refused by 9 at a later step, for the work slice alone",
        |seen| seen.refused(9) && seen.ended.step > 1 && seen.short_work(),
    ),
    ("changes refused by 9 at the first step", |seen| {
        seen.refused(9) && seen.ended.step == 1
    }),
    ("changes refused by 10", |seen| seen.refused(10)),
    (
        "changes refused by 10 after one of their increment",
        |seen| seen.refused(10) && seen.ended.now > 0,
    ),
    ("changes refused by 17", |seen| seen.refused(17)),
    (
        "changes refused after others of their increment were made",
        |seen| seen.ended.refused.is_some() && seen.ended.now > 0,
    ),
    (
        "changes refused after an E of their increment was made",
        |seen| {
            let made = &seen.ended.made[seen.ended.made.len() - seen.ended.now..];
            seen.ended.refused.is_some() && made.iter().any(|change| change[2] == E)
        },
    ),
    (
        "changes refused with others of their increment to come",
        |seen| {
            let Some(refused) = seen.ended.refused else {
                return false;
            };
            let after = seen.changes.iter().skip_while(|change| **change != refused);
            after.skip(1).any(|change| change[1] == refused[1])
        },
    ),
    (
        "first steps refused by 9 after their changes were made",
        |seen| seen.step_refused(9) && seen.ended.now > 0,
    ),
    (
        "first steps refused by 10 after their changes were made",
        |seen| seen.step_refused(10) && seen.ended.step == 1 && seen.ended.now > 0,
    ),
    ("later steps refused by 10 after a change", |seen| {
        seen.step_refused(10) && seen.ended.step > 1 && seen.ended.now > 0
    }),
    (
        "steps refused by 11 after their changes were made",
        |seen| seen.step_refused(11) && seen.ended.now > 0,
    ),
    ("steps refused some steps after the last change", |seen| {
        let ran = seen.number != 0 && seen.ended.refused.is_none();
        ran && seen.ended.now == 0 && !seen.ended.made.is_empty()
    }),
    (
        "steps refused by 12 or 8 in a run with changes made",
        |seen| (seen.step_refused(12) || seen.step_refused(8)) && !seen.ended.made.is_empty(),
    ),
];

impl Seen<'_> {
    fn steps(&self) -> u32 {
        self.before.table[3]
    }

    fn finished(&self) -> bool {
        self.number == 0
    }

    fn docked(&self) -> bool {
        let mut cards = self.before.table.chunks_exact(6);
        cards.any(|card| card[0] == R)
    }

    fn with(&self, letter: u32) -> bool {
        self.finished() && self.ended.made.iter().any(|change| change[2] == letter)
    }

    /// A change was refused so.
    fn refused(&self, number: u64) -> bool {
        self.number == number && self.ended.refused.is_some()
    }

    fn step_refused(&self, number: u64) -> bool {
        self.number == number && self.ended.refused.is_none()
    }

    fn short_work(&self) -> bool {
        let length = kept_of(&self.before.table);
        let [p, a, factor, work] = &self.before.matrices;
        let long = [p, a, factor].iter().all(|matrix| matrix.len() >= length);
        long && work.len() < length
    }
}

/// The numbers that a change must be met refused by, at the first, a middle and the last step.
const EVERYWHERE: [usize; 6] = [4, 5, 6, 7, 8, 14];
const WHERE: [&str; 3] = ["first", "middle", "last"];

pub struct Runs {
    /// Changes refused, by step and number.
    refused: [[u64; NUMBERS]; 3],
    things: [u64; THINGS.len()],
    /// Runs with changes that were compared with fresh builds by hand.
    by_hand: u64,
}

impl Default for Runs {
    fn default() -> Runs {
        Runs {
            refused: [[0; NUMBERS]; 3],
            things: [0; THINGS.len()],
            by_hand: 0,
        }
    }
}

impl Runs {
    pub fn see(&mut self, before: &Lent, outcome: &Outcome) {
        let mut room = vec![0; 7 * before.table.len()];
        if reference::write(&before.table, &mut room) != Answer::Done {
            return;
        }
        let changes = changes_of(&before.table);
        let seen = Seen {
            before,
            number: outcome.answer & 255,
            changes: changes.into_iter().map(|(_, change)| change).collect(),
            ended: replay(before),
        };
        if seen.ended.refused.is_some() {
            let (step, steps) = (seen.ended.step, seen.steps());
            let at = match step {
                1 => Some(0),
                _ if step == steps => Some(2),
                _ => Some(1),
            };
            // One step alone is no last one.
            if let Some(at) = at.filter(|_| steps > 2) {
                self.refused[at][seen.number as usize] += 1;
            }
        }
        for (count, (_, test)) in self.things.iter_mut().zip(&THINGS) {
            *count += u64::from(test(&seen));
        }
    }

    pub fn as_by_hand(&mut self, changes: usize) {
        self.by_hand += u64::from(changes > 0);
    }

    pub fn lines(&self) -> Vec<String> {
        let heads: String = (1..NUMBERS).map(|number| format!(" {number:>6}")).collect();
        let mut lines = vec![format!("{:14}{heads}", "refused change")];
        for (name, met) in WHERE.iter().zip(&self.refused) {
            let counts: String = met[1..]
                .iter()
                .map(|count| format!(" {count:>6}"))
                .collect();
            lines.push(format!("{name:14}{counts}"));
        }
        let things = self.things.iter().zip(&THINGS);
        lines.extend(things.map(|(count, (thing, _))| format!("{count:>8} {thing}")));
        lines.push(format!("{:>8} {BY_HAND}", self.by_hand));
        lines
    }

    pub fn unmet(&self) -> Vec<String> {
        let mut unmet = vec![];
        for (name, met) in WHERE.iter().zip(&self.refused) {
            for number in EVERYWHERE.iter().filter(|&&number| met[number] == 0) {
                unmet.push(format!("a change refused by {number} at the {name} step"));
            }
        }
        let things = self.things.iter().zip(&THINGS);
        let none = things.filter(|(count, _)| **count == 0);
        unmet.extend(none.map(|(_, (thing, _))| thing.to_string()));
        if self.by_hand == 0 {
            unmet.push(BY_HAND.to_string());
        }
        unmet
    }
}

const BY_HAND: &str = "runs with changes as stepped by hand with fresh builds";
