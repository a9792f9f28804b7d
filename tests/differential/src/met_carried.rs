//! What was met of the carried residuals: counts that must not stay at zero. `tests/kernel` takes this file too.

use crate::carried::held;
use crate::case::Lent;
use crate::decks::{nodes_of, MOST_CARRIED, TOP};

/// A step: what it was lent, what it left and its answer.
pub struct Stepped<'a> {
    pub before: &'a Lent,
    pub after: &'a Lent,
    pub answer: u64,
}

type Thing = (&'static str, fn(&Stepped) -> bool);

const THINGS: [Thing; 23] = [
    ("steps accepted with nothing carried", |step| {
        step.accepted() && step.residuals().iter().all(|&residual| residual == 0)
    }),
    ("steps accepted with residuals at free nodes", |step| {
        step.accepted() && step.free(|step, node| step.before.carried[node] != 0)
    }),
    ("steps accepted with 2^33 at a free node", |step| {
        step.accepted() && step.free(|step, node| step.before.carried[node] == MOST_CARRIED)
    }),
    ("steps accepted with -2^33 at a free node", |step| {
        step.accepted() && step.free(|step, node| step.before.carried[node] == -MOST_CARRIED)
    }),
    ("steps accepted with 2^33 at a held node", |step| {
        step.accepted() && step.held(|step, node, _| step.before.carried[node] == MOST_CARRIED)
    }),
    (
        "steps accepted that leave a residual at a free node",
        |step| step.accepted() && step.free(|step, node| step.after.carried[node] != 0),
    ),
    (
        "steps accepted after two corrections, residuals left",
        |step| step.corrected(2),
    ),
    (
        "steps accepted after three corrections, residuals left",
        |step| step.corrected(3),
    ),
    (
        "steps accepted after four corrections, residuals left",
        |step| step.corrected(4),
    ),
    (
        "steps accepted that leave a held node a tick off its card",
        |step| {
            step.accepted() && step.held(|step, node, card| step.after.temperatures[node] != card)
        },
    ),
    ("steps accepted with a slice of just the nodes", |step| {
        step.accepted() && step.before.carried.len() == step.nodes()
    }),
    (
        "steps accepted with numbers past 2^33 after the nodes' own",
        |step| {
            let past = |number: &i64| number.unsigned_abs() > MOST_CARRIED as u64;
            step.accepted() && step.before.carried[step.nodes()..].iter().any(past)
        },
    ),
    ("steps refused by 9 for the carried slice alone", |step| {
        step.number() == 9 && step.otherwise() != 9
    }),
    ("steps refused by 9 for a carried slice of none", |step| {
        step.number() == 9 && step.before.carried.is_empty() && step.otherwise() != 9
    }),
    (
        "steps refused by 10 for a residual of 2^33 + 1 alone",
        |step| step.foreign(MOST_CARRIED + 1),
    ),
    (
        "steps refused by 10 for a residual of -2^33 - 1 alone",
        |step| step.foreign(-MOST_CARRIED - 1),
    ),
    (
        "steps refused by 10 for the least residual there is",
        |step| step.foreign(i64::MIN),
    ),
    (
        "steps refused by 10 for a held node's residual alone",
        |step| {
            let past = |step: &Stepped, node: usize| {
                step.before.carried[node].unsigned_abs() > MOST_CARRIED as u64
            };
            step.number() == 10
                && step.held(|step, node, _| past(step, node))
                && !step.free(past)
                && step.otherwise() != 10
        },
    ),
    (
        "steps refused by 10, a temperature off the scale too",
        |step| {
            let off = |ticks: &i64| !(0..=i64::from(TOP)).contains(ticks);
            step.number() == 10
                && step.before.temperatures[..step.nodes()].iter().any(off)
                && step.otherwise() == 11
        },
    ),
    ("steps refused by 8, residuals that stay", |step| {
        step.kept(8)
    }),
    ("steps refused by 11, residuals that stay", |step| {
        step.kept(11)
    }),
    ("steps refused by 12, residuals that stay", |step| {
        step.kept(12)
    }),
    (
        "steps refused by 8, 11 or 12 for their residuals alone",
        |step| [8, 11, 12].contains(&step.number()) && step.otherwise() == 0,
    ),
];

impl Stepped<'_> {
    fn number(&self) -> u64 {
        self.answer & 255
    }

    fn accepted(&self) -> bool {
        self.number() == 0
    }

    /// Of a deck that was judged.
    fn nodes(&self) -> usize {
        nodes_of(&self.before.table)
    }

    fn residuals(&self) -> &[i64] {
        let length = self.nodes().min(self.before.carried.len());
        &self.before.carried[..length]
    }

    fn held(&self, test: impl Fn(&Stepped, usize, i64) -> bool) -> bool {
        held(&self.before.table).any(|(node, card)| test(self, node, card))
    }

    fn free(&self, test: impl Fn(&Stepped, usize) -> bool) -> bool {
        let is_held = |node| held(&self.before.table).any(|(other, _)| other == node);
        (0..self.nodes()).any(|node| !is_held(node) && test(self, node))
    }

    fn corrected(&self, corrections: u64) -> bool {
        let left = self.accepted() && self.after.carried[..self.nodes()].iter().any(|&c| c != 0);
        left && self.answer >> 8 & 255 == corrections
    }

    fn kept(&self, number: u64) -> bool {
        self.number() == number && self.residuals().iter().any(|&residual| residual != 0)
    }

    /// Refused by 10, and by nothing but a residual that is this.
    fn foreign(&self, value: i64) -> bool {
        self.number() == 10 && self.residuals().contains(&value) && self.otherwise() != 10
    }

    /// The number that the same step answers with nothing carried.
    fn otherwise(&self) -> u64 {
        let [p, a, factor, _] = &self.before.matrices;
        let mut temperatures = self.before.temperatures.clone();
        let mut carried = vec![0; self.nodes()];
        let table = &self.before.table;
        let starts = &self.before.starts;
        let answer =
            reference::kept::step(table, p, a, factor, starts, &mut temperatures, &mut carried);
        answer.packed() & 255
    }
}

#[derive(Default)]
pub struct Carried {
    things: [u64; THINGS.len()],
}

impl Carried {
    /// A step whose deck was none says nothing of residuals.
    pub fn see(&mut self, step: &Stepped) {
        if (1..=4).contains(&step.number()) {
            return;
        }
        for (count, (_, test)) in self.things.iter_mut().zip(&THINGS) {
            *count += u64::from(test(step));
        }
    }

    pub fn lines(&self) -> Vec<String> {
        let things = self.things.iter().zip(&THINGS);
        things
            .map(|(count, (thing, _))| format!("{count:>8} {thing}"))
            .collect()
    }

    pub fn unmet(&self) -> Vec<String> {
        let things = self.things.iter().zip(&THINGS);
        let none = things.filter(|(count, _)| **count == 0);
        none.map(|(_, (thing, _))| thing.to_string()).collect()
    }
}
