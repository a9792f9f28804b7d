//! One call with all that is lent to it, and what reference/ makes of it. `tests/kernel` takes this file too.

use crate::decks::{kept_of, nodes_of, starts_of};
use reference::{kept, Card};

#[derive(Clone, Copy, Debug, PartialEq)]
pub enum Call {
    Read,
    Write,
    Build,
    Replace { card: u32, new: Card },
    Step,
    Run,
}

impl Call {
    pub const NAMES: [&'static str; 6] = ["read", "write", "build", "replace", "step", "run"];

    /// Its place in NAMES.
    pub fn index(self) -> usize {
        match self {
            Call::Read => 0,
            Call::Write => 1,
            Call::Build => 2,
            Call::Replace { .. } => 3,
            Call::Step => 4,
            Call::Run => 5,
        }
    }
}

/// All that any call can be lent. A call must leave alone what it doesn't take.
#[derive(Clone, Default, PartialEq)]
pub struct Lent {
    pub bytes: Vec<u8>,
    pub table: Vec<u32>,
    /// P, A, the factor and the work slice, each row from its first column on.
    pub matrices: [Vec<i64>; 4],
    /// Where each row begins.
    pub starts: Vec<u32>,
    pub temperatures: Vec<i64>,
    /// The residuals that a step adds and leaves.
    pub carried: Vec<i64>,
    /// Where the reader tells the bounds of the deck.
    pub part: [u64; 2],
}

impl Lent {
    /// All that build, replace and step take of a table, exactly as long as they ask: the matrices full of 7, the deck's own starts,
    /// every node at D's start and nothing carried. Of what is no deck, something.
    pub fn of(table: Vec<u32>) -> Lent {
        let nodes = match table.len() {
            0..=11 => 3,
            _ => nodes_of(&table).clamp(3, 96),
        };
        let start = table.get(2).map_or(0, |&start| i64::from(start));
        Lent {
            matrices: [0; 4].map(|_| vec![7; kept_of(&table)]),
            starts: starts_of(&table),
            temperatures: vec![start; nodes],
            carried: vec![0; nodes],
            table,
            ..Lent::default()
        }
    }
}

pub const MATRICES: [&str; 4] = ["P", "A", "factor", "work"];

#[derive(Clone, PartialEq)]
pub struct Case {
    pub call: Call,
    pub lent: Lent,
}

/// The packed answer, and all that was lent as it is after the call.
#[derive(Clone, PartialEq)]
pub struct Outcome {
    pub answer: u64,
    pub lent: Lent,
}

impl Case {
    pub fn by_reference(&self) -> Outcome {
        let mut lent = self.lent.clone();
        let [p, a, factor, work] = &mut lent.matrices;
        let (temperatures, carried) = (&mut lent.temperatures, &mut lent.carried);
        let (table, starts) = (&mut lent.table, &mut lent.starts);
        let answer = match self.call {
            Call::Read => {
                let (answer, start, end) = reference::read(&lent.bytes, table);
                lent.part = [start as u64, end as u64];
                answer.packed()
            }
            Call::Write => reference::write(table, &mut lent.bytes).packed(),
            Call::Build => kept::build(table, p, a, factor, work, starts).packed(),
            Call::Replace { card, new } => {
                kept::replace(table, p, a, factor, work, starts, card, new).packed()
            }
            Call::Step => kept::step(table, p, a, factor, starts, temperatures, carried).packed(),
            Call::Run => {
                kept::run(table, p, a, factor, work, starts, temperatures, carried).packed()
            }
        };
        Outcome { answer, lent }
    }
}
