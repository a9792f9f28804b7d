//! The packed form of a case: what the archive for tests and reference/ make of it, and whether the kept form is the same.

use crate::case::{Call, Case, Lent, Outcome, MATRICES};
use crate::decks::{expanded, firsts, Chance};
use crate::fenced::Fenced;
use crate::packed_face::*;
use std::hash::{DefaultHasher, Hash, Hasher};

const WORK: usize = 3;

/// What stands left of the first columns: nothing but zeros, or anything.
#[derive(Clone, Copy)]
enum Left {
    Zeros,
    Any(u64),
}

impl Left {
    /// Small enough that refusal 10 mostly lets it pass.
    fn numbers(self) -> impl FnMut() -> i64 {
        let mut chance = match self {
            Left::Zeros => None,
            Left::Any(seed) => Some(Chance::seeded(seed)),
        };
        move || {
            chance
                .as_mut()
                .map_or(0, |chance| chance.bits() as i64 >> 42)
        }
    }
}

/// Where the packed form of a case and something else are apart: what it is, and both.
pub struct Apart {
    pub words: &'static str,
    pub right: Outcome,
    pub ours: Outcome,
}

impl Case {
    /// Of a case that the kept form answers so. The packed form is answered for by reference/; and where it is not refused by 9 or 17,
    /// the kept form must be the same read back by row and column.
    pub fn packed_apart(&self, kept: &Outcome) -> Option<Apart> {
        if self.call.index() < 2 {
            return None;
        }
        let seed = self.seed();
        // A build overwrites what was there.
        let left = match self.call {
            Call::Build => Left::Any(seed),
            _ => Left::Zeros,
        };
        let packed = self.packed(&self.lent, [left; 4]);
        let right = by_reference(&packed);
        // Of a run no archive has the packed form.
        let ours = match self.call {
            Call::Run => right.clone(),
            _ => by_archive(&packed),
        };
        if right != ours {
            let words = "the packed form";
            return Some(Apart { words, right, ours });
        }
        let number = kept.answer & 255;
        if number != 9 && number != 17 {
            let right = self.as_packed(kept, left);
            if right != ours {
                let words = "the packed form and the kept one";
                return Some(Apart { words, right, ours });
            }
        }
        // Numbers that the kept form has no place for.
        let of_archive = [3, 4].contains(&self.call.index());
        if of_archive && seed % 8 == 0 {
            let packed = self.packed(&self.lent, [Left::Any(seed); 4]);
            let (right, ours) = (by_reference(&packed), by_archive(&packed));
            if right != ours {
                let words = "the packed form with numbers left of the first columns";
                return Some(Apart { words, right, ours });
            }
        }
        None
    }

    /// The same case has the same one.
    fn seed(&self) -> u64 {
        let mut hasher = DefaultHasher::new();
        self.lent.table.hash(&mut hasher);
        self.lent.temperatures.hash(&mut hasher);
        self.lent.carried.hash(&mut hasher);
        hasher.finish()
    }

    fn packed(&self, lent: &Lent, left: [Left; 4]) -> Case {
        let firsts = firsts(&self.lent.table);
        let matrix = |which: usize| expanded(&firsts, &lent.matrices[which], left[which].numbers());
        Case {
            call: self.call,
            lent: Lent {
                matrices: [0, 1, 2, 3].map(matrix),
                ..lent.clone()
            },
        }
    }

    /// What the kept form answers and leaves, in the packed one: zeros left of the first columns where it writes.
    fn as_packed(&self, kept: &Outcome, before: Left) -> Outcome {
        let mut left = [before; 4];
        if kept.answer == 0 {
            left = [Left::Zeros; 4];
        }
        if [7, 8].contains(&(kept.answer & 255)) {
            left[WORK] = Left::Zeros;
        }
        let mut lent = self.packed(&kept.lent, left).lent;
        // The packed form has none.
        lent.starts.clone_from(&self.lent.starts);
        Outcome {
            answer: kept.answer,
            lent,
        }
    }
}

fn by_reference(case: &Case) -> Outcome {
    let mut lent = case.lent.clone();
    let [p, a, factor, work] = &mut lent.matrices;
    let (temperatures, carried) = (&mut lent.temperatures, &mut lent.carried);
    let table = &mut lent.table;
    let answer = match case.call {
        Call::Build => reference::build(table, p, a, factor, work).packed(),
        Call::Replace { card, new } => {
            reference::replace(table, p, a, factor, work, card, new).packed()
        }
        Call::Step => reference::step(table, p, a, factor, temperatures, carried).packed(),
        Call::Run => reference::run(table, p, a, factor, work, temperatures, carried).packed(),
        Call::Read | Call::Write => unreachable!("no matrix is lent to it"),
    };
    Outcome { answer, lent }
}

fn by_archive(case: &Case) -> Outcome {
    let mut lent = case.lent.clone();
    let answer = call(case.call, &mut lent);
    Outcome { answer, lent }
}

/// As `archive::call`, of packed matrices; read and write are the same in both forms.
pub fn call(call: Call, lent: &mut Lent) -> u64 {
    const MARK: i64 = i64::MIN + 77;
    let mut table = Fenced::new(&lent.table, 0xA5A5_A5A5);
    let mut temperatures = Fenced::new(&lent.temperatures, MARK);
    let mut carried = Fenced::new(&lent.carried, MARK);
    let [mut p, mut a, mut factor, mut work] = lent
        .matrices
        .each_ref()
        .map(|matrix| Fenced::new(matrix, MARK));

    // Safety: each pointer is good for the length beside it, and no two of them overlap.
    let answer = unsafe {
        match call {
            Call::Read | Call::Write => unreachable!("no matrix is lent to it"),
            Call::Run => unreachable!("no archive has it"),
            Call::Build => gormulast_packed_build(
                table.pointer(),
                table.length(),
                p.pointer(),
                p.length(),
                a.pointer(),
                a.length(),
                factor.pointer(),
                factor.length(),
                work.pointer(),
                work.length(),
            ),
            Call::Replace {
                card,
                new: [letter, f1, f2, f3, f4, f5],
            } => gormulast_packed_replace(
                table.pointer(),
                table.length(),
                p.pointer(),
                p.length(),
                a.pointer(),
                a.length(),
                factor.pointer(),
                factor.length(),
                work.pointer(),
                work.length(),
                card,
                letter,
                f1,
                f2,
                f3,
                f4,
                f5,
            ),
            Call::Step => gormulast_packed_step(
                table.pointer(),
                table.length(),
                p.pointer(),
                p.length(),
                a.pointer(),
                a.length(),
                factor.pointer(),
                factor.length(),
                temperatures.pointer(),
                temperatures.length(),
                carried.pointer(),
                carried.length(),
            ),
        }
    };

    table.open("table", &mut lent.table);
    temperatures.open("temperatures", &mut lent.temperatures);
    carried.open("carried", &mut lent.carried);
    let fenced = [p, a, factor, work].into_iter();
    for ((matrix, slice), name) in fenced.zip(&mut lent.matrices).zip(MATRICES) {
        matrix.open(name, slice);
    }
    answer
}
