//! Calls of the archive. The only unsafe code here.

use crate::case::{Call, Case, Lent, Outcome};
use crate::face::*;
use crate::fenced::Fenced;
use crate::packed_face::gormulast_run;

impl Case {
    pub fn by_archive(&self) -> Outcome {
        let mut lent = self.lent.clone();
        let answer = call(self.call, &mut lent);
        Outcome { answer, lent }
    }

    pub fn differs(&self) -> bool {
        let ours = self.by_archive();
        self.by_reference() != ours || self.packed_apart(&ours).is_some()
    }
}

pub fn call(call: Call, lent: &mut Lent) -> u64 {
    let mut bytes = Fenced::new(&lent.bytes, 0xA5);
    let mut table = Fenced::new(&lent.table, 0xA5A5_A5A5);
    let mut temperatures = Fenced::new(&lent.temperatures, MARK);
    let mut carried = Fenced::new(&lent.carried, MARK);
    let mut starts = Fenced::new(&lent.starts, 0xA5A5_A5A5);
    let [mut p, mut a, mut factor, mut work] = lent
        .matrices
        .each_ref()
        .map(|matrix| Fenced::new(matrix, MARK));
    let [start, end] = &mut lent.part;

    // Safety: each pointer is good for the length beside it, and no two of them overlap.
    let answer = unsafe {
        match call {
            Call::Read => gormulast_read(
                bytes.pointer(),
                bytes.length(),
                table.pointer(),
                table.length(),
                start,
                end,
            ),
            Call::Write => gormulast_write(
                table.pointer(),
                table.length(),
                bytes.pointer(),
                bytes.length(),
            ),
            Call::Build => gormulast_build(
                table.pointer(),
                table.length(),
                p.pointer(),
                p.length(),
                a.pointer(),
                a.length(),
                factor.pointer(),
                factor.length(),
                work.pointer(),
                work.length(),
                starts.pointer(),
                starts.length(),
            ),
            Call::Replace {
                card,
                new: [letter, f1, f2, f3, f4, f5],
            } => gormulast_replace(
                table.pointer(),
                table.length(),
                p.pointer(),
                p.length(),
                a.pointer(),
                a.length(),
                factor.pointer(),
                factor.length(),
                work.pointer(),
                work.length(),
                starts.pointer(),
                starts.length(),
                card,
                letter,
                f1,
                f2,
                f3,
                f4,
                f5,
            ),
            Call::Step => gormulast_step(
                table.pointer(),
                table.length(),
                p.pointer(),
                p.length(),
                a.pointer(),
                a.length(),
                factor.pointer(),
                factor.length(),
                starts.pointer(),
                starts.length(),
                temperatures.pointer(),
                temperatures.length(),
                carried.pointer(),
                carried.length(),
            ),
            Call::Run => gormulast_run(
                table.pointer(),
                table.length(),
                p.pointer(),
                p.length(),
                a.pointer(),
                a.length(),
                factor.pointer(),
                factor.length(),
                work.pointer(),
                work.length(),
                starts.pointer(),
                starts.length(),
                temperatures.pointer(),
                temperatures.length(),
                carried.pointer(),
                carried.length(),
            ),
        }
    };

    bytes.open("bytes", &mut lent.bytes);
    table.open("table", &mut lent.table);
    temperatures.open("temperatures", &mut lent.temperatures);
    carried.open("carried", &mut lent.carried);
    starts.open("starts", &mut lent.starts);
    let fenced = [p, a, factor, work].into_iter();
    for ((matrix, slice), name) in fenced.zip(&mut lent.matrices).zip(crate::case::MATRICES) {
        matrix.open(name, slice);
    }
    answer
}

const MARK: i64 = i64::MIN + 77;
