//! One call with all that is lent to it.

use crate::decks::{Record, RECORD_BYTES};

#[derive(Clone, Default, PartialEq)]
pub struct Case {
    pub table: Vec<u32>,
    pub records: Vec<u8>,
    pub second: Vec<u32>,
}

/// The packed answer, and all that was lent as it is after the call.
#[derive(Clone, PartialEq)]
pub struct Outcome {
    pub answer: u64,
    pub lent: Case,
}

impl Case {
    pub fn by_reference(&self) -> Outcome {
        let mut lent = self.clone();
        let answer = reference::import(&lent.table, &lent.records, &mut lent.second).packed();
        Outcome { answer, lent }
    }

    pub fn differs(&self) -> bool {
        self.by_reference() != self.by_archive()
    }

    /// The records, the last one too; bytes over are left out.
    pub fn records(&self) -> Vec<Record> {
        self.records
            .chunks_exact(RECORD_BYTES)
            .map(Record::of)
            .collect()
    }
}
