//! The call of the archive, as include/gormulast-import.h declares it. The only unsafe code here.

use crate::case::{Case, Outcome};
use crate::fenced::Fenced;

extern "C" {
    fn gormulast_import(
        table: *const u32,
        table_length: usize,
        records: *const u8,
        records_length: usize,
        second: *mut u32,
        second_length: usize,
    ) -> u64;
}

impl Case {
    pub fn by_archive(&self) -> Outcome {
        let mut lent = self.clone();
        let mut table = Fenced::new(&lent.table, 0xA5A5_A5A5);
        let mut records = Fenced::new(&lent.records, 0xA5);
        let mut second = Fenced::new(&lent.second, 0x5A5A_5A5A);
        // Safety: each pointer is good for the length beside it, and no two of them overlap.
        let answer = unsafe {
            gormulast_import(
                table.pointer(),
                table.length(),
                records.pointer(),
                records.length(),
                second.pointer(),
                second.length(),
            )
        };
        table.open("table", &mut lent.table);
        records.open("records", &mut lent.records);
        second.open("second table", &mut lent.second);
        Outcome { answer, lent }
    }
}
