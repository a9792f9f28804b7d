//! The calls of the crate gormulast_packed, for tests alone: the packed form, and a run of the kept one.

extern "C" {
    pub fn gormulast_packed_build(
        table: *const u32,
        table_length: usize,
        p: *mut i64,
        p_length: usize,
        a: *mut i64,
        a_length: usize,
        factor: *mut i64,
        factor_length: usize,
        work: *mut i64,
        work_length: usize,
    ) -> u64;
    pub fn gormulast_packed_replace(
        table: *mut u32,
        table_length: usize,
        p: *mut i64,
        p_length: usize,
        a: *mut i64,
        a_length: usize,
        factor: *mut i64,
        factor_length: usize,
        work: *mut i64,
        work_length: usize,
        card: u32,
        letter: u32,
        f1: u32,
        f2: u32,
        f3: u32,
        f4: u32,
        f5: u32,
    ) -> u64;
    pub fn gormulast_packed_step(
        table: *const u32,
        table_length: usize,
        p: *const i64,
        p_length: usize,
        a: *const i64,
        a_length: usize,
        factor: *const i64,
        factor_length: usize,
        temperatures: *mut i64,
        temperatures_length: usize,
        carried: *mut i64,
        carried_length: usize,
    ) -> u64;
    /// Answers number + 65,536·place, or 65,536·steps.
    pub fn gormulast_run(
        table: *mut u32,
        table_length: usize,
        p: *mut i64,
        p_length: usize,
        a: *mut i64,
        a_length: usize,
        factor: *mut i64,
        factor_length: usize,
        work: *mut i64,
        work_length: usize,
        starts: *const u32,
        starts_length: usize,
        temperatures: *mut i64,
        temperatures_length: usize,
        carried: *mut i64,
        carried_length: usize,
    ) -> u64;
}
