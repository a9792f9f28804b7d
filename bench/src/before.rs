//! The calls over kept rows against those before rows were kept: two archives of one machine, in one run.

use crate::boards::Board;
use crate::clock::{in_turns, Work};
use crate::{archive, Change, ROUNDS};

// As `gormulast_build` and so on were in the older archive, by other names.
extern "C" {
    fn before_build(
        table: *const u32,
        table_length: usize,
        p: *mut i64,
        p_length: usize,
        a: *mut i64,
        a_length: usize,
        factor: *mut i64,
        factor_length: usize,
        work: *mut i64,
        work_length: usize,
    ) -> u64;
    fn before_replace(
        table: *mut u32,
        table_length: usize,
        p: *mut i64,
        p_length: usize,
        a: *mut i64,
        a_length: usize,
        factor: *mut i64,
        factor_length: usize,
        work: *mut i64,
        work_length: usize,
        card: u32,
        letter: u32,
        f1: u32,
        f2: u32,
        f3: u32,
        f4: u32,
        f5: u32,
    ) -> u64;
    fn before_step(
        table: *const u32,
        table_length: usize,
        p: *const i64,
        p_length: usize,
        a: *const i64,
        a_length: usize,
        factor: *const i64,
        factor_length: usize,
        temperatures: *mut i64,
        temperatures_length: usize,
        carried: *mut i64,
        carried_length: usize,
    ) -> u64;
}

/// Other work on the machine comes and goes, so the least medians of some rounds count.
pub fn calls(boards: &[Board]) {
    println!(
        "{:15} {:>5} {:>6} {:>12} {:>12} {:>7}",
        "call", "nodes", "kept", "before", "archive", "ratio"
    );
    for board in boards {
        show("build", board, || [build(board), archive::build(board)]);
        for change in Change::all(board) {
            show(&change.name, board, || {
                [replace(board, &change), archive::replace(board, &change)]
            });
        }
        let own = ("step", Some(board.factors()));
        for (name, factors) in [own, ("step by 4", board.factors_for(4))] {
            let Some([packed, kept]) = factors else {
                continue;
            };
            show(name, board, || {
                [
                    step(board, packed.clone()),
                    archive::step(board, kept.clone()),
                ]
            });
        }
    }
}

fn show<'a>(name: &str, board: &Board, works: impl Fn() -> [Work<'a>; 2]) {
    let [before, archive] = (0..ROUNDS).fold([f64::INFINITY; 2], |least, _| {
        let times = in_turns(works());
        [0, 1].map(|which| least[which].min(times[which]))
    });
    let (nodes, count, ratio) = (board.nodes, board.kept[0].len(), archive / before);
    println!("{name:15} {nodes:>5} {count:>6} {before:>9.0} ns {archive:>9.0} ns {ratio:>7.3}");
}

// Safety: each pointer is good for the length beside it, and no two of one call overlap.

fn build(board: &Board) -> Work<'_> {
    let mut theirs = board.packed.clone();
    let table = &board.table;
    Box::new(move || {
        let length = theirs[0].len();
        let [p, a, factor, work] = theirs.each_mut().map(|matrix| matrix.as_mut_ptr());
        unsafe {
            before_build(
                table.as_ptr(),
                table.len(),
                p,
                length,
                a,
                length,
                factor,
                length,
                work,
                length,
            )
        }
    })
}

fn replace<'a>(board: &'a Board, change: &Change) -> Work<'a> {
    let (mut theirs, mut table) = (board.packed.clone(), board.table.clone());
    let (card, mut cards) = (change.card, change.cards());
    Box::new(move || {
        let [letter, f1, f2, f3, f4, f5] = cards();
        let length = theirs[0].len();
        let [p, a, factor, work] = theirs.each_mut().map(|matrix| matrix.as_mut_ptr());
        unsafe {
            before_replace(
                table.as_mut_ptr(),
                table.len(),
                p,
                length,
                a,
                length,
                factor,
                length,
                work,
                length,
                card,
                letter,
                f1,
                f2,
                f3,
                f4,
                f5,
            )
        }
    })
}

fn step(board: &Board, factor: Vec<i64>) -> Work<'_> {
    let [p, a, ..] = &board.packed;
    let (start, mut carried) = (board.start(), vec![0; board.nodes]);
    let mut temperatures = start.clone();
    Box::new(move || {
        temperatures.copy_from_slice(&start);
        carried.fill(0);
        let answer = unsafe {
            before_step(
                board.table.as_ptr(),
                board.table.len(),
                p.as_ptr(),
                p.len(),
                a.as_ptr(),
                a.len(),
                factor.as_ptr(),
                factor.len(),
                temperatures.as_mut_ptr(),
                temperatures.len(),
                carried.as_mut_ptr(),
                carried.len(),
            )
        };
        answer & 255
    })
}
