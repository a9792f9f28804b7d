//! The calls of reference/, each as one work to measure.

use crate::boards::Board;
use crate::clock::Work;
use crate::Change;
use reference::kept;

pub fn read(board: &Board) -> Work<'_> {
    let mut table = board.table.clone();
    Box::new(move || reference::read(&board.bytes, &mut table).0.packed())
}

pub fn write(board: &Board) -> Work<'_> {
    let mut bytes = board.bytes.clone();
    Box::new(move || reference::write(&board.table, &mut bytes).packed())
}

pub fn build_packed(board: &Board) -> Work<'_> {
    let [mut p, mut a, mut factor, mut work] = board.packed.clone();
    Box::new(move || {
        reference::build(&board.table, &mut p, &mut a, &mut factor, &mut work).packed()
    })
}

pub fn build_kept(board: &Board) -> Work<'_> {
    let [mut p, mut a, mut factor, mut work] = board.kept.clone();
    let mut starts = board.starts.clone();
    Box::new(move || {
        let (p, a, factor, work) = (&mut p, &mut a, &mut factor, &mut work);
        kept::build(&board.table, p, a, factor, work, &mut starts).packed()
    })
}

/// A' put into the packed triangle, which a factoring begins with.
#[cfg(feature = "apart")]
pub fn copy<'a>(cleared: &'a [i64]) -> Work<'a> {
    let mut matrix = cleared.to_vec();
    Box::new(move || {
        std::hint::black_box(&mut matrix[..]).copy_from_slice(cleared);
        0
    })
}

/// The same, and the loop of the factor.
#[cfg(feature = "apart")]
pub fn factor<'a>(board: &'a Board, cleared: &'a [i64]) -> Work<'a> {
    let mut matrix = cleared.to_vec();
    Box::new(move || {
        std::hint::black_box(&mut matrix[..]).copy_from_slice(cleared);
        reference::factor(&mut matrix, board.nodes).packed()
    })
}

pub fn replace_packed<'a>(board: &'a Board, change: &Change) -> Work<'a> {
    let [mut p, mut a, mut factor, mut work] = board.packed.clone();
    let (mut table, card, mut cards) = (board.table.clone(), change.card, change.cards());
    Box::new(move || {
        let (p, a, factor, work) = (&mut p, &mut a, &mut factor, &mut work);
        reference::replace(&mut table, p, a, factor, work, card, cards()).packed()
    })
}

pub fn replace_kept<'a>(board: &'a Board, change: &Change) -> Work<'a> {
    let [mut p, mut a, mut factor, mut work] = board.kept.clone();
    let (mut table, card, mut cards) = (board.table.clone(), change.card, change.cards());
    Box::new(move || {
        let (p, a, factor, work) = (&mut p, &mut a, &mut factor, &mut work);
        kept::replace(&mut table, p, a, factor, work, &board.starts, card, cards()).packed()
    })
}

pub fn step_packed(board: &Board, factor: Vec<i64>) -> Work<'_> {
    let [p, a, ..] = &board.packed;
    let (start, mut carried) = (board.start(), vec![0; board.nodes]);
    let mut temperatures = start.clone();
    Box::new(move || {
        temperatures.copy_from_slice(&start);
        carried.fill(0);
        let table = &board.table;
        reference::step(table, p, a, &factor, &mut temperatures, &mut carried).packed() & 255
    })
}

pub fn step_kept(board: &Board, factor: Vec<i64>) -> Work<'_> {
    let [p, a, ..] = &board.kept;
    let (start, mut carried) = (board.start(), vec![0; board.nodes]);
    let mut temperatures = start.clone();
    Box::new(move || {
        temperatures.copy_from_slice(&start);
        carried.fill(0);
        let (table, starts) = (&board.table, &board.starts);
        let (temperatures, carried) = (&mut temperatures, &mut carried);
        kept::step(table, p, a, &factor, starts, temperatures, carried).packed() & 255
    })
}

/// A run may change the deck and its matrices: each begins with them as they were.
#[cfg(feature = "run")]
pub fn run_packed(board: &Board) -> Work<'_> {
    let mut lent = board.lent(&board.packed);
    Box::new(move || {
        lent.renew(board, &board.packed);
        let [p, a, factor, work] = &mut lent.matrices;
        let (temperatures, carried) = (&mut lent.temperatures, &mut lent.carried);
        reference::run(&mut lent.table, p, a, factor, work, temperatures, carried).packed() & 255
    })
}

#[cfg(feature = "run")]
pub fn run_kept(board: &Board) -> Work<'_> {
    let mut lent = board.lent(&board.kept);
    Box::new(move || {
        lent.renew(board, &board.kept);
        let [p, a, factor, work] = &mut lent.matrices;
        let (temperatures, carried) = (&mut lent.temperatures, &mut lent.carried);
        let (table, starts) = (&mut lent.table, &board.starts);
        kept::run(table, p, a, factor, work, starts, temperatures, carried).packed() & 255
    })
}
