//! The calls of the archive, each as one work to measure.
//!
//! Safety: each pointer is good for the length beside it, and no two of one call overlap.

use crate::boards::Board;
use crate::clock::Work;
use crate::face::*;
use crate::Change;

pub fn read(board: &Board) -> Work<'_> {
    let mut table = board.table.clone();
    let bytes = &board.bytes;
    Box::new(move || {
        let (mut start, mut end) = (0, 0);
        unsafe {
            gormulast_read(
                bytes.as_ptr(),
                bytes.len(),
                table.as_mut_ptr(),
                table.len(),
                &mut start,
                &mut end,
            )
        }
    })
}

pub fn write(board: &Board) -> Work<'_> {
    let mut bytes = board.bytes.clone();
    let table = &board.table;
    Box::new(move || unsafe {
        gormulast_write(table.as_ptr(), table.len(), bytes.as_mut_ptr(), bytes.len())
    })
}

pub fn build(board: &Board) -> Work<'_> {
    let (mut ours, mut starts) = (board.kept.clone(), board.starts.clone());
    let table = &board.table;
    Box::new(move || {
        let length = ours[0].len();
        let [p, a, factor, work] = ours.each_mut().map(|matrix| matrix.as_mut_ptr());
        unsafe {
            gormulast_build(
                table.as_ptr(),
                table.len(),
                p,
                length,
                a,
                length,
                factor,
                length,
                work,
                length,
                starts.as_mut_ptr(),
                starts.len(),
            )
        }
    })
}

pub fn replace<'a>(board: &'a Board, change: &Change) -> Work<'a> {
    let (mut ours, mut table) = (board.kept.clone(), board.table.clone());
    let (card, mut cards) = (change.card, change.cards());
    let starts = &board.starts;
    Box::new(move || {
        let [letter, f1, f2, f3, f4, f5] = cards();
        let length = ours[0].len();
        let [p, a, factor, work] = ours.each_mut().map(|matrix| matrix.as_mut_ptr());
        unsafe {
            gormulast_replace(
                table.as_mut_ptr(),
                table.len(),
                p,
                length,
                a,
                length,
                factor,
                length,
                work,
                length,
                starts.as_ptr(),
                starts.len(),
                card,
                letter,
                f1,
                f2,
                f3,
                f4,
                f5,
            )
        }
    })
}

pub fn step(board: &Board, factor: Vec<i64>) -> Work<'_> {
    let [p, a, ..] = &board.kept;
    let (start, mut carried) = (board.start(), vec![0; board.nodes]);
    let mut temperatures = start.clone();
    Box::new(move || {
        temperatures.copy_from_slice(&start);
        carried.fill(0);
        let answer = unsafe {
            gormulast_step(
                board.table.as_ptr(),
                board.table.len(),
                p.as_ptr(),
                p.len(),
                a.as_ptr(),
                a.len(),
                factor.as_ptr(),
                factor.len(),
                board.starts.as_ptr(),
                board.starts.len(),
                temperatures.as_mut_ptr(),
                temperatures.len(),
                carried.as_mut_ptr(),
                carried.len(),
            )
        };
        answer & 255
    })
}

/// The same with as many zones and edges as there may be, each zone of all nodes.
#[cfg_attr(feature = "before", allow(dead_code))]
pub fn zones_step(board: &Board, factor: Vec<i64>) -> Work<'_> {
    let [p, a, ..] = &board.kept;
    let (start, mut carried) = (board.start(), vec![0; board.nodes]);
    let mut temperatures = start.clone();
    let counts = [board.nodes as u32; 16];
    let members: Vec<u32> = counts.iter().flat_map(|&count| 1..=count).collect();
    let edges: Vec<u32> = (1..=14).map(|edge| edge << 21).collect();
    let mut summary = [0; 48];
    Box::new(move || {
        temperatures.copy_from_slice(&start);
        carried.fill(0);
        let answer = unsafe {
            gormulast_zones_step(
                board.table.as_ptr(),
                board.table.len(),
                p.as_ptr(),
                p.len(),
                a.as_ptr(),
                a.len(),
                factor.as_ptr(),
                factor.len(),
                board.starts.as_ptr(),
                board.starts.len(),
                temperatures.as_mut_ptr(),
                temperatures.len(),
                carried.as_mut_ptr(),
                carried.len(),
                counts.as_ptr(),
                counts.len(),
                members.as_ptr(),
                members.len(),
                edges.as_ptr(),
                edges.len(),
                summary.as_mut_ptr(),
                summary.len(),
            )
        };
        answer & 255
    })
}

#[cfg(feature = "run")]
pub fn run(board: &Board) -> Work<'_> {
    let mut lent = board.lent(&board.kept);
    Box::new(move || {
        lent.renew(board, &board.kept);
        let length = lent.matrices[0].len();
        let [p, a, factor, work] = lent.matrices.each_mut().map(|matrix| matrix.as_mut_ptr());
        let answer = unsafe {
            crate::packed_face::gormulast_run(
                lent.table.as_mut_ptr(),
                lent.table.len(),
                p,
                length,
                a,
                length,
                factor,
                length,
                work,
                length,
                board.starts.as_ptr(),
                board.starts.len(),
                lent.temperatures.as_mut_ptr(),
                lent.temperatures.len(),
                lent.carried.as_mut_ptr(),
                lent.carried.len(),
            )
        };
        answer & 255
    })
}
