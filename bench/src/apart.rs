//! The archive's loop of a factor by itself: `factor::factor` of the same module, compiled with the same flags, and seen from outside.

use crate::boards::Board;
use crate::clock::Work;

/// A lent slice, as the proved code hands it on.
#[repr(C)]
struct Slice<A> {
    start: *mut A,
    length: usize,
}

extern "C" {
    /// Its answer begins with a byte, 0 where it is done.
    fn gormulast_factor(
        answer: *mut [u32; 3],
        matrix: *const Slice<i64>,
        starts: *const Slice<u32>,
        first: usize,
    );
}

/// A' put into the kept rows, and their factor.
pub fn factor<'a>(board: &'a Board, cleared: &'a [i64]) -> Work<'a> {
    let mut matrix = cleared.to_vec();
    Box::new(move || {
        std::hint::black_box(&mut matrix[..]).copy_from_slice(cleared);
        answer(board, &mut matrix)
    })
}

/// 0 where it is done.
pub fn answer(board: &Board, matrix: &mut [i64]) -> u64 {
    let mut answer = [0; 3];
    let rows = Slice {
        start: matrix.as_mut_ptr(),
        length: matrix.len(),
    };
    // They are read alone.
    let starts = Slice {
        start: board.starts.as_ptr().cast_mut(),
        length: board.starts.len(),
    };
    // Safety: both slices are good for their length, and the deck's own; the answer has twelve bytes.
    unsafe { gormulast_factor(&mut answer, &rows, &starts, 0) };
    u64::from(answer[0] & 255)
}
