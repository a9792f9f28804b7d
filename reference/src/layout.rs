//! How a symmetric matrix and a factor lie in a lent slice: rows one after another, each up to its diagonal. `packed` has
//! document 01's form, `kept` the form of request [8].

use crate::answer::*;
use crate::card::MAX_NODES;
use crate::judge::Deck;

/// The greatest sum of magnitudes along a full row of a lent matrix.
pub const MAX_ROW_SUM: u64 = 1 << 33;
pub const MAX_W: i64 = 1 << 38;
pub const MAX_L: i64 = 1 << 24;
pub const MIN_D: i64 = 16;
pub const MAX_Y: i64 = 1 << 52;
pub const MAX_X: i64 = 1 << 36;
/// Corrections are worked out in 1/256 tick.
pub const FINE: i64 = 256;

pub type Vector = [i64; MAX_NODES];
pub type Fixed = [Option<i64>; MAX_NODES];

pub trait Layout {
    /// The form of a deck's matrices.
    fn of(deck: &Deck) -> Self;

    /// Where row i begins, i being counted from 0; of the number of rows, the matrix length.
    fn start(&self, i: usize) -> usize;

    fn length(&self) -> usize;

    /// Is there too little room for the row starts?
    fn short(&self, starts: &[u32]) -> bool;

    /// The first row whose lent start is another, from 0.
    fn stray(&self, starts: &[u32]) -> Option<usize>;

    fn tell(&self, starts: &mut [u32]);

    /// Adds the matrix of an element or an edge at nodes that differ: six places of a triangle, ten of a tetrahedron, three of an edge.
    fn add<const K: usize>(&self, matrix: &mut [i64], nodes: [usize; K], square: [[i64; K]; K]);

    /// Turns A into A' from a row on.
    fn fix(&self, matrix: &mut [i64], first: usize, fixed: &Fixed);

    /// Refusal 10 of P and A.
    fn sums_bounded(&self, matrix: &[i64]) -> bool;

    /// Refusal 10 of the factor.
    fn bounded(&self, factor: &[i64]) -> bool;

    /// The matrix, each number of it by `entry`, times a vector.
    fn product(&self, matrix: &[i64], vector: &Vector, entry: impl Fn(i64) -> i64) -> Vector;

    /// Factors the rows from `first` on, in place. `above` is the finished factor over them; `lower` holds their A' and then their
    /// factor, or, on a refusal, a part of each.
    fn factor(&self, above: &[i64], lower: &mut [i64], first: usize) -> Result<(), Refusal>;

    /// y, over r.
    fn forward(&self, factor: &[i64], y: Vector) -> Result<Vector, Refusal>;

    /// z and then x, over y.
    fn back(&self, factor: &[i64], x: Vector) -> Result<Vector, Refusal>;
}

/// A magnitude for refusal 10. The numbers may be of any size: one past the bound counts as just past it, so that no sum overflows.
pub fn size(number: i64) -> u64 {
    number.unsigned_abs().min(MAX_ROW_SUM + 1)
}

/// Refusal 10 of a row of the factor, its diagonal last.
pub fn row_bounded(row: &[i64]) -> bool {
    let (d, l) = row.split_last().expect("a row has its diagonal");
    l.iter().all(|l| (-MAX_L..=MAX_L).contains(l)) && (MIN_D..=MAX_W).contains(d)
}

/// Refusal 8.
pub fn bound(value: i64, most: i64, row: usize) -> Result<i64, Refusal> {
    if value.abs() > most {
        return Err(Refusal::at_index(BOUND, row));
    }
    Ok(value)
}
