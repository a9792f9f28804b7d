//! The packed form: row i, from 0, has i + 1 numbers. And the calls over it.

use crate::answer::*;
use crate::calls;
use crate::card::{Card, MAX_NODES};
use crate::judge::Deck;
use crate::layout::*;
use crate::round::{nearest, r, r_wide, ONE};

/// Makes P, A and the factor of a deck. Until the factor is had, only the work slice is written.
pub fn build(
    table: &[u32],
    p: &mut [i64],
    a: &mut [i64],
    factor: &mut [i64],
    work: &mut [i64],
) -> Answer {
    calls::build::<Packed>(table, [p, a, factor, work], &mut []).into()
}

/// Replaces one card of a deck, and of P, A and the factor what depends on it.
pub fn replace(
    table: &mut [u32],
    p: &mut [i64],
    a: &mut [i64],
    factor: &mut [i64],
    work: &mut [i64],
    card: u32,
    new: Card,
) -> Answer {
    calls::replace::<Packed>(table, [p, a, factor, work], &[], card, new).into()
}

/// One step from the lent temperatures and the residuals that the step before it left, zero at the start.
pub fn step(
    table: &[u32],
    p: &[i64],
    a: &[i64],
    factor: &[i64],
    temperatures: &mut [i64],
    carried: &mut [i64],
) -> Stepped {
    calls::step::<Packed>(table, [p, a, factor], &[], temperatures, carried).into()
}

/// D's number of steps from the lent temperatures and residuals, up to the first refusal; each step hands both to the next. Before
/// step k the changes of increment k are made as replacements, which alone ask for the work slice.
pub fn run(
    table: &mut [u32],
    p: &mut [i64],
    a: &mut [i64],
    factor: &mut [i64],
    work: &mut [i64],
    temperatures: &mut [i64],
    carried: &mut [i64],
) -> Ran {
    calls::run::<Packed>(table, [p, a, factor, work], &[], temperatures, carried).into()
}

/// The factor of A' of n nodes in its place, nothing else: what a whole call is measured against.
pub fn factor(matrix: &mut [i64], n: usize) -> Answer {
    Packed { n }.factor(&[], matrix, 0).into()
}

pub struct Packed {
    n: usize,
}

/// Where row i starts; also the length of a matrix of i rows.
fn start(i: usize) -> usize {
    i * (i + 1) / 2
}

fn place(i: usize, j: usize) -> usize {
    start(i.max(j)) + i.min(j)
}

/// The rows, each up to its diagonal.
fn rows(matrix: &[i64], n: usize) -> impl Iterator<Item = &[i64]> {
    (0..n).map(move |i| row(matrix, i))
}

fn row(matrix: &[i64], i: usize) -> &[i64] {
    &matrix[start(i)..=start(i) + i]
}

impl Layout for Packed {
    fn of(deck: &Deck) -> Packed {
        Packed {
            n: deck.counts.nodes,
        }
    }

    fn start(&self, i: usize) -> usize {
        start(i)
    }

    fn length(&self) -> usize {
        start(self.n)
    }

    fn short(&self, _: &[u32]) -> bool {
        false
    }

    fn stray(&self, _: &[u32]) -> Option<usize> {
        None
    }

    fn tell(&self, _: &mut [u32]) {}

    fn add<const K: usize>(&self, matrix: &mut [i64], nodes: [usize; K], square: [[i64; K]; K]) {
        for i in 0..K {
            for j in 0..=i {
                matrix[place(nodes[i], nodes[j])] += square[i][j];
            }
        }
    }

    fn fix(&self, matrix: &mut [i64], first: usize, fixed: &Fixed) {
        for i in first..self.n {
            let row = &mut matrix[start(i)..=start(i) + i];
            if fixed[i].is_some() {
                row.fill(0);
                row[i] = ONE;
            } else {
                for j in (0..i).filter(|&j| fixed[j].is_some()) {
                    row[j] = 0;
                }
            }
        }
    }

    fn sums_bounded(&self, matrix: &[i64]) -> bool {
        let mut sums = [0; MAX_NODES];
        for (i, row) in rows(matrix, self.n).enumerate() {
            let mut sum = size(row[i]);
            for (other, &number) in sums.iter_mut().zip(&row[..i]) {
                sum += size(number);
                *other += size(number);
            }
            sums[i] = sum;
        }
        sums.iter().all(|&sum| sum <= MAX_ROW_SUM)
    }

    fn bounded(&self, factor: &[i64]) -> bool {
        rows(factor, self.n).all(row_bounded)
    }

    /// One pass over the triangle: each number left of the diagonal serves two rows.
    fn product(&self, matrix: &[i64], vector: &Vector, entry: impl Fn(i64) -> i64) -> Vector {
        let mut product = [0; MAX_NODES];
        for (i, row) in rows(matrix, self.n).enumerate() {
            let mut sum = entry(row[i]) * vector[i];
            for j in 0..i {
                sum += entry(row[j]) * vector[j];
                product[j] += entry(row[j]) * vector[i];
            }
            product[i] = sum;
        }
        product
    }

    fn factor(&self, above: &[i64], lower: &mut [i64], first: usize) -> Result<(), Refusal> {
        for i in first..self.n {
            let (done, rest) = lower.split_at_mut(start(i) - start(first));
            let row = &mut rest[..=i];
            let mut w = [0; MAX_NODES];
            for j in 0..i {
                let upper = if j < first {
                    &above[start(j)..=start(j) + j]
                } else {
                    let at = start(j) - start(first);
                    &done[at..=at + j]
                };
                w[j] = bound(row[j] - sum(&upper[..j], &w[..j]), MAX_W, i)?;
                // 2^38 · 2^20 is well within 64 bits.
                row[j] = bound(nearest(w[j] * ONE, upper[j]), MAX_L, i)?;
            }
            row[i] = bound(row[i] - sum(&row[..i], &w[..i]), MAX_W, i)?;
            if row[i] < MIN_D {
                return Err(Refusal::at_index(PIVOT, i));
            }
        }
        Ok(())
    }

    fn forward(&self, factor: &[i64], mut y: Vector) -> Result<Vector, Refusal> {
        for i in 0..self.n {
            let row = row(factor, i);
            let sum: i64 = row[..i].iter().zip(&y).map(|(&l, &y)| r_wide(l, y)).sum();
            y[i] = bound(y[i] - sum, MAX_Y, i)?;
        }
        Ok(y)
    }

    /// From the last row: each x, once done, is taken out of all the rows above it, so that the factor is walked along its rows.
    fn back(&self, factor: &[i64], mut x: Vector) -> Result<Vector, Refusal> {
        for i in 0..self.n {
            x[i] = nearest(FINE * x[i], row(factor, i)[i]);
        }
        for k in (0..self.n).rev() {
            let done = bound(x[k], MAX_X, k)?;
            for (x, l) in x.iter_mut().zip(&row(factor, k)[..k]) {
                *x -= r(l * done);
            }
        }
        Ok(x)
    }
}

/// The sum of R(l·w). A product is at most 2^62.
fn sum(l: &[i64], w: &[i64]) -> i64 {
    l.iter().zip(w).map(|(l, w)| r(l * w)).sum()
}
