//! The form of request [8], rows without their leading zeros: each row is kept from its first column to its diagonal, and a slice of
//! n row starts, from 0, says where each begins. And the calls over it.

use crate::answer::*;
use crate::calls;
use crate::card::{Card, G, MAX_NODES, V};
use crate::judge::Deck;
use crate::layout::*;
use crate::round::{nearest, r, r_wide, ONE};
use crate::{edge, element, solid};

/// Makes P, A, the factor and the row starts of a deck. Until the factor is had, only the work slice is written; what the starts held
/// before is never judged.
pub fn build(
    table: &[u32],
    p: &mut [i64],
    a: &mut [i64],
    factor: &mut [i64],
    work: &mut [i64],
    starts: &mut [u32],
) -> Answer {
    calls::build::<Kept>(table, [p, a, factor, work], starts).into()
}

/// Replaces one card of a deck, and of P, A and the factor what depends on it. No replacement moves a start.
#[allow(clippy::too_many_arguments)]
pub fn replace(
    table: &mut [u32],
    p: &mut [i64],
    a: &mut [i64],
    factor: &mut [i64],
    work: &mut [i64],
    starts: &[u32],
    card: u32,
    new: Card,
) -> Answer {
    calls::replace::<Kept>(table, [p, a, factor, work], starts, card, new).into()
}

/// One step from the lent temperatures and the residuals that the step before it left, zero at the start.
pub fn step(
    table: &[u32],
    p: &[i64],
    a: &[i64],
    factor: &[i64],
    starts: &[u32],
    temperatures: &mut [i64],
    carried: &mut [i64],
) -> Stepped {
    calls::step::<Kept>(table, [p, a, factor], starts, temperatures, carried).into()
}

/// D's number of steps from the lent temperatures and residuals, up to the first refusal; each step hands both to the next. Before
/// step k the changes of increment k are made as replacements, which alone ask for the work slice.
#[allow(clippy::too_many_arguments)]
pub fn run(
    table: &mut [u32],
    p: &mut [i64],
    a: &mut [i64],
    factor: &mut [i64],
    work: &mut [i64],
    starts: &[u32],
    temperatures: &mut [i64],
    carried: &mut [i64],
) -> Ran {
    calls::run::<Kept>(table, [p, a, factor, work], starts, temperatures, carried).into()
}

pub struct Kept {
    n: usize,
    /// The least of the nodes that share an element or an edge with each node, itself counted.
    first: [usize; MAX_NODES],
    /// Where each row begins; after the last, the matrix length.
    starts: [usize; MAX_NODES + 1],
}

impl Kept {
    /// Nodes that share a card: each has a first column no later than the least of them.
    fn couple(&mut self, nodes: &[usize]) {
        let least = nodes.iter().fold(MAX_NODES, |least, &node| least.min(node));
        for &node in nodes {
            self.first[node] = self.first[node].min(least);
        }
    }

    /// Row i, its first column first and its diagonal last.
    fn row<'a>(&self, matrix: &'a [i64], i: usize) -> &'a [i64] {
        &matrix[self.starts[i]..self.starts[i + 1]]
    }

    /// The numbers left of the diagonal of row i, each with its column.
    fn left<'a>(&self, matrix: &'a [i64], i: usize) -> impl Iterator<Item = (usize, i64)> + 'a {
        let row = &matrix[self.starts[i]..self.starts[i + 1] - 1];
        (self.first[i]..).zip(row.iter().copied())
    }

    fn diagonal(&self, matrix: &[i64], i: usize) -> i64 {
        matrix[self.starts[i + 1] - 1]
    }
}

impl Layout for Kept {
    fn of(deck: &Deck) -> Kept {
        let n = deck.counts.nodes;
        let mut kept = Kept {
            n,
            first: std::array::from_fn(|node| node),
            starts: [0; MAX_NODES + 1],
        };
        for number in 0..deck.counts.elements {
            let card = deck.element(number);
            match card[0] {
                V => kept.couple(&solid::corners(&card)),
                _ => kept.couple(&element::corners(&card)),
            }
        }
        for card in deck.loads().filter(|card| card[0] == G) {
            kept.couple(&edge::ends(&card));
        }
        for i in 0..n {
            kept.starts[i + 1] = kept.starts[i] + (i + 1 - kept.first[i]);
        }
        kept
    }

    fn start(&self, i: usize) -> usize {
        self.starts[i]
    }

    fn length(&self) -> usize {
        self.starts[self.n]
    }

    fn short(&self, starts: &[u32]) -> bool {
        starts.len() < self.n
    }

    fn stray(&self, starts: &[u32]) -> Option<usize> {
        let mut both = self.starts[..self.n].iter().zip(starts);
        both.position(|(&right, &lent)| right != lent as usize)
    }

    fn tell(&self, starts: &mut [u32]) {
        for (told, &start) in starts.iter_mut().zip(&self.starts[..self.n]) {
            *told = start as u32;
        }
    }

    fn add<const K: usize>(&self, matrix: &mut [i64], nodes: [usize; K], square: [[i64; K]; K]) {
        for i in 0..K {
            for j in 0..=i {
                let (row, column) = (nodes[i].max(nodes[j]), nodes[i].min(nodes[j]));
                matrix[self.starts[row] + column - self.first[row]] += square[i][j];
            }
        }
    }

    fn fix(&self, matrix: &mut [i64], first: usize, fixed: &Fixed) {
        for i in first..self.n {
            let row = &mut matrix[self.starts[i]..self.starts[i + 1]];
            let (diagonal, left) = row.split_last_mut().expect("a row has its diagonal");
            if fixed[i].is_some() {
                left.fill(0);
                *diagonal = ONE;
            } else {
                for (number, column) in left.iter_mut().zip(&fixed[self.first[i]..]) {
                    if column.is_some() {
                        *number = 0;
                    }
                }
            }
        }
    }

    fn sums_bounded(&self, matrix: &[i64]) -> bool {
        let mut sums = [0; MAX_NODES];
        for i in 0..self.n {
            let mut sum = size(self.diagonal(matrix, i));
            for (j, number) in self.left(matrix, i) {
                sum += size(number);
                sums[j] += size(number);
            }
            sums[i] = sum;
        }
        sums.iter().all(|&sum| sum <= MAX_ROW_SUM)
    }

    fn bounded(&self, factor: &[i64]) -> bool {
        (0..self.n).all(|i| row_bounded(self.row(factor, i)))
    }

    /// One pass over the rows: each number left of the diagonal serves two of them.
    fn product(&self, matrix: &[i64], vector: &Vector, entry: impl Fn(i64) -> i64) -> Vector {
        let mut product = [0; MAX_NODES];
        for i in 0..self.n {
            let (diagonal, left) = self.row(matrix, i).split_last().expect("its diagonal");
            let columns = self.first[i]..i;
            let mut sum = entry(*diagonal) * vector[i];
            let both = vector[columns.clone()].iter().zip(&mut product[columns]);
            for (&number, (there, other)) in left.iter().zip(both) {
                sum += entry(number) * there;
                *other += entry(number) * vector[i];
            }
            product[i] = sum;
        }
        product
    }

    /// Left of either row's first column a product is zero: the sums go from the later of the two.
    fn factor(&self, above: &[i64], lower: &mut [i64], first: usize) -> Result<(), Refusal> {
        let from = self.starts[first];
        for i in first..self.n {
            let (done, rest) = lower.split_at_mut(self.starts[i] - from);
            let (row, left) = (
                &mut rest[..self.starts[i + 1] - self.starts[i]],
                self.first[i],
            );
            // w of column j stands at j less the row's first column, as its number does in the row.
            let mut w = [0; MAX_NODES];
            for j in left..i {
                let upper = if j < first {
                    &above[self.starts[j]..self.starts[j + 1]]
                } else {
                    &done[self.starts[j] - from..self.starts[j + 1] - from]
                };
                let (d, l) = upper.split_last().expect("a row has its diagonal");
                let both = left.max(self.first[j]);
                let sum = sum(&l[both - self.first[j]..], &w[both - left..j - left]);
                let at = j - left;
                w[at] = bound(row[at] - sum, MAX_W, i)?;
                // 2^38 · 2^20 is well within 64 bits.
                row[at] = bound(nearest(w[at] * ONE, *d), MAX_L, i)?;
            }
            let (d, l) = row.split_last_mut().expect("a row has its diagonal");
            *d = bound(*d - sum(l, &w[..l.len()]), MAX_W, i)?;
            if *d < MIN_D {
                return Err(Refusal::at_index(PIVOT, i));
            }
        }
        Ok(())
    }

    fn forward(&self, factor: &[i64], mut y: Vector) -> Result<Vector, Refusal> {
        for i in 0..self.n {
            let sum: i64 = self.left(factor, i).map(|(k, l)| r_wide(l, y[k])).sum();
            y[i] = bound(y[i] - sum, MAX_Y, i)?;
        }
        Ok(y)
    }

    /// From the last row: each x, once done, is taken out of the rows above it that its row is kept of.
    fn back(&self, factor: &[i64], mut x: Vector) -> Result<Vector, Refusal> {
        for i in 0..self.n {
            x[i] = nearest(FINE * x[i], self.diagonal(factor, i));
        }
        for k in (0..self.n).rev() {
            let done = bound(x[k], MAX_X, k)?;
            let (_, left) = self.row(factor, k).split_last().expect("its diagonal");
            for (x, l) in x[self.first[k]..].iter_mut().zip(left) {
                *x -= r(l * done);
            }
        }
        Ok(x)
    }
}

/// The sum of R(l·w). A product is at most 2^62.
fn sum(l: &[i64], w: &[i64]) -> i64 {
    l.iter().zip(w).map(|(l, w)| r(l * w)).sum()
}
