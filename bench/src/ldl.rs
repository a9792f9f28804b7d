//! SuiteSparse's LDL of the same matrix in double numbers, a yardstick: what its symbolic part finds is had before, and the numeric
//! part alone is measured. The nodes are numbered as the deck has them.

use crate::boards::Board;
use crate::clock::Work;
use crate::decks::triangle;
use std::ptr::null_mut;

// As ldl.h of Debian's libsuitesparse-dev declares them; no permutation is a null one.
extern "C" {
    fn ldl_symbolic(
        n: i32,
        a_starts: *mut i32,
        a_rows: *mut i32,
        l_starts: *mut i32,
        parents: *mut i32,
        l_counts: *mut i32,
        flags: *mut i32,
        order: *mut i32,
        inverse: *mut i32,
    );
    fn ldl_numeric(
        n: i32,
        a_starts: *mut i32,
        a_rows: *mut i32,
        a_numbers: *mut f64,
        l_starts: *mut i32,
        parents: *mut i32,
        l_counts: *mut i32,
        l_rows: *mut i32,
        l_numbers: *mut f64,
        d: *mut f64,
        y: *mut f64,
        pattern: *mut i32,
        flags: *mut i32,
        order: *mut i32,
        inverse: *mut i32,
    ) -> i32;
}

/// A matrix by columns, each down to its diagonal; what the symbolic part found; and room for the numeric one.
struct Sparse {
    n: usize,
    starts: Vec<i32>,
    rows: Vec<i32>,
    numbers: Vec<f64>,
    l_starts: Vec<i32>,
    parents: Vec<i32>,
    l_counts: Vec<i32>,
    l_rows: Vec<i32>,
    l_numbers: Vec<f64>,
    d: Vec<f64>,
    y: Vec<f64>,
    pattern: Vec<i32>,
    flags: Vec<i32>,
}

/// The factor: it answers 0 where every pivot is other than zero.
pub fn factor(board: &Board, cleared: &[i64]) -> Work<'static> {
    let mut sparse = Sparse::of(board.nodes, cleared);
    sparse.symbolic();
    sparse.numeric();
    sparse.check(&board.packed[2]);
    Box::new(move || sparse.numeric())
}

impl Sparse {
    fn of(n: usize, packed: &[i64]) -> Sparse {
        let (mut starts, mut rows, mut numbers) = (vec![0], vec![], vec![]);
        for i in 0..n {
            let row = &packed[triangle(i)..triangle(i + 1)];
            for (j, &number) in row.iter().enumerate().filter(|(_, &number)| number != 0) {
                rows.push(j as i32);
                numbers.push(number as f64);
            }
            starts.push(rows.len() as i32);
        }
        Sparse {
            n,
            starts,
            rows,
            numbers,
            l_starts: vec![0; n + 1],
            parents: vec![0; n],
            l_counts: vec![0; n],
            l_rows: vec![],
            l_numbers: vec![],
            d: vec![0.0; n],
            y: vec![0.0; n],
            pattern: vec![0; n],
            flags: vec![0; n],
        }
    }

    fn symbolic(&mut self) {
        // Safety: every array has the length that ldl.h asks for, n or n + 1.
        unsafe {
            ldl_symbolic(
                self.n as i32,
                self.starts.as_mut_ptr(),
                self.rows.as_mut_ptr(),
                self.l_starts.as_mut_ptr(),
                self.parents.as_mut_ptr(),
                self.l_counts.as_mut_ptr(),
                self.flags.as_mut_ptr(),
                null_mut(),
                null_mut(),
            )
        }
        let count = self.l_starts[self.n] as usize;
        self.l_rows = vec![0; count];
        self.l_numbers = vec![0.0; count];
    }

    fn numeric(&mut self) -> u64 {
        // Safety: as above; L has as many numbers as the symbolic part says.
        let done = unsafe {
            ldl_numeric(
                self.n as i32,
                self.starts.as_mut_ptr(),
                self.rows.as_mut_ptr(),
                self.numbers.as_mut_ptr(),
                self.l_starts.as_mut_ptr(),
                self.parents.as_mut_ptr(),
                self.l_counts.as_mut_ptr(),
                self.l_rows.as_mut_ptr(),
                self.l_numbers.as_mut_ptr(),
                self.d.as_mut_ptr(),
                self.y.as_mut_ptr(),
                self.pattern.as_mut_ptr(),
                self.flags.as_mut_ptr(),
                null_mut(),
                null_mut(),
            )
        };
        u64::from(done != self.n as i32)
    }

    /// It factored the same matrix: its pivots are the factor's, but for rounding.
    fn check(&self, factor: &[i64]) {
        for i in 0..self.n {
            let d = factor[triangle(i) + i] as f64;
            assert!((self.d[i] / d - 1.0).abs() < 1e-3, "another pivot {i}");
        }
    }
}
