//! Slices to lend to an archive. `tests/import` takes this file too.

const FENCE: usize = 8;

/// A slice with marks before and after it, to see a number written outside of what was lent.
pub struct Fenced<A> {
    numbers: Vec<A>,
    mark: A,
}

impl<A: Copy + PartialEq> Fenced<A> {
    pub fn new(slice: &[A], mark: A) -> Fenced<A> {
        let mut numbers = vec![mark; FENCE];
        numbers.extend_from_slice(slice);
        numbers.extend([mark; FENCE]);
        Fenced { numbers, mark }
    }

    pub fn length(&self) -> usize {
        self.numbers.len() - 2 * FENCE
    }

    pub fn pointer(&mut self) -> *mut A {
        self.numbers[FENCE..].as_mut_ptr()
    }

    /// Writes what is there now into the slice that it was made of.
    pub fn open(&self, what: &str, slice: &mut [A]) {
        let (before, rest) = self.numbers.split_at(FENCE);
        let (now, after) = rest.split_at(slice.len());
        if before
            .iter()
            .chain(after)
            .any(|&number| number != self.mark)
        {
            println!("the archive wrote outside of the lent {what}");
            std::process::exit(1);
        }
        slice.copy_from_slice(now);
    }
}
