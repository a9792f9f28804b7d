//! One implicit step.

use crate::answer::*;
use crate::card::{F, G, H, MAX_NODES, TOP, V};
use crate::edge;
use crate::element::{corners, film_load, heat_loads};
use crate::judge::Deck;
use crate::layout::{Layout, Vector, FINE};
use crate::radiation::Sources;
use crate::round::{nearest, ONE};
use crate::solid;

const MAX_CORRECTIONS: u32 = 4;

/// A deck, its matrices and what stays the same from step to step.
pub struct Stepper<'a, L> {
    n: usize,
    layout: L,
    p: &'a [i64],
    a: &'a [i64],
    factor: &'a [i64],
    fixed: [Option<i64>; MAX_NODES],
    sources: Sources,
    /// The right side without P times the old temperatures, what is radiated by them and the carried residuals.
    constant: Vector,
    /// The sum of |A'| along each row.
    tolerance: Vector,
}

impl<'a, L: Layout> Stepper<'a, L> {
    /// Of slices that have passed 9, 17 and 10.
    pub fn new(deck: &Deck, layout: L, [p, a, factor]: [&'a [i64]; 3]) -> Stepper<'a, L> {
        let n = deck.counts.nodes;
        let fixed = deck.fixed();

        let mut constant = [0; MAX_NODES];
        for card in deck.loads() {
            let element = || deck.element(card[1] as usize - 1);
            let named = || corners(&element());
            let mut load = |nodes: &[usize], shares: &[i64]| {
                for (&node, share) in nodes.iter().zip(shares) {
                    constant[node] += share;
                }
            };
            match card[0] {
                H if element()[0] == V => {
                    load(&solid::corners(&element()), &heat_loads::<4>(card[2]))
                }
                H => load(&named(), &heat_loads::<3>(card[2])),
                F => load(&named(), &[film_load(deck, named(), card[2], card[3]); 3]),
                G => load(&edge::ends(&card), &[edge::load(deck, &card); 2]),
                _ => {}
            }
        }
        // The columns cleared in A' go to the right side.
        let held = fixed.map(|temperature| temperature.unwrap_or(0));
        let moved = layout.product(a, &held, |number| number);
        let free = fixed.map(|temperature| i64::from(temperature.is_none()));
        let mut tolerance = layout.product(a, &free, i64::abs);
        for i in 0..n {
            match fixed[i] {
                Some(temperature) => {
                    constant[i] = ONE * temperature;
                    tolerance[i] = ONE;
                }
                None => constant[i] -= moved[i],
            }
        }
        Stepper {
            n,
            layout,
            p,
            a,
            factor,
            fixed,
            sources: Sources::of(deck),
            constant,
            tolerance,
        }
    }

    /// One step of n temperatures that are on the scale, with n residuals that the step before it left. Both change only if
    /// it settles: the residuals become those of the new temperatures, and 0 at fixed nodes.
    pub fn step(&self, temperatures: &mut [i64], carried: &mut [i64]) -> Result<u32, Refusal> {
        let mut new = [0; MAX_NODES];
        new[..self.n].copy_from_slice(temperatures);

        let mut right = self.constant;
        let capacity = self.layout.product(self.p, &new, |number| number);
        let lost = self.sources.losses(&new);
        for i in 0..self.n {
            if self.fixed[i].is_none() {
                right[i] += capacity[i] + carried[i] - lost[i];
            }
        }

        let mut residual = self.residual(&right, &new);
        let mut corrections = 0;
        loop {
            let y = self.layout.forward(self.factor, residual)?;
            let x = self.layout.back(self.factor, y)?;
            for i in 0..self.n {
                new[i] += nearest(x[i], FINE);
            }
            on_scale(&new[..self.n])?;
            corrections += 1;
            residual = self.residual(&right, &new);
            match (0..self.n).find(|&i| residual[i].abs() > self.tolerance[i]) {
                None => {
                    temperatures.copy_from_slice(&new[..self.n]);
                    for i in 0..self.n {
                        let free = self.fixed[i].is_none();
                        carried[i] = if free { residual[i] } else { 0 };
                    }
                    return Ok(corrections);
                }
                Some(row) if corrections == MAX_CORRECTIONS => {
                    return Err(Refusal::at_index(UNSETTLED, row));
                }
                Some(_) => {}
            }
        }
    }

    /// Right side - A'·T. A free row of A' is A's with the fixed columns cleared,
    /// so A is multiplied with those temperatures set to 0.
    fn residual(&self, right: &Vector, temperatures: &Vector) -> Vector {
        let mut free = *temperatures;
        for i in 0..self.n {
            if self.fixed[i].is_some() {
                free[i] = 0;
            }
        }
        let mut residual = self.layout.product(self.a, &free, |number| number);
        for i in 0..self.n {
            if self.fixed[i].is_some() {
                residual[i] = ONE * temperatures[i];
            }
            residual[i] = right[i] - residual[i];
        }
        residual
    }
}

/// Refusal 11, at the lowest node.
pub fn on_scale(temperatures: &[i64]) -> Result<(), Refusal> {
    let scale = 0..=i64::from(TOP);
    match temperatures
        .iter()
        .position(|temperature| !scale.contains(temperature))
    {
        Some(node) => Err(Refusal::at_index(SCALE, node)),
        None => Ok(()),
    }
}

#[cfg(test)]
mod tests {
    use super::*;
    use crate::build;
    use crate::card::{D, E, M, N, Z};
    use crate::packed::Packed;

    /// What no call shows of P6: each row's bound is 10,000.
    #[test]
    fn p6_row_bounds() {
        let table = [
            [D, 1_000, 19_660_800, 1, 0, 0],
            [N, 0, 0, 0, 0, 0],
            [N, 100, 0, 0, 0, 0],
            [N, 0, 100, 0, 0, 0],
            [M, 1_000, 1_000, 2_400, 0, 0],
            [E, 1, 2, 3, 1, 1_000],
            [H, 1, 3, 0, 0, 0],
            [Z, 294, 3, 1, 1, 1],
        ]
        .concat();
        let (mut p, mut a, mut factor, mut work) = ([0; 6], [0; 6], [0; 6], [0; 6]);
        assert_eq!(
            build(&table, &mut p, &mut a, &mut factor, &mut work),
            Answer::Done
        );
        let deck = Deck::judge(&table).unwrap();
        let stepper = Stepper::new(&deck, Packed::of(&deck), [&p, &a, &factor]);
        assert_eq!(stepper.tolerance[..3], [10_000; 3]);
    }
}
