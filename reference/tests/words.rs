//! The paper's words once more, as full squares of 128-bit numbers and with no
//! thought of speed, against build, replace and step: own buffers and foreign.

#![allow(clippy::needless_range_loop)]

mod common;

use common::*;
use reference::{Answer, Ran, Refusal, Stepped};

type Matrix = Vec<Vec<i128>>;
type Refused = (u8, u32);
/// The corrections, the new temperatures, the new residuals.
type Settled = (u32, Vec<i128>, Vec<i128>);

const ONE: i128 = 1 << 20;

fn rounded(n: i128, d: i128) -> i128 {
    n.signum() * ((2 * n.abs() + d) / (2 * d))
}

fn r(x: i128) -> i128 {
    rounded(x, ONE)
}

/// The determinant, along its first column.
fn determinant(rows: &[Vec<i128>]) -> i128 {
    match rows {
        [] => 1,
        _ => (0..rows.len())
            .map(|i| rows[i][0] * cofactor(rows, i, 0))
            .sum(),
    }
}

fn cofactor(rows: &[Vec<i128>], i: usize, j: usize) -> i128 {
    let mut minor = rows.to_vec();
    minor.remove(i);
    for row in &mut minor {
        row.remove(j);
    }
    [1, -1][(i + j) % 2] * determinant(&minor)
}

/// An element, of three corners or four.
struct Body {
    corners: Vec<usize>,
    /// Of each corner 1, x, y and, of a tetrahedron, z.
    rows: Vec<Vec<i128>>,
    /// kx, ky and, of a tetrahedron, kz.
    conducts: Vec<i128>,
    capacity: i128,
    /// 1 of a tetrahedron.
    thickness: i128,
    step: i128,
}

impl Body {
    /// Twice the area, six times the volume.
    fn s(&self) -> i128 {
        determinant(&self.rows).abs()
    }

    /// The square of the longest side.
    fn longest(&self) -> i128 {
        let square = |from: &[i128], to: &[i128]| -> i128 {
            from.iter().zip(to).map(|(a, b)| (a - b) * (a - b)).sum()
        };
        let pairs = self
            .rows
            .iter()
            .flat_map(|a| self.rows.iter().map(|b| square(a, b)));
        pairs.max().unwrap()
    }

    /// Conductance, then u; 5 if it is flat, 14 if it is a triangle and thin. The b, c and d of each corner are cofactors of its
    /// x, y and z.
    fn form(&self) -> Result<(Matrix, i128), u8> {
        let (s, count) = (self.s(), self.corners.len());
        if s == 0 {
            return Err(5);
        }
        if count == 3 && 64 * s < self.longest() {
            return Err(14);
        }
        let (over, over_time) = if count == 3 {
            (2_000, 9_600)
        } else {
            (120, 960)
        };
        let mut square = vec![vec![0; count]; count];
        for i in 0..count {
            for j in 0..count {
                if i != j {
                    let along = |axis: usize| {
                        let [side, other] =
                            [i, j].map(|corner| cofactor(&self.rows, corner, 1 + axis));
                        self.conducts[axis] * side * other
                    };
                    let all: i128 = (0..self.conducts.len()).map(along).sum();
                    square[i][j] = rounded(self.thickness * all, over * s);
                }
            }
        }
        for i in 0..count {
            square[i][i] = -square[i].iter().sum::<i128>();
        }
        let u = rounded(self.capacity * self.thickness * s, over_time * self.step);
        Ok((square, u))
    }
}

/// Refusal 6.
fn stiff(square: &Matrix, u: i128) -> bool {
    let pairs = (0..square.len()).flat_map(|i| (0..i).map(move |j| square[i][j]));
    pairs.chain([u]).any(|number| number.abs() > 4_000_000)
}

/// A table that is known to be good.
struct Words<'a>(&'a [u32]);

impl Words<'_> {
    fn cards(&self, letter: u32) -> Vec<Vec<i128>> {
        let cards = self.0.chunks(6).filter(|card| card[0] == letter);
        cards
            .map(|card| card[1..].iter().map(|&field| i128::from(field)).collect())
            .collect()
    }

    fn nodes(&self) -> usize {
        self.cards(N).len()
    }

    /// The elements by their numbers: E, then V.
    fn bodies(&self) -> Vec<Body> {
        let [nodes, materials] = [N, M].map(|letter| self.cards(letter));
        let step = self.cards(D)[0][0];
        let body = |e: &[i128], corners: usize, material: i128, thickness: i128| {
            let corners: Vec<usize> = e[..corners].iter().map(|&node| node as usize - 1).collect();
            let axes = corners.len() - 1;
            let material = &materials[material as usize - 1];
            // One in front of each corner's coordinates.
            let rows = corners.iter().map(|&node| {
                let mut row = vec![1];
                row.extend(&nodes[node][..axes]);
                row
            });
            Body {
                rows: rows.collect(),
                conducts: [material[0], material[1], material[3]][..axes].to_vec(),
                capacity: material[2],
                thickness,
                step,
                corners,
            }
        };
        let triangles = self.cards(E);
        let solids = self.cards(V);
        let triangles = triangles.iter().map(|e| body(e, 3, e[3], e[4]));
        let solids = solids.iter().map(|e| body(e, 4, e[4], 1));
        triangles.chain(solids).collect()
    }

    fn v(&self, f: &[i128]) -> i128 {
        rounded(f[1] * self.bodies()[f[0] as usize - 1].s(), 9_600_000)
    }

    /// g of a G card: the largest whole number whose square test holds.
    fn g(&self, edge: &[i128]) -> i128 {
        let nodes = self.cards(N);
        let (from, to) = (&nodes[edge[0] as usize - 1], &nodes[edge[1] as usize - 1]);
        let square: i128 = (0..3).map(|axis| (from[axis] - to[axis]).pow(2)).sum();
        let most = (edge[2] * edge[4]).pow(2) * square;
        let mut g = 0;
        while ((2 * (g + 1) - 1) * 60_000_000_i128).pow(2) <= most {
            g += 1;
        }
        g
    }

    fn fixed(&self, node: usize) -> Option<i128> {
        self.cards(T)
            .iter()
            .find(|t| t[0] as usize == node + 1)
            .map(|t| t[1])
    }

    fn fix(&self, a: &Matrix) -> Matrix {
        let mut a = a.clone();
        let n = self.nodes();
        for i in 0..n {
            for j in 0..n {
                if self.fixed(i).is_some() || self.fixed(j).is_some() {
                    a[i][j] = if i == j { ONE } else { 0 };
                }
            }
        }
        a
    }

    /// P, A and the factor.
    fn build(&self) -> Result<[Matrix; 3], Refused> {
        let n = self.nodes();
        let (mut p, mut a) = (vec![vec![0; n]; n], vec![vec![0; n]; n]);
        for (number, body) in self.bodies().iter().enumerate() {
            let place = number as u32 + 1;
            let (square, u) = body.form().map_err(|number| (number, place))?;
            if stiff(&square, u) {
                return Err((6, place));
            }
            for (i, &row) in body.corners.iter().enumerate() {
                for (j, &column) in body.corners.iter().enumerate() {
                    let capacity = if i == j { 2 * u } else { u };
                    p[row][column] += capacity;
                    a[row][column] += capacity + square[i][j];
                }
            }
        }
        for f in self.cards(F) {
            let corners = &self.bodies()[f[0] as usize - 1].corners;
            for i in 0..3 {
                for j in 0..3 {
                    a[corners[i]][corners[j]] += self.v(&f) * if i == j { 2 } else { 1 };
                }
            }
        }
        for edge in self.cards(G) {
            for i in 0..2 {
                for j in 0..2 {
                    a[edge[i] as usize - 1][edge[j] as usize - 1] +=
                        self.g(&edge) * if i == j { 2 } else { 1 };
                }
            }
        }
        let factor = factor(&self.fix(&a), 0, vec![vec![0; n]; n])?;
        Ok([p, a, factor])
    }

    /// The card is one that may be put there.
    fn replace(
        &self,
        lent: [Matrix; 3],
        index: usize,
        new: &[u32; 6],
    ) -> Result<[Matrix; 3], Refused> {
        ten(&lent)?;
        let [mut p, mut a, old_factor] = lent;
        if new[0] == H || new[0] == T {
            return Ok([p, a, old_factor]);
        }
        let mut table = self.0.to_vec();
        table[6 * index..6 * index + 6].copy_from_slice(new);
        let after = Words(&table);
        if new[0] == G {
            let [old, new] = [self, &after].map(|words| {
                words.0[6 * index + 1..6 * index + 6]
                    .iter()
                    .map(|&field| i128::from(field))
                    .collect::<Vec<i128>>()
            });
            let more = after.g(&new) - self.g(&old);
            let (low, high) = (new[0] as usize - 1, new[1] as usize - 1);
            a[low][low] += 2 * more;
            a[high][high] += 2 * more;
            a[low][high] += more;
            a[high][low] += more;
            let factor = factor(&after.fix(&a), low, old_factor)?;
            return Ok([p, a, factor]);
        }
        let first_element = 1 + self.nodes() + self.cards(M).len();
        let element = match new[0] {
            F => new[1] as usize - 1,
            _ => index - first_element,
        };
        let place = element as u32 + 1;
        let film = |words: &Words| {
            let films = words.cards(F);
            films
                .iter()
                .find(|f| f[0] as usize == element + 1)
                .map_or(0, |f| words.v(f))
        };
        let (square, u) = after.bodies()[element]
            .form()
            .map_err(|number| (number, place))?;
        if stiff(&square, u) {
            return Err((6, place));
        }
        let old = &self.bodies()[element];
        let (old_square, old_u) = old.form().unwrap();
        for (i, &row) in old.corners.iter().enumerate() {
            for (j, &column) in old.corners.iter().enumerate() {
                let times = if i == j { 2 } else { 1 };
                p[row][column] += times * (u - old_u);
                a[row][column] += times * (u - old_u + film(&after) - film(self)) + square[i][j]
                    - old_square[i][j];
            }
        }
        let least = old.corners.iter().min().unwrap();
        let factor = factor(&after.fix(&a), *least, old_factor)?;
        Ok([p, a, factor])
    }

    fn step(&self, lent: &[Matrix; 3], old: &[i128], carried: &[i128]) -> Result<Settled, Refused> {
        ten(lent)?;
        if carried.iter().any(|residual| residual.abs() > 1 << 33) {
            return Err((10, 0));
        }
        let [p, a, factor] = lent;
        let n = self.nodes();
        let fixed: Matrix = self.fix(a);
        let mut right = carried.to_vec();
        for i in 0..n {
            for j in 0..n {
                right[i] += p[i][j] * old[j];
                if let Some(temperature) = self.fixed(j) {
                    right[i] -= a[i][j] * temperature;
                }
            }
        }
        let bodies = self.bodies();
        for h in self.cards(H) {
            let corners = &bodies[h[0] as usize - 1].corners;
            let share = 65_536 * h[1] / corners.len() as i128;
            let mut left = 65_536 * h[1];
            for &node in corners {
                right[node] += share;
                left -= share;
            }
            for &node in &corners[..left as usize] {
                right[node] += 1;
            }
        }
        for f in self.cards(F) {
            for &node in &bodies[f[0] as usize - 1].corners {
                right[node] += 4 * self.v(&f) * f[2];
            }
        }
        for edge in self.cards(G) {
            for &node in &edge[..2] {
                right[node as usize - 1] += 3 * self.g(&edge) * edge[3];
            }
        }
        for i in 0..n {
            if let Some(temperature) = self.fixed(i) {
                right[i] = ONE * temperature;
            }
        }
        let residual = |t: &[i128]| -> Vec<i128> {
            (0..n)
                .map(|i| right[i] - (0..n).map(|j| fixed[i][j] * t[j]).sum::<i128>())
                .collect()
        };
        let mut new = old.to_vec();
        for correction in 1..=4 {
            let rest = residual(&new);
            let mut y = vec![0; n];
            for i in 0..n {
                y[i] = rest[i] - (0..i).map(|k| r(factor[i][k] * y[k])).sum::<i128>();
                bound(y[i], 1 << 52, i)?;
            }
            let mut x = vec![0; n];
            for i in (0..n).rev() {
                let z = rounded(256 * y[i], factor[i][i]);
                x[i] = z - (i + 1..n).map(|k| r(factor[k][i] * x[k])).sum::<i128>();
                bound(x[i], 1 << 36, i)?;
            }
            for i in 0..n {
                new[i] += rounded(x[i], 256);
            }
            if let Some(node) = new.iter().position(|&t| t < 0 || t > i128::from(TOP)) {
                return Err((11, node as u32 + 1));
            }
            let rest = residual(&new);
            let far = (0..n).find(|&i| rest[i].abs() > fixed[i].iter().map(|a| a.abs()).sum());
            match far {
                None => {
                    let left = (0..n).map(|i| if self.fixed(i).is_some() { 0 } else { rest[i] });
                    return Ok((correction, new, left.collect()));
                }
                Some(row) if correction == 4 => return Err((12, row as u32 + 1)),
                Some(_) => {}
            }
        }
        unreachable!()
    }
}

fn bound(value: i128, most: i128, row: usize) -> Result<(), Refused> {
    if value.abs() > most {
        return Err((8, row as u32 + 1));
    }
    Ok(())
}

fn factor(a: &Matrix, first: usize, mut l: Matrix) -> Result<Matrix, Refused> {
    for i in first..a.len() {
        let mut w = vec![0; i + 1];
        for j in 0..=i {
            // At the row's end l(j,k) is this row's own.
            w[j] = a[i][j] - (0..j).map(|k| r(l[j][k] * w[k])).sum::<i128>();
            bound(w[j], 1 << 38, i)?;
            if j < i {
                l[i][j] = rounded(w[j] * ONE, l[j][j]);
                bound(l[i][j], 1 << 24, i)?;
            } else {
                l[i][i] = w[i];
                if w[i] < 16 {
                    return Err((7, i as u32 + 1));
                }
            }
        }
    }
    Ok(l)
}

/// A full square from a lower triangle, both sides alike.
fn full(packed: &[i64], n: usize) -> Matrix {
    let at = |i: usize, j: usize| i128::from(packed[i * (i + 1) / 2 + j]);
    (0..n)
        .map(|i| {
            (0..n)
                .map(|j| if j <= i { at(i, j) } else { at(j, i) })
                .collect()
        })
        .collect()
}

fn packed(square: &Matrix) -> Vec<i64> {
    let rows = square.iter().enumerate();
    rows.flat_map(|(i, row)| {
        row[..=i]
            .iter()
            .map(|&number| i64::try_from(number).unwrap())
    })
    .collect()
}

fn set(lent: &mut Lent, squares: &[Matrix; 3]) {
    for (slice, square) in [&mut lent.p, &mut lent.a, &mut lent.factor]
        .into_iter()
        .zip(squares)
    {
        let numbers = packed(square);
        slice[..numbers.len()].copy_from_slice(&numbers);
    }
}

fn squares(lent: &Lent) -> [Matrix; 3] {
    let n = nodes_of(&lent.table);
    [&lent.p, &lent.a, &lent.factor].map(|slice| full(slice, n))
}

fn any_deck(chance: &mut Chance) -> Vec<u32> {
    match chance.within(0, 8) {
        0 => Groups::slivers(chance).table(),
        1 | 2 => Groups::wild(chance).table(),
        3 => Groups::needles(chance).table(),
        4 => Groups::wild_of(chance, true).table(),
        5 => {
            let (columns, rows) = (chance.within(2, 3), chance.within(2, 3));
            Groups::block(chance, columns, rows, 2).table()
        }
        _ => {
            let (columns, rows) = (chance.within(2, 4), chance.within(2, 4));
            Groups::sheet(chance, columns, rows).table()
        }
    }
}

/// Own P, A and factor, bent; or foreign ones, where the deck has none of its own.
fn lend(chance: &mut Chance, lent: &mut Lent) {
    let n = nodes_of(&lent.table);
    let length = triangle(n);
    let own = lent.build() == Answer::Done;
    lent.work.fill(MARK);
    if own {
        // With a larger d the step settles later, or never.
        let bend = i64::from(chance.pick(&[0, 0, 1, 2, 3, 5, 10, 30, 100]));
        for i in 0..n {
            let d = &mut lent.factor[triangle(i) + i];
            *d += *d * bend / 100;
        }
        if chance.one_in(5) {
            let at = chance.index(length);
            lent.a[at] += i64::from(chance.within(0, 2_000)) - 1_000;
            let at = chance.index(length);
            lent.p[at] += i64::from(chance.within(0, 2_000)) - 1_000;
        }
    } else {
        // Sometimes just past refusal 10.
        let most = chance.pick(&[
            10,
            1_000,
            100_000,
            10_000_000,
            (1 << 33) / n as i64,
            (3 << 32) / n as i64,
        ]);
        let shift = chance.within(0, 24);
        for at in 0..length {
            lent.p[at] = chance.bits() as i64 % (most + 1);
            lent.a[at] = chance.bits() as i64 % (most + 1);
            lent.factor[at] = (chance.bits() as i64 % ((1 << 24) + 1)) >> shift;
        }
        let shift = chance.within(0, 34);
        for i in 0..n {
            lent.factor[triangle(i) + i] = 16 + (chance.bits() >> 27 >> shift) as i64;
        }
    }
}

/// Residuals as a step before may have left them, or any others.
fn carry(chance: &mut Chance, lent: &mut Lent) {
    let n = nodes_of(&lent.table);
    lent.carried[..n].copy_from_slice(&chance.residuals(n));
}

/// Refusal 10 of the matrices, by its words.
fn ten(squares: &[Matrix; 3]) -> Result<(), Refused> {
    let [p, a, factor] = squares;
    let sums = |matrix: &Matrix| {
        matrix
            .iter()
            .all(|row| row.iter().map(|x| x.abs()).sum::<i128>() <= 1 << 33)
    };
    let row = |i: usize| {
        (16..=1 << 38).contains(&factor[i][i]) && factor[i][..i].iter().all(|l| l.abs() <= 1 << 24)
    };
    if sums(p) && sums(a) && (0..factor.len()).all(row) {
        return Ok(());
    }
    Err((10, 0))
}

#[test]
fn builds() {
    let mut chance = Chance::seeded(6);
    // Of flat decks and of solid ones.
    let mut met = [[0; NUMBERS]; 2];
    for _ in 0..2_000 {
        let before = Lent::new(any_deck(&mut chance));
        let met = &mut met[usize::from(is_solid(&before.table))];
        let mut lent = before.clone();
        let answer = lent.build();
        let mut expected = before;
        match Words(&lent.table).build() {
            Ok(squares) => {
                assert_eq!(answer, Answer::Done);
                expected = expected.with_zeroed_work();
                set(&mut expected, &squares);
                met[0] += 1;
            }
            Err((number, place)) => {
                assert_eq!(answer, refused(number, place));
                if number == 7 || number == 8 {
                    expected = expected.with_zeroed_work();
                }
                met[number as usize] += 1;
            }
        }
        assert_eq!(lent, expected);
    }
    let enough = |met: &[u32; NUMBERS]| [0, 5, 6, 7, 8, 14].iter().all(|&number| met[number] > 20);
    assert!(met.iter().all(enough), "{met:?}");
}

#[test]
fn replacements() {
    let mut chance = Chance::seeded(7);
    // Of V cards last, of the others first; and 14 of E and of F.
    let mut met = [[0; NUMBERS]; 2];
    let mut thin = [0; 2];
    for _ in 0..6_000 {
        let mut before = Lent::new(any_deck(&mut chance));
        lend(&mut chance, &mut before);
        let words = Words(&before.table);
        let first = 1 + words.nodes() + words.cards(M).len();
        let index = first + chance.index(before.table.len() / 6 - 1 - first);
        let mut new = [0; 6];
        new.copy_from_slice(&before.table[6 * index..6 * index + 6]);
        match new[0] {
            E => {
                new[4] = chance.within(1, words.cards(M).len() as u32);
                new[5] = chance.within(1, 4_000);
            }
            V => new[5] = chance.within(1, words.cards(M).len() as u32),
            F => new[2] = chance.within(1, 100_000),
            G => (new[3], new[5]) = (chance.within(1, 100_000), chance.within(1, 4_000)),
            _ => new[2] = chance.within(1, 1_000_000),
        }
        let mut lent = before.clone();
        let answer = lent.replace(index as u32 + 1, new);
        let mut expected = before.clone();
        let redone = [E, V, F, G].contains(&new[0]);
        let met = &mut met[usize::from(new[0] == V)];
        match words.replace(squares(&before), index, &new) {
            Ok(squares) => {
                assert_eq!(answer, Answer::Done);
                set(&mut expected, &squares);
                expected.table[6 * index..6 * index + 6].copy_from_slice(&new);
                met[0] += 1;
                if redone {
                    expected = expected.with_zeroed_work();
                }
            }
            Err((number, place)) => {
                assert_eq!(answer, refused(number, place));
                met[number as usize] += 1;
                if number == 14 {
                    thin[usize::from(new[0] == F)] += 1;
                }
                if number == 7 || number == 8 {
                    expected = expected.with_zeroed_work();
                }
            }
        }
        assert_eq!(lent, expected);
    }
    let enough = |met: &[u32; NUMBERS]| [0, 5, 6, 7, 8, 10].iter().all(|&number| met[number] > 10);
    assert!(met.iter().all(enough), "{met:?}");
    assert!(thin.iter().all(|&times| times > 10), "{thin:?}");
    assert_eq!(met[1][14], 0);
}

#[test]
fn steps() {
    let mut chance = Chance::seeded(8);
    let (mut met, mut corrected) = ([0; NUMBERS], [0; 5]);
    for _ in 0..2_500 {
        let mut before = Lent::new(any_deck(&mut chance));
        lend(&mut chance, &mut before);
        let n = nodes_of(&before.table);
        let spread = chance.pick(&[0, 10, 1_000, 1_000_000]);
        for t in &mut before.temperatures[..n] {
            *t = (*t + i64::from(chance.within(0, spread))).min(i64::from(TOP));
        }
        carry(&mut chance, &mut before);
        let wide = |numbers: &[i64]| -> Vec<i128> {
            numbers[..n]
                .iter()
                .map(|&number| i128::from(number))
                .collect()
        };
        let (old, carried) = (wide(&before.temperatures), wide(&before.carried));
        let mut lent = before.clone();
        let answer = lent.step();
        let mut expected = before.clone();
        match Words(&before.table).step(&squares(&before), &old, &carried) {
            Ok((corrections, new, left)) => {
                assert_eq!(answer, Stepped::Settled(corrections));
                for i in 0..n {
                    expected.temperatures[i] = new[i] as i64;
                    expected.carried[i] = left[i] as i64;
                }
                corrected[corrections as usize] += 1;
            }
            Err((number, place)) => {
                assert_eq!(answer, step_refused(number, place));
                met[number as usize] += 1;
            }
        }
        assert_eq!(lent, expected);
    }
    assert!(
        corrected[1..].iter().all(|&times| times > 20),
        "{corrected:?}"
    );
    assert!(
        [8, 10, 11, 12].iter().all(|&number| met[number] > 20),
        "{met:?}"
    );
}

/// A run is its steps, one after another.
#[test]
fn runs() {
    let mut chance = Chance::seeded(9);
    let (mut whole, mut cut) = (0, 0);
    for _ in 0..400 {
        let mut before = Lent::new(any_deck(&mut chance));
        lend(&mut chance, &mut before);
        carry(&mut chance, &mut before);
        let steps = before.table[3];
        let mut stepped = before.clone();
        let mut expected = Ran::Done(steps);
        for _ in 0..steps {
            if let Stepped::Refused(refusal) = stepped.step() {
                expected = Ran::Refused(refusal);
                break;
            }
        }
        let mut lent = before.clone();
        assert_eq!(lent.run(), expected);
        assert_eq!(lent, stepped);
        match expected {
            Ran::Done(_) => whole += 1,
            Ran::Refused(Refusal { .. }) => cut += 1,
        }
    }
    assert!(whole > 50 && cut > 50, "{whole} {cut}");
}
