//! The elements: a form over any number of corners, and the triangle. The tetrahedron is in `solid`.

use crate::answer::*;
use crate::card::{Card, V};
use crate::judge::Deck;
use crate::layout::Layout;
use crate::round::nearest;
use crate::solid;

/// An element matrix over K corners.
pub type Square<const K: usize> = [[i64; K]; K];

/// The greatest u, and the greatest magnitude of a pair's conductance.
const STIFFEST: i64 = 4_000_000;

/// The corners of an E card, counted from 0.
pub fn corners(card: &Card) -> [usize; 3] {
    [card[1], card[2], card[3]].map(|node| node as usize - 1)
}

/// The paper's b and c of each corner, from the corners' points.
fn sides([[x1, y1, _], [x2, y2, _], [x3, y3, _]]: [[i64; 3]; 3]) -> ([i64; 3], [i64; 3]) {
    ([y2 - y3, y3 - y1, y1 - y2], [x3 - x2, x1 - x3, x2 - x1])
}

/// S, the magnitude of twice the signed area.
fn twice_area(b: [i64; 3], c: [i64; 3]) -> i64 {
    (b[0] * c[1] - b[1] * c[0]).abs()
}

/// 64·S less than the square of the longest side. The side across from a corner goes by its b and c.
fn thin(b: [i64; 3], c: [i64; 3]) -> bool {
    let squares = [0, 1, 2].map(|corner| b[corner] * b[corner] + c[corner] * c[corner]);
    squares.iter().any(|&square| 64 * twice_area(b, c) < square)
}

/// S of an element, or 5, or 14. `element` is counted from 0 and only names the place.
fn area(b: [i64; 3], c: [i64; 3], element: usize) -> Result<i64, Refusal> {
    let s = twice_area(b, c);
    if s == 0 {
        return Err(Refusal::at_index(FLAT, element));
    }
    if thin(b, c) {
        return Err(Refusal::at_index(THIN, element));
    }
    Ok(s)
}

/// v of a film over an element; 0 where the element is flat.
fn film_share(film: u32, s: i64) -> i64 {
    nearest(i64::from(film) * s, 9_600_000)
}

/// S of a triangle that a step doesn't judge.
pub fn doubled_area(deck: &Deck, corners: [usize; 3]) -> u64 {
    let (b, c) = sides(corners.map(|node| deck.point(node)));
    twice_area(b, c).unsigned_abs()
}

/// What a film brings to each corner of its element, which a step doesn't judge.
pub fn film_load(deck: &Deck, corners: [usize; 3], film: u32, ambient: u32) -> i64 {
    let (b, c) = sides(corners.map(|node| deck.point(node)));
    4 * film_share(film, twice_area(b, c)) * i64::from(ambient)
}

/// What the heat made in an element brings to each of its corners, in the order of its card: equal parts, rounded down, and
/// what is left over to the first corners, one each.
pub fn heat_loads<const K: usize>(microwatts: u32) -> [i64; K] {
    let heat = 65_536 * i64::from(microwatts);
    let corners = K as i64;
    std::array::from_fn(|corner| heat / corners + i64::from((corner as i64) < heat % corners))
}

/// An element's numbers in the matrices.
#[derive(Clone, Copy)]
pub struct Form<const K: usize> {
    pub corners: [usize; K],
    /// Twice the area, or six times the volume.
    s: i64,
    /// Conductance, its rows of sum zero.
    conductance: Square<K>,
    u: i64,
    v: i64,
}

/// The form of an E card without film, or 5 or 14. `element` is counted from 0 and only names the place.
pub fn triangle(deck: &Deck, element: usize, card: &Card) -> Result<Form<3>, Refusal> {
    let corners = corners(card);
    let (b, c) = sides(corners.map(|node| deck.point(node)));
    let s = area(b, c, element)?;
    let [kx, ky, capacity, _] = deck.material(card[4] as usize - 1);
    let t = i64::from(card[5]);
    let pair = |i: usize, j: usize| nearest(t * (kx * b[i] * b[j] + ky * c[i] * c[j]), 2_000 * s);
    let u = nearest(capacity * t * s, 9_600 * deck.milliseconds());
    Ok(Form::new(corners, s, pair, u))
}

impl Form<3> {
    pub fn with_film(self, film: u32) -> Form<3> {
        Form {
            v: film_share(film, self.s),
            ..self
        }
    }
}

impl<const K: usize> Form<K> {
    const EMPTY: Form<K> = Form {
        corners: [0; K],
        s: 0,
        conductance: [[0; K]; K],
        u: 0,
        v: 0,
    };

    /// Of the rounded conductance of each pair. A diagonal conductance is not rounded
    /// by itself, so that each row of conductances sums to zero.
    pub fn new(corners: [usize; K], s: i64, pair: impl Fn(usize, usize) -> i64, u: i64) -> Form<K> {
        let mut conductance = [[0; K]; K];
        for i in 0..K {
            for j in 0..i {
                let between = pair(i, j);
                conductance[i][j] = between;
                conductance[j][i] = between;
                conductance[i][i] -= between;
                conductance[j][j] -= between;
            }
        }
        Form {
            corners,
            s,
            conductance,
            u,
            v: 0,
        }
    }

    /// Refusal 6.
    pub fn judge(&self, element: usize) -> Result<(), Refusal> {
        let rows = self.conductance.iter().enumerate();
        let stiff = rows
            .flat_map(|(i, row)| &row[..i])
            .any(|pair| pair.abs() > STIFFEST);
        if self.u > STIFFEST || stiff {
            return Err(Refusal::at_index(STIFF, element));
        }
        Ok(())
    }

    /// The share of P.
    pub fn capacity(&self) -> Square<K> {
        even(self.u)
    }

    /// The share of A: capacity, film and conductance.
    pub fn total(&self) -> Square<K> {
        combine(self.conductance, even(self.u + self.v), |a, b| a + b)
    }
}

/// Twice the share on the diagonal, once off it.
fn even<const K: usize>(share: i64) -> Square<K> {
    let mut square = [[share; K]; K];
    for i in 0..K {
        square[i][i] = 2 * share;
    }
    square
}

fn combine<const K: usize>(
    a: Square<K>,
    b: Square<K>,
    with: impl Fn(i64, i64) -> i64,
) -> Square<K> {
    let mut square = a;
    for i in 0..K {
        for j in 0..K {
            square[i][j] = with(a[i][j], b[i][j]);
        }
    }
    square
}

/// New minus old.
pub fn change<const K: usize>(new: Square<K>, old: Square<K>) -> Square<K> {
    combine(new, old, |a, b| a - b)
}

/// An element by its kind.
#[derive(Clone, Copy)]
pub enum Element {
    Triangle(Form<3>),
    Tetrahedron(Form<4>),
}

impl Element {
    pub const EMPTY: Element = Element::Triangle(Form::EMPTY);

    /// Of an element, counted from 0, without film; or 5 or, of a triangle, 14.
    pub fn of(deck: &Deck, number: usize) -> Result<Element, Refusal> {
        let card = deck.element(number);
        Ok(match card[0] {
            V => Element::Tetrahedron(solid::form(deck, number, &card)?),
            _ => Element::Triangle(triangle(deck, number, &card)?),
        })
    }

    /// Refusal 6.
    pub fn judge(&self, number: usize) -> Result<(), Refusal> {
        match self {
            Element::Triangle(form) => form.judge(number),
            Element::Tetrahedron(form) => form.judge(number),
        }
    }

    /// A film over its face; a tetrahedron has none.
    pub fn cover(&mut self, film: u32) {
        if let Element::Triangle(form) = self {
            *form = form.with_film(film);
        }
    }

    pub fn add_capacity(&self, layout: &impl Layout, matrix: &mut [i64]) {
        match self {
            Element::Triangle(form) => layout.add(matrix, form.corners, form.capacity()),
            Element::Tetrahedron(form) => layout.add(matrix, form.corners, form.capacity()),
        }
    }

    pub fn add_total(&self, layout: &impl Layout, matrix: &mut [i64]) {
        match self {
            Element::Triangle(form) => layout.add(matrix, form.corners, form.total()),
            Element::Tetrahedron(form) => layout.add(matrix, form.corners, form.total()),
        }
    }
}

#[cfg(test)]
mod tests {
    use super::*;

    #[test]
    fn p1_twice_area() {
        let s = |points| {
            let (b, c) = sides(points);
            twice_area(b, c)
        };
        assert_eq!(s([[0, 0, 0], [100, 0, 0], [0, 100, 0]]), 10_000);
        assert_eq!(s([[0, 0, 7], [0, 100, 7], [100, 0, 7]]), 10_000);
        assert_eq!(s([[0, 0, 0], [50, 50, 0], [100, 100, 0]]), 0);
    }

    /// A side of squared length 2,048, of 65 and of 61, S being 32, 1 and 1: 64·S is the same, one less, three more. Nothing is
    /// nearer from above, since no two squares sum to 3 mod 4 or to 6 mod 8.
    #[test]
    fn thin_by_the_longest_side() {
        for (points, refused) in [
            ([[0, 0, 0], [32, 32, 0], [16, 17, 0]], false),
            ([[0, 0, 0], [8, 1, 0], [7, 1, 0]], true),
            ([[0, 0, 0], [6, 5, 0], [1, 1, 0]], false),
        ] {
            let [p, q, r] = points;
            for order in [
                [p, q, r],
                [q, r, p],
                [r, p, q],
                [r, q, p],
                [q, p, r],
                [p, r, q],
            ] {
                let (b, c) = sides(order);
                assert_eq!(thin(b, c), refused);
                assert_eq!(area(b, c, 6).is_err(), refused);
            }
        }
        let (b, c) = sides([[0, 0, 0], [101, 1, 0], [100, 0, 0]]);
        assert_eq!(area(b, c, 6), Err(Refusal::at(THIN, 7)));
        let (b, c) = sides([[0, 0, 0], [0, 0, 0], [100, 0, 0]]);
        assert_eq!(area(b, c, 6), Err(Refusal::at(FLAT, 7)));
    }

    #[test]
    fn p3_film() {
        assert_eq!(film_share(479, 10_000), 0);
        assert_eq!(film_share(480, 10_000), 1);
    }

    #[test]
    fn all_of_the_heat() {
        let shares = [1, 2, 3, 5_000_000].map(heat_loads);
        assert_eq!(shares[0], [21_846, 21_845, 21_845]);
        assert_eq!(shares[1], [43_691, 43_691, 43_690]);
        assert_eq!(shares[2], [65_536; 3]);
        assert_eq!(
            shares[3],
            [109_226_666_667, 109_226_666_667, 109_226_666_666]
        );
        for microwatts in (1..=5_000_000).step_by(4_999) {
            let heat = 65_536 * i64::from(microwatts);
            assert_eq!(heat_loads::<3>(microwatts).iter().sum::<i64>(), heat);
            assert_eq!(heat_loads::<4>(microwatts), [heat / 4; 4]);
        }
    }
}
