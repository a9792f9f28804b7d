//! One tetrahedron: a V card.

use crate::answer::*;
use crate::card::Card;
use crate::element::Form;
use crate::judge::Deck;
use crate::round::nearest;

type Vector = [i64; 3];

/// The corners of a V card, counted from 0.
pub fn corners(card: &Card) -> [usize; 4] {
    [card[1], card[2], card[3], card[4]].map(|node| node as usize - 1)
}

fn minus(a: Vector, b: Vector) -> Vector {
    [a[0] - b[0], a[1] - b[1], a[2] - b[2]]
}

fn across([a, b, c]: Vector, [x, y, z]: Vector) -> Vector {
    [b * z - c * y, c * x - a * z, a * y - b * x]
}

fn along(a: Vector, b: Vector) -> i64 {
    a[0] * b[0] + a[1] * b[1] + a[2] * b[2]
}

/// For each corner the doubled area of the face across from it, by its components along x, y and z, which sum to zero over
/// the corners; and S, six times the volume's magnitude.
fn faces([first, points @ ..]: [Vector; 4]) -> ([Vector; 4], i64) {
    let [p, q, r] = points.map(|point| minus(point, first));
    let [second, third, fourth] = [across(q, r), across(r, p), across(p, q)];
    let rest = [0, 1, 2].map(|axis| -second[axis] - third[axis] - fourth[axis]);
    ([rest, second, third, fourth], along(p, second).abs())
}

/// The form of a V card, or 5. `element` is counted from 0 and only names the place. Of coordinates to 1,023 a component
/// is at most 1,023² in magnitude, so the sum of three products within 64 bits.
pub fn form(deck: &Deck, element: usize, card: &Card) -> Result<Form<4>, Refusal> {
    let corners = corners(card);
    let (faces, s) = faces(corners.map(|node| deck.point(node)));
    if s == 0 {
        return Err(Refusal::at_index(FLAT, element));
    }
    let [kx, ky, capacity, kz] = deck.material(card[5] as usize - 1);
    let pair = |i: usize, j: usize| {
        let [b, c, d] = [0, 1, 2].map(|axis| faces[i][axis] * faces[j][axis]);
        nearest(kx * b + ky * c + kz * d, 120 * s)
    };
    let u = nearest(capacity * s, 960 * deck.milliseconds());
    Ok(Form::new(corners, s, pair, u))
}

#[cfg(test)]
mod tests {
    use super::*;

    #[test]
    fn the_checked_corner() {
        let points = [[0, 0, 0], [100, 0, 0], [0, 100, 0], [0, 0, 100]];
        let (sides, s) = faces(points);
        assert_eq!(s, 1_000_000);
        assert_eq!(sides[0], [-10_000; 3]);
        assert_eq!(sides[1..], [[10_000, 0, 0], [0, 10_000, 0], [0, 0, 10_000]]);
        let [p, q, r, o] = points;
        assert_eq!(faces([q, p, r, o]).1, s);
        assert_eq!(faces([p, q, r, [50, 50, 0]]).1, 0);
    }

    /// The largest in a cube of 1,023 has 2·1,023³; faces stay within 1,023².
    #[test]
    fn the_largest() {
        let t = 1_023;
        let (sides, s) = faces([[0, 0, 0], [t, t, 0], [t, 0, t], [0, t, t]]);
        assert_eq!(s, 2 * t * t * t);
        assert!(sides.iter().flatten().all(|side| side.abs() <= t * t));
    }

    /// Four faces close the solid, whatever its corners are.
    #[test]
    fn faces_sum_to_zero() {
        let mut seed = 1_u64;
        let mut any = || {
            seed = seed.wrapping_mul(6_364_136_223_846_793_005).wrapping_add(1);
            (seed >> 33) as i64 % 1_024
        };
        for _ in 0..1_000 {
            let points = [0; 4].map(|_: i64| [0; 3].map(|_: i64| any()));
            let (sides, s) = faces(points);
            // The face across from each corner, by its own three points, either way round.
            for corner in 0..4 {
                let [a, b, c] = [1, 2, 3].map(|next| points[(corner + next) % 4]);
                let normal = across(minus(b, a), minus(c, a));
                let side = sides[corner];
                assert!(side == normal || side == minus([0; 3], normal));
                assert_eq!(along(minus(points[corner], a), side).abs(), s);
            }
        }
    }
}
