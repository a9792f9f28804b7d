//! One edge of the plate that touches the frame: a G card.

use crate::card::Card;
use crate::judge::Deck;

/// Half of 120,000,000, the divisor of film·t·L.
const HALF: u128 = 60_000_000;

/// The nodes of a G card, counted from 0: the lower first.
pub fn ends(card: &Card) -> [usize; 2] {
    [card[1], card[2]].map(|node| node as usize - 1)
}

/// g of a G card; 0 where its nodes are at one point.
pub fn share(deck: &Deck, card: &Card) -> i64 {
    let [from, to] = ends(card).map(|node| deck.point(node));
    let square = (0..3)
        .map(|axis| from[axis].abs_diff(to[axis]).pow(2))
        .sum();
    nearest_by_squares(card[3], card[5], square)
}

/// The whole number nearest film·t·L/120,000,000, halves up, of L's square: g is such a number, or less, just
/// where g - 1/2 is at most the exact value, and both sides squared, times 120,000,000, are whole numbers.
fn nearest_by_squares(film: u32, t: u32, square: u64) -> i64 {
    let top = u128::from(film) * u128::from(t);
    let top = top * top * u128::from(square);
    let within = |g: u64| {
        let half_less = (2 * u128::from(g) - 1) * HALF;
        half_less * half_less <= top
    };
    // The root of a float is near, and the squares decide.
    let mut g = ((top as f64).sqrt() / (2 * HALF) as f64) as u64;
    while g > 0 && !within(g) {
        g -= 1;
    }
    while within(g + 1) {
        g += 1;
    }
    g as i64
}

/// The share of A: twice on the diagonal, once off it.
pub fn square(share: i64) -> [[i64; 2]; 2] {
    [[2 * share, share], [share, 2 * share]]
}

/// What the frame brings to each end.
pub fn load(deck: &Deck, card: &Card) -> i64 {
    3 * share(deck, card) * i64::from(card[4])
}

#[cfg(test)]
mod tests {
    use super::*;

    /// L is 100.
    #[test]
    fn halves_go_up() {
        let g = |film| nearest_by_squares(film, 1_000, 10_000);
        assert_eq!([599, 600, 1_799, 1_800].map(g), [0, 1, 1, 2]);
    }

    #[test]
    fn a_length_that_is_no_whole_number() {
        assert_eq!(nearest_by_squares(100_000, 4_000, 20_000), 471);
    }

    /// The longest edge of all, and none: 400,000,000·4,095·√2/120,000,000 is 19,304.01.
    #[test]
    fn the_ends_of_lengths() {
        let longest = 2 * 4_095 * 4_095;
        assert_eq!(nearest_by_squares(100_000, 4_000, longest), 19_304);
        assert_eq!(nearest_by_squares(100_000, 4_000, 0), 0);
        assert_eq!(nearest_by_squares(1, 1, longest), 0);
    }

    /// L is 100 and t 1,000: the value is g - 1/2 at a film of 600·(2g - 1), and less of it is g - 1.
    #[test]
    fn every_half() {
        for g in 1..=83 {
            let film = 600 * (2 * g - 1);
            let near =
                [film - 1, film, film + 1].map(|film| nearest_by_squares(film, 1_000, 10_000));
            assert_eq!(near, [g - 1, g, g].map(i64::from));
        }
    }

    #[test]
    fn g_is_the_largest() {
        for film in (1..=100_000).step_by(997) {
            for square in [1, 2, 3, 5, 9_999, 10_000, 10_001, 16_769_025, 33_538_050] {
                let g = nearest_by_squares(film, 3_999, square) as u128;
                let top = u128::from(film) * 3_999;
                let top = top * top * u128::from(square);
                let side = |g: u128| (2 * g - 1) * HALF;
                assert!(g == 0 || side(g) * side(g) <= top);
                assert!(side(g + 1) * side(g + 1) > top);
            }
        }
    }
}
