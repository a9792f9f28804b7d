//! Division to the nearest whole number, halves away from zero.

/// 1 in the factor's fixed point.
pub const ONE: i64 = 1 << 20;

/// n/d rounded, for d > 0 and |n| + d/2 within 64 bits. Rust's division goes
/// towards zero, so half a divisor is first added away from zero.
#[inline]
pub fn nearest(n: i64, d: i64) -> i64 {
    let half = d / 2;
    if n < 0 {
        (n - half) / d
    } else {
        (n + half) / d
    }
}

/// R of a product that fits 64 bits, as l·w and l·x do.
#[inline]
pub fn r(product: i64) -> i64 {
    nearest(product, ONE)
}

/// R of l·y, which passes 64 bits; the answer doesn't, with |l| ≤ 2^24 and |y| ≤ 2^52.
#[inline]
pub fn r_wide(l: i64, y: i64) -> i64 {
    let product = i128::from(l) * i128::from(y);
    let half = i128::from(ONE / 2);
    let away = if product < 0 {
        product - half
    } else {
        product + half
    };
    (away / i128::from(ONE)) as i64
}

#[cfg(test)]
mod tests {
    use super::*;

    #[test]
    fn halves_go_away_from_zero() {
        assert_eq!(
            [5, -5, 4, -4, 6, -6].map(|n| nearest(n, 10)),
            [1, -1, 0, 0, 1, -1]
        );
        assert_eq!(
            [1, -1, 2, -2, 4, -4].map(|n| nearest(n, 3)),
            [0, 0, 1, -1, 1, -1]
        );
        assert_eq!(
            [ONE / 2, -ONE / 2, ONE / 2 - 1, 1 - ONE / 2].map(r),
            [1, -1, 0, 0]
        );
    }

    #[test]
    fn the_wide_one_is_the_same() {
        for l in [-(1 << 24), -12_345, -1, 0, 1, 12_345, 1 << 24] {
            for y in [
                -(1 << 38),
                -524_289,
                -524_288,
                -524_287,
                0,
                524_287,
                524_288,
                524_289,
                1 << 38,
            ] {
                assert_eq!(r_wide(l, y), r(l * y));
            }
        }
        assert_eq!(r_wide(-(1 << 24), 1 << 52), -(1 << 56));
        // 16777215·4503599627370495 + 2^19 over 2^20, by hand: 2^56 - 2^32 - 16 + a little.
        assert_eq!(
            r_wide((1 << 24) - 1, (1 << 52) - 1),
            (1 << 56) - (1 << 32) - 16
        );
    }
}
