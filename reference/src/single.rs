//! IEEE 754 singles by their bits, in whole numbers.

/// One bit of sign, eight of exponent, 23 of fraction.
const FRACTION_BITS: u32 = 23;
const EXPONENTS: u32 = 255;

/// Neither infinite nor a NaN.
pub fn is_finite(bits: u32) -> bool {
    bits >> FRACTION_BITS & EXPONENTS != EXPONENTS
}

/// A finite single times a whole number up to 2^20, to the nearest whole number of the exact product, halves away from zero.
/// Where that is 2^63 or more in magnitude, i64::MAX or its negative: past every field either way.
pub fn nearest_product(bits: u32, times: u32) -> i64 {
    let fraction = bits & ((1 << FRACTION_BITS) - 1);
    let exponent = (bits >> FRACTION_BITS & EXPONENTS) as i32;
    // Its magnitude is significand·2^power; at the least exponent it has no leading 1, the power is that of the next one.
    let (significand, power) = match exponent {
        0 => (fraction, -149),
        _ => (fraction | 1 << FRACTION_BITS, exponent - 150),
    };
    // Under 2^44.
    let product = u64::from(significand) * u64::from(times);
    let magnitude = match power {
        // A half of 2^45 is already more than the product.
        ..=-45 => 0,
        // Half of the divisor added, then cut off: of a magnitude, halves go up.
        -44..=-1 => (product + (1 << (-power - 1))) >> -power,
        // Of a power that isn't negative the significand isn't 0, nor is the product, but where `times` is.
        _ => match product.leading_zeros() as i32 {
            64 => 0,
            room if power < room => product << power,
            _ => u64::MAX,
        },
    };
    let size = i64::try_from(magnitude).unwrap_or(i64::MAX);
    if bits >> 31 == 0 {
        size
    } else {
        -size
    }
}

#[cfg(test)]
mod tests {
    use super::*;

    const TIMES: [u32; 3] = [1_000_000, 1_000, 65_536];

    /// By floats: 24 bits times 20 fit the 53 of a double, so its product is exact, and `round` takes halves away from zero.
    fn by_doubles(bits: u32, times: u32) -> i64 {
        (f64::from(f32::from_bits(bits)) * f64::from(times)).round() as i64
    }

    fn same(bits: u32) {
        assert_eq!(is_finite(bits), f32::from_bits(bits).is_finite());
        if !is_finite(bits) {
            return;
        }
        for times in TIMES {
            // A cast takes what passes 64 bits to their ends, of which one is -2^63.
            let right = by_doubles(bits, times).max(-i64::MAX);
            assert_eq!(nearest_product(bits, times), right, "{bits:#x} {times}");
        }
    }

    /// Every 4,093rd, and the ends of each exponent, of both signs.
    #[test]
    fn as_doubles_have_it() {
        (0..=u32::MAX).step_by(4_093).for_each(same);
        for top in 0..512 {
            for low in [0, 1, 2, 1 << 22, (1 << 23) - 2, (1 << 23) - 1] {
                same(top << 23 | low);
            }
        }
    }

    /// All singles there are: a minute or two.
    #[test]
    #[ignore]
    fn as_doubles_have_every_one() {
        (0..=u32::MAX).for_each(same);
    }

    /// All exact halves that a field can meet, of both signs, and the singles beside them. They are odd numbers of 1/128 W, of
    /// 1/16 W/(m² K) and of 1/131,072 K: of those a single has no more than 24 bits, so none from 128 K on.
    #[test]
    fn halves() {
        for (times, part, odd) in [
            (1_000_000, 128.0, 640),
            (1_000, 16.0, 1_600),
            (65_536, 131_072.0, 1 << 24),
        ] {
            for odd in (1..odd).step_by(if odd > 100_000 { 202 } else { 2 }) {
                let bits = (f64::from(odd) / part) as f32;
                assert_eq!(f64::from(bits) * part, f64::from(odd));
                let bits = bits.to_bits();
                let twice = i64::from(odd) * i64::from(times) * 2 / part as i64;
                assert_eq!(twice % 2, 1);
                assert_eq!(nearest_product(bits, times), twice / 2 + 1);
                assert_eq!(nearest_product(bits - 1, times), twice / 2);
                assert_eq!(nearest_product(1 << 31 | bits, times), -twice / 2 - 1);
                assert_eq!(nearest_product(1 << 31 | (bits - 1), times), -twice / 2);
                [bits - 1, bits, bits + 1].into_iter().for_each(same);
            }
        }
    }

    /// Kelvins by one multiplication of singles: exact over 0 to 512, so the same rounding as of the exact value.
    #[test]
    fn kelvins_in_single_arithmetic() {
        let top = 512f32.to_bits();
        for bits in (0..=top).step_by(997).chain(top - 100..=top) {
            let product = f32::from_bits(bits) * 65_536.0;
            assert_eq!(
                f64::from(product),
                f64::from(f32::from_bits(bits)) * 65_536.0
            );
            assert_eq!(nearest_product(bits, 65_536), product.round() as i64);
        }
    }

    #[test]
    fn the_ends() {
        let [least, most] = [1, f32::MAX.to_bits()];
        for times in TIMES {
            assert_eq!(nearest_product(0, times), 0);
            assert_eq!(nearest_product(1 << 31, times), 0);
            assert_eq!(nearest_product(least, times), 0);
            assert_eq!(nearest_product(1 << 31 | least, times), 0);
            assert_eq!(nearest_product(most, times), i64::MAX);
            assert_eq!(nearest_product(1 << 31 | most, times), -i64::MAX);
        }
        assert!(!is_finite(most + 1) && is_finite(most));
    }
}
