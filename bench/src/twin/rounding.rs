//! Quotients rounded to the nearest whole number; a half goes to the even neighbour.

use std::cmp::Ordering;

/// Multipliers are whole numbers of 16,384ths.
pub const MULTIPLIER_UNIT: i64 = 1 << MULTIPLIER_BITS;
const MULTIPLIER_BITS: u32 = 14;

/// `p / q`, rounded. `q` is not zero.
pub fn rounded_quotient(p: i64, q: i64) -> i64 {
    let toward_zero = p / q;
    let remainder = p % q;
    match (2 * remainder.unsigned_abs()).cmp(&q.unsigned_abs()) {
        Ordering::Less => toward_zero,
        Ordering::Equal if toward_zero % 2 == 0 => toward_zero,
        _ if (p < 0) == (q < 0) => toward_zero + 1,
        _ => toward_zero - 1,
    }
}

/// `multiplier * figure / 16,384`, rounded.
pub fn scaled(multiplier: i64, figure: i64) -> i64 {
    let product = multiplier * figure;
    // The shift rounds down. One less than half the unit takes up what is above a half, and the last bit a half behind an odd quotient.
    let last_bit = (product >> MULTIPLIER_BITS) & 1;
    (product + MULTIPLIER_UNIT / 2 - 1 + last_bit) >> MULTIPLIER_BITS
}

#[cfg(test)]
mod tests {
    use super::*;

    /// Holds `p / q` to what is due, and the quotients with the other signs to the same and to its negative.
    fn check_all_signs(p: i64, q: i64, expected: i64) {
        for (p, q, expected) in [
            (p, q, expected),
            (-p, q, -expected),
            (p, -q, -expected),
            (-p, -q, expected),
        ] {
            assert_eq!(rounded_quotient(p, q), expected, "{p} / {q}");
        }
    }

    #[test]
    fn halves_go_to_the_even_neighbour() {
        for (p, q, expected) in [
            (1, 2, 0),
            (3, 2, 2),
            (5, 2, 2),
            (7, 2, 4),
            (3, 6, 0),
            (9, 6, 2),
            (10, 4, 2),
            (14, 4, 4),
            (i64::MAX, 2, 1 << 62),
            (i64::MAX - 2, 2, (1 << 62) - 2),
        ] {
            check_all_signs(p, q, expected);
        }
        assert_eq!(rounded_quotient(1 << 62, i64::MIN), 0);
        assert_eq!(rounded_quotient(-(1 << 62), i64::MIN), 0);
    }

    #[test]
    fn all_else_goes_to_the_nearest() {
        for (p, q, expected) in [
            (0, 5, 0),
            (7, 7, 1),
            (12, 4, 3),
            (i64::MAX, 1, i64::MAX),
            (1, 3, 0),
            (2, 3, 1),
            (4, 3, 1),
            (5, 3, 2),
            (9, 4, 2),
            (11, 4, 3),
            (4_999, 10_000, 0),
            (5_001, 10_000, 1),
            (14_999, 10_000, 1),
            (15_001, 10_000, 2),
            (1, i64::MAX, 0),
            (i64::MAX - 1, i64::MAX, 1),
        ] {
            check_all_signs(p, q, expected);
        }
    }

    #[test]
    fn the_shift_rounds_as_the_quotient_does() {
        for product in (-70_000..=70_000).chain([i64::MIN / 2, i64::MAX / 2, 7 << 60, -(7 << 60)]) {
            assert_eq!(
                scaled(1, product),
                rounded_quotient(product, MULTIPLIER_UNIT),
                "{product}"
            );
        }
    }
}
