//! The exact value of an IEEE 754 binary64 pattern, and the rounded sum, both worked out without any float; and a
//! pattern's shortest decimal, for which the machine's floats serve.

use crate::natural::Natural;
use crate::ratio::Ratio;
use std::cmp::Ordering;

const SIGNIFICAND_BITS: u32 = 52;

/// The sign bit, and the pattern of infinity.
pub const SIGN: u64 = 1 << 63;
pub const INFINITY: u64 = 2047 << SIGNIFICAND_BITS;

pub fn sign(pattern: u64) -> bool {
    pattern & SIGN != 0
}

pub fn exponent_field(pattern: u64) -> u32 {
    (pattern >> SIGNIFICAND_BITS) as u32 & 0x7ff
}

/// A number of its own: no sign bit, and neither infinity nor NaN.
pub fn is_quantity(pattern: u64) -> bool {
    !sign(pattern) && exponent_field(pattern) != 2047
}

/// The pattern's value as a whole number over 2^1074. The pattern must be a quantity.
pub fn over_2_1074(pattern: u64) -> Natural {
    assert!(is_quantity(pattern));
    let part = pattern & ((1 << SIGNIFICAND_BITS) - 1);
    match exponent_field(pattern) {
        0 => Natural::from(part),
        field => Natural::from(1 << SIGNIFICAND_BITS | part).shifted_up(field - 1),
    }
}

/// The pattern's exact value, in lowest terms. The pattern must be a quantity.
pub fn exact(pattern: u64) -> Ratio {
    let upper = over_2_1074(pattern);
    let twos = if upper.is_zero() { 1074 } else { upper.twos().min(1074) };
    Ratio::new(upper.shifted_down(twos), Natural::power_of_two(1074 - twos))
}

/// The shortest decimal that reads back to the same pattern, with an exponent where it is small or large.
pub fn shortest(pattern: u64) -> String {
    let value = f64::from_bits(pattern);
    if value == 0.0 || (1e-6..1e16).contains(&value) {
        value.to_string()
    } else {
        format!("{value:e}")
    }
}

/// The pattern nearest to a whole number over 2^1074, to even on a tie. The number must not be beyond the format.
fn nearest(value: &Natural) -> u64 {
    let bits = value.bits();
    if bits <= SIGNIFICAND_BITS {
        // A subnormal, or zero: the pattern is the number itself.
        return value.to_u64().expect("at most 52 bits");
    }
    let dropped = bits - SIGNIFICAND_BITS - 1;
    let kept = value.shifted_down(dropped);
    let rest = value.minus(&kept.shifted_up(dropped));
    let kept = kept.to_u64().expect("53 bits");
    // The leading bit raises the exponent field by one, so the field starts at `dropped`; a carry out of the
    // significand raises it once more.
    let pattern = (u64::from(dropped) << SIGNIFICAND_BITS) + kept;
    let up = match rest.shifted_up(1).cmp(&Natural::power_of_two(dropped)) {
        Ordering::Less => false,
        Ordering::Equal => kept % 2 == 1,
        Ordering::Greater => true,
    };
    let pattern = pattern + u64::from(up);
    assert!(is_quantity(pattern), "beyond binary64");
    pattern
}

/// The sum of two quantities, rounded to nearest, ties to even.
pub fn rounded_sum(x: u64, y: u64) -> u64 {
    nearest(&over_2_1074(x).plus(&over_2_1074(y)))
}

#[cfg(test)]
mod tests {
    use super::*;

    #[test]
    fn values() {
        assert_eq!(exact(0), Ratio::whole(0));
        assert_eq!(exact(1.0f64.to_bits()), Ratio::whole(1));
        assert_eq!(exact(1e6f64.to_bits()), Ratio::whole(1_000_000));
        assert_eq!(exact(0.75f64.to_bits()).to_string(), "3/4");
        assert_eq!(exact(1).to_string(), "1/2^1074");
        assert_eq!(exact(1 << 52).to_string(), "1/2^1022");
        assert!(exact(0.71f64.to_bits()) < Ratio::from_decimal("0.71").unwrap());
        assert!(exact(0.1f64.to_bits()) > Ratio::from_decimal("0.1").unwrap());
    }

    #[test]
    fn the_rounded_sum_is_the_machine_s() {
        let mut state = 5u64;
        let mut next = || {
            state = state.wrapping_mul(6364136223846793005).wrapping_add(1442695040888963407);
            state >> 1
        };
        let mut sums = 0;
        for round in 0..30_000 {
            let x = next();
            // Every second time an exponent near to the first's, so that digits meet.
            let near = u64::from(exponent_field(x)).saturating_sub(next() % 60) << 52;
            let y = if round % 2 == 0 { next() } else { near | next() & ((1 << 52) - 1) };
            let sum = f64::from_bits(x) + f64::from_bits(y);
            if is_quantity(x) && is_quantity(y) && sum.is_finite() {
                assert_eq!(rounded_sum(x, y), sum.to_bits(), "{x:#x} {y:#x}");
                sums += 1;
            }
        }
        assert!(sums > 20_000);
    }

    #[test]
    fn ties_go_to_even() {
        let power = |exponent: i32| 2f64.powi(exponent).to_bits();
        let one = 1f64.to_bits();
        assert_eq!(rounded_sum(one, power(-53)), one);
        assert_eq!(rounded_sum(one, power(-52)), one + 1);
        assert_eq!(rounded_sum(one + 1, power(-53)), one + 2);
        assert_eq!(rounded_sum(1, 1), 2);
        assert_eq!(rounded_sum((1 << 52) - 1, 1), 1 << 52);
    }
}
