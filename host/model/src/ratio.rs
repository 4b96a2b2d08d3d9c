//! An exact value as a fraction of natural numbers with a denominator above 0. Not always in lowest terms; compared by
//! multiplying across.

use crate::natural::Natural;
use std::cmp::Ordering;
use std::fmt;

#[derive(Clone, Debug)]
pub struct Ratio {
    upper: Natural,
    lower: Natural,
}

impl Ratio {
    pub fn new(upper: Natural, lower: Natural) -> Ratio {
        assert!(!lower.is_zero(), "the lower number of a ratio is 0");
        Ratio { upper, lower }
    }

    pub fn whole(value: u64) -> Ratio {
        Ratio::new(Natural::from(value), Natural::one())
    }

    /// The exact value of a decimal such as `5.57` or `1e-3`: digits, perhaps a point, perhaps an exponent.
    pub fn from_decimal(text: &str) -> Option<Ratio> {
        let (digits, exponent) = match text.split_once(['e', 'E']) {
            Some((digits, exponent)) => (digits, exponent.parse::<i32>().ok()?),
            None => (text, 0),
        };
        let (whole, part) = digits.split_once('.').unwrap_or((digits, ""));
        if whole.is_empty() && part.is_empty() || exponent.unsigned_abs() > 10_000 {
            return None;
        }
        let mut upper = Natural::zero();
        for digit in whole.chars().chain(part.chars()) {
            let digit = u64::from(digit.to_digit(10)?);
            upper = upper.times_small(10).plus(&Natural::from(digit));
        }
        let places = i32::try_from(part.len()).ok()?.checked_sub(exponent)?;
        let scale = Natural::power_of_ten(places.unsigned_abs());
        Some(if places >= 0 { Ratio::new(upper, scale) } else { Ratio::new(upper.times(&scale), Natural::one()) })
    }

    pub fn upper(&self) -> &Natural {
        &self.upper
    }

    pub fn lower(&self) -> &Natural {
        &self.lower
    }

    pub fn is_zero(&self) -> bool {
        self.upper.is_zero()
    }

    pub fn plus(&self, other: &Ratio) -> Ratio {
        let upper = self.upper.times(&other.lower).plus(&other.upper.times(&self.lower));
        Ratio::new(upper, self.lower.times(&other.lower))
    }

    /// 1 less the value, which must not exceed 1.
    pub fn remains(&self) -> Ratio {
        Ratio::new(self.lower.minus(&self.upper), self.lower.clone())
    }

    pub fn times(&self, other: &Ratio) -> Ratio {
        Ratio::new(self.upper.times(&other.upper), self.lower.times(&other.lower))
    }

    /// The quotient; `other` must not be 0.
    pub fn over(&self, other: &Ratio) -> Ratio {
        Ratio::new(self.upper.times(&other.lower), self.lower.times(&other.upper))
    }

    /// The least whole number not below the value.
    pub fn ceiling(&self) -> Natural {
        let (quotient, rest) = self.upper.divided(&self.lower);
        if rest.is_zero() {
            quotient
        } else {
            quotient.plus(&Natural::one())
        }
    }

    /// The whole part, and what is left over the lower number.
    pub fn mixed(&self) -> (Natural, Ratio) {
        let (quotient, rest) = self.upper.divided(&self.lower);
        (quotient, Ratio::new(rest, self.lower.clone()))
    }

    pub fn lowest_terms(&self) -> Ratio {
        let divisor = self.upper.gcd(&self.lower);
        Ratio::new(self.upper.divided(&divisor).0, self.lower.divided(&divisor).0)
    }

    /// The value as a decimal with all its digits, where it has finitely many and at most `most` behind the point.
    pub fn exact_decimal(&self, most: u32) -> Option<String> {
        let value = self.lowest_terms();
        let mut odd = value.lower.shifted_down(value.lower.twos());
        let mut fives = 0;
        while odd != Natural::one() {
            let (quotient, rest) = odd.divided(&Natural::from(5));
            if !rest.is_zero() {
                return None;
            }
            odd = quotient;
            fives += 1;
        }
        let places = value.lower.twos().max(fives);
        if places > most {
            return None;
        }
        let digits = value.upper.times(&Natural::power_of_ten(places)).divided(&value.lower).0;
        let digits = format!("{digits:0>width$}", width = places as usize + 1);
        let (whole, part) = digits.split_at(digits.len() - places as usize);
        Some(if part.is_empty() { whole.to_string() } else { format!("{whole}.{part}") })
    }
}

impl PartialEq for Ratio {
    fn eq(&self, other: &Ratio) -> bool {
        self.cmp(other) == Ordering::Equal
    }
}

impl Eq for Ratio {}

impl Ord for Ratio {
    fn cmp(&self, other: &Ratio) -> Ordering {
        self.upper.times(&other.lower).cmp(&other.upper.times(&self.lower))
    }
}

impl PartialOrd for Ratio {
    fn partial_cmp(&self, other: &Ratio) -> Option<Ordering> {
        Some(self.cmp(other))
    }
}

/// In lowest terms, as `upper/lower`; a power of two of more than 64 bits in the lower number is written apart.
impl fmt::Display for Ratio {
    fn fmt(&self, f: &mut fmt::Formatter) -> fmt::Result {
        let value = self.lowest_terms();
        let twos = value.lower.twos();
        if value.lower == Natural::one() {
            return write!(f, "{}", value.upper);
        }
        if twos <= 64 {
            return write!(f, "{}/{}", value.upper, value.lower);
        }
        let odd = value.lower.shifted_down(twos);
        if odd == Natural::one() {
            write!(f, "{}/2^{twos}", value.upper)
        } else {
            write!(f, "{}/({odd}·2^{twos})", value.upper)
        }
    }
}

#[cfg(test)]
mod tests {
    use super::*;

    fn decimal(text: &str) -> Ratio {
        Ratio::from_decimal(text).unwrap()
    }

    #[test]
    fn decimals_are_exact() {
        assert_eq!(decimal("0.71"), Ratio::new(Natural::from(71), Natural::from(100)));
        assert_eq!(decimal("1e-3"), decimal("0.001"));
        assert_eq!(decimal("12.5e2"), Ratio::whole(1250));
        assert_eq!(decimal(".5"), decimal("5.e-1"));
        for text in ["", ".", "e3", "1.2.3", "1x", "-1", "+1", "1e", "1e99999", "0x1"] {
            assert!(Ratio::from_decimal(text).is_none(), "{text}");
        }
    }

    #[test]
    fn ceiling_and_mixed() {
        let third = Ratio::whole(10).over(&Ratio::whole(3));
        assert_eq!(third.ceiling(), Natural::from(4));
        assert_eq!(third.mixed(), (Natural::from(3), Ratio::whole(1).over(&Ratio::whole(3))));
        assert_eq!(Ratio::whole(7).ceiling(), Natural::from(7));
        assert_eq!(Ratio::whole(0).ceiling(), Natural::zero());
        assert_eq!(decimal("0.1").remains(), decimal("0.9"));
    }

    #[test]
    fn texts() {
        assert_eq!(decimal("0.5").to_string(), "1/2");
        assert_eq!(decimal("12.50").exact_decimal(3).unwrap(), "12.5");
        assert_eq!(decimal("0.005").exact_decimal(3).unwrap(), "0.005");
        assert_eq!(decimal("0.005").exact_decimal(2), None);
        assert_eq!(Ratio::whole(1).over(&Ratio::whole(3)).exact_decimal(50), None);
        assert_eq!(Ratio::whole(40).exact_decimal(0).unwrap(), "40");
        let small = Ratio::new(Natural::from(3), Natural::power_of_two(100));
        assert_eq!(small.to_string(), "3/2^100");
        assert_eq!(small.over(&Ratio::whole(7)).to_string(), "3/(7·2^100)");
    }
}
