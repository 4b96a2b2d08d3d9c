//! Natural numbers of any size, as 32-bit limbs, least significant first, no zero limb at the top.

use std::cmp::Ordering;
use std::fmt;

#[derive(Clone, Debug, Default, PartialEq, Eq)]
pub struct Natural {
    limbs: Vec<u32>,
}

impl Natural {
    pub fn zero() -> Natural {
        Natural::default()
    }

    pub fn one() -> Natural {
        Natural::from(1)
    }

    pub fn power_of_two(exponent: u32) -> Natural {
        Natural::one().shifted_up(exponent)
    }

    pub fn power_of_ten(exponent: u32) -> Natural {
        (0..exponent).fold(Natural::one(), |power, _| power.times_small(10))
    }

    fn from_limbs(mut limbs: Vec<u32>) -> Natural {
        while limbs.last() == Some(&0) {
            limbs.pop();
        }
        Natural { limbs }
    }

    pub fn is_zero(&self) -> bool {
        self.limbs.is_empty()
    }

    /// The number of binary digits; 0 has none.
    pub fn bits(&self) -> u32 {
        match self.limbs.last() {
            None => 0,
            Some(top) => 32 * self.limbs.len() as u32 - top.leading_zeros(),
        }
    }

    pub fn bit(&self, index: u32) -> bool {
        let limb = self.limbs.get((index / 32) as usize).copied().unwrap_or(0);
        limb >> (index % 32) & 1 == 1
    }

    /// How often 2 divides the number; 0 for 0.
    pub fn twos(&self) -> u32 {
        match self.limbs.iter().position(|&limb| limb != 0) {
            None => 0,
            Some(index) => 32 * index as u32 + self.limbs[index].trailing_zeros(),
        }
    }

    /// The number as 64 bits, where it fits.
    pub fn to_u64(&self) -> Option<u64> {
        match self.limbs[..] {
            [] => Some(0),
            [low] => Some(u64::from(low)),
            [low, high] => Some(u64::from(high) << 32 | u64::from(low)),
            _ => None,
        }
    }

    pub fn plus(&self, other: &Natural) -> Natural {
        let length = self.limbs.len().max(other.limbs.len());
        let mut sum = Vec::with_capacity(length + 1);
        let mut carry = 0u64;
        for index in 0..length {
            let limb = |n: &Natural| u64::from(n.limbs.get(index).copied().unwrap_or(0));
            let total = limb(self) + limb(other) + carry;
            sum.push(total as u32);
            carry = total >> 32;
        }
        sum.push(carry as u32);
        Natural::from_limbs(sum)
    }

    /// The difference; `other` must not exceed `self`.
    pub fn minus(&self, other: &Natural) -> Natural {
        assert!(other <= self, "a natural number less a greater one");
        let mut difference = self.limbs.clone();
        let mut borrow = false;
        for (index, limb) in difference.iter_mut().enumerate() {
            let taken = other.limbs.get(index).copied().unwrap_or(0);
            let (first, under) = limb.overflowing_sub(taken);
            let (second, under_again) = first.overflowing_sub(u32::from(borrow));
            *limb = second;
            borrow = under || under_again;
        }
        Natural::from_limbs(difference)
    }

    pub fn times(&self, other: &Natural) -> Natural {
        let mut product = vec![0u32; self.limbs.len() + other.limbs.len()];
        for (i, &x) in self.limbs.iter().enumerate() {
            let mut carry = 0u64;
            for (j, &y) in other.limbs.iter().enumerate() {
                let total = u64::from(x) * u64::from(y) + u64::from(product[i + j]) + carry;
                product[i + j] = total as u32;
                carry = total >> 32;
            }
            product[i + other.limbs.len()] = carry as u32;
        }
        Natural::from_limbs(product)
    }

    pub fn times_small(&self, factor: u32) -> Natural {
        self.times(&Natural::from(u64::from(factor)))
    }

    /// The number times 2 to the `count`.
    pub fn shifted_up(&self, count: u32) -> Natural {
        let mut limbs = vec![0u32; (count / 32) as usize];
        let bits = count % 32;
        let mut carry = 0u64;
        for &limb in &self.limbs {
            let wide = u64::from(limb) << bits | carry;
            limbs.push(wide as u32);
            carry = wide >> 32;
        }
        limbs.push(carry as u32);
        Natural::from_limbs(limbs)
    }

    /// The whole part of the number over 2 to the `count`.
    pub fn shifted_down(&self, count: u32) -> Natural {
        let skipped = (count / 32) as usize;
        let bits = count % 32;
        let mut limbs = Vec::new();
        for index in skipped..self.limbs.len() {
            let high = self.limbs.get(index + 1).copied().unwrap_or(0);
            let wide = u64::from(high) << 32 | u64::from(self.limbs[index]);
            limbs.push((wide >> bits) as u32);
        }
        Natural::from_limbs(limbs)
    }

    /// Quotient and remainder; `divisor` must not be 0.
    pub fn divided(&self, divisor: &Natural) -> (Natural, Natural) {
        assert!(!divisor.is_zero(), "division by zero");
        if self < divisor {
            return (Natural::zero(), self.clone());
        }
        if let [limb] = divisor.limbs[..] {
            let (quotient, rest) = self.divided_small(limb);
            return (quotient, Natural::from(u64::from(rest)));
        }
        self.divided_long(divisor)
    }

    fn divided_small(&self, divisor: u32) -> (Natural, u32) {
        let mut quotient = vec![0u32; self.limbs.len()];
        let mut rest = 0u64;
        for index in (0..self.limbs.len()).rev() {
            let wide = rest << 32 | u64::from(self.limbs[index]);
            quotient[index] = (wide / u64::from(divisor)) as u32;
            rest = wide % u64::from(divisor);
        }
        (Natural::from_limbs(quotient), rest as u32)
    }

    /// Long division in base 2^32, with the divisor's top bit brought to the top of its limb (Knuth, 4.3.1, D).
    fn divided_long(&self, divisor: &Natural) -> (Natural, Natural) {
        let shift = divisor.limbs.last().map_or(0, |top| top.leading_zeros());
        let lower = divisor.shifted_up(shift).limbs;
        let mut upper = self.shifted_up(shift).limbs;
        upper.resize(self.limbs.len() + 1, 0);
        let places = upper.len() - lower.len();
        let mut quotient = vec![0u32; places];
        for place in (0..places).rev() {
            quotient[place] = division_step(&mut upper[place..=place + lower.len()], &lower);
        }
        let rest = Natural::from_limbs(upper).shifted_down(shift);
        (Natural::from_limbs(quotient), rest)
    }

    pub fn gcd(&self, other: &Natural) -> Natural {
        if self.is_zero() || other.is_zero() {
            return self.plus(other);
        }
        let twos = self.twos().min(other.twos());
        let mut x = self.shifted_down(self.twos());
        let mut y = other.shifted_down(other.twos());
        while !y.is_zero() {
            let rest = x.divided(&y).1;
            x = y;
            y = rest;
        }
        x.shifted_up(twos)
    }
}

/// One digit of a long division: subtracts that digit times `lower` from `upper`, which is one limb longer.
fn division_step(upper: &mut [u32], lower: &[u32]) -> u32 {
    let count = lower.len();
    let top = u64::from(upper[count]) << 32 | u64::from(upper[count - 1]);
    let mut digit = (top / u64::from(lower[count - 1])).min(u64::from(u32::MAX));
    let mut borrow = 0i64;
    let mut carry = 0u64;
    for index in 0..count {
        let product = digit * u64::from(lower[index]) + carry;
        carry = product >> 32;
        let difference = i64::from(upper[index]) - i64::from(product as u32) + borrow;
        upper[index] = difference as u32;
        borrow = difference >> 32;
    }
    let difference = i64::from(upper[count]) - carry as i64 + borrow;
    upper[count] = difference as u32;
    let mut negative = difference < 0;
    // The guess is at most two too high.
    while negative {
        digit -= 1;
        negative = !add_back(upper, lower);
    }
    digit as u32
}

/// Adds `lower` to `upper`; says whether the sum passed zero again.
fn add_back(upper: &mut [u32], lower: &[u32]) -> bool {
    let mut carry = 0u64;
    for (limb, &added) in upper.iter_mut().zip(lower) {
        let total = u64::from(*limb) + u64::from(added) + carry;
        *limb = total as u32;
        carry = total >> 32;
    }
    let top = &mut upper[lower.len()];
    let total = u64::from(*top) + carry;
    *top = total as u32;
    total >> 32 == 1
}

impl From<u64> for Natural {
    fn from(value: u64) -> Natural {
        Natural::from_limbs(vec![value as u32, (value >> 32) as u32])
    }
}

impl Ord for Natural {
    fn cmp(&self, other: &Natural) -> Ordering {
        let by_length = self.limbs.len().cmp(&other.limbs.len());
        by_length.then_with(|| self.limbs.iter().rev().cmp(other.limbs.iter().rev()))
    }
}

impl PartialOrd for Natural {
    fn partial_cmp(&self, other: &Natural) -> Option<Ordering> {
        Some(self.cmp(other))
    }
}

impl fmt::Display for Natural {
    fn fmt(&self, f: &mut fmt::Formatter) -> fmt::Result {
        let mut groups = Vec::new();
        let mut rest = self.clone();
        while !rest.is_zero() {
            let (quotient, group) = rest.divided_small(1_000_000_000);
            groups.push(group);
            rest = quotient;
        }
        let mut digits = groups.pop().unwrap_or(0).to_string();
        for group in groups.iter().rev() {
            digits.push_str(&format!("{group:09}"));
        }
        f.pad_integral(true, "", &digits)
    }
}

#[cfg(test)]
mod tests {
    use super::*;

    /// A number of about `bits` bits from a fixed sequence, with long runs of ones and zeros now and then.
    fn sample(state: &mut u64, bits: u32) -> Natural {
        let limbs = (0..bits.div_ceil(32))
            .map(|_| {
                *state = state.wrapping_mul(6364136223846793005).wrapping_add(1442695040888963407);
                match *state >> 61 {
                    0 => 0,
                    1 => u32::MAX,
                    _ => (*state >> 24) as u32,
                }
            })
            .collect();
        Natural::from_limbs(limbs)
    }

    #[test]
    fn small_numbers_agree_with_the_machine() {
        let values = [0u64, 1, 2, 3, 10, 31, 32, 1 << 31, (1 << 32) - 1, 1 << 32, (1 << 33) + 5, u64::MAX];
        for x in values {
            for y in values {
                let (a, b) = (Natural::from(x), Natural::from(y));
                let product = u128::from(x) * u128::from(y);
                assert_eq!(a.times(&b).to_string(), product.to_string());
                assert_eq!(a.plus(&b).to_string(), (u128::from(x) + u128::from(y)).to_string());
                assert_eq!(a.cmp(&b), x.cmp(&y));
                if x >= y {
                    assert_eq!(a.minus(&b).to_u64(), Some(x - y));
                }
                if !b.is_zero() {
                    let (quotient, rest) = a.divided(&b);
                    assert_eq!((quotient.to_u64(), rest.to_u64()), (x.checked_div(y), x.checked_rem(y)));
                }
            }
        }
    }

    #[test]
    fn division_undoes_multiplication() {
        let mut state = 1;
        for round in 0..3000 {
            let divisor = sample(&mut state, 1 + round % 700).plus(&Natural::one());
            let number = sample(&mut state, 1 + (7 * round) % 1500);
            let (quotient, rest) = number.divided(&divisor);
            assert!(rest < divisor);
            assert_eq!(quotient.times(&divisor).plus(&rest), number);
        }
    }

    #[test]
    fn shifts_are_powers_of_two() {
        let mut state = 2;
        for count in 0..200 {
            let number = sample(&mut state, 300);
            let power = (0..count).fold(Natural::one(), |power, _| power.times_small(2));
            assert_eq!(number.shifted_up(count), number.times(&power));
            assert_eq!(number.shifted_down(count), number.divided(&power).0);
            assert_eq!(power.bits(), count + 1);
            assert_eq!(power.twos(), count);
            assert!(power.bit(count) && !power.bit(count + 1));
        }
    }

    #[test]
    fn the_greatest_common_divisor_divides_and_leaves_no_common_one() {
        let mut state = 3;
        for round in 0..300 {
            let shared = sample(&mut state, 1 + round).plus(&Natural::one());
            let x = sample(&mut state, 200).plus(&Natural::one()).times(&shared);
            let y = sample(&mut state, 90).plus(&Natural::one()).times(&shared);
            let divisor = x.gcd(&y);
            assert!(divisor.divided(&shared).1.is_zero());
            let (x, rest_x) = x.divided(&divisor);
            let (y, rest_y) = y.divided(&divisor);
            assert!(rest_x.is_zero() && rest_y.is_zero());
            assert_eq!(x.gcd(&y), Natural::one());
        }
    }

    #[test]
    fn decimals_of_large_numbers() {
        assert_eq!(Natural::zero().to_string(), "0");
        assert_eq!(Natural::power_of_ten(30).to_string(), format!("1{}", "0".repeat(30)));
        let text = "340282366920938463463374607431768211456";
        assert_eq!(Natural::power_of_two(128).to_string(), text);
    }
}
