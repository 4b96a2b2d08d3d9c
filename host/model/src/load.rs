//! A figure as the fate model reads it: the smallest binary64 that is not below it.

use crate::binary64::{over_2_1074, INFINITY};
use crate::natural::Natural;

pub const LOAD_BYTES: usize = 8;

/// The least pattern whose exact value is not below the figure. From 0 up to infinity's, patterns are in the order of their
/// values, so it is searched for by halving; every comparison is one of whole numbers over 2^1074.
pub fn pattern(figure: u64) -> u64 {
    let wanted = Natural::from(figure).shifted_up(1074);
    let (mut least, mut enough) = (0, INFINITY);
    while least < enough {
        let middle = least + (enough - least) / 2;
        if over_2_1074(middle) < wanted {
            least = middle + 1;
        } else {
            enough = middle;
        }
    }
    least
}

/// The load of a figure: its pattern, the lowest byte first.
pub fn load(figure: u64) -> [u8; LOAD_BYTES] {
    pattern(figure).to_le_bytes()
}

#[cfg(test)]
mod tests {
    use super::*;
    use crate::binary64::exact;
    use crate::ratio::Ratio;

    #[test]
    fn loads_by_pencil() {
        let expected = [
            (0, 0),
            (1, 0x3ff0_0000_0000_0000),
            (3, 0x4008_0000_0000_0000),
            (76_923_077, 0x4192_5703_1400_0000),
            ((1 << 53) - 1, 0x433f_ffff_ffff_ffff),
            (1 << 53, 0x4340_0000_0000_0000),
            ((1 << 53) + 1, 0x4340_0000_0000_0001),
            ((1 << 53) + 2, 0x4340_0000_0000_0001),
            ((1 << 54) + 1, 0x4350_0000_0000_0001),
            (1 << 63, 0x43e0_0000_0000_0000),
            (u64::MAX - 2047, 0x43ef_ffff_ffff_ffff),
            (u64::MAX - 2046, 0x43f0_0000_0000_0000),
            (u64::MAX, 0x43f0_0000_0000_0000),
        ];
        for (figure, load) in expected {
            assert_eq!(pattern(figure), load, "{figure}");
        }
        assert_eq!(load(1 << 53 | 1), [1, 0, 0, 0, 0, 0, 0x40, 0x43]);
        assert_eq!(exact(pattern((1 << 53) + 1)), Ratio::whole((1 << 53) + 2));
        assert_eq!(exact(pattern(u64::MAX)).to_string(), "18446744073709551616");
    }

    /// What the search goes by, where one exponent field ends and the next begins, and beside it.
    #[test]
    fn patterns_are_in_the_order_of_their_values() {
        for field in 1..2047u64 {
            let first = field << 52;
            for (one, next) in [(first - 2, first - 1), (first - 1, first), (first, first + 1)] {
                assert!(over_2_1074(one) < over_2_1074(next), "{one:#x}");
            }
        }
    }
}
