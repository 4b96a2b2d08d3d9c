//! Numbers as typed, and values as text: shortest, exact, or cut after some digits.

use csorvelin_model::binary64;
use csorvelin_model::natural::Natural;
use csorvelin_model::ratio::Ratio;
use std::cmp::Ordering;

/// A value's decimal is written with all its digits up to this many behind the point, beyond that as a fraction.
const MOST_PLACES: u32 = 80;

/// A decimal beside a fraction is whole up to this many places, and beyond that cut after so many digits.
const BESIDE_PLACES: u32 = 20;
const BESIDE_DIGITS: u32 = 17;

/// So many characters of what was typed stand in a message.
const MOST_QUOTED: usize = 60;

/// What a pattern is called that has its sign bit set or is no finite number.
const NO_QUANTITY: &str = "not a quantity";

/// A text that was typed, for a message: not more of it than a line has room for.
pub fn shortened(text: &str) -> String {
    match text.char_indices().nth(MOST_QUOTED) {
        Some((end, _)) => format!("{}…", &text[..end]),
        None => text.to_string(),
    }
}

fn quoted(text: &str) -> String {
    format!("'{}'", shortened(text))
}

/// A whole number, decimal or with 0x, up to `most`.
pub fn whole(text: &str, most: u64) -> Result<u64, String> {
    let value = match text.strip_prefix("0x") {
        Some(digits) if digits_only(digits, 16) => u64::from_str_radix(digits, 16).ok(),
        None if digits_only(text, 10) => text.parse().ok(),
        _ => return Err(format!("{} is not a whole number", quoted(text))),
    };
    value.filter(|&value| value <= most).ok_or(format!("{} does not fit: at most {most}", quoted(text)))
}

fn digits_only(digits: &str, radix: u32) -> bool {
    !digits.is_empty() && digits.chars().all(|digit| digit.is_digit(radix))
}

/// The pattern of a quantity: the binary64 number nearest to a decimal, or the pattern itself, all 16 digits, after 0x.
pub fn quantity(text: &str) -> Result<u64, String> {
    if let Some(digits) = text.strip_prefix("0x") {
        let whole = digits.len() == 16 && digits_only(digits, 16);
        let pattern = whole.then(|| u64::from_str_radix(digits, 16).ok()).flatten();
        return pattern.ok_or(format!("{} is not a pattern: 0x and 16 hexadecimal digits", quoted(text)));
    }
    let Some(is_zero) = decimal_is_zero(text) else {
        let comma = if text.contains(',') { "; write a decimal point, and no thousands separators" } else { "" };
        return Err(format!("{} is neither a decimal number nor a pattern{comma}", quoted(text)));
    };
    let value: f64 = text.parse().map_err(|_| format!("{} is not a number", quoted(text)))?;
    if value.is_infinite() {
        return Err(format!("{} is beyond binary64", quoted(text)));
    }
    if value == 0.0 && !is_zero {
        return Err(format!("{} is nearer to 0 than to any other binary64 number; give 0 or a pattern", quoted(text)));
    }
    Ok(value.to_bits())
}

/// Whether a decimal has no digit but 0; none where the text is no decimal: digits, perhaps a sign, a point, an exponent.
fn decimal_is_zero(text: &str) -> Option<bool> {
    let text = text.strip_prefix('-').unwrap_or(text);
    let (digits, exponent) = text.split_once(['e', 'E']).unwrap_or((text, "0"));
    let (whole, part) = digits.split_once('.').unwrap_or((digits, ""));
    let digits = [whole, part].concat();
    let exponent = exponent.strip_prefix(['+', '-']).unwrap_or(exponent);
    (digits_only(&digits, 10) && digits_only(exponent, 10)).then(|| digits.bytes().all(|digit| digit == b'0'))
}

/// The exact value of a decimal without its sign.
fn unsigned_decimal(text: &str) -> Option<Ratio> {
    Ratio::from_decimal(text.strip_prefix('-').unwrap_or(text))
}

/// How the value taken lies to the decimal typed: nothing for a pattern or an exact decimal.
pub fn deviation(typed: &str, pattern: u64) -> Option<&'static str> {
    if typed.starts_with("0x") || !binary64::is_quantity(pattern) {
        return None;
    }
    match binary64::exact(pattern).cmp(&unsigned_decimal(typed)?) {
        Ordering::Less => Some("below"),
        Ordering::Equal => None,
        Ordering::Greater => Some("above"),
    }
}

/// A value with all its digits, or as a fraction where those are many or have no end.
pub fn exact(value: &Ratio) -> String {
    value.exact_decimal(MOST_PLACES).unwrap_or_else(|| value.to_string())
}

/// The shortest decimal that reads back to the same pattern.
pub fn shortest(pattern: u64) -> String {
    if binary64::is_quantity(pattern) {
        binary64::shortest(pattern)
    } else {
        NO_QUANTITY.to_string()
    }
}

/// Whether the shortest decimal is the value itself.
pub fn shortest_is_exact(pattern: u64) -> bool {
    deviation(&shortest(pattern), pattern).is_none()
}

/// The exact value of a pattern.
pub fn exact_pattern(pattern: u64) -> String {
    if !binary64::is_quantity(pattern) {
        return NO_QUANTITY.to_string();
    }
    match places(pattern) {
        // An odd number over 2^places has as many decimal places, and the standard library writes them all.
        places @ 0..=MOST_PLACES => format!("{:.*}", places as usize, f64::from_bits(pattern)),
        _ => binary64::exact(pattern).to_string(),
    }
}

/// The number of binary places, and so of decimal ones, of a quantity's value.
fn places(pattern: u64) -> u32 {
    let fraction = pattern & ((1 << 52) - 1);
    let (significand, over) = match binary64::exponent_field(pattern) {
        0 => (fraction, 1074),
        field => (1 << 52 | fraction, 1075 - field as i32),
    };
    if significand == 0 {
        return 0;
    }
    u32::try_from(over - significand.trailing_zeros() as i32).unwrap_or(0)
}

/// A value as a decimal: all of it where that is short, otherwise its first digits and an ellipsis.
pub fn decimal(value: &Ratio) -> String {
    value.exact_decimal(BESIDE_PLACES).unwrap_or_else(|| cut(value))
}

/// The first digits of a value that is not zero.
fn cut(value: &Ratio) -> String {
    let (upper, lower) = (value.upper(), value.lower());
    // Enough places for all digits wanted, and at most two more.
    let binary = i64::from(lower.bits()) - i64::from(upper.bits());
    let places = i64::from(BESIDE_DIGITS) + (binary + 1) * 30_103 / 100_000;
    let places = u32::try_from(places).unwrap_or(0);
    let digits = upper.times(&Natural::power_of_ten(places)).divided(lower).0.to_string();
    // The value is 0.DIGITS… times ten to this power.
    let power = digits.len() as i64 - i64::from(places);
    let digits = if power > i64::from(BESIDE_DIGITS) { &digits[..] } else { &digits[..BESIDE_DIGITS as usize] };
    match usize::try_from(power) {
        Ok(power) if power >= digits.len() => format!("{digits}.…"),
        Ok(0) => format!("0.{digits}…"),
        Ok(power) => format!("{}.{}…", &digits[..power], &digits[power..]),
        Err(_) if power > -6 => format!("0.{}{digits}…", "0".repeat(-power as usize)),
        Err(_) => format!("{}.{}…e{}", &digits[..1], &digits[1..], power - 1),
    }
}

/// Micrograms as milligrams and as kilograms, exactly.
pub fn milligrams(figure: u64) -> String {
    format!("{}.{:03}", figure / 1000, figure % 1000)
}

pub fn kilograms(figure: u64) -> String {
    format!("{}.{:09}", figure / 1_000_000_000, figure % 1_000_000_000)
}

#[cfg(test)]
mod tests {
    use super::*;

    #[test]
    fn whole_numbers() {
        assert_eq!(whole("255", 255), Ok(255));
        assert_eq!(whole("0xff", 255), Ok(255));
        for text in ["256", "", "-1", "+1", "1.0", "0x", "0x100", "99999999999999999999"] {
            assert!(whole(text, 255).is_err(), "{text}");
        }
    }

    #[test]
    fn quantities() {
        assert_eq!(quantity("0.71"), Ok(0x3fe6b851eb851eb8));
        assert_eq!(quantity("1e-3"), Ok(0.001f64.to_bits()));
        assert_eq!(quantity("-0"), Ok(1 << 63));
        assert_eq!(quantity("0x0000000000000001"), Ok(1));
        assert_eq!(quantity("4.9e-324"), Ok(1));
        assert_eq!(quantity("-1.5E+1"), Ok((-15f64).to_bits()));
        assert_eq!(quantity(&format!("0.{}1e100001", "0".repeat(100_000))), Ok(1f64.to_bits()));
        assert_eq!(quantity("0e-400"), Ok(0));
        for text in ["nan", "inf", "", ".", "e3", "1e", "+1", "1 000", "1.2.3", "0x", "0x64", "0x+000000000000001"] {
            assert!(quantity(text).unwrap_err().contains(" n"), "{text}");
        }
        for text in ["1e400", "1e99999999999999999999", &"9".repeat(400)] {
            assert!(quantity(text).unwrap_err().ends_with("is beyond binary64"), "{text}");
        }
        for text in ["1e-400", "1e-99999999999999999999"] {
            assert!(quantity(text).unwrap_err().contains("nearer to 0"), "{text}");
        }
        assert!(quantity("1.250,5").unwrap_err().ends_with("write a decimal point, and no thousands separators"));
        assert!(quantity(&"x".repeat(100_000)).unwrap_err().len() < 200);
    }

    #[test]
    fn deviations() {
        assert_eq!(deviation("0.71", 0.71f64.to_bits()), Some("below"));
        assert_eq!(deviation("0.1", 0.1f64.to_bits()), Some("above"));
        assert_eq!(deviation("0.25", 0.25f64.to_bits()), None);
        assert_eq!(deviation("0x1", 1), None);
        assert_eq!(deviation("-1", (-1f64).to_bits()), None);
    }

    #[test]
    fn decimals_beside_fractions() {
        let ratio = |upper: u64, lower: u64| Ratio::whole(upper).over(&Ratio::whole(lower));
        assert_eq!(decimal(&ratio(1, 13)), "0.076923076923076923…");
        assert_eq!(decimal(&ratio(1_000_000_000, 13)), "76923076.923076923…");
        assert_eq!(decimal(&ratio(2, 3)), "0.66666666666666666…");
        assert_eq!(decimal(&ratio(5, 4)), "1.25");
        assert_eq!(decimal(&ratio(40, 1)), "40");
        assert_eq!(decimal(&ratio(u64::MAX, 7)), "2635249153387078802.…");
        assert_eq!(decimal(&binary64::exact(1)), "4.9406564584124654…e-324");
        assert_eq!(decimal(&binary64::exact(1e-7f64.to_bits())), "9.9999999999999995…e-8");
        assert_eq!(decimal(&ratio(1, 3_000_000)), "3.3333333333333333…e-7");
        assert_eq!(decimal(&ratio(1, 300_000)), "0.0000033333333333333333…");
    }

    #[test]
    fn the_shortest_decimal_reads_back() {
        let expected = [
            (0.71, "0.71"),
            (0.0, "0"),
            (100.0, "100"),
            (1e6, "1000000"),
            (1e-3, "0.001"),
            (1e-7, "1e-7"),
            (1e16, "1e16"),
        ];
        for (value, text) in expected {
            assert_eq!(shortest(f64::to_bits(value)), text);
        }
        assert_eq!(shortest(1), "5e-324");
        assert_eq!(shortest(1 << 63), "not a quantity");
        assert!(shortest_is_exact(0.75f64.to_bits()) && shortest_is_exact(1e22f64.to_bits()));
        assert!(!shortest_is_exact(0.71f64.to_bits()) && !shortest_is_exact(1));
        for pattern in patterns() {
            assert_eq!(quantity(&shortest(pattern)), Ok(pattern));
        }
    }

    /// Quantities of every size, ends and neighbours of powers of two among them.
    fn patterns() -> impl Iterator<Item = u64> {
        let powers = (0..2047u64).flat_map(|field| [field << 52, (field << 52) + 1, (field << 52 | ((1 << 52) - 1))]);
        let mixed = (0..20_000u64).map(|n| n.wrapping_mul(0x9e37_79b9_7f4a_7c15) >> 2);
        powers.chain(mixed).filter(|&pattern| binary64::is_quantity(pattern))
    }

    #[test]
    fn exact_values_are_the_model_s() {
        for pattern in patterns().step_by(7) {
            assert_eq!(exact_pattern(pattern), exact(&binary64::exact(pattern)), "{pattern:#x}");
        }
    }

    #[test]
    fn values_as_text() {
        assert_eq!(exact_pattern(0.71f64.to_bits()), "0.70999999999999996447286321199499070644378662109375");
        assert_eq!(exact_pattern(1), "1/2^1074");
        assert_eq!(exact_pattern(1 << 63), "not a quantity");
        assert_eq!((milligrams(1_234_567), kilograms(1_234_567)), ("1234.567".into(), "0.001234567".into()));
    }
}
