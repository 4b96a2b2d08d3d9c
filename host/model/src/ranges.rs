//! What a case may hold, and the refusals 1 to 5, 31, 6 to 11 in their order.

use crate::binary64;
use crate::case::{Case, CASE_BYTES, QUANTITIES};
use crate::ratio::Ratio;
use crate::tables;
use std::ops::RangeInclusive;

/// Why a case is refused: the paper's number, the field, what it holds and what is allowed there.
#[derive(Clone, Debug, PartialEq, Eq)]
pub struct Violation {
    pub number: u32,
    pub field: String,
    pub found: String,
    pub allowed: String,
}

/// A quantity that a kind carries. Its limit is inclusive, from 0; 1 for a fraction.
#[derive(Clone, Copy, Debug, PartialEq, Eq)]
pub struct Listed {
    pub index: usize,
    pub meaning: &'static str,
    pub unit: &'static str,
    pub limit: u64,
}

const fn fraction(index: usize, meaning: &'static str) -> Listed {
    Listed { index, meaning, unit: "", limit: 1 }
}

const fn quantity(index: usize, meaning: &'static str, unit: &'static str, limit: u64) -> Listed {
    Listed { index, meaning, unit, limit }
}

const A: usize = 0;
const B: usize = 1;
const C: usize = 2;
const D: usize = 3;
const E: usize = 4;
const F: usize = 5;

const AREA: Listed = quantity(D, "treated area A of a house", "m2", 1000);
const VOLUME: Listed = quantity(E, "volume V of product", "L/m2", 100);
const DENSITY: Listed = quantity(F, "density R", "kg/m3", 5000);
const ACTIVE: Listed = fraction(A, "active fraction of the product");
const SHARE: Listed = fraction(C, "market share");

pub const KINDS: RangeInclusive<u8> = 1..=8;

pub const KIND_NAMES: [&str; 8] = [
    "city, leaching measured",
    "city, leaching unknown",
    "city, application",
    "sanitary use, by tonnage",
    "formulation, by tonnage",
    "hygiene products, by consumption",
    "chemical toilets",
    "plastics makers, by site",
];

/// The rows of a kind.
pub fn rows(kind: u8) -> RangeInclusive<u8> {
    match kind {
        1..=3 => 0..=7,
        4 | 7 => 0..=1,
        5 => 0..=0,
        6 => 0..=5,
        8 => 1..=18,
        kind => unreachable!("there is no kind {kind}"),
    }
}

pub fn route_2_allowed(kind: u8, row: u8) -> bool {
    matches!(kind, 1..=3) && matches!(row, 0 | 3..=7)
}

/// The allowed users; for kind 8 those of its rows together.
pub fn users(kind: u8) -> RangeInclusive<u8> {
    match kind {
        3 => 1..=2,
        8 => 1..=3,
        _ => 0..=0,
    }
}

/// What a user stands for.
pub fn user_meaning(kind: u8, user: u8) -> &'static str {
    match (kind, user) {
        (3, 1) => "professional",
        (3, 2) => "not professional",
        (8, _) => tables::process(user).unwrap_or(""),
        _ => "",
    }
}

/// Whether kind 8's polymer has a usage for the process. The other kinds take none from a table by user.
pub fn has_usage(kind: u8, row: u8, user: u8) -> bool {
    kind != 8 || tables::usage(row, user).is_some()
}

/// The allowed count T.
pub fn counts(kind: u8, row: u8) -> RangeInclusive<u32> {
    match (kind, row) {
        (1 | 2, 0) => 31..=36_500,
        (3 | 7, 0) => 1..=100,
        (4 | 5, 0) | (8, _) => 1..=366,
        _ => 0..=0,
    }
}

/// What T means for a kind, in the rows that take one.
pub fn count_meaning(kind: u8) -> &'static str {
    match kind {
        1 | 2 => "service life in days",
        3 => "houses treated per day",
        4 | 5 | 8 => "emission days per year",
        7 => "tank wagons per day",
        _ => "unused",
    }
}

/// The quantities that a kind carries in a row.
pub fn listed(kind: u8, row: u8) -> Vec<Listed> {
    let mut listed = listed_in_every_row(kind);
    if row == 0 {
        listed.extend(listed_in_row_0(kind));
    }
    listed
}

fn listed_in_every_row(kind: u8) -> Vec<Listed> {
    match kind {
        1 => vec![
            quantity(A, "leached in the first 30 days", "kg/m2", 100),
            quantity(B, "leached in the rest of the service life", "kg/m2", 100),
            SHARE,
        ],
        2 => vec![ACTIVE, SHARE],
        3 => vec![ACTIVE],
        4 => vec![
            quantity(A, "EU tonnage", "t per year", 1_000_000),
            fraction(B, "fraction disintegrated"),
            fraction(C, "fraction to water"),
        ],
        5 => vec![
            quantity(A, "regional tonnage", "t per year", 1_000_000),
            fraction(B, "main source fraction"),
            fraction(C, "fraction to water"),
            fraction(D, "fraction to air"),
            fraction(E, "fraction to soil"),
        ],
        6 => vec![ACTIVE, fraction(B, "penetration")],
        7 => vec![
            fraction(A, "litres of product per litre of pre-charge"),
            fraction(B, "active fraction of the product"),
            quantity(C, "density", "kg per litre", 5),
            fraction(D, "fraction disintegrated"),
            fraction(E, "fraction reaching the plant"),
        ],
        8 => vec![
            fraction(A, "active fraction of the plastic"),
            fraction(B, "fraction to air"),
            fraction(C, "fraction to water"),
        ],
        _ => vec![],
    }
}

/// What a case of row 0 gives in place of the row's defaults. Kind 1 has no use for volume and density.
fn listed_in_row_0(kind: u8) -> Vec<Listed> {
    match kind {
        1 => vec![AREA],
        2 | 3 => vec![AREA, VOLUME, DENSITY],
        6 => vec![
            quantity(D, "amount G per use", "g", 10_000),
            quantity(E, "uses M per day", "", 100),
            fraction(F, "share H of the inhabitants"),
        ],
        _ => vec![],
    }
}

/// The fractions of a kind whose sum is at most 1, in the order in which they are added; and the sum as it is written.
pub fn summed(kind: u8) -> (&'static [usize], &'static str) {
    match kind {
        5 => (&[C, D, E], "(c + d) + e"),
        8 => (&[B, C], "b + c"),
        _ => (&[], ""),
    }
}

pub const SUM_LIMIT: &str = "at most 1, each addition rounded in binary64";

/// The first of the refusals 1 to 5, 31, 6 to 11 that holds, in this order.
pub fn violation(bytes: &[u8]) -> Option<Violation> {
    let Some(case) = Case::decode(bytes) else {
        return Some(Violation {
            number: 1,
            field: "case".to_string(),
            found: format!("{} bytes", bytes.len()),
            allowed: format!("exactly {CASE_BYTES} bytes"),
        });
    };
    let conditions = [
        kind_not_allowed,
        row_not_allowed,
        route_not_allowed,
        user_not_allowed,
        usage_missing,
        count_not_allowed,
        dossier_zero,
        pattern_not_allowed,
        unlisted_not_zero,
        over_limit,
        sum_over_one,
    ];
    conditions.iter().find_map(|condition| condition(&case))
}

/// The first refusal's number, 0 for none.
pub fn refusal(bytes: &[u8]) -> u32 {
    violation(bytes).map_or(0, |violation| violation.number)
}

fn violated(number: u32, field: &str, found: String, allowed: String) -> Option<Violation> {
    Some(Violation { number, field: field.to_string(), found, allowed })
}

fn span<T: PartialEq + std::fmt::Display>(range: &RangeInclusive<T>) -> String {
    if range.start() == range.end() {
        format!("{}", range.start())
    } else {
        format!("{} to {}", range.start(), range.end())
    }
}

fn kind_not_allowed(case: &Case) -> Option<Violation> {
    if KINDS.contains(&case.kind) {
        return None;
    }
    violated(2, "kind", case.kind.to_string(), span(&KINDS))
}

fn row_not_allowed(case: &Case) -> Option<Violation> {
    let rows = rows(case.kind);
    if rows.contains(&case.row) {
        return None;
    }
    let names = match (case.kind, tables::POLYMER_ROWS) {
        (8, [first, .., last]) => format!(" ({} to {})", first.name, last.name),
        _ => String::new(),
    };
    violated(3, "row", case.row.to_string(), format!("{} for kind {}{names}", span(&rows), case.kind))
}

fn route_not_allowed(case: &Case) -> Option<Violation> {
    let second = route_2_allowed(case.kind, case.row);
    if case.route == 1 || case.route == 2 && second {
        return None;
    }
    let routes = if second { "1 (to the STP) or 2 (to surface water)" } else { "1 (to the STP) only" };
    let allowed = format!("{routes} for kind {} row {}", case.kind, case.row);
    violated(4, "route", case.route.to_string(), allowed)
}

fn user_not_allowed(case: &Case) -> Option<Violation> {
    if users(case.kind).contains(&case.user) {
        return None;
    }
    let allowed = format!("{} for kind {}", named_users(case.kind, users(case.kind)), case.kind);
    violated(5, "user", case.user.to_string(), allowed)
}

/// Some users of a kind with what they stand for.
pub fn named_users(kind: u8, users: impl Iterator<Item = u8>) -> String {
    let named = users.map(|user| match user_meaning(kind, user) {
        "" => user.to_string(),
        meaning => format!("{user} ({meaning})"),
    });
    let named: Vec<String> = named.collect();
    match named.split_last() {
        Some((last, before)) if !before.is_empty() => format!("{} or {last}", before.join(", ")),
        _ => named.concat(),
    }
}

fn usage_missing(case: &Case) -> Option<Violation> {
    let Case { kind, row, user, .. } = *case;
    if has_usage(kind, row, user) {
        return None;
    }
    let found = format!("{user} ({})", user_meaning(kind, user));
    let others = users(kind).filter(|&user| has_usage(kind, row, user));
    let polymer = tables::polymer_row(row).map_or("", |polymer| polymer.name);
    violated(31, "user", found, format!("{} for kind {kind} row {row} ({polymer})", named_users(kind, others)))
}

fn count_not_allowed(case: &Case) -> Option<Violation> {
    let counts = counts(case.kind, case.row);
    if counts.contains(&case.count) {
        return None;
    }
    let place = format!("kind {} row {}", case.kind, case.row);
    let allowed = if counts == (0..=0) {
        format!("0 for {place}, where T is unused")
    } else {
        format!("{} for {place} ({})", span(&counts), count_meaning(case.kind))
    };
    violated(6, "T", case.count.to_string(), allowed)
}

fn dossier_zero(case: &Case) -> Option<Violation> {
    if case.dossier != 0 {
        return None;
    }
    violated(7, "dossier", "0".to_string(), "1 or more".to_string())
}

fn pattern_not_allowed(case: &Case) -> Option<Violation> {
    let index = case.patterns.iter().position(|&pattern| !binary64::is_quantity(pattern))?;
    let pattern = case.patterns[index];
    let fault = if binary64::sign(pattern) { "its sign bit is set" } else { "its exponent field is 2047" };
    let found = format!("{} ({pattern:#018x}), {fault}", written_with_sign(pattern));
    let allowed = "a finite number from 0, without a sign (minus zero is not allowed)";
    violated(8, &QUANTITIES[index].to_string(), found, allowed.to_string())
}

fn unlisted_not_zero(case: &Case) -> Option<Violation> {
    let listed = listed(case.kind, case.row);
    let index =
        (0..6).find(|&index| listed.iter().all(|quantity| quantity.index != index) && case.patterns[index] != 0)?;
    let names: Vec<String> = listed.iter().map(|quantity| QUANTITIES[quantity.index].to_string()).collect();
    let allowed =
        format!("zero: kind {} row {} carries {} and no other quantity", case.kind, case.row, names.join(", "));
    violated(9, &QUANTITIES[index].to_string(), binary64::shortest(case.patterns[index]), allowed)
}

fn over_limit(case: &Case) -> Option<Violation> {
    let listed = listed(case.kind, case.row);
    let over = listed.iter().find(|quantity| case.exact(quantity.index) > Ratio::whole(quantity.limit))?;
    let unit = if over.unit.is_empty() { String::new() } else { format!(" {}", over.unit) };
    let allowed = format!("0 to {}{unit} for kind {} ({})", over.limit, case.kind, over.meaning);
    let name = QUANTITIES[over.index].to_string();
    violated(10, &name, binary64::shortest(case.patterns[over.index]), allowed)
}

fn sum_over_one(case: &Case) -> Option<Violation> {
    let (fractions, written) = summed(case.kind);
    let sum = fractions.iter().map(|&index| case.patterns[index]).reduce(binary64::rounded_sum)?;
    if binary64::exact(sum) <= Ratio::whole(1) {
        return None;
    }
    violated(11, written, binary64::shortest(sum), SUM_LIMIT.to_string())
}

/// Any pattern's value for a message.
fn written_with_sign(pattern: u64) -> String {
    let magnitude = pattern & !binary64::SIGN;
    let sign = if binary64::sign(pattern) { "-" } else { "" };
    if binary64::is_quantity(magnitude) {
        format!("{sign}{}", binary64::shortest(magnitude))
    } else if magnitude == binary64::INFINITY {
        format!("{sign}infinity")
    } else {
        "not a number".to_string()
    }
}

#[cfg(test)]
mod tests {
    use super::*;

    #[test]
    fn patterns_that_are_no_quantity() {
        let patterns = [-1.5, -0., f64::INFINITY, f64::NEG_INFINITY, f64::NAN].map(f64::to_bits);
        let words = ["-1.5", "-0", "infinity", "-infinity", "not a number"];
        assert_eq!(patterns.map(written_with_sign), words);
    }

    #[test]
    fn a_case_of_another_length_is_refused_first() {
        for length in (0..=200).filter(|&length| length != CASE_BYTES) {
            assert_eq!(refusal(&vec![0; length]), 1);
        }
        assert_eq!(refusal(&[0; CASE_BYTES]), 2);
    }

    #[test]
    fn listed_quantities_by_kind_and_row() {
        let names =
            |kind, row| -> String { listed(kind, row).iter().map(|quantity| QUANTITIES[quantity.index]).collect() };
        let expected = [(1, "abcd", "abc"), (2, "acdef", "ac"), (3, "adef", "a"), (4, "abc", "abc")];
        for (kind, own, tabled) in expected {
            assert_eq!((names(kind, 0).as_str(), names(kind, 1).as_str()), (own, tabled));
        }
        assert_eq!(names(5, 0), "abcde");
        assert_eq!((names(6, 0).as_str(), names(6, 5).as_str()), ("abdef", "ab"));
        assert_eq!((names(7, 0).as_str(), names(7, 1).as_str()), ("abcde", "abcde"));
        assert_eq!((names(8, 1).as_str(), names(8, 18).as_str()), ("abc", "abc"));
    }

    #[test]
    fn users_in_words() {
        let words = [3, 4, 8].map(|kind| named_users(kind, users(kind)));
        let processes = "1 (open process), 2 (partially open process) or 3 (closed process)";
        assert_eq!(words, ["1 (professional) or 2 (not professional)", "0", processes]);
        assert_eq!(named_users(8, 3..=3), "3 (closed process)");
    }

    #[test]
    fn a_missing_usage_names_the_processes_that_have_one() {
        let mut case = Case { kind: 8, row: 1, route: 1, user: 1, count: 0, dossier: 0, patterns: [1 << 63; 6] };
        let violation = usage_missing(&case).unwrap();
        let Violation { number, field, found, allowed } = &violation;
        assert_eq!((*number, field.as_str(), found.as_str()), (31, "user", "1 (open process)"));
        assert_eq!(allowed, "2 (partially open process) or 3 (closed process) for kind 8 row 1 (LDPE)");
        assert_eq!(super::violation(&case.encode()), Some(violation));
        case.row = 7;
        let allowed = usage_missing(&case).unwrap().allowed;
        assert_eq!(allowed, "3 (closed process) for kind 8 row 7 (Expanded polystyrene)");
        case.user = 3;
        assert_eq!(usage_missing(&case), None);
    }
}
