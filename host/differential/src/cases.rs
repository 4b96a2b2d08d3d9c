//! Generated cases: within the ranges, and damaged ones.

use crate::random::Random;
use csorvelin_model::case::Case;
use csorvelin_model::ranges;
use std::ops::RangeInclusive;

/// The kinds and rows there are.
pub fn kinds_and_rows() -> Vec<(u8, u8)> {
    ranges::KINDS.flat_map(|kind| ranges::rows(kind).map(move |row| (kind, row))).collect()
}

/// A case within the ranges, of any kind, each as often as the others, and any of its rows.
pub fn valid(random: &mut Random) -> Case {
    let kind = among(ranges::KINDS, random);
    valid_of_kind(kind, random)
}

/// A case within the ranges, of this kind and any of its rows.
fn valid_of_kind(kind: u8, random: &mut Random) -> Case {
    let row = among(ranges::rows(kind), random);
    valid_of(kind, row, random)
}

fn among(range: RangeInclusive<u8>, random: &mut Random) -> u8 {
    random.between(u64::from(*range.start()), u64::from(*range.end())) as u8
}

/// A case within the ranges, of this kind and row.
pub fn valid_of(kind: u8, row: u8, random: &mut Random) -> Case {
    let route = if ranges::route_2_allowed(kind, row) { random.between(1, 2) as u8 } else { 1 };
    let users: Vec<u8> = ranges::users(kind).filter(|&user| ranges::has_usage(kind, row, user)).collect();
    let user = random.pick(&users);
    let counts = ranges::counts(kind, row);
    let (least, most) = (u64::from(*counts.start()), u64::from(*counts.end()));
    let count = match random.below(4) {
        0 => least,
        1 => most,
        _ => random.between(least, most),
    };
    let dossier = match random.below(3) {
        0 => random.between(1, 9),
        1 => u64::MAX - random.below(3),
        _ => random.word().max(1),
    };
    let mut patterns = [0; 6];
    for listed in ranges::listed(kind, row) {
        patterns[listed.index] = quantity(listed.limit as f64, random);
    }
    let (summed, _) = ranges::summed(kind);
    if !summed.is_empty() {
        for (&index, fraction) in summed.iter().zip(release_fractions(summed.len(), random)) {
            patterns[index] = fraction;
        }
    }
    Case { kind, row, route, user, count: count as u32, dossier, patterns }
}

/// A quantity from 0 to its limit: ordinary values, whole exponents of every size, and the ends.
fn quantity(limit: f64, random: &mut Random) -> u64 {
    let top = limit.to_bits();
    let significand = random.word() & ((1 << 52) - 1);
    match random.below(16) {
        0 => 0,
        1 => top - random.below(3),
        2 => random.below(3) + 1,
        3 => significand,
        4 => (1 << 52) - 2 + random.below(4),
        5 => random.below(top >> 52) << 52,
        6 => (random.below(top >> 52) << 52) | significand,
        7 => 1f64.to_bits() - 1 - random.below(2),
        8 => (top >> 52).saturating_sub(random.below(64) + 1) << 52 | significand,
        _ => (limit * (random.word() >> 11) as f64 / (1u64 << 53) as f64).to_bits(),
    }
}

/// So many fractions, one at least, with a rounded sum of at most 1, often at 1 or next to it.
fn release_fractions(count: usize, random: &mut Random) -> Vec<u64> {
    let mut fractions: Vec<f64> = vec![];
    let mut sum = 0f64;
    for _ in 1..count {
        fractions.push(f64::from_bits(quantity(1., random)).min(1. - sum));
        sum = fractions.iter().sum();
    }
    let rest = (1. - sum).max(0.);
    let last = match random.below(5) {
        0 => rest,
        1 => 2f64.powi(-(random.between(52, 56) as i32)),
        2 => f64::from_bits(random.below(4)),
        _ => rest * (random.below(1001) as f64 / 1000.),
    };
    fractions.push(if sum + last <= 1. { last } else { 0. });
    // Sums of two roundings are not symmetric; only an order that passes is kept.
    if random.one_in(2) && fractions.iter().rev().sum::<f64>() <= 1. {
        fractions.reverse();
    }
    fractions.into_iter().map(f64::to_bits).collect()
}

/// A case with one to four faults laid over a valid one.
pub fn damaged(random: &mut Random) -> Case {
    let mut case = valid(random);
    for _ in 0..random.between(1, 4) {
        damage(&mut case, random);
    }
    case
}

fn damage(case: &mut Case, random: &mut Random) {
    let index = random.below(6) as usize;
    let near = [0, 1, 2, 3, 4, 5, 6, 7, 8, 9, 18, 19, 128, 255];
    match random.below(13) {
        0 => case.kind = random.pick(&near),
        1 => case.row = random.pick(&near),
        2 => case.route = random.pick(&near),
        3 => case.user = random.pick(&near),
        4 => case.count = random.pick(&COUNTS),
        5 => case.dossier = 0,
        6 => case.patterns[index] ^= 1 << 63,
        7 => case.patterns[index] |= 2047 << 52,
        8 => case.patterns[index] = random.word(),
        9 => case.patterns[index] = over_a_limit(random),
        10 => case.patterns[index] = random.word() >> 12,
        11 => {
            // Perhaps of a polymer that has no usage for the process.
            *case = valid_of_kind(8, random);
            case.user = among(ranges::users(8), random);
        }
        _ => {
            let kind = random.pick(&[5, 8]);
            *case = valid_of_kind(kind, random);
            case.patterns[random.pick(ranges::summed(kind).0)] = (random.pick(&[0.5, 0.75, 1.0f64])).to_bits();
        }
    }
}

/// Counts at the ends of the ranges and beside them.
pub const COUNTS: [u32; 14] = [0, 1, 2, 30, 31, 100, 101, 366, 367, 36_500, 36_501, 1 << 16, 1 << 31, u32::MAX];

/// A pattern at one of the limits or next to it.
fn over_a_limit(random: &mut Random) -> u64 {
    let limit: f64 = random.pick(&[1., 5., 100., 1000., 5000., 10_000., 1_000_000.]);
    limit.to_bits() + random.below(4) - 1
}
