//! Work out against the model: every refusal and every figure, on cases within the ranges, at their edges, damaged and
//! cut short. Kind 8 against its printed table, in whole numbers.

#[path = "../../model/tests/printed/mod.rs"]
mod printed;
use csorvelin_differential::cases::{self, COUNTS};
use csorvelin_differential::{calls, random::Random};
use csorvelin_model::case::Case;
use csorvelin_model::ratio::Ratio;
use csorvelin_model::{equations, ranges};
use std::collections::BTreeMap;

/// What the model gives: refusal, and figures, zeros beside a refusal.
fn expected(case: &[u8]) -> (u32, [u64; 4]) {
    match equations::work_out(case) {
        Ok(figures) => (0, figures),
        Err(refusal) => (refusal, [0; 4]),
    }
}

/// Compares both on a case and answers the refusal.
fn compare(case: &[u8]) -> u32 {
    let answer = calls::work_out(case);
    assert_eq!(answer, expected(case), "{:x?}, {:?}", case, Case::decode(case));
    answer.0
}

#[test]
fn valid_cases_of_every_kind_and_row() {
    let mut random = Random::new(101);
    for (kind, row) in cases::kinds_and_rows() {
        for _ in 0..3000 {
            let case = cases::valid_of(kind, row, &mut random);
            assert_eq!(compare(&case.encode()), 0, "{case:?}");
        }
    }
}

#[test]
fn damaged_cases_meet_every_refusal() {
    let mut random = Random::new(102);
    let mut met = BTreeMap::new();
    for _ in 0..150_000 {
        let case = cases::damaged(&mut random);
        *met.entry(compare(&case.encode())).or_insert(0) += 1;
    }
    for refusal in (0..=11).filter(|&refusal| refusal != 1).chain([31]) {
        let count = met.get(&refusal).copied().unwrap_or(0);
        assert!(count >= 100, "refusal {refusal} was met {count} times only");
    }
}

#[test]
fn random_bytes() {
    let mut random = Random::new(103);
    for _ in 0..60_000 {
        let mut bytes = random.bytes(64);
        // Kinds, rows and routes that exist, so that later fields are looked at too.
        let case = cases::valid(&mut random).encode();
        let kept = random.below(65) as usize;
        bytes[..kept].copy_from_slice(&case[..kept]);
        compare(&bytes);
    }
}

#[test]
fn slices_of_every_length_from_0_to_70() {
    let mut random = Random::new(104);
    for length in 0..=70 {
        for _ in 0..20 {
            let mut bytes = cases::valid(&mut random).encode().to_vec();
            bytes.extend(random.bytes(6));
            bytes.truncate(length);
            let refusal = compare(&bytes);
            assert_eq!(refusal == 1, length != 64);
        }
    }
}

#[test]
fn small_fields_all_through() {
    let mut random = Random::new(105);
    let quantities = [(5, 0), (8, 5)].map(|(kind, row)| cases::valid_of(kind, row, &mut random).patterns);
    for kind in 0..=255u8 {
        let rows = if kind <= 9 { 0..=255u8 } else { 0..=2 };
        for row in rows {
            for route in [0, 1, 2, 3, 255] {
                for user in [0, 1, 2, 3, 4, 255] {
                    let count = random.pick(&COUNTS);
                    for patterns in [[0; 6], quantities[0], quantities[1]] {
                        compare(&Case { kind, row, route, user, count, dossier: 7, patterns }.encode());
                    }
                }
            }
        }
    }
}

#[test]
fn counts_at_their_ends() {
    let mut random = Random::new(106);
    for (kind, row) in cases::kinds_and_rows() {
        let counts = ranges::counts(kind, row);
        for count in COUNTS {
            let case = Case { count, ..cases::valid_of(kind, row, &mut random) };
            let refusal = compare(&case.encode());
            assert_eq!(refusal == 0, counts.contains(&count), "{case:?}");
        }
    }
}

#[test]
fn every_quantity_at_its_limit_and_beside_it() {
    let mut random = Random::new(107);
    for (kind, row) in cases::kinds_and_rows() {
        for listed in ranges::listed(kind, row) {
            let limit = (listed.limit as f64).to_bits();
            for (pattern, allowed) in [(0, true), (1, true), (limit - 1, true), (limit, true), (limit + 1, false)] {
                let mut case = cases::valid_of(kind, row, &mut random);
                ranges::summed(kind).0.iter().for_each(|&index| case.patterns[index] = 0);
                case.patterns[listed.index] = pattern;
                assert_eq!(compare(&case.encode()), if allowed { 0 } else { 10 }, "{case:?}");
            }
        }
        for index in 0..6 {
            let mut case = cases::valid_of(kind, row, &mut random);
            case.patterns[index] = 1 << 63;
            assert_eq!(compare(&case.encode()), 8);
            case.patterns[index] = 2047 << 52;
            assert_eq!(compare(&case.encode()), 8);
            let unlisted = ranges::listed(kind, row).iter().all(|listed| listed.index != index);
            if unlisted {
                case.patterns[index] = 1;
                assert_eq!(compare(&case.encode()), 9);
            }
        }
    }
}

/// A refusal and a fault that calls for it.
type Fault = (u32, fn(&mut Case));

/// Every choice of faults, laid over cases that are made so: the first is the answer. They stand in the order of the
/// refusals, and are laid over from the last to the first, so that a field with two faults has the earlier one.
fn hidden(faults: &[Fault], mut valid: impl FnMut() -> Case) {
    for choice in 1..1u32 << faults.len() {
        let mut case = valid();
        let chosen: Vec<&Fault> =
            faults.iter().enumerate().filter(|(k, _)| choice >> k & 1 == 1).map(|(_, f)| f).collect();
        chosen.iter().rev().for_each(|(_, fault)| fault(&mut case));
        assert_eq!(compare(&case.encode()), chosen[0].0, "{case:?}");
    }
}

#[test]
fn an_earlier_refusal_hides_every_later_one() {
    let mut random = Random::new(108);
    let of_kind_5: [Fault; 10] = [
        (2, |case| case.kind = 0),
        (3, |case| case.row = 9),
        (4, |case| case.route = 2),
        (5, |case| case.user = 1),
        (6, |case| case.count = 367),
        (7, |case| case.dossier = 0),
        (8, |case| case.patterns[5] |= 1 << 63),
        (9, |case| case.patterns[5] |= 1),
        (10, |case| case.patterns[0] = 1_000_001f64.to_bits()),
        (11, |case| case.patterns[2..5].fill(0.5f64.to_bits())),
    ];
    hidden(&of_kind_5, || cases::valid_of(5, 0, &mut random));
    let of_kind_8: [Fault; 11] = [
        (2, |case| case.kind = 9),
        (3, |case| case.row = 19),
        (4, |case| case.route = 2),
        (5, |case| case.user = 4),
        // LDPE, which no open process uses.
        (31, |case| case.row = 1),
        (6, |case| case.count = 0),
        (7, |case| case.dossier = 0),
        (8, |case| case.patterns[3] |= 2047 << 52),
        (9, |case| case.patterns[5] = 1),
        (10, |case| case.patterns[0] = 1f64.to_bits() + 1),
        (11, |case| case.patterns[1..3].fill(0.75f64.to_bits())),
    ];
    // Flexible PVC, which all three processes use.
    hidden(&of_kind_8, || Case { user: 1, ..cases::valid_of(8, 5, &mut random) });
}

#[test]
fn the_sum_of_kind_5_at_one_and_beside_it() {
    let mut random = Random::new(109);
    let one = 1f64.to_bits();
    let mut refused = 0;
    for round in 0..20_000u64 {
        let mut case = cases::valid_of(5, 0, &mut random);
        let c = random.word() >> 11 | 1 << 40;
        let c = c as f64 / (1u64 << 53) as f64;
        let d = f64::from_bits((1. - c).to_bits() + random.below(3) - 1);
        let e = 2f64.powi(-(random.between(50, 56) as i32)) * random.pick(&[1., 1. + f64::EPSILON, 1.5, 0.75]);
        let fractions = [c, d, e].map(f64::to_bits);
        for (place, from) in [2, 3, 4].into_iter().zip([round, round + 1, round + 2]) {
            case.patterns[place] = fractions[from as usize % 3].min(one);
        }
        refused += u32::from(compare(&case.encode()) == 11);
    }
    assert!((1000..19_000).contains(&refused), "{refused} of 20000 refused");
}

/// A case of kind 8 with dossier 7 and the quantities a, b and c.
fn plastics(row: u8, user: u8, count: u32, [a, b, c]: [f64; 3]) -> Case {
    let patterns = [a, b, c, 0., 0., 0.].map(f64::to_bits);
    Case { kind: 8, row, route: 1, user, count, dossier: 7, patterns }
}

/// b is 1 less so many times 2^-53, c so many times 2^-56. The rounded sum is at most 1 exactly where the exact one is at
/// most 1 + 2^-53, the tie that goes to even.
#[test]
fn the_sum_of_kind_8_at_one_and_beside_it() {
    let mut refused = 0;
    for below in 0..60u32 {
        for above in 0..600u32 {
            let b = 1. - f64::from(below) * 2f64.powi(-53);
            let c = f64::from(above) * 2f64.powi(-56);
            let refusal = if above > 8 * below + 8 { 11 } else { 0 };
            for [b, c] in [[b, c], [c, b]] {
                assert_eq!(compare(&plastics(1, 3, 366, [1., b, c]).encode()), refusal, "{b:e} {c:e}");
            }
            refused += refusal / 11;
        }
    }
    assert!((10_000..30_000).contains(&refused), "{refused} of 36000 refused");
    let half_step = 2f64.powi(-53);
    for (c, refusal) in [(half_step.next_down(), 0), (half_step, 0), (half_step.next_up(), 11)] {
        assert_eq!(compare(&plastics(1, 3, 366, [1., 1., c]).encode()), refusal, "{c:e}");
    }
}

/// b and c of every size with a sum near 1.
#[test]
fn sums_of_kind_8_near_one() {
    let mut random = Random::new(112);
    let mut refused = 0;
    for _ in 0..20_000 {
        let b = f64::from_bits(random.between(0x3c80 << 48, 1f64.to_bits()));
        let c = f64::from_bits((1. - b).to_bits().saturating_add_signed(random.below(9) as i64 - 4));
        let case = plastics(1, 3, 366, [1., b, c.min(1.)]);
        refused += u32::from(compare(&case.encode()) == 11);
    }
    assert!((1000..19_000).contains(&refused), "{refused} of 20000 refused");
}

/// Each of the 54 cells: its figures from the printed usage in whole numbers, or 31 where none is printed, for any T.
#[test]
fn every_cell_of_the_printed_table() {
    let (mut held, mut blank) = (0, 0);
    for (row, polymer) in (1..).zip(printed::polymers()) {
        for (user, usage) in (1..).zip(polymer.usages) {
            *if usage.is_some() { &mut held } else { &mut blank } += 1;
            for count in [0, 1, 7, 250, 365, 366, 367, u32::MAX] {
                let bytes = plastics(row, user, count, [0.5, 0.25, 0.125]).encode();
                compare(&bytes);
                let expected = match usage {
                    None => (31, [0; 4]),
                    Some(_) if !(1..=366).contains(&count) => (6, [0; 4]),
                    Some(usage) => {
                        // Half of it active, an eighth of that to water, a fourth to air; 10^12 micrograms in a tonne.
                        let daily = |part: u64| (usage * 1_000_000_000_000).div_ceil(part * u64::from(count));
                        (0, [daily(16), 0, daily(8), 0])
                    }
                };
                assert_eq!(calls::work_out(&bytes), expected, "{} {user} {count}", polymer.name);
            }
        }
    }
    assert_eq!((held, blank), (34, 20));
}

#[test]
fn what_remains_of_one_is_exact() {
    let mut random = Random::new(110);
    let one = 1f64.to_bits();
    for below in 0..200 {
        for (kind, index) in [(4, 1), (7, 3)] {
            for row in 0..=1 {
                let mut case = cases::valid_of(kind, row, &mut random);
                case.patterns[index] = one - below;
                compare(&case.encode());
                // A fraction so small that 1 less it has more than a thousand binary digits.
                case.patterns[index] = below;
                compare(&case.encode());
            }
        }
    }
}

/// Zero exactly when the value is zero, never below it, above it by less than one microgram.
#[test]
fn figures_keep_within_the_bounds() {
    let mut random = Random::new(111);
    for _ in 0..10_000 {
        let bytes = cases::valid(&mut random).encode();
        let sheet = equations::Sheet::of(&bytes).unwrap();
        let (_, figures) = calls::work_out(&bytes);
        for (compartment, figure) in figures.into_iter().enumerate() {
            let exact = sheet.micrograms(compartment);
            let figure = Ratio::whole(figure);
            assert!(exact <= figure && figure < exact.plus(&Ratio::whole(1)));
            assert_eq!(exact.is_zero(), figure.is_zero());
        }
    }
}
