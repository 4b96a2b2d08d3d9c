//! The pencil cases P1 to P10, cases of plastics and the edges of the requirements, against the model's exact values.

use csorvelin_model::case::Case;
use csorvelin_model::equations::{work_out, Sheet};
use csorvelin_model::ranges::refusal;
use csorvelin_model::ratio::Ratio;

/// A case with dossier 7 and route 1.
fn case(kind: u8, row: u8, quantities: [f64; 6]) -> Case {
    let patterns = quantities.map(f64::to_bits);
    Case { kind, row, route: 1, user: 0, count: 0, dossier: 7, patterns }
}

fn fraction(upper: u64, lower: u64) -> Ratio {
    Ratio::whole(upper).over(&Ratio::whole(lower))
}

fn decimal(text: &str) -> Ratio {
    Ratio::from_decimal(text).unwrap()
}

/// The exact kilograms in the order of the figures.
fn kilograms(case: &Case) -> [Ratio; 4] {
    let sheet = Sheet::of(&case.encode()).unwrap();
    [0, 1, 2, 3].map(|compartment| sheet.kilograms(compartment))
}

fn to_stp(value: Ratio) -> [Ratio; 4] {
    [value, Ratio::whole(0), Ratio::whole(0), Ratio::whole(0)]
}

fn p8() -> Case {
    Case { count: 250, ..case(5, 0, [16., 0.125, 0.5, 0.25, 0.125, 0.]) }
}

#[test]
fn p1_to_p8() {
    let part = 1. / 64.;
    let p1 = case(4, 1, [100., 0., 1., 0., 0., 0.]);
    assert_eq!(kilograms(&p1), to_stp(fraction(1, 13)));
    assert_eq!(work_out(&p1.encode()), Ok([76_923_077, 0, 0, 0]));
    let p2 = case(2, 3, [part, 0., 1., 0., 0., 0.]);
    assert_eq!(kilograms(&p2), to_stp(fraction(875, 584)));
    let p3 = Case { user: 1, ..case(3, 3, [part, 0., 0., 0., 0., 0.]) };
    assert_eq!(kilograms(&p3), to_stp(decimal("0.0615234375")));
    assert_eq!(work_out(&p3.encode()), Ok([61_523_438, 0, 0, 0]));
    let p4 = Case { user: 2, ..case(3, 7, [part, 0., 0., 0., 0., 0.]) };
    assert_eq!(kilograms(&p4), to_stp(decimal("0.14546875")));
    let p5 = case(1, 4, [2f64.powi(-10), 2f64.powi(-9), 1., 0., 0., 0.]);
    assert_eq!(kilograms(&p5), to_stp(fraction(1671, 46_720)));
    let p6 = case(6, 1, [part, 0.5, 0., 0., 0., 0.]);
    assert_eq!(kilograms(&p6), to_stp(decimal("0.0665625")));
    let p7 = case(7, 1, [1. / 32., 0.25, 1., 0., 1., 0.]);
    assert_eq!(kilograms(&p7), to_stp(fraction(125, 24)));
    let expected = [4, 0, 2, 1].map(Ratio::whole);
    assert_eq!(kilograms(&p8()), expected);
}

#[test]
fn p9_and_p10() {
    let mut p9 = p8();
    p9.patterns[2] = 0.75f64.to_bits();
    p9.patterns[4] = 2f64.powi(-52).to_bits();
    assert_eq!(work_out(&p9.encode()), Err(11));
    p9.patterns[4] = 2f64.powi(-54).to_bits();
    assert_eq!(refusal(&p9.encode()), 0);
    let p10 = case(4, 1, [100., 1., 1., 0., 0., 0.]);
    assert_eq!(work_out(&p10.encode()), Ok([0; 4]));
}

#[test]
fn edges() {
    let own = |count| Case { count, ..case(1, 0, [1., 1., 1., 1., 0., 0.]) };
    assert_eq!(refusal(&own(30).encode()), 6);
    assert_eq!(refusal(&own(31).encode()), 0);
    let outdoors = |row| Case { route: 2, ..case(2, row, [1., 0., 1., 0., 0., 0.]) };
    assert_eq!(refusal(&outdoors(2).encode()), 4);
    assert_eq!(refusal(&outdoors(3).encode()), 0);
    let figures = work_out(&outdoors(3).encode()).unwrap();
    assert!(figures[0] == 0 && figures[1] > 0);
}

/// Kind 8: a row, a user, T, and the quantities a, b, c.
fn plastics(row: u8, user: u8, count: u32, [a, b, c]: [f64; 3]) -> Case {
    Case { user, count, ..case(8, row, [a, b, c, 0., 0., 0.]) }
}

#[test]
fn plastics_by_hand() {
    // 23,100,000 kg in 250 days, half of it active: 46,200 kg a day, of which an eighth goes to water, a fourth to air.
    let ldpe = plastics(1, 2, 250, [0.5, 0.25, 0.125]);
    assert_eq!(kilograms(&ldpe), [5775, 0, 11_550, 0].map(Ratio::whole));
    assert_eq!(work_out(&ldpe.encode()), Ok([5_775_000_000_000, 0, 11_550_000_000_000, 0]));
    // 80 t, all of it to water in the longest year.
    let epoxy = plastics(18, 3, 366, [1., 0., 1.]);
    assert_eq!(kilograms(&epoxy), to_stp(fraction(40_000, 183)));
    assert_eq!(work_out(&epoxy.encode()), Ok([218_579_234_973, 0, 0, 0]));
}

#[test]
fn the_sum_of_plastics_is_rounded_once() {
    let half_step = 2f64.powi(-53);
    let sum = |b, c| work_out(&plastics(1, 3, 1, [1., b, c]).encode());
    // A tie, which goes to even, and so to 1.
    assert_eq!(sum(1., half_step), Ok([1, 0, 528_000_000_000_000, 0]));
    assert_eq!(sum(half_step, 1.), Ok([528_000_000_000_000, 0, 1, 0]));
    assert_eq!(sum(1., half_step.next_up()), Err(11));
    assert_eq!(sum(0.5, 0.5f64.next_up()), Ok([264_000_000_000_001, 0, 264_000_000_000_000, 0]));
    assert_eq!(sum(0.75, 0.5), Err(11));
}

#[test]
fn a_polymer_without_usage() {
    // LDPE is used in no open process; where no process is meant, or no polymer, that is said first.
    let refusal = |row, user, route, count| {
        refusal(&Case { route, dossier: 0, ..plastics(row, user, count, [-1., 2., 2.]) }.encode())
    };
    assert_eq!(refusal(1, 1, 1, 250), 31);
    assert_eq!(refusal(1, 1, 1, 0), 31);
    assert_eq!(refusal(1, 2, 1, 0), 6);
    assert_eq!([0, 4].map(|user| refusal(1, user, 1, 0)), [5, 5]);
    assert_eq!([0, 19].map(|row| refusal(row, 1, 2, 0)), [3, 3]);
    assert_eq!([0, 2, 3].map(|route| refusal(1, 1, route, 0)), [4, 4, 4]);
    assert_eq!(refusal(1, 2, 1, 366), 7);
    assert_eq!(refusal(1, 2, 1, 367), 6);
}

#[test]
fn a_value_above_zero_is_never_shown_as_zero() {
    let least = f64::from_bits(1);
    let tiny = case(7, 1, [least, least, least, 1. - 2f64.powi(-53), least, 0.]);
    assert_eq!(work_out(&tiny.encode()), Ok([1, 0, 0, 0]));
    let nearly_all = case(4, 1, [1., 1. - 2f64.powi(-53), 1., 0., 0., 0.]);
    assert_eq!(work_out(&nearly_all.encode()), Ok([1, 0, 0, 0]));
}

#[test]
fn the_greatest_figure() {
    let most = Case { count: 1, ..case(5, 0, [1e6, 1., 1., 0., 0., 0.]) };
    assert_eq!(work_out(&most.encode()), Ok([1_000_000_000_000_000_000, 0, 0, 0]));
}
