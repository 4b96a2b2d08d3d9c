//! Values as they are shown: shortest and exact, and the sheet's lines, decimals and origin.

mod common;
use common::json::Json;
use common::{archive_with, fields, of_every_row, p1, words, Place};
use csorvelin_binding::VERSION;
use csorvelin_differential::{cases, random::Random};
use csorvelin_model::binary64;
use csorvelin_model::case::{Case, QUANTITIES};
use csorvelin_model::equations::{product, Sheet};
use csorvelin_model::natural::Natural;
use csorvelin_model::ranges;
use csorvelin_model::ratio::Ratio;
use std::process::Command;

const WIDTH: usize = 100;

/// Patterns that make long numbers: subnormals, all bits of the significand, powers of two of every size.
const UGLY: [u64; 8] = [
    1,
    0x000f_ffff_ffff_ffff,
    0x0010_0000_0000_0001,
    0x001f_ffff_ffff_ffff,
    0x1555_5555_5555_5555,
    0x3c9f_ffff_ffff_ffff,
    0x3fd5_5555_5555_5555,
    0x3fef_ffff_ffff_ffff,
];

/// Cases of every kind and row whose listed quantities are all of one ugly pattern, and some with a mixture.
fn ugly_cases() -> Vec<Case> {
    let mut random = Random::new(461);
    let mut ugly = vec![];
    for (kind, row) in cases::kinds_and_rows() {
        for round in 0..UGLY.len() + 4 {
            let mut case = Case { dossier: u64::MAX, ..cases::valid_of(kind, row, &mut random) };
            for listed in ranges::listed(kind, row) {
                case.patterns[listed.index] = UGLY.get(round).copied().unwrap_or_else(|| random.pick(&UGLY));
            }
            if let ([_, further @ ..], _) = ranges::summed(kind) {
                if ranges::refusal(&case.encode()) == 11 {
                    further.iter().for_each(|&index| case.patterns[index] = 1);
                }
            }
            ugly.push(case);
        }
    }
    ugly
}

fn explained(place: &Place, case: &Case) -> String {
    let ran = place.run(&words(&["explain"], &fields(case)));
    assert_eq!(ran.ends(0).err, "");
    ran.out
}

/// The lines of a sheet as they were before they were broken: a number that was broken is whole again.
fn unbroken(sheet: &str) -> String {
    let mut text = String::new();
    for line in sheet.lines() {
        match line.strip_prefix("         ").filter(|rest| !rest.starts_with(' ')) {
            Some(rest) => text = text.strip_suffix('\\').map_or(format!("{text} "), str::to_string) + rest,
            None => text = text + "\n" + line,
        }
    }
    text.trim_start().to_string() + "\n"
}

#[test]
fn sheets_fit_a_page_whatever_the_quantities() {
    let place = Place::new("sheets_width");
    let cases = [of_every_row(3, &mut Random::new(462)), ugly_cases()].concat();
    let (mut full, mut broken) = (0, 0);
    for case in cases {
        let sheet = explained(&place, &case);
        for line in sheet.lines() {
            assert!(line.chars().count() <= WIDTH && line == line.trim_end(), "{line}");
            full += usize::from(line.chars().count() > WIDTH - 10);
        }
        let says = sheet.ends_with("\nA number that ends in \\ goes on in the next line.\n");
        assert_eq!(sheet.contains("\\\n"), says, "{sheet}");
        broken += usize::from(says);
        assert!(sheet.contains("\nChecked: the library and the model give the same four figures.\n"), "{sheet}");
    }
    // Lines are filled, and some numbers are longer than a line.
    assert!(full > 500 && broken > 5, "{full} {broken}");
}

/// The fraction of a text such as `7`, `1/13`, `3/2^100` or `3/(7·2^100)`.
fn fraction(text: &str) -> Ratio {
    let whole = |text: &str| Ratio::from_decimal(text).unwrap_or_else(|| panic!("{text}"));
    let power = |text: &str| match text.strip_prefix("2^") {
        Some(exponent) => Ratio::new(Natural::power_of_two(exponent.parse().unwrap()), Natural::one()),
        None => whole(text),
    };
    let Some((upper, lower)) = text.split_once('/') else {
        return whole(text);
    };
    let lower = lower.trim_start_matches('(').trim_end_matches(')');
    lower.split('·').fold(whole(upper), |value, factor| value.over(&power(factor)))
}

/// Whether a decimal is a value: all of it, or with `…` its first digits, at least 17 of them.
fn is_decimal_of(decimal: &str, value: &Ratio) -> bool {
    let Some((digits, exponent)) = decimal.split_once('…') else {
        return Ratio::from_decimal(decimal).unwrap() == *value;
    };
    let places = digits.split_once('.').unwrap().1.len() as i32;
    let significant = digits.replace('.', "").trim_start_matches('0').len();
    let exponent: i32 = exponent.strip_prefix('e').map_or(0, |exponent| exponent.parse().unwrap());
    let least = Ratio::from_decimal(&format!("{digits}e{exponent}")).unwrap();
    let unit = Ratio::from_decimal(&format!("1e{}", exponent - places)).unwrap();
    significant >= 17 && least < *value && *value < least.plus(&unit)
}

#[test]
fn the_checks_of_this_file_can_fail() {
    let thirteenth = fraction("1/13");
    assert!(is_decimal_of("0.076923076923076923…", &thirteenth));
    for wrong in ["0.076923076923076924…", "0.076923076923076922…", "0.0769230769230769…", "0.076923076923076923"]
    {
        assert!(!is_decimal_of(wrong, &thirteenth), "{wrong}");
    }
    assert!(is_decimal_of("1.25", &fraction("5/4")) && !is_decimal_of("1.26", &fraction("5/4")));
    assert!(is_decimal_of("4.9406564584124654…e-324", &fraction("1/2^1074")));
    assert!(!is_decimal_of("4.9406564584124654…e-323", &fraction("1/2^1074")));
    assert_eq!(fraction("3/(7·2^100)"), fraction("3/7").times(&fraction("1/2^100")));
}

/// Every fraction of a sheet has its decimal beside it, and the fractions are the model's.
#[test]
fn decimals_beside_fractions_are_right() {
    let place = Place::new("sheets_decimals");
    let mut decimals = 0;
    for case in [of_every_row(2, &mut Random::new(463)), ugly_cases()].concat() {
        let (text, sheet) = (unbroken(&explained(&place, &case)), Sheet::of(&case.encode()).unwrap());
        let mut lines = text.lines().filter_map(|line| line.strip_prefix("  = "));
        for compartment in (0..4).filter(|&compartment| !sheet.emissions[compartment].is_empty()) {
            let chains = &sheet.emissions[compartment];
            let mut kilograms: Vec<(Ratio, &str)> = vec![];
            if chains.len() > 1 {
                kilograms.extend(chains.iter().map(|chain| (product(chain), " kg per day, to be added")));
            }
            kilograms.push((sheet.kilograms(compartment), " kg per day"));
            for (value, end) in kilograms {
                let line = lines.next().unwrap();
                let (exact, decimal) = beside(line.strip_suffix(end).unwrap_or_else(|| panic!("{line}{end}")));
                assert_eq!(fraction(exact), value, "{text}");
                assert!(is_decimal_of(decimal, &value), "{exact} {decimal}");
                decimals += 1;
            }
            let line = lines.next().unwrap();
            let value = sheet.micrograms(compartment);
            match line.strip_suffix(" µg per day, a whole number") {
                Some(whole) => assert_eq!(fraction(whole), value),
                None => {
                    let line = line.strip_suffix("), rounded up").unwrap();
                    let (exact, decimal) = line.split_once(" µg per day (= ").unwrap();
                    let (whole, rest) = exact.split_once(" + ").unwrap();
                    assert_eq!(fraction(whole).plus(&fraction(rest)), value);
                    assert!(fraction(rest) < Ratio::whole(1) && is_decimal_of(decimal, &value), "{line}");
                }
            }
        }
        assert_eq!(lines.next(), None, "{text}");
        factors_are_right(&text, &sheet);
    }
    assert!(decimals > 500);
}

/// A fraction and the decimal beside it; a value that is written once is both.
fn beside(text: &str) -> (&str, &str) {
    match text.split_once(" (= ") {
        Some((exact, decimal)) => (exact, decimal.strip_suffix(')').unwrap()),
        None => (text, text),
    }
}

/// Each factor's line has its exact value.
fn factors_are_right(text: &str, sheet: &Sheet) {
    let lines: Vec<&str> = text.lines().filter(|line| line.ends_with(']') && line.starts_with("  ")).collect();
    let factors: Vec<_> = sheet.emissions.iter().flatten().flatten().collect();
    assert_eq!(lines.len(), factors.len(), "{text}");
    for (line, factor) in lines.iter().zip(factors) {
        let meaning = format!("  {}  [{}]", factor.meaning, factor.source);
        let blanks = |text: &str| text.split_whitespace().collect::<Vec<_>>().join(" ");
        let (line, meaning) = (blanks(line), blanks(&meaning));
        let front = line.strip_suffix(&meaning).unwrap_or_else(|| panic!("{line} for {meaning}")).trim();
        let front = front.trim_start_matches(['×', '/', ' ']);
        let value = front.strip_prefix(factor.symbol.as_str()).filter(|value| !value.is_empty()).unwrap_or(front);
        let (exact, decimal) = beside(value.trim());
        assert_eq!(fraction(exact), factor.value, "{line}");
        assert!(is_decimal_of(decimal, &factor.value), "{line}");
        assert_eq!(exact.contains('/'), value.contains(" (= "), "{line}");
    }
}

/// The lines of the quantities in a text, as their names and values.
fn quantities(text: &str) -> Vec<(usize, String)> {
    let lines = text.lines().filter_map(|line| {
        let (name, value) = line.split_once("        ")?;
        let index = QUANTITIES.iter().position(|quantity| name == quantity.to_string())?;
        Some((index, value.to_string()))
    });
    lines.collect()
}

/// Everywhere a quantity is its shortest decimal with its pattern; the exact value only on request, or in a sheet.
#[test]
fn shortest_decimals_everywhere_and_exact_values_on_request() {
    let place = Place::new("values");
    for case in [of_every_row(1, &mut Random::new(464)), ugly_cases().into_iter().step_by(7).collect()].concat() {
        place.write("archive", &archive_with(&[case]));
        place.write("case", &case.encode());
        let shown: [&[&str]; 5] = [
            &["work-out", "--case", "case"],
            &["case", "--case", "case"],
            &["show", "archive", "0"],
            &["worst", "archive", "stp"],
            &["file", "other", "--case", "case"],
        ];
        let listed = ranges::listed(case.kind, case.row);
        let check = |words: &[&str], text: &str, with_exact: bool| {
            let values = quantities(&unbroken(text));
            assert_eq!(values.len(), listed.len(), "{words:?}: {text}");
            for (index, value) in values {
                let pattern = case.patterns[index];
                let (value, _) = value.split_once(&format!(" ({pattern:#018x})")).expect("the pattern");
                let (shortest, exact) =
                    value.split_once(" = ").map_or((value, None), |(one, other)| (one, Some(other)));
                assert_eq!(shortest.parse::<f64>().unwrap().to_bits(), pattern);
                assert!(!reads_back_shorter(shortest, pattern), "{shortest}");
                let same = Ratio::from_decimal(shortest).unwrap() == binary64::exact(pattern);
                assert_eq!(exact.is_some(), with_exact && !same, "{words:?}: {value}");
                assert!(exact.is_none_or(|exact| fraction(exact) == binary64::exact(pattern)), "{value}");
            }
        };
        for words in shown {
            for exact in [false, true] {
                std::fs::write(place.path("other"), archive_with(&[])).unwrap();
                let words = [words, if exact { &["--exact"] } else { &[] }].concat();
                check(&words, &place.run(&words).ends(0).out, exact);
            }
        }
        let words = ["explain", "archive", "0"];
        check(&words, &place.run(&words).ends(0).out, true);
    }
}

/// Whether the nearest decimal of one digit less reads back to the pattern too.
fn reads_back_shorter(decimal: &str, pattern: u64) -> bool {
    let digits = decimal.split('e').next().unwrap().replace('.', "");
    let digits = digits.trim_matches('0').len();
    let shorter = |places: usize| format!("{:.places$e}", f64::from_bits(pattern)).parse::<f64>().unwrap();
    digits > 1 && shorter(digits - 2).to_bits() == pattern
}

/// Today in universal time, by another program.
fn today() -> String {
    let output = Command::new("date").args(["-u", "+%Y-%m-%d"]).output().unwrap();
    String::from_utf8(output.stdout).unwrap().trim_end().to_string()
}

#[test]
fn the_sheet_names_software_day_archive_and_record() {
    let place = Place::new("sheets_origin");
    place.write("archive", &archive_with(&[p1(), Case { dossier: 8, ..p1() }]));
    let before = today();
    let of_record = place.run(&["explain", "archive", "1"]).ends(0).out.clone();
    let of_case = place.run(&words(&["explain"], &fields(&p1()))).ends(0).out.clone();
    let json = Json::read(&place.run(&["explain", "archive", "1", "--json"]).ends(0).out);
    let piped = place.run_on(&place.read("archive"), &["explain", "-", "1"]).ends(0).out.clone();
    let days = [before, today()];
    let line = |text: &str| text.lines().next().unwrap().to_string();
    for sheet in [&of_record, &of_case, &piped] {
        assert!(
            days.iter().any(|day| line(sheet) == format!("sheet    csorvelin {VERSION}, printed {day} (UTC)")),
            "{sheet}"
        );
    }
    let behind =
        |text: &str, count: usize| text.lines().skip(1).take(count).map(|line| format!("{line}\n")).collect::<String>();
    assert_eq!(behind(&of_record, 3), "archive  archive\nrecord   1\nkind     4  sanitary use, by tonnage\n");
    assert_eq!(behind(&piped, 2), "archive  -\nrecord   1\n");
    assert_eq!(behind(&of_case, 1), "kind     4  sanitary use, by tonnage\n");
    assert!(days.iter().any(|day| json.text(&["printed"]) == day));
    assert_eq!((json.text(&["version"]), json.text(&["archive"]), json.text(&["record"])), (VERSION, "archive", "1"));
    let json = Json::read(&place.run(&words(&["explain", "--json"], &fields(&p1()))).ends(0).out);
    assert!(json.has("printed") && json.has("version") && !json.has("archive") && !json.has("record"));
}

#[test]
fn a_long_archive_name_is_whole_on_the_sheet_and_within_its_lines() {
    let place = Place::new("sheets_names");
    let names = ["n".repeat(250), format!("{} {}", "a".repeat(120), "b".repeat(120)), "ä ".repeat(80) + "z"];
    for name in names {
        place.write(&name, &archive_with(&[p1()]));
        let sheet = place.run(&["explain", &name, "0"]).ends(0).out.clone();
        assert!(sheet.lines().all(|line| line.chars().count() <= WIDTH), "{sheet}");
        assert!(unbroken(&sheet).contains(&format!("\narchive  {name}\nrecord   0\n")), "{sheet}");
    }
}

/// The sheet as JSON has the same fractions, whole.
#[test]
fn sheets_as_json() {
    let place = Place::new("sheets_json");
    for case in ugly_cases().into_iter().step_by(5) {
        let answer = Json::read(&place.run(&words(&["explain", "--json"], &fields(&case))).ends(0).out);
        let sheet = Sheet::of(&case.encode()).unwrap();
        let emissions = answer.list(&["sheet", "emissions"]);
        assert_eq!(emissions.len(), 4);
        for (compartment, emission) in emissions.iter().enumerate() {
            assert_eq!(fraction(emission.text(&["kilograms"])), sheet.kilograms(compartment));
            assert_eq!(fraction(emission.text(&["micrograms"])), sheet.micrograms(compartment));
            assert!(is_decimal_of(emission.text(&["kilograms_decimal"]), &sheet.kilograms(compartment)));
            assert!(is_decimal_of(emission.text(&["micrograms_decimal"]), &sheet.micrograms(compartment)));
            assert_eq!(emission.text(&["figure"]), sheet.figures()[compartment].to_string());
            let terms = emission.list(&["terms"]);
            assert_eq!(terms.len(), sheet.emissions[compartment].len());
        }
    }
}
