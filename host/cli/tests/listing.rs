//! The listing: which records, in which order, as text, CSV and JSON, and in how much memory.

mod common;
use common::json::Json;
use common::{archive_of, archive_of_records, archive_with, copies, of_every_row, p1, record, words, Place};
use csorvelin_differential::{cases, random::Random};
use csorvelin_model::archive::figures_of;
use csorvelin_model::binary64;
use csorvelin_model::case::{little_endian, Case, QUANTITIES};
use csorvelin_model::listing::printed;
use std::cmp::Reverse;
use std::io::Read;
use std::process::Stdio;

const COMPARTMENTS: [&str; 4] = ["stp", "surface", "air", "soil"];

/// An archive of some hundred records with few dossiers and many equal figures, some of them filed by no call.
fn mixed(random: &mut Random) -> Vec<Vec<u8>> {
    let mut records: Vec<Vec<u8>> = of_every_row(8, random).iter().map(record).collect();
    for record in &mut records {
        record[8..16].copy_from_slice(&random.between(0, 5).to_le_bytes());
        if random.one_in(4) {
            record[0] = random.between(0, 9) as u8;
        }
        if random.one_in(3) {
            record[64..96].copy_from_slice(&[1000, 1001, 1001, u64::MAX].map(u64::to_le_bytes).concat());
        }
    }
    records
}

/// A selection's words, and the numbers of the records that it leaves, in their order.
fn selected(
    records: &[Vec<u8>],
    dossier: Option<u64>,
    kind: Option<u8>,
    top: Option<(usize, usize)>,
) -> (Vec<String>, Vec<usize>) {
    let takes = |record: &[u8]| {
        dossier.is_none_or(|dossier| little_endian(&record[8..16]) == dossier)
            && kind.is_none_or(|kind| record[0] == kind)
    };
    let mut numbers: Vec<usize> = (0..records.len()).filter(|&number| takes(&records[number])).collect();
    let mut words = vec![];
    words.extend(dossier.map(|dossier| format!("--dossier={dossier}")));
    words.extend(kind.map(|kind| format!("--kind={kind}")));
    if let Some((count, compartment)) = top {
        numbers.sort_by_key(|&number| (Reverse(figures_of(&records[number])[compartment]), number));
        numbers.truncate(count);
        words.extend(["--top".to_string(), count.to_string(), COMPARTMENTS[compartment].to_string()]);
    }
    (words, numbers)
}

#[test]
fn selections_are_lines_of_the_whole_listing() {
    let place = Place::new("list_selections");
    let mut random = Random::new(451);
    let records = mixed(&mut random);
    let bytes = archive_of_records(&records);
    place.write("archive", &bytes);
    let text = place.run(&["list", "archive"]).ends(0).out.clone();
    assert_eq!(text, printed(&bytes));
    let csv = place.run(&["list", "archive", "--csv"]).ends(0).out.clone();
    let json = place.run(&["list", "archive", "--json"]).ends(0).out.clone();
    let json = Json::read(&json);
    let (mut empty, mut some) = (0, 0);
    for round in 0..60 {
        let dossier = random.one_in(2).then(|| random.between(0, 6));
        let kind = random.one_in(2).then(|| random.between(0, 10) as u8);
        let top = random.one_in(2).then(|| (random.pick(&[0, 1, 2, 10, 500]), round % 4));
        let (selection, numbers) = selected(&records, dossier, kind, top);
        let lines = |text: &str| {
            let lines: Vec<&str> = text.lines().collect();
            let chosen = numbers.iter().map(|number| lines[number + 1]);
            [lines[0]].into_iter().chain(chosen).map(|line| format!("{line}\n")).collect::<String>()
        };
        let list = |format: &[&str]| {
            place.run(&words(&[&["list", "archive"], format].concat(), &selection)).ends(0).out.clone()
        };
        assert_eq!(list(&[]), lines(&text), "{selection:?}");
        assert_eq!(list(&["--csv"]), lines(&csv), "{selection:?}");
        let answer = Json::read(&list(&["--json"]));
        let expected: Vec<&Json> = numbers.iter().map(|&number| &json.list(&["records"])[number]).collect();
        assert_eq!(answer.list(&["records"]).iter().collect::<Vec<_>>(), expected, "{selection:?}");
        *if numbers.is_empty() { &mut empty } else { &mut some } += 1;
    }
    assert!(empty > 3 && some > 30, "{empty} {some}");
}

#[test]
fn the_highest_come_first_and_among_equals_the_first_filed() {
    let place = Place::new("list_top");
    let figures = [[5, 0, 7, 0], [9, 0, 7, 0], [5, 1, 0, 0], [9, 0, 7, 1], [0, 0, 8, 0]];
    let records = figures.map(|figures| csorvelin_model::archive::record(&p1().encode(), &figures));
    place.write("archive", &archive_of_records(&records));
    let top = |count: &str, compartment: &str| -> String {
        let ran = place.run(&["list", "archive", "--top", count, compartment]);
        ran.ends(0).out.lines().skip(1).map(|line| line.split(' ').next().unwrap()).collect()
    };
    for (compartment, order) in [("stp", "13024"), ("surface", "20134"), ("air", "40132"), ("soil", "30124")] {
        for count in 0..=5 {
            assert_eq!(top(&count.to_string(), compartment), order[..count]);
        }
        for count in ["6", "0xff", "18446744073709551615"] {
            assert_eq!(top(count, compartment), order);
        }
        // The first is the worst.
        let worst = place.run(&["worst", "archive", compartment]);
        assert!(worst.ends(0).out.starts_with(&format!("record   {}\n", &order[..1])), "{}", worst.out);
    }
}

#[test]
fn a_compartment_is_a_name_in_any_letter_case_or_a_number() {
    let place = Place::new("list_compartments");
    place.write("archive", &archive_of(50, &mut Random::new(452)));
    for (index, name) in COMPARTMENTS.iter().enumerate() {
        let expected = place.run(&["list", "archive", "--top", "7", name]).ends(0).out.clone();
        let worst = place.run(&["worst", "archive", name]).ends(0).out.clone();
        let mixed: String =
            name.chars().enumerate().map(|(n, c)| if n % 2 == 1 { c.to_ascii_uppercase() } else { c }).collect();
        for spelling in [name.to_uppercase(), mixed, (index + 1).to_string(), format!("0x{}", index + 1)] {
            assert_eq!(place.run(&["list", "archive", "--top", "7", &spelling]).ends(0).out, expected);
            assert_eq!(place.run(&["worst", "archive", &spelling]).ends(0).out, worst);
        }
    }
    // Any other is refused before the archive is looked at.
    for archive in ["archive", "missing"] {
        for compartment in ["0", "5", "18446744073709551615"] {
            for words in [vec!["list", archive, "--top", "1", compartment], vec!["worst", archive, compartment]] {
                let ran = place.run(&words);
                let refused = "refused 12: the compartment is not one of 1 to 4\n  field    compartment\n";
                assert!(ran.ends(12).err.starts_with(refused) && ran.out.is_empty(), "{}", ran.err);
            }
        }
        for compartment in ["river", "", "+1", "1.0", "st", "stp "] {
            for words in [vec!["list", archive, "--top", "1", compartment], vec!["worst", archive, compartment]] {
                let ran = place.run(&words);
                let none = format!(
                    "csorvelin: compartment: '{compartment}' is none of stp, surface, air, soil, nor a number\n"
                );
                assert!(ran.ends(64).err.starts_with(&none), "{}", ran.err);
            }
        }
    }
}

#[test]
fn wrong_selections() {
    let place = Place::new("list_usage");
    place.write("archive", &archive_of(3, &mut Random::new(453)));
    let wrong: [&[&str]; 12] = [
        &["--json", "--csv"],
        &["--kind"],
        &["--kind", "256"],
        &["--kind", "city"],
        &["--kind=4", "--kind=4"],
        &["--dossier", "18446744073709551616"],
        &["--dossier", "-7"],
        &["--dossier="],
        &["--top"],
        &["--top", "5"],
        &["--top", "many", "stp"],
        &["--top=1", "stp", "--top=1", "air"],
    ];
    for options in wrong {
        let ran = place.run(&words(&["list", "archive"], options));
        let said = if options.contains(&"--json") { &ran.out } else { &ran.err };
        assert!(ran.status == Some(64) && !said.is_empty(), "{options:?}\n{}\n{}", ran.out, ran.err);
    }
}

/// The limit is that of the printed archive, not of CSV and selections.
#[test]
fn long_archives() {
    let place = Place::new("list_long");
    for (n, long) in [(682, false), (683, true)] {
        let bytes = copies(&p1(), n);
        assert_eq!(bytes.len() > 65_536, long);
        place.write("archive", &bytes);
        let status = if long { 21 } else { 0 };
        place.run(&["list", "archive"]).ends(status);
        place.run(&["list", "archive", "--json"]).ends(status);
        let last = format!("{} {n} 4 1 1 76924 0 0 0\n", n - 1);
        let dossier = format!("--dossier={n}");
        let whole: [&[&str]; 3] = [&["--all"], &["--kind=4"], &["--top", "683", "stp"]];
        for options in whole {
            let ran = place.run(&words(&["list", "archive"], options));
            assert!(ran.ends(0).out.lines().count() as u64 == n + 1 && ran.out.ends_with(&last), "{options:?}");
            let ran = place.run(&words(&["list", "archive", "--json"], options));
            assert_eq!(Json::read(&ran.ends(0).out).list(&["records"]).len() as u64, n);
        }
        assert_eq!(place.run(&["list", "archive", &dossier]).ends(0).out.lines().nth(1), Some(last.trim_end()));
        for options in [&["--csv"][..], &["--csv", "--all"]] {
            assert_eq!(place.run(&words(&["list", "archive"], options)).ends(0).out.lines().count() as u64, n + 1);
        }
    }
}

/// Well-formed, whatever the records hold, with each record's number and every field.
#[test]
fn records_as_json() {
    let place = Place::new("list_json");
    let mut random = Random::new(454);
    let mut records: Vec<Vec<u8>> = (0..200).map(|_| record(&cases::valid(&mut random))).collect();
    records.extend((0..100).map(|_| [cases::damaged(&mut random).encode().to_vec(), random.bytes(32)].concat()));
    records.extend((0..100).map(|_| random.bytes(96)));
    records.push(vec![255; 96]);
    place.write("archive", &archive_of_records(&records));
    let answer = Json::read(&place.run(&["list", "archive", "--json"]).ends(0).out);
    assert_eq!((answer.keys(), answer.list(&["records"]).len()), (vec!["records"], records.len()));
    for (number, (shown, bytes)) in answer.list(&["records"]).iter().zip(&records).enumerate() {
        assert_eq!(shown.text(&["record"]), number.to_string());
        let case = Case::decode(&bytes[..64]).unwrap();
        let whole = [("kind", case.kind), ("row", case.row), ("route", case.route), ("user", case.user)];
        for (name, value) in whole {
            assert_eq!(shown.number(&["case", name]), u64::from(value));
        }
        assert_eq!(shown.number(&["case", "T"]), u64::from(case.count));
        assert_eq!(shown.text(&["case", "dossier"]), case.dossier.to_string());
        let hex: String = bytes[..64].iter().map(|byte| format!("{byte:02x}")).collect();
        assert_eq!(shown.text(&["case", "bytes"]), hex);
        for (name, pattern) in QUANTITIES.iter().zip(case.patterns) {
            let quantity = |key: &str| shown.text(&["case", "quantities", &name.to_string(), key]);
            assert_eq!(quantity("pattern"), format!("{pattern:#018x}"));
            if binary64::is_quantity(pattern) {
                assert_eq!(quantity("shortest").parse::<f64>().unwrap().to_bits(), pattern);
                let exact = binary64::exact(pattern);
                assert!(
                    [exact.to_string(), exact.exact_decimal(1100).unwrap()].contains(&quantity("exact").to_string())
                );
            } else {
                assert_eq!((quantity("shortest"), quantity("exact")), ("not a quantity", "not a quantity"));
            }
        }
        for (name, figure) in COMPARTMENTS.iter().zip(figures_of(bytes)) {
            assert_eq!(shown.text(&["figures", name]), figure.to_string());
        }
    }
    // The same object where one record is shown.
    let last = records.len() - 1;
    for (words, number) in [
        (["show", "archive", "0"], 0),
        (["show", "archive", &last.to_string()], last),
        (["worst", "archive", "air"], last),
    ] {
        let shown = place.run(&[&words[..], &["--json"]].concat());
        assert_eq!(Json::read(&shown.ends(0).out), answer.list(&["records"])[number]);
    }
    place.write("empty", &archive_with(&[]));
    assert_eq!(place.run(&["list", "empty", "--json"]).ends(0).out, "{\"records\":[]}\n");
}

/// The end of what a command prints, and how much it prints, in no more memory than this many kilobytes.
fn end_within(place: &Place, kilobytes: u32, words: &[&str]) -> (String, usize) {
    let mut command = place.command_after(&format!("ulimit -v {kilobytes}"), words);
    let mut child = command.stdout(Stdio::piped()).spawn().unwrap();
    let mut from = child.stdout.take().unwrap();
    let (mut piece, mut end, mut length) = (vec![0; 1 << 16], vec![], 0);
    loop {
        let read = from.read(&mut piece).unwrap();
        length += read;
        end.extend(&piece[..read]);
        end.drain(..end.len().saturating_sub(2000));
        if read == 0 {
            break;
        }
    }
    assert!(child.wait().unwrap().success(), "{words:?}");
    (String::from_utf8(end).unwrap(), length)
}

/// An archive of 19 MB is listed within 100 MB, though its JSON has more.
#[test]
fn long_listings_are_written_record_by_record() {
    let place = Place::new("list_memory");
    place.write("archive", &copies(&p1(), 200_000));
    let (end, length) = end_within(&place, 100_000, &["list", "archive", "--all", "--json"]);
    assert!(length > 120_000_000, "{length}");
    let last = end.rfind("{\"record\":").unwrap();
    let last = Json::read(&format!("{}\n", end[last..].strip_suffix("]}\n").unwrap()));
    assert_eq!((last.text(&["record"]), last.text(&["case", "dossier"])), ("199999", "200000"));
    let (end, _) = end_within(&place, 100_000, &["list", "archive", "--csv"]);
    assert!(end.ends_with("\n199999,4,1,1,0,0,200000,100,0,1,,,,76923077,0,0,0,100,0,1,,,\n"), "{end}");
    let (end, _) = end_within(&place, 100_000, &["list", "archive", "--all"]);
    assert!(end.ends_with("\n199999 200000 4 1 1 76924 0 0 0\n"), "{end}");
    let (end, _) = end_within(&place, 100_000, &["list", "archive", "--top", "200000", "stp"]);
    assert!(end.ends_with("\n199999 200000 4 1 1 76924 0 0 0\n"), "{end}");
}
