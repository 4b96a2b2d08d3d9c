//! Export: a record's loads for people, as JSON and as 32 bytes; refusals as show has them; files that are never written over.

mod common;
use common::json::Json;
use common::{archive_of, archive_of_records, archive_with, p1, Place};
use csorvelin_differential::random::Random;
use csorvelin_model::archive;
use csorvelin_model::case::Case;

const COMPARTMENTS: [&str; 4] = ["stp", "surface", "air", "soil"];

/// A record of these figures, whose case is any bytes: nobody filed it.
fn foreign(figures: [u64; 4]) -> Vec<u8> {
    archive::record(&[0xff; 64], &figures)
}

/// Figures beyond 2^53: one that is a binary64 number, one that is not, and the highest there is.
const LARGE: [u64; 4] = [(1 << 53) + 1, 1 << 60, (1 << 60) + 1, u64::MAX];

#[test]
fn loads_are_printed_with_pattern_and_figure() {
    let place = Place::new("export");
    place.write("archive", &archive_with(&[Case { dossier: 6, ..p1() }, p1()]));
    let ran = place.run(&["export", "archive", "1"]);
    let expected = "\
record   1
stp      76923077 µg per day (0x4192570314000000)  figure 76923077
surface  0 µg per day (0x0000000000000000)  figure 0
air      0 µg per day (0x0000000000000000)  figure 0
soil     0 µg per day (0x0000000000000000)  figure 0
bytes    0000001403579241000000000000000000000000000000000000000000000000
";
    assert_eq!((ran.ends(0).out.as_str(), ran.err.as_str()), (expected, ""));
}

#[test]
fn a_load_above_its_figure_is_said_to_be_rounded_up() {
    let place = Place::new("export_large");
    place.write("archive", &archive_of_records(&[foreign([0; 4]), foreign(LARGE)]));
    let ran = place.run(&["export", "archive", "1"]);
    let expected = "\
record   1
stp      9007199254740994 µg per day (0x4340000000000001)  figure 9007199254740993, rounded up
surface  1152921504606846976 µg per day (0x43b0000000000000)  figure 1152921504606846976
air      1152921504606847232 µg per day (0x43b0000000000001)  figure 1152921504606846977, rounded up
soil     18446744073709551616 µg per day (0x43f0000000000000)  figure 18446744073709551615, rounded up
bytes    0100000000004043000000000000b043010000000000b043000000000000f043
";
    assert_eq!((ran.ends(0).out.as_str(), ran.err.as_str()), (expected, ""));
}

#[test]
fn loads_as_json() {
    let place = Place::new("export_json");
    place.write("archive", &archive_of_records(&[foreign(LARGE)]));
    let ran = place.run(&["export", "archive", "0", "--json"]);
    let expected = concat!(
        "{\"record\":\"0\",\"loads\":{",
        "\"stp\":{\"pattern\":\"0x4340000000000001\",\"exact\":\"9007199254740994\",\"figure\":\"9007199254740993\"},",
        "\"surface\":{\"pattern\":\"0x43b0000000000000\",\"exact\":\"1152921504606846976\",",
        "\"figure\":\"1152921504606846976\"},",
        "\"air\":{\"pattern\":\"0x43b0000000000001\",\"exact\":\"1152921504606847232\",",
        "\"figure\":\"1152921504606846977\"},",
        "\"soil\":{\"pattern\":\"0x43f0000000000000\",\"exact\":\"18446744073709551616\",",
        "\"figure\":\"18446744073709551615\"}},",
        "\"bytes\":\"0100000000004043000000000000b043010000000000b043000000000000f043\"}\n"
    );
    assert_eq!((ran.ends(0).out.as_str(), ran.err.as_str()), (expected, ""));
}

/// The four loads in a file, and nothing else; what is printed is the same as without it.
#[test]
fn the_bytes_in_a_new_file() {
    let place = Place::new("export_out");
    let bytes = archive_of_records(&[foreign(LARGE), foreign([0; 4])]);
    place.write("archive", &bytes);
    let printed = place.run(&["export", "archive", "0"]).ends(0).out.clone();
    let ran = place.run(&["export", "archive", "0", "--out", "loads"]);
    assert_eq!(ran.ends(0).out, printed + "written  loads\n");
    let loads: [[u8; 8]; 4] = [
        [1, 0, 0, 0, 0, 0, 0x40, 0x43],
        [0, 0, 0, 0, 0, 0, 0xb0, 0x43],
        [1, 0, 0, 0, 0, 0, 0xb0, 0x43],
        [0, 0, 0, 0, 0, 0, 0xf0, 0x43],
    ];
    assert_eq!(place.read("loads"), loads.as_flattened());
    let json = place.run(&["export", "archive", "0", "--json"]).ends(0).out.clone();
    let ran = place.run(&["export", "archive", "0", "--json", "--out=again"]);
    assert_eq!(ran.ends(0).out, json.replace("\"}\n", "\",\"written\":\"again\"}\n"));
    assert_eq!(place.read("again"), place.read("loads"));
    // An existing file is never written over, whatever it holds; nor is the archive.
    for name in ["loads", "archive"] {
        let before = place.read(name);
        let ran = place.run(&["export", "archive", "1", "--out", name]);
        assert_eq!(ran.ends(73).err, format!("csorvelin: {name} exists already; nothing was written\n"));
        assert_eq!((ran.out.as_str(), place.read(name)), ("", before));
    }
    let ran = place.run(&["export", "archive", "0", "--out", "-"]);
    assert!(ran.ends(64).err.starts_with("csorvelin: --out needs a file, not standard output\n"), "{}", ran.err);
    assert_eq!(
        (place.read("archive"), place.names()),
        (bytes, ["again", "archive", "loads"].map(String::from).to_vec())
    );
}

/// Zeros in a record are its loads, with status 0; where there is no record there is a status and no file.
#[test]
fn a_record_of_zeros_is_no_refusal() {
    let place = Place::new("export_zeros");
    place.write("archive", &archive_with(&[Case { patterns: [0; 6], ..p1() }]));
    let ran = place.run(&["export", "archive", "0", "--out", "zeros"]);
    assert_eq!(
        ran.ends(0).out.matches("\u{20}0 µg per day (0x0000000000000000)  figure 0\n").count(),
        4,
        "{}",
        ran.out
    );
    assert_eq!((place.read("zeros"), ran.err.as_str()), (vec![0; 32], ""));
    let ran = place.run(&["export", "archive", "1", "--out", "none"]);
    assert_eq!((ran.ends(24).out.as_str(), place.exists("none")), ("", false));
}

/// Runs export and show on the same words: they refuse alike, and nothing is written.
fn refused_as_show(place: &Place, archive: &str, number: &str, status: i32) {
    let before = place.files();
    for json in [&[][..], &["--json"]] {
        let shown = place.run(&[&["show", archive, number], json].concat());
        let ran = place.run(&[&["export", archive, number, "--out", "loads"], json].concat());
        assert_eq!((&ran.ends(status).out, &ran.err), (&shown.ends(status).out, &shown.err), "{archive} {number}");
        assert!(!format!("{}{}", ran.out, ran.err).contains("figure "), "{}{}", ran.out, ran.err);
    }
    assert_eq!(place.files(), before, "{archive} {number}");
}

#[test]
fn refusals_and_failures_are_those_of_show() {
    let place = Place::new("export_refused");
    let sound = archive_of(3, &mut Random::new(971));
    place.write("archive", &sound);
    place.write("empty", &archive::trailer(0));
    for number in ["3", "4", "0x100000000", "18446744073709551615"] {
        refused_as_show(&place, "archive", number, 24);
    }
    refused_as_show(&place, "empty", "0", 24);
    let damaged = [
        vec![],
        sound[..15].to_vec(),
        sound[..sound.len() - 1].to_vec(),
        sound[1..].to_vec(),
        sound[96..].to_vec(),
        [&sound[..], &[0]].concat(),
        [&sound[..288], &archive::trailer(4)].concat(),
        [&sound[..288], &archive::trailer(1_000_001)].concat(),
        [&sound[..sound.len() - 4], &[2, 0, 0, 0]].concat(),
        b"no archive".to_vec(),
    ];
    for bytes in damaged {
        place.write("damaged", &bytes);
        // 21 comes before 24.
        for number in ["0", "9"] {
            refused_as_show(&place, "damaged", number, 21);
        }
    }
    refused_as_show(&place, "missing", "0", 66);
    for number in ["first", "-", "", "1.0", "0x", "18446744073709551616"] {
        refused_as_show(&place, "archive", number, 64);
        // The number is read before the archive.
        refused_as_show(&place, "missing", number, 64);
    }
    let words = place.run(&["export", "archive", "3"]);
    let expected = "refused 24: there is no such record\n  field    number\n  found    3\n  allowed  0 to 2\n";
    assert_eq!(words.ends(24).err, expected);
}

/// Every record of archives with any content: text, JSON and bytes, each against the model.
#[test]
fn records_of_any_content() {
    let place = Place::new("export_any");
    let mut random = Random::new(972);
    let records: Vec<Vec<u8>> = (0..40)
        .map(|_| {
            let figures = [0; 4].map(|_: u64| random.word() >> random.below(64));
            archive::record(&random.bytes(64), &figures)
        })
        .collect();
    let bytes = archive_of_records(&records);
    place.write("archive", &bytes);
    let mut rounded = 0;
    for (number, record) in records.iter().enumerate() {
        let (number, out) = (number.to_string(), format!("loads{number}"));
        let ran = place.run(&["export", "archive", &number, "--out", &out]);
        let (refusal, loads) = archive::export(&bytes, bytes.len() as u64, number.parse().unwrap());
        assert_eq!((refusal, place.read(&out)), (0, loads.to_vec()));
        let lines: Vec<&str> = ran.ends(0).out.lines().collect();
        let json = place.run(&["export", "archive", &number, "--json"]);
        let json = Json::read(&json.ends(0).out);
        assert_eq!((json.keys(), json.text(&["record"])), (vec!["record", "loads", "bytes"], number.as_str()));
        assert_eq!(json.at(&["loads"]).keys(), COMPARTMENTS);
        let loads = loads.chunks(8).map(|load| u64::from_le_bytes(load.try_into().unwrap()));
        for ((name, (load, figure)), line) in
            COMPARTMENTS.iter().zip(loads.zip(archive::figures_of(record))).zip(&lines[1..5])
        {
            // Below 2^65 a double is a whole number of 128 bits, and the cast back is exact.
            let (exact, pattern) = (f64::from_bits(load) as u128, format!("{load:#018x}"));
            let up = if exact > u128::from(figure) { ", rounded up" } else { "" };
            assert_eq!(*line, format!("{name:<9}{exact} µg per day ({pattern})  figure {figure}{up}"));
            let said = ["pattern", "exact", "figure"].map(|key| json.text(&["loads", name, key]).to_string());
            assert_eq!(said, [pattern, exact.to_string(), figure.to_string()]);
            rounded += u32::from(!up.is_empty());
        }
    }
    assert!((10..150).contains(&rounded), "{rounded} of 160 loads are rounded up");
    assert_eq!(place.read("archive"), bytes);
}
