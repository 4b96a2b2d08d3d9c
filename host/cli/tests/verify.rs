//! The check of a whole archive: what it finds, and that it finds nothing else.

mod common;
use common::json::Json;
use common::{archive_of, archive_of_records, copies, is_progress, of_every_row, on_terminal, p1, record, Place};
use csorvelin_differential::{cases, random::Random};
use csorvelin_model::archive::{self, figures_of};
use csorvelin_model::case::{same_filing, Case};
use csorvelin_model::equations::Sheet;
use csorvelin_model::ranges;
use std::process::Command;

/// What is wrong with the records of an archive, by the model: the number of each, and the words for it.
fn faults(bytes: &[u8]) -> Vec<(usize, String)> {
    let records: Vec<&[u8]> = bytes.chunks_exact(96).collect();
    let mut faults = vec![];
    for (number, record) in records.iter().enumerate() {
        let stored = figures_of(record);
        faults.extend(
            match Sheet::of(&record[..64]).map(|sheet| sheet.figures()) {
                Err(out) => Some(format!(
                    "its case is out of range (refusal {}: {} found {}, allowed {})",
                    out.number, out.field, out.found, out.allowed
                )),
                Ok(figures) if figures != stored => {
                    Some(format!("the record holds {stored:?} µg, its case gives {figures:?} µg"))
                }
                Ok(_) => None,
            }
            .map(|words| (number, words)),
        );
        let earlier = records[..number].iter().position(|earlier| same_filing(earlier, record));
        faults.extend(earlier.map(|earlier| (number, format!("it is the same filing as record {earlier}"))));
    }
    faults
}

/// The records with a fault that is told in such words.
fn so_many(faults: &[(usize, String)], words: &str) -> usize {
    faults.iter().filter(|(_, fault)| fault.starts_with(words)).count()
}

/// All that is printed of an archive's bytes, but for the SHA-256.
fn printed(name: &str, bytes: &[u8], sha256: &str) -> String {
    let (faults, n) = (faults(bytes), bytes.len() / 96);
    let mut text: String = faults.iter().map(|(number, words)| format!("record {number}: {words}\n")).collect();
    let (out, again) = (so_many(&faults, "its case"), so_many(&faults, "it is the same"));
    let right = n - out - so_many(&faults, "the record holds");
    text += &format!("archive  {name}, {} bytes\nsha-256  {sha256}\n", bytes.len());
    let counted = |number: usize, what: &str| format!("{number} {what}{}", if number == 1 { "" } else { "s" });
    text += &format!("trailer  as it must be: {}, edition 1\n", counted(n, "record"));
    text += &format!("ranges   {} of {n} cases are within the ranges\n", n - out);
    text += &format!(
        "figures  {right} of {n} records hold the figures of their cases, by the library and by an independent model\n"
    );
    text += &match again {
        0 => "filings  no two records are the same filing\n".to_string(),
        _ => format!("filings  {again} of {n} records are the same filing as an earlier one\n"),
    };
    text + &match faults.len() {
        0 => "verified: all agree\n".to_string(),
        count => format!("NOT IN ORDER: {}\n", counted(count, "fault")),
    }
}

/// The SHA-256 of a file by another program, where that is there.
fn sha256sum(place: &Place, name: &str) -> Option<String> {
    let output =
        Command::new("sha256sum").arg(place.path(name)).output().ok().filter(|output| output.status.success())?;
    let text = String::from_utf8(output.stdout).unwrap();
    Some(text.split(' ').next().unwrap().to_string())
}

/// Verifies some bytes as a file and from standard input, and answers the numbers of the records with a fault.
fn verified(place: &Place, bytes: &[u8]) -> Vec<usize> {
    place.write("archive", bytes);
    let ran = place.run(&["verify", "archive"]);
    let sha256 = ran.out.lines().find_map(|line| line.strip_prefix("sha-256  ")).expect("a line with the SHA-256");
    assert_eq!(sha256, sha256sum(place, "archive").unwrap_or(sha256.to_string()));
    assert_eq!(ran.out, printed("archive", bytes, sha256));
    let faults = faults(bytes);
    let status = if faults.is_empty() { 0 } else { 65 };
    assert_eq!(ran.ends(status).err, "");
    assert_eq!(place.run_on(bytes, &["verify", "-"]).ends(status).out, printed("-", bytes, sha256));
    assert!(place.read("archive") == bytes);
    faults.into_iter().map(|(number, _)| number).collect()
}

#[test]
fn sound_archives_agree() {
    let place = Place::new("verify_sound");
    for n in [0, 1, 2, 3, 100, 700] {
        assert_eq!(verified(&place, &archive_of(n, &mut Random::new(431))), []);
    }
    let records: Vec<Vec<u8>> = of_every_row(5, &mut Random::new(432)).iter().map(record).collect();
    assert_eq!(verified(&place, &archive_of_records(&records)), []);
}

#[test]
fn a_flipped_bit_in_a_figure_is_found_in_its_record() {
    let place = Place::new("verify_figures");
    let mut random = Random::new(434);
    let sound = archive_of(9, &mut random);
    for figure in 0..4 {
        for bit in [0, 1, 31, 32, 63] {
            let number = random.below(9) as usize;
            let mut bytes = sound.clone();
            bytes[96 * number + 64 + 8 * figure + bit / 8] ^= 1 << (bit % 8);
            assert_eq!(verified(&place, &bytes), [number]);
        }
    }
}

#[test]
fn a_case_out_of_range_is_found_in_its_record() {
    let place = Place::new("verify_ranges");
    let mut random = Random::new(435);
    let sound = archive_of(9, &mut random);
    let mut numbers = vec![];
    while numbers.len() < 60 {
        let case = cases::damaged(&mut random);
        let case = Case { dossier: 1000 * case.dossier.min(1), ..case };
        let refusal = ranges::refusal(&case.encode());
        if refusal != 0 {
            let number = random.below(9) as usize;
            let mut bytes = sound.clone();
            bytes[96 * number..96 * number + 64].copy_from_slice(&case.encode());
            assert_eq!(verified(&place, &bytes), [number]);
            numbers.push(refusal);
        }
    }
    numbers.sort();
    numbers.dedup();
    assert!(numbers.len() > 7, "{numbers:?}");
}

#[test]
fn the_same_filing_twice_is_found_in_the_later_record() {
    let place = Place::new("verify_twice");
    let one = record(&p1());
    let other = record(&Case { patterns: [0; 6], ..p1() });
    let records = [one.clone(), record(&Case { dossier: 8, ..p1() }), other.clone(), one];
    assert_eq!(verified(&place, &archive_of_records(&records)), [2, 3]);
    let out = place.run(&["verify", "archive"]).out;
    let again = "record 2: it is the same filing as record 0\nrecord 3: it is the same filing as record 0\n";
    assert!(out.starts_with(again) && out.ends_with("NOT IN ORDER: 2 faults\n"), "{out}");
}

/// Records with faults of every sort among sound ones, a record with two faults too.
#[test]
fn several_faults_at_once_are_told_apart() {
    let place = Place::new("verify_several");
    for seed in 436..440 {
        let mut random = Random::new(seed);
        let mut records: Vec<Vec<u8>> =
            (1..=60).map(|dossier| record(&Case { dossier, ..cases::valid(&mut random) })).collect();
        for number in 0..60 {
            match random.below(8) {
                0 => records[number][64 + random.below(32) as usize] ^= 1 << random.below(8),
                1 => records[number][..64].copy_from_slice(&cases::damaged(&mut random).encode()),
                2 => records[number] = records[random.below(60) as usize].clone(),
                3 => records[number] = random.bytes(96),
                _ => {}
            }
        }
        let bytes = archive_of_records(&records);
        assert!(verified(&place, &bytes).len() > 15);
        let found = faults(&bytes);
        for words in ["its case", "the record holds", "it is the same"] {
            assert!(so_many(&found, words) > 0, "{words}");
        }
    }
}

#[test]
fn the_findings_as_json() {
    let place = Place::new("verify_json");
    let mut records: Vec<Vec<u8>> = of_every_row(1, &mut Random::new(441)).iter().map(record).collect();
    let check = |records: &[Vec<u8>]| {
        let bytes = archive_of_records(records);
        place.write("archive", &bytes);
        let ran = place.run(&["verify", "archive", "--json"]);
        let (answer, faults) = (Json::read(&ran.out), faults(&bytes));
        ran.ends(if faults.is_empty() { 0 } else { 65 });
        assert_eq!(ran.err, "");
        let told = answer.list(&["faults"]).iter();
        let told: Vec<(usize, String)> =
            told.map(|fault| (fault.text(&["record"]).parse().unwrap(), fault.text(&["fault"]).to_string())).collect();
        assert_eq!(told, faults);
        assert_eq!((answer.text(&["archive"]), answer.truth(&["agrees"])), ("archive", faults.is_empty()));
        assert_eq!(answer.text(&["bytes"]), bytes.len().to_string());
        assert_eq!((answer.text(&["records"]), answer.number(&["edition"])), (records.len().to_string().as_str(), 1));
        let sha256 = answer.text(&["sha256"]);
        assert_eq!(sha256, sha256sum(&place, "archive").unwrap_or(sha256.to_string()));
    };
    check(&[]);
    check(&records);
    records[3][70] ^= 1;
    records[5][0] = 9;
    records[7] = records[6].clone();
    check(&records);
}

#[test]
fn what_is_no_archive_is_refused() {
    let place = Place::new("verify_damaged");
    let sound = archive_of(2, &mut Random::new(442));
    let cuts = (0..sound.len()).step_by(13).map(|length| sound[..length].to_vec());
    let flips = (192 * 8..208 * 8).step_by(5).map(|bit| {
        let mut bytes = sound.clone();
        bytes[bit / 8] ^= 1 << (bit % 8);
        bytes
    });
    for bytes in cuts.chain(flips) {
        place.write("archive", &bytes);
        let ran = place.run(&["verify", "archive"]);
        assert!(ran.ends(21).err.starts_with("refused 21: "), "{}", ran.err);
        let lines: Vec<&str> = ran.out.lines().collect();
        assert_eq!(lines[0], format!("archive  archive, {} bytes", bytes.len()));
        if let Some(sha256) = sha256sum(&place, "archive") {
            assert_eq!(lines[1], format!("sha-256  {sha256}"));
        }
        assert!(lines[2].starts_with("trailer  NOT AS IT MUST BE: ") && lines.len() == 3, "{}", ran.out);
        assert_eq!(place.run_on(&bytes, &["verify", "-"]).status, Some(21));
        assert_eq!(Json::read(&place.run(&["verify", "archive", "--json"]).ends(21).out).number(&["refused"]), 21);
        assert_eq!(place.read("archive"), bytes);
    }
    place.run(&["verify", "missing"]).ends(66);
    for words in [&["verify"][..], &["verify", "archive", "0"], &["verify", "archive", "--exact"]] {
        place.run(words).ends(64);
    }
}

/// A line that says how far it has come stands on a terminal, is wiped, and goes nowhere else.
#[test]
fn progress_is_for_a_terminal() {
    let place = Place::new("verify_progress");
    // Long enough for some lines.
    let (tiny, odd) = (0x000f_ffff_ffff_ffff, 0x3fef_ffff_ffff_ffff);
    let case = Case { kind: 1, row: 0, count: 36_499, patterns: [tiny, tiny, odd, odd, 0, 0], ..p1() };
    place.write("archive", &copies(&case, 120_000));
    let piped = place.run(&["verify", "archive"]);
    assert_eq!(piped.ends(0).err, "");
    if let Some(ran) = on_terminal(&place, "\"$CSORVELIN\" verify archive >out") {
        is_progress(&ran.ends(0).out, "verified", 120_000, "records");
        assert_eq!(place.read("out"), piped.out.as_bytes());
    }
}

/// An archive that the trailer makes sound, but whose records are nothing.
#[test]
fn records_of_zeros_are_out_of_range_and_the_same() {
    let place = Place::new("verify_zeros");
    let bytes = [vec![0; 96 * 3], archive::trailer(3)].concat();
    assert_eq!(verified(&place, &bytes), [0, 1, 1, 2, 2]);
}
