//! A blank is never filed as zero by accident.

mod common;
use common::json::Json;
use common::{fields, of_every_row, p1, with, words, Place, P1};
use csorvelin_differential::random::Random;
use csorvelin_model::archive;
use csorvelin_model::case::{Case, QUANTITIES};
use csorvelin_model::ranges::{self, Listed};

/// P1 without its fraction b, which is 0, and what is said then.
const SHORT: [&str; 5] = ["kind=4", "row=1", "dossier=7", "a=100", "c=1"];
const NOT_GIVEN: &str = "csorvelin: not given: b (fraction disintegrated); give what is missing, \
                         or --blank-as-zero to have it counted as 0\nTry: csorvelin help\n";
const NOTE: &str = "csorvelin: note: b (fraction disintegrated) is not given and counts as 0\n";

/// The fields of a case without one of its quantities.
fn without(case: &Case, listed: &Listed) -> Vec<String> {
    let name = format!("{}=", QUANTITIES[listed.index]);
    fields(case).into_iter().filter(|field| !field.starts_with(&name)).collect()
}

#[test]
fn file_takes_a_case_of_each_row_only_with_all_its_quantities() {
    let place = Place::new("blank_quantities");
    place.archive("archive");
    let mut filed = archive::trailer(0);
    for case in of_every_row(1, &mut Random::new(401)) {
        for listed in ranges::listed(case.kind, case.row) {
            let ran = place.run(&words(&["file", "archive"], &without(&case, &listed)));
            let blank = format!("csorvelin: not given: {} ({}); give", QUANTITIES[listed.index], listed.meaning);
            assert!(ran.ends(64).err.starts_with(&blank) && ran.out.is_empty(), "{case:?}: {}", ran.err);
            assert_eq!(place.read("archive"), filed);
        }
        let ran = place.run(&words(&["file", "archive"], &fields(&case)));
        assert_eq!(ran.ends(0).err, "");
        filed = with(&filed, &case);
        assert_eq!(place.read("archive"), filed);
    }
    assert_eq!(place.names(), ["archive"]);
}

#[test]
fn a_case_file_of_each_row_is_written_only_with_all_its_quantities() {
    let place = Place::new("blank_quantities_out");
    for case in of_every_row(1, &mut Random::new(402)) {
        for listed in ranges::listed(case.kind, case.row) {
            let short = without(&case, &listed);
            let ran = place.run(&words(&["case", "--out", "case"], &short));
            let name = format!("not given: {} (", QUANTITIES[listed.index]);
            assert!(ran.ends(64).err.contains(&name) && ran.out.is_empty(), "{case:?}: {}", ran.err);
            assert!(!place.exists("case"));
            // Where nothing is kept the short form goes on, with a note.
            let noted = format!("csorvelin: note: {} ({})", QUANTITIES[listed.index], listed.meaning);
            for command in ["case", "work-out", "explain"] {
                let ran = place.run(&words(&[command], &short));
                assert_eq!(ran.ends(0).err, format!("{noted} is not given and counts as 0\n"));
            }
        }
        place.run(&words(&["case", "--out", "case"], &fields(&case))).ends(0);
        assert_eq!(place.read("case"), case.encode());
        std::fs::remove_file(place.path("case")).unwrap();
    }
}

#[test]
fn blank_as_zero_files_it_and_says_so() {
    let place = Place::new("blank_as_zero");
    place.archive("archive");
    let ran = place.run(&words(&["file", "archive", "--blank-as-zero"], &SHORT));
    assert_eq!(ran.ends(0).err, NOTE);
    assert!(ran.out.starts_with("filed in archive as record 0\n"), "{}", ran.out);
    assert!(ran.out.contains("\nb        0 (not given, counted as 0)  fraction disintegrated\n"), "{}", ran.out);
    let filed = with(&archive::trailer(0), &p1());
    assert_eq!(place.read("archive"), filed);
    // With nothing blank it says nothing.
    let ran = place.run(&words(&["file", "archive", "--blank-as-zero"], &fields(&Case { dossier: 8, ..p1() })));
    assert_eq!(ran.ends(0).err, "");
    assert!(!ran.out.contains("not given"), "{}", ran.out);

    let ran = place.run(&words(&["file", "archive", "--blank-as-zero", "--json"], &["kind=4", "row=1", "dossier=9"]));
    let answer = Json::read(&ran.ends(0).out);
    for name in ["a", "b", "c"] {
        assert!(!answer.truth(&["case", "quantities", name, "given"]), "{}", ran.out);
        assert!(ran.err.contains(&format!("note: {name} (")), "{}", ran.err);
    }
    assert_eq!(answer.text(&["filed"]), "2");
    let ran = place.run(&words(&["case", "--blank-as-zero", "--out", "case"], &SHORT));
    assert_eq!(ran.ends(0).err, NOTE);
    assert_eq!(place.read("case"), p1().encode());
}

#[test]
fn every_blank_is_named() {
    let place = Place::new("blanks_named");
    place.archive("archive");
    let ran = place.run(&["file", "archive", "kind=6", "dossier=7", "b=1", "e=0"]);
    let named = "not given: a (active fraction of the product), d (amount G per use), f (share H of the inhabitants);";
    assert!(ran.ends(64).err.contains(named), "{}", ran.err);
    let ran = place.run(&words(&["file", "archive", "--json"], &SHORT));
    let answer = Json::read(&ran.ends(64).out);
    assert_eq!((answer.number(&["error"]), ran.err.as_str()), (64, ""));
    assert!(answer.text(&["message"]).starts_with("not given: b (fraction disintegrated);"), "{}", ran.out);
}

/// What is wrong with the case itself is said first, and a blank before anything of the archive.
#[test]
fn a_refusal_of_the_case_comes_before_its_blanks_and_those_before_the_archive() {
    let place = Place::new("blanks_order");
    let refused: [(&[&str], i32); 12] = [
        (&["kind=9"], 2),
        (&["kind=4", "row=2"], 3),
        (&["kind=4", "row=1", "route=2"], 4),
        (&["kind=3", "row=1"], 5),
        (&["kind=8", "row=1", "user=1"], 31),
        (&["kind=4"], 6),
        (&["kind=4", "row=1"], 7),
        (&["kind=4", "row=1", "dossier=7", "a=-0"], 8),
        (&["kind=4", "row=1", "dossier=7", "d=1"], 9),
        (&["kind=4", "row=1", "dossier=7", "b=2"], 10),
        (&["kind=5", "T=1", "dossier=7", "c=1", "e=1"], 11),
        (&SHORT, 64),
    ];
    place.write("damaged", &[1; 112]);
    place.write("held", &with(&archive::trailer(0), &p1()));
    for (case, status) in refused {
        for archive in ["damaged", "held", "missing"] {
            place.run(&words(&["file", archive], case)).ends(status);
        }
        place.run(&words(&["case", "--out", "case"], case)).ends(status);
    }
    assert_eq!(place.run(&words(&["file", "held"], &SHORT)).err, NOT_GIVEN);
    for (archive, status) in [("damaged", 21), ("held", 22), ("missing", 66)] {
        place.run(&words(&["file", archive], &P1)).ends(status);
    }
    assert_eq!(place.names(), ["damaged", "held"]);
}

/// A case of 64 bytes has no blanks.
#[test]
fn a_case_file_is_taken_as_it_is() {
    let place = Place::new("blank_bytes");
    place.archive("archive");
    place.write("case", &p1().encode());
    place.run(&["case", "--case", "case", "--out", "copy"]).ends(0);
    let ran = place.run(&["file", "archive", "--case", "copy"]);
    assert!(ran.ends(0).err.is_empty() && !ran.out.contains("not given"), "{}", ran.out);
    assert_eq!(place.read("archive"), with(&archive::trailer(0), &p1()));
}
