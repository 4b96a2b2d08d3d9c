//! Many cases filed at once: files, folders, CSV; all or none, or what passes; nothing with --dry-run.

mod common;
use common::json::Json;
use common::{archive_with, csv, is_progress, of_every_row, on_terminal, p1, with, words, Place, Ran};
use csorvelin_differential::{cases, random::Random};
use csorvelin_model::archive;
use csorvelin_model::case::{Case, QUANTITIES};
use csorvelin_model::ranges;
use std::ffi::{OsStr, OsString};
use std::fs::{self, File};
use std::io::{Seek, SeekFrom, Write};
use std::os::unix::ffi::OsStrExt;
use std::os::unix::fs::{symlink, MetadataExt};
use std::time::SystemTime;

/// An archive's bytes, file and time of the last change.
fn state(place: &Place, name: &str) -> (Vec<u8>, u64, SystemTime) {
    let metadata = fs::metadata(place.path(name)).unwrap();
    (place.read(name), metadata.ino(), metadata.modified().unwrap())
}

#[test]
fn files_folders_and_csv_are_filed_in_the_order_given() {
    let place = Place::new("import_order");
    let held = Case { dossier: 1000, ..p1() };
    let cases = of_every_row(1, &mut Random::new(411));
    place.write("archive", &archive_with(&[held]));
    place.write("z.case", &cases[0].encode());
    place.write("a", &cases[52].encode());
    place.write("table.csv", csv(&cases[7..20]).as_bytes());
    place.write("more.CSV", csv(&cases[20..22]).as_bytes());
    // By the bytes of their names, whatever these are. Hidden ones are left out.
    fs::create_dir(place.path("folder")).unwrap();
    let names: [&[u8]; 6] = [b"10", b"9", b"Z.case", b"a b\n", "ä=1".as_bytes(), b"\xff"];
    for (name, case) in names.iter().zip(&cases[1..7]).rev() {
        fs::write(place.path("folder").join(OsStr::from_bytes(name)), case.encode()).unwrap();
    }
    place.write("folder/.hidden", b"no case");
    let paths = ["z.case", "folder", "table.csv", "more.CSV", "-", "a"];
    let ran = place.run_on(csv(&cases[22..52]).as_bytes(), &words(&["import", "archive"], &paths));
    assert_eq!(ran.ends(0).out, "53 offered, 0 refused, 53 filed in archive as records 1 to 53\n");
    assert_eq!(ran.err, "");
    assert!(place.read("archive") == archive_with(&[&[held], &cases[..]].concat()));
}

#[test]
fn what_is_no_case_in_a_folder_is_refused_and_not_passed_over() {
    let place = Place::new("import_folder");
    place.archive("archive");
    fs::create_dir_all(place.path("folder/c folder")).unwrap();
    place.write("folder/c folder/case", &p1().encode());
    place.write("folder/a short", &p1().encode()[..63]);
    place.write("folder/b long", &[&p1().encode()[..], &[0]].concat());
    place.write("folder/d empty", b"");
    place.write("good", &p1().encode());
    symlink("../good", place.path("folder/e link")).unwrap();
    symlink("../nothing", place.path("folder/f broken")).unwrap();
    let starts = [
        "folder/a short: refused 1: the case is not 64 bytes long: case: found 63 bytes, allowed exactly 64 bytes",
        "folder/b long: refused 1: the case is not 64 bytes long: case: found more than 64 bytes, allowed exactly 64",
        "folder/c folder: cannot read it: it is a directory, not a file",
        "folder/d empty: refused 1: the case is not 64 bytes long: case: found 0 bytes, allowed exactly 64 bytes",
        "folder/f broken: cannot read it: ",
    ];
    let refused = |ran: &Ran| {
        assert_eq!(ran.ends(65).err.lines().count(), starts.len(), "{}", ran.err);
        for (line, start) in ran.err.lines().zip(starts) {
            assert!(line.starts_with(start), "{line}");
        }
    };
    let before = state(&place, "archive");
    let ran = place.run(&["import", "archive", "folder"]);
    refused(&ran);
    let none = "6 offered, 5 refused, none filed; archive is as it was; --keep-going would file 1\n";
    assert_eq!(ran.out, none);
    assert_eq!(state(&place, "archive"), before);
    let ran = place.run(&["import", "archive", "folder", "--keep-going"]);
    refused(&ran);
    assert_eq!(ran.out, "6 offered, 5 refused, 1 filed in archive as record 0\n");
    assert_eq!(place.read("archive"), archive_with(&[p1()]));
}

/// A batch with faults of every sort, what the model says of each line, and the archive that it leaves.
struct Batch {
    text: String,
    old: Vec<u8>,
    /// What keep-going leaves.
    new: Vec<u8>,
    /// Line and number of each refusal.
    refused: Vec<(u64, u32)>,
    read: u64,
}

impl Batch {
    fn new(seed: u64) -> Batch {
        let mut random = Random::new(seed);
        // Few dossiers, so that many filings meet.
        let few = |case: Case, random: &mut Random| Case { dossier: case.dossier.min(random.between(1, 9)), ..case };
        let mut old = archive::trailer(0);
        for _ in 0..20 {
            let case = few(cases::valid(&mut random), &mut random);
            file(&mut old, &case);
        }
        let cases = (0..300).map(|_| match random.below(3) {
            0 => few(cases::damaged(&mut random), &mut random),
            _ => few(cases::valid(&mut random), &mut random),
        });
        let cases: Vec<Case> = cases.collect();
        let mut new = old.clone();
        // The header is line 1.
        let judged = (2..).zip(&cases).map(|(line, case)| (line, file(&mut new, case)));
        let refused = judged.filter(|(_, number)| *number != 0).collect();
        Batch { text: csv(&cases), old, new, refused, read: 300 }
    }

    fn filed(&self) -> usize {
        (self.new.len() - self.old.len()) / 96
    }
}

/// Files a case by the model, or answers the refusal's number.
fn file(archive: &mut Vec<u8>, case: &Case) -> u32 {
    let used = archive.len() as u64;
    archive.resize(archive.len() + 96, 0);
    let (refusal, _, used) = archive::file(archive, used, &case.encode());
    archive.truncate(used as usize);
    refusal
}

#[test]
fn every_line_is_judged_as_if_it_were_filed_after_those_before() {
    let place = Place::new("import_judged");
    for seed in 412..416 {
        let batch = Batch::new(seed);
        let numbers: Vec<u32> = batch.refused.iter().map(|(_, number)| *number).collect();
        assert!(numbers.contains(&22) && numbers.contains(&8) && batch.filed() > 50);
        place.write("archive", &batch.old);
        place.write("cases.csv", batch.text.as_bytes());
        let before = state(&place, "archive");
        let expect = |options: &[&str], filed: &str| {
            let ran = place.run(&words(&["import", "archive", "cases.csv"], options));
            assert_eq!(ran.ends(65).err.lines().count(), batch.refused.len());
            for (said, (line, number)) in ran.err.lines().zip(&batch.refused) {
                assert!(said.starts_with(&format!("cases.csv:{line}: refused {number}: ")), "{said}");
            }
            let read = format!("{} offered, {} refused, ", batch.read, batch.refused.len());
            assert_eq!(ran.out, format!("{read}{filed}\n"));
        };
        let (first, count) = ((batch.old.len() - 16) / 96, batch.filed());
        let numbers = format!("filed in archive as records {first} to {}", first + count - 1);
        let none = format!("filed; archive is as it was; --keep-going would file {count}");
        expect(&[], &format!("none {none}"));
        expect(&["--dry-run"], &format!("none would be {none}"));
        expect(&["--dry-run", "--keep-going"], &format!("{count} would be {numbers}"));
        assert_eq!(state(&place, "archive"), before);
        expect(&["--keep-going"], &format!("{count} {numbers}"));
        assert!(place.read("archive") == batch.new);
        // A second time there is nothing left to be filed, and nothing is written.
        let before = state(&place, "archive");
        place.run(&["import", "archive", "cases.csv", "--keep-going"]).ends(65);
        assert_eq!(state(&place, "archive"), before);
    }
    assert_eq!(place.names(), ["archive", "cases.csv"]);
}

#[test]
fn the_answer_as_json() {
    let place = Place::new("import_json");
    let batch = Batch::new(416);
    place.write("archive", &batch.old);
    place.write("cases.csv", batch.text.as_bytes());
    let check = |options: &[&str], dry_run: bool, filed: usize| {
        let ran = place.run(&words(&["import", "archive", "cases.csv", "--json"], options));
        let answer = Json::read(&ran.ends(65).out);
        assert_eq!(ran.err, "");
        assert_eq!((answer.text(&["archive"]), answer.truth(&["dry_run"])), ("archive", dry_run));
        assert_eq!((answer.text(&["offered"]), answer.text(&["filed"])), ("300", filed.to_string().as_str()));
        assert_eq!(answer.has("first"), filed > 0);
        let refused: Vec<(u64, u32)> = answer.list(&["refused"]).iter().map(line_and_number).collect();
        assert_eq!(refused, batch.refused);
        answer
    };
    check(&[], false, 0);
    check(&["--dry-run"], true, 0);
    let first = ((batch.old.len() - 16) / 96).to_string();
    assert_eq!(check(&["--dry-run", "--keep-going"], true, batch.filed()).text(&["first"]), first);
    assert_eq!(check(&["--keep-going"], false, batch.filed()).text(&["first"]), first);
    assert!(place.read("archive") == batch.new);

    place.write("one.case", &Case { dossier: 5000, ..p1() }.encode());
    place.write("bad.csv", b"kind,a\n4,much\n");
    let ran = place.run(&["import", "archive", "one.case", "--json"]);
    assert_eq!(Json::read(&ran.ends(0).out).list(&["refused"]), []);
    let ran = place.run(&["import", "archive", "bad.csv", "one.case", "--json"]);
    let answer = Json::read(&ran.ends(65).out);
    let [bad, held] = answer.list(&["refused"]) else { panic!("{}", ran.out) };
    assert_eq!((bad.text(&["file"]), bad.text(&["line"]), bad.number(&["error"])), ("bad.csv", "2", 64));
    // A case file has no lines.
    assert_eq!((held.text(&["file"]), held.has("line"), held.number(&["refused"])), ("one.case", false, 22));
}

fn line_and_number(refused: &Json) -> (u64, u32) {
    assert_eq!(refused.text(&["file"]), "cases.csv");
    (refused.text(&["line"]).parse().unwrap(), refused.number(&["refused"]) as u32)
}

#[test]
fn all_good_lines_end_with_0() {
    let place = Place::new("import_good");
    let cases = of_every_row(2, &mut Random::new(417));
    place.archive("archive");
    place.write("cases.csv", csv(&cases).as_bytes());
    let before = state(&place, "archive");
    let ran = place.run(&["import", "archive", "cases.csv", "--dry-run"]);
    assert_eq!(ran.ends(0).out, "106 offered, 0 refused, 106 would be filed in archive as records 0 to 105\n");
    assert_eq!(state(&place, "archive"), before);
    let ran = place.run(&["import", "archive", "cases.csv", "--keep-going"]);
    assert_eq!(ran.ends(0).out, "106 offered, 0 refused, 106 filed in archive as records 0 to 105\n");
    assert!(place.read("archive") == archive_with(&cases));
}

#[test]
fn the_same_filing_twice_names_the_first() {
    let place = Place::new("import_twice");
    let other = Case { patterns: [0; 6], ..p1() };
    place.write("archive", &archive_with(&[Case { dossier: 1, ..p1() }, Case { dossier: 2, ..p1() }]));
    place.write("cases.csv", csv(&[p1(), Case { dossier: 2, ..other }, other, Case { route: 1, ..p1() }]).as_bytes());
    place.write("a.case", &other.encode());
    let lines = [
        ("cases.csv:3", "record 1"),
        ("cases.csv:4", "cases.csv:2"),
        ("cases.csv:5", "cases.csv:2"),
        ("a.case", "cases.csv:2"),
        ("a.case", "cases.csv:2"),
    ];
    let ran = place.run(&["import", "archive", "cases.csv", "a.case", "a.case"]);
    let words = "refused 22: the same filing is already held: kind, row, route, user, dossier: found held as";
    let allowed = "allowed another kind, row, route, user or dossier: these five make a filing";
    let said: String = lines.iter().map(|(line, held)| format!("{line}: {words} {held}, {allowed}\n")).collect();
    assert_eq!(ran.ends(65).err, said);
    let none = "6 offered, 5 refused, none filed; archive is as it was; --keep-going would file 1\n";
    assert_eq!(ran.out, none);
}

#[test]
fn a_quantity_left_blank_is_refused_in_each_row_unless_blanks_count_as_zero() {
    let place = Place::new("import_blanks");
    let (mut text, mut zeros, mut names) = (csv(&[]), vec![], vec![]);
    for case in of_every_row(1, &mut Random::new(418)) {
        for listed in ranges::listed(case.kind, case.row) {
            let case = Case { dossier: names.len() as u64 + 1, ..case };
            let line = csv(&[case]).lines().nth(1).unwrap().to_string();
            let mut cells: Vec<&str> = line.split(',').collect();
            cells[6 + listed.index] = "";
            text += &format!("{}\n", cells.join(","));
            let mut zero = case;
            zero.patterns[listed.index] = 0;
            zeros.push(zero);
            names.push(format!("{} ({})", QUANTITIES[listed.index], listed.meaning));
        }
    }
    place.archive("archive");
    place.write("cases.csv", text.as_bytes());
    let said = |sort: &str, end: &str| -> String {
        let lines = (2..).zip(&names).map(|(line, name)| format!("cases.csv:{line}: {sort}not given: {name}{end}\n"));
        lines.collect()
    };
    let n = names.len();
    assert!(n > 90);
    for options in [&[][..], &["--keep-going"]] {
        let ran = place.run(&words(&["import", "archive", "cases.csv"], options));
        assert_eq!(ran.ends(65).err, said("", "; --blank-as-zero counts it as 0"));
        assert_eq!(ran.out, format!("{n} offered, {n} refused, none filed; archive is as it was\n"));
        assert_eq!(place.read("archive"), archive::trailer(0));
    }
    let ran = place.run(&["import", "archive", "cases.csv", "--blank-as-zero"]);
    assert_eq!(ran.ends(0).err, said("note: ", "; counts as 0"));
    assert!(place.read("archive") == archive_with(&zeros));
}

#[test]
fn a_refusal_comes_before_a_blank_and_a_note_is_of_what_is_taken() {
    let place = Place::new("import_blank_order");
    place.archive("archive");
    let text = "kind,row,dossier,a,b,c,stp\n9,1,1,,,,\n4,1,0,,,,\n4,1,3,1,,,\n4,1,4,1,2,,\n4,1,5,,0,1,7\n";
    place.write("cases.csv", text.as_bytes());
    let ran = place.run(&["import", "archive", "cases.csv", "--keep-going", "--blank-as-zero"]);
    let starts = [
        "cases.csv:2: refused 2: ",
        "cases.csv:3: refused 7: ",
        "cases.csv:5: refused 10: ",
        "cases.csv:6: stp is 7 µg in the line, its case gives 0 µg",
        "cases.csv:4: note: not given: b (fraction disintegrated), c (fraction to water); counts as 0",
    ];
    assert_eq!(ran.ends(65).err.lines().count(), starts.len(), "{}", ran.err);
    assert!(ran.err.lines().zip(starts).all(|(line, start)| line.starts_with(start)), "{}", ran.err);
    let patterns = [1f64.to_bits(), 0, 0, 0, 0, 0];
    assert_eq!(place.read("archive"), archive_with(&[Case { dossier: 3, patterns, ..p1() }]));
}

/// An archive of this many records, all zeros, that takes hardly any room on disk.
fn sparse(place: &Place, name: &str, records: u64) {
    let mut file = File::create(place.path(name)).unwrap();
    file.set_len(96 * records).unwrap();
    file.seek(SeekFrom::End(0)).unwrap();
    file.write_all(&archive::trailer(records)).unwrap();
}

#[test]
fn a_full_archive_takes_nothing() {
    let place = Place::new("import_full");
    let cases = [p1(), Case { dossier: 8, ..p1() }];
    place.write("cases.csv", csv(&cases).as_bytes());
    sparse(&place, "full", 1_000_000);
    sparse(&place, "nearly", 999_999);
    let full = "refused 23: there is no room for it: archive: found 1000000 records, allowed at most 1000000 records\n";
    let ran = place.run(&["import", "full", "cases.csv", "--keep-going"]);
    assert_eq!(ran.ends(65).err, format!("cases.csv:2: {full}cases.csv:3: {full}"));
    assert_eq!(ran.out, "2 offered, 2 refused, none filed; full is as it was\n");
    let ran = place.run(&["import", "nearly", "cases.csv"]);
    assert_eq!(ran.ends(65).err, format!("cases.csv:3: {full}"));
    let ran = place.run(&["import", "nearly", "cases.csv", "--keep-going", "--dry-run"]);
    assert_eq!(ran.ends(65).out, "2 offered, 1 refused, 1 would be filed in nearly as record 999999\n");
    for (name, records) in [("full", 1_000_000), ("nearly", 999_999)] {
        assert_eq!(fs::metadata(place.path(name)).unwrap().len(), 96 * records + 16);
    }
}

#[test]
fn a_damaged_or_missing_archive_is_not_imported_into() {
    let place = Place::new("import_damaged");
    place.write("cases.csv", csv(&[p1()]).as_bytes());
    let sound = archive_with(&[Case { dossier: 1, ..p1() }]);
    for bytes in [&sound[1..], &sound[..111], &[], &[&sound[..], &[0]].concat()] {
        place.write("archive", bytes);
        let before = state(&place, "archive");
        for option in ["--wait=0", "--keep-going", "--dry-run", "--json"] {
            let ran = place.run(&["import", "archive", "cases.csv", option]);
            let said = if option == "--json" { &ran.out } else { &ran.err };
            assert!(said.contains("this is not a whole archive"), "{said}");
            ran.ends(21);
        }
        assert_eq!(state(&place, "archive"), before);
    }
    for options in [&[][..], &["--dry-run"]] {
        let ran = place.run(&words(&["import", "missing", "cases.csv"], options));
        assert!(ran.ends(66).err.starts_with("csorvelin: cannot read missing: "), "{}", ran.err);
    }
    assert_eq!(place.names(), ["archive", "cases.csv"]);
}

#[test]
fn wrong_command_lines() {
    let place = Place::new("import_usage");
    place.archive("archive");
    let before = state(&place, "archive");
    let wrong: [&[&str]; 6] = [
        &["import"],
        &["import", "archive"],
        &["import", "-", "cases.csv"],
        &["import", "archive", "cases.csv", "--csv"],
        &["import", "archive", "cases.csv", "--wait", "soon"],
        &["import", "archive", "cases.csv", "--wait", "-1"],
    ];
    for words in wrong {
        assert!(place.run(words).ends(64).out.is_empty(), "{words:?}");
    }
    // A path that is not there is a case that is not taken.
    let ran = place.run(&["import", "archive", "cases.csv", "folder"]);
    let lines: Vec<&str> = ran.ends(65).err.lines().collect();
    assert!(lines.len() == 2 && lines[0].starts_with("cases.csv: cannot read it: "), "{}", ran.err);
    assert!(lines[1].starts_with("folder: cannot read it: "), "{}", ran.err);
    assert_eq!(ran.out, "2 offered, 2 refused, none filed; archive is as it was\n");
    assert_eq!(state(&place, "archive"), before);
    assert_eq!(place.names(), ["archive"]);
}

#[test]
fn nothing_to_be_filed_is_no_failure() {
    let place = Place::new("import_nothing");
    place.archive("archive");
    fs::create_dir(place.path("folder")).unwrap();
    place.write("header.csv", csv(&[]).as_bytes());
    let before = state(&place, "archive");
    for path in ["folder", "header.csv"] {
        let ran = place.run(&["import", "archive", path]);
        assert_eq!(ran.ends(0).out, "0 offered, 0 refused, none filed; archive is as it was\n");
    }
    assert_eq!(state(&place, "archive"), before);
}

#[test]
fn a_case_file_of_any_name_is_taken() {
    let place = Place::new("import_names");
    let names: [&[u8]; 6] = [b"kind=4", b"-x", b"--json", b"two\nlines", b"\xfe.case", b"a b"];
    let mut expected = archive::trailer(0);
    place.archive("archive");
    for (name, dossier) in names.iter().zip(1..) {
        let case = Case { dossier, ..p1() };
        let name = OsStr::from_bytes(name);
        fs::write(place.directory.join(name), case.encode()).unwrap();
        place.run(&[OsString::from("import"), "archive".into(), "--".into(), name.into()]).ends(0);
        expected = with(&expected, &case);
        assert_eq!(place.read("archive"), expected);
    }
    // A name is shown on one line.
    let ran = place.run(&["import", "archive", "two\nlines"]);
    assert!(ran.ends(65).err.starts_with("two\\nlines: refused 22: ") && ran.err.lines().count() == 1, "{}", ran.err);
}

/// How many passed, and what was noted, as JSON too.
#[test]
fn notes_as_json() {
    let place = Place::new("import_notes");
    place.archive("archive");
    place.write("cases.csv", b"kind,row,dossier,a,b,c\n4,1,1,1,,1\n4,1,2,1,0,1\n9,1,3,1,0,1\n4,1,4,,,1\n");
    let notes = [
        "cases.csv:2: note: not given: b (fraction disintegrated); counts as 0",
        "cases.csv:5: note: not given: a (EU tonnage), b (fraction disintegrated); counts as 0",
    ];
    for (options, filed) in [(&[][..], "0"), (&["--keep-going", "--dry-run"], "3"), (&["--keep-going"], "3")] {
        let ran = place.run(&words(&["import", "archive", "cases.csv", "--json", "--blank-as-zero"], options));
        let answer = Json::read(&ran.ends(65).out);
        assert_eq!((answer.text(&["passed"]), answer.text(&["filed"])), ("3", filed));
        assert_eq!(answer.list(&["notes"]), notes.map(|note| Json::Text(note.to_string())));
        assert_eq!(ran.err, notes.map(|note| format!("{note}\n")).concat());
    }
    assert_eq!(place.read("archive").len(), 16 + 3 * 96);
}

/// A long import says on a terminal how far it has come, and nowhere else.
#[test]
fn progress_is_for_a_terminal() {
    let place = Place::new("import_progress");
    place.archive("archive");
    let lines: String = (1..=40_000).map(|dossier| format!("4,1,{dossier},100,0,1\n")).collect();
    place.write("cases.csv", format!("kind,row,dossier,a,b,c\n{lines}").as_bytes());
    let piped = place.run(&["import", "archive", "cases.csv", "--dry-run"]);
    assert_eq!(piped.ends(0).err, "");
    if let Some(ran) = on_terminal(&place, "\"$CSORVELIN\" import archive cases.csv --dry-run >out") {
        is_progress(&ran.ends(0).out, "judged", 40_000, "cases");
        assert_eq!(place.read("out"), piped.out.as_bytes());
    }
}
