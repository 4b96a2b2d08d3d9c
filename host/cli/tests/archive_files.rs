//! Archive files through the command: filing, reading, refusals, damaged files.

mod common;
use common::{archive_of, p1, with, Place, P1};
use csorvelin_differential::{cases, random::Random};
use csorvelin_model::archive;
use csorvelin_model::case::Case;
use csorvelin_model::listing::printed;
use std::path::Path;
use std::process::Stdio;
use std::{fs, io::Write};

#[test]
fn file_list_show_and_worst() {
    let place = Place::new("filing");
    assert_eq!(place.run(&["new", "archive"]).ends(0).out, "created archive, 16 bytes\n");
    assert_eq!(place.run(&["list", "archive"]).ends(0).out, "n dossier kind row route stp surface air soil\n");
    let filed = place.run(&[&["file", "archive"], &P1[..]].concat());
    assert!(filed.ends(0).out.starts_with("filed in archive as record 0\n"), "{}", filed.out);
    let second = ["file", "archive", "kind=5", "T=250", "dossier=8", "a=16", "b=0.125", "c=0.5", "d=0.25", "e=0.125"];
    assert!(place.run(&second).ends(0).out.starts_with("filed in archive as record 1\n"));
    let listing = "n dossier kind row route stp surface air soil\n\
                   0 7 4 1 1 76924 0 0 0\n\
                   1 8 5 0 1 4000000 0 2000000 1000000\n";
    assert_eq!(place.run(&["list", "archive"]).ends(0).out, listing);
    assert_eq!(place.read("archive").len(), 16 + 2 * 96);
    assert_eq!(place.names(), ["archive"]);

    let shown = place.run(&["show", "archive", "0", "--out", "again.case"]);
    assert!(shown.ends(0).out.starts_with("record   0\nkind     4  sanitary use"), "{}", shown.out);
    assert!(shown.out.contains("stp      76923077 µg per day = 76923.077 mg = 0.076923077 kg\n"));
    assert_eq!(place.read("again.case"), place.read("archive")[..64]);
    for (compartment, number) in [("stp", 1), ("1", 1), ("surface", 0), ("air", 1), ("4", 1)] {
        let worst = place.run(&["worst", "archive", compartment]);
        assert!(worst.ends(0).out.starts_with(&format!("record   {number}\n")), "{compartment}: {}", worst.out);
    }
    let sheet = place.run(&["explain", "archive", "1"]);
    assert!(sheet.ends(0).out.ends_with("the same four figures, and the record holds them.\n"), "{}", sheet.out);
    let json = place.run(&["list", "archive", "--json"]);
    assert!(json.ends(0).out.starts_with("{\"records\":[{\"record\":\"0\",\"case\":{\"kind\":4,"), "{}", json.out);
}

#[test]
fn refusals_from_the_state() {
    let place = Place::new("state");
    place.run(&["new", "archive"]).ends(0);
    for words in [["show", "archive", "0"], ["worst", "archive", "1"], ["export", "archive", "0"]] {
        let ran = place.run(&words);
        assert!(ran.ends(24).err.starts_with("refused 24: there is no such record"), "{}", ran.err);
    }
    place.run(&[&["file", "archive"], &P1[..]].concat()).ends(0);
    let before = place.read("archive");
    let held = place.run(&["file", "archive", "kind=4", "row=1", "dossier=7", "a=5", "b=0", "c=0"]);
    assert!(held.ends(22).err.contains("held as record 0"), "{}", held.err);
    place.run(&["file", "archive", "kind=4", "row=1", "dossier=7", "b=2"]).ends(10);
    let ran = place.run(&["show", "archive", "1"]);
    assert!(ran.ends(24).err.contains("allowed  0 to 0"), "{}", ran.err);
    place.run(&["show", "archive", "18446744073709551615"]).ends(24);
    // The compartment comes before the archive.
    for archive in ["archive", "missing"] {
        let ran = place.run(&["worst", archive, "5"]);
        assert!(ran.ends(12).err.contains("allowed  1 (stp), 2 (surface), 3 (air) or 4 (soil)"), "{}", ran.err);
    }
    let ran = place.run(&["new", "archive"]);
    assert!(ran.ends(73).err.contains("exists already"), "{}", ran.err);
    assert_eq!(place.read("archive"), before);
    assert_eq!(place.names(), ["archive"]);
}

#[test]
fn a_record_whose_figures_were_changed_is_found_by_explain() {
    let place = Place::new("changed_record");
    let mut bytes = with(&archive::trailer(0), &p1());
    bytes[64] ^= 1;
    place.write("archive", &bytes);
    let fault = "the record holds [76923076, 0, 0, 0] µg, its case gives [76923077, 0, 0, 0] µg";
    let ran = place.run(&["explain", "archive", "0"]);
    assert_eq!(ran.ends(65).err, format!("csorvelin: {fault}\n"));
    assert!(ran.out.contains("  = 1/13 (= 0.076923076923076923…) kg per day\n"), "{}", ran.out);
    assert!(ran.out.ends_with(&format!("\nNOT THE SAME: {fault}.\n")), "{}", ran.out);
    let ran = place.run(&["explain", "archive", "0", "--json"]);
    assert!(ran.ends(65).out.ends_with(&record_json("76923076", fault)), "{}", ran.out);
    // Those that print what a record holds do not check it.
    let printing: [&[&str]; 4] =
        [&["show", "archive", "0"], &["list", "archive"], &["worst", "archive", "1"], &["export", "archive", "0"]];
    for words in printing {
        place.run(words).ends(0);
    }
}

/// How a record's sheet ends in JSON: its number, what it holds for the STP, and the check.
fn record_json(stp: &str, check: &str) -> String {
    let stored = format!("{{\"stp\":\"{stp}\",\"surface\":\"0\",\"air\":\"0\",\"soil\":\"0\"}}");
    format!(",\"record\":\"0\",\"stored\":{stored},\"check\":\"{check}\"}}\n")
}

#[test]
fn a_sound_record_explained_as_json() {
    let place = Place::new("sound_record");
    place.write("archive", &with(&archive::trailer(0), &p1()));
    let ran = place.run(&["explain", "archive", "0", "--json"]);
    let check = "the library and the model give the same four figures, and the record holds them";
    assert!(ran.ends(0).out.ends_with(&record_json("76923077", check)), "{}", ran.out);
}

#[test]
fn a_record_whose_case_is_refused_is_named() {
    let place = Place::new("refused_record");
    let mut bytes = archive_of(2, &mut Random::new(301));
    bytes[96] = 0;
    place.write("archive", &bytes);
    let ran = place.run(&["explain", "archive", "1"]);
    assert!(ran.ends(2).err.contains("  field    kind of record 1\n"), "{}", ran.err);
}

#[test]
fn refusal_21_names_the_point_that_is_wrong() {
    let place = Place::new("wrong_points");
    let sound = archive_of(2, &mut Random::new(306));
    // The byte that is changed, its new value, and what is said of it.
    let changes = [
        (204, 2, "208 bytes; distance 192, n 2, edition 2 (edition 2 is not 1)"),
        (192, 191, "208 bytes; distance 191, n 2, edition 1 (distance 191 is not 96·2)"),
    ];
    let mut files: Vec<(Vec<u8>, &str)> = vec![
        (sound[1..].to_vec(), "207 bytes; distance 192, n 2, edition 1 (207 is not 96·n + 16)"),
        (sound[96..].to_vec(), "112 bytes; distance 192, n 2, edition 1 (112 is not 96·2 + 16)"),
        (sound[..15].to_vec(), "15 bytes (fewer than the trailer's 16)"),
        (vec![], "0 bytes (fewer than the trailer's 16)"),
        (archive::trailer(1_000_000), "16 bytes; distance 96000000, n 1000000, edition 1 (16 is not 96·1000000 + 16)"),
        (archive::trailer(1_000_001), "16 bytes; distance 96000096, n 1000001, edition 1 (n 1000001 is over 1000000)"),
    ];
    for (place, value, found) in changes {
        let mut bytes = sound.clone();
        bytes[place] = value;
        files.push((bytes, found));
    }
    for (bytes, found) in files {
        place.write("archive", &bytes);
        for words in [&["show", "archive", "0"][..], &["export", "archive", "0"], &["list", "archive"]] {
            let ran = place.run(words);
            assert!(ran.ends(21).err.contains(&format!("  found    {found}\n")), "{found}\n{}", ran.err);
        }
    }
}

#[test]
fn damaged_files_are_refused_and_never_written() {
    let place = Place::new("damaged");
    let mut random = Random::new(302);
    let sound = archive_of(2, &mut random);
    let cuts = (0..sound.len()).map(|length| sound[..length].to_vec());
    let flips = (192 * 8..208 * 8).map(|bit| {
        let mut bytes = sound.clone();
        bytes[bit / 8] ^= 1 << (bit % 8);
        bytes
    });
    let longer = [[&sound[..], &[0]].concat(), [&sound[..], &sound[..]].concat()];
    let mut tried = 0;
    for (index, bytes) in cuts.chain(flips).chain(longer).enumerate() {
        place.write("archive", &bytes);
        let file = [&["file", "archive"], &P1[..]].concat();
        let commands: [&[&str]; 5] = [
            &file,
            &["show", "archive", "0"],
            &["worst", "archive", "1"],
            &["list", "archive"],
            &["export", "archive", "0", "--out", "loads"],
        ];
        // Filing each time, one of the four that leave the archive alone in turn.
        for words in [commands[0], commands[1 + index % 4]] {
            let ran = place.run(words);
            ran.ends(21);
            assert!(ran.err.starts_with("refused 21: "), "{}", ran.err);
            assert_eq!(ran.out, if words[0] == "list" { "refused 21\n" } else { "" });
        }
        assert_eq!(place.read("archive"), bytes);
        assert_eq!(place.names(), ["archive"]);
        tried += 1;
    }
    assert_eq!(tried, 208 + 128 + 2);
}

#[test]
fn list_prints_what_the_requirements_say() {
    let place = Place::new("listing");
    let mut random = Random::new(303);
    for n in [0, 1, 2, 50, 682, 683] {
        let mut bytes = archive_of(n, &mut random);
        // Figures and fields of any content, as another program may have left them.
        if let Some(record) = bytes.chunks_mut(96).nth(1) {
            if n > 1 {
                record.fill(255);
            }
        }
        place.write("archive", &bytes);
        let ran = place.run(&["list", "archive"]);
        assert_eq!(ran.out, printed(&bytes));
        ran.ends(if n == 683 { 21 } else { 0 });
        let all = place.run(&["list", "--all", "archive"]);
        assert_eq!(all.ends(0).out.lines().count() as u64, n + 1);
        let json = place.run(&["list", "--all", "--json", "archive"]);
        assert_eq!(json.ends(0).out.matches("\"case\"").count() as u64, n);
    }
}

#[test]
fn an_archive_too_long_to_list_is_not_called_damaged() {
    let place = Place::new("too_long");
    let words = "the archive is longer than the listing takes";
    for (n, status) in [(682, 0), (683, 21)] {
        place.write("archive", &archive_of(n, &mut Random::new(307)));
        place.run(&["list", "archive"]).ends(status);
        place.run(&["list", "archive", "--json"]).ends(status);
    }
    let ran = place.run(&["list", "archive"]);
    assert!(ran.err.starts_with(&format!("refused 21: {words}\n")), "{}", ran.err);
    assert_eq!(ran.out, "refused 21\n");
    let ran = place.run(&["list", "archive", "--json"]);
    assert!(ran.out.starts_with(&format!("{{\"refused\":21,\"words\":\"{words}\",")), "{}", ran.out);
}

/// The stored run of the proved program `list`, in the repository that this workspace is part of.
#[test]
fn list_prints_what_the_proved_program_prints() {
    let place = Place::new("proved_listing");
    let program = Path::new(env!("CARGO_MANIFEST_DIR")).join("../../crates/list");
    let archive = program.join("stdin");
    let ran = place.run(&["list", archive.to_str().unwrap()]);
    assert_eq!(ran.ends(0).out, fs::read_to_string(program.join("stdout")).unwrap());
}

#[test]
fn standard_input_is_read_for_a_dash() {
    let place = Place::new("standard_input");
    let bytes = archive_of(3, &mut Random::new(304));
    for words in [["list", "-", ""], ["show", "-", "2"], ["worst", "-", "stp"], ["export", "-", "2"]] {
        let words: Vec<&str> = words.into_iter().filter(|word| !word.is_empty()).collect();
        let mut command = place.command(&words);
        let mut child = command.stdin(Stdio::piped()).stdout(Stdio::piped()).stderr(Stdio::piped()).spawn().unwrap();
        child.stdin.take().unwrap().write_all(&bytes).unwrap();
        let ran = common::Ran::of(child.wait_with_output().unwrap());
        assert!(!ran.ends(0).out.is_empty());
    }
}

#[test]
fn many_filings_one_after_another() {
    let place = Place::new("many");
    let mut random = Random::new(305);
    let mut expected = archive::trailer(0);
    place.run(&["new", "archive"]).ends(0);
    for dossier in 1..=40 {
        let case = Case { dossier, ..cases::valid(&mut random) };
        place.write("case", &case.encode());
        place.run(&["file", "archive", "--case", "case"]).ends(0);
        expected = with(&expected, &case);
        assert_eq!(place.read("archive"), expected);
    }
}

#[test]
fn links_and_permissions_stay() {
    use std::os::unix::fs::PermissionsExt;
    let place = Place::new("links");
    place.run(&["new", "archive"]).ends(0);
    fs::set_permissions(place.path("archive"), fs::Permissions::from_mode(0o640)).unwrap();
    std::os::unix::fs::symlink("archive", place.path("link")).unwrap();
    place.run(&[&["file", "link"], &P1[..]].concat()).ends(0);
    assert_eq!(place.read("archive").len(), 112);
    assert!(place.path("link").symlink_metadata().unwrap().is_symlink());
    assert_eq!(fs::metadata(place.path("archive")).unwrap().permissions().mode() & 0o777, 0o640);
    // A link that leads nowhere is not written through.
    std::os::unix::fs::symlink("nowhere", place.path("broken")).unwrap();
    place.run(&["new", "broken"]).ends(73);
    assert_eq!(place.names(), ["archive", "broken", "link"]);
}
