//! Standard output that takes nothing: what was done is said on standard error with a status of its own; a reader that has
//! seen enough is left in peace.

mod common;
use common::{archive_of, ended, filing, is_root, Place, Ran, Shared, OTHER, P1};
use csorvelin_differential::random::Random;
use csorvelin_model::archive;
use std::fs::{File, OpenOptions};
use std::io::{self, BufRead, BufReader};
use std::os::unix::fs::chown;
use std::process::Stdio;

/// Standard output on a full disk.
fn full() -> Stdio {
    OpenOptions::new().write(true).open("/dev/full").unwrap().into()
}

/// A pipe whose reader has gone.
fn closed() -> Stdio {
    let (reader, writer) = io::pipe().unwrap();
    drop(reader);
    writer.into()
}

type Opened = fn() -> Stdio;

const OUTPUTS: [(Opened, &str); 2] = [(full, "No space left on device"), (closed, "Broken pipe")];

fn run(place: &Place, words: &[&str], output: Opened) -> Ran {
    Ran::of(place.command(words).stdout(output()).output().unwrap())
}

#[test]
fn what_was_done_is_said_on_standard_error() {
    for (output, why) in OUTPUTS {
        for json in [false, true] {
            let place = Place::new("unheard");
            // The command is done, says so, and ends with a status of its own.
            let done = |words: &[&str], what: &str| {
                let words = [words, if json { &["--json"] } else { &[] }].concat();
                let ran = run(&place, &words, output);
                let said = format!("csorvelin: {what}; the answer could not be printed: {why}");
                assert!(ran.ends(71).err.starts_with(&said), "{}", ran.err);
                assert_eq!(ran.err.lines().count(), 1);
            };
            done(&["new", "archive"], "archive is created");
            assert_eq!(place.read("archive"), archive::trailer(0));
            done(&filing("archive", "dossier=7"), "filed in archive as record 0");
            done(&filing("archive", "dossier=8"), "filed in archive as record 1");
            let shown = place.run(&["show", "archive", "1"]);
            assert!(shown.ends(0).out.contains("\ndossier  8\n"), "{}", shown.out);
            done(&[&["case", "--out", "p1"], &P1[..]].concat(), "p1 is written");
            done(&["show", "archive", "1", "--out", "shown"], "shown is written");
            assert_eq!(place.read("shown"), place.read("archive")[96..160]);
            done(&["export", "archive", "1", "--out", "loads"], "loads is written");
            assert_eq!(place.read("loads"), archive::export(&place.read("archive"), 208, 1).1);
            place.run(&filing("archive", "dossier=7")).ends(22);
            place.write("cases.csv", b"kind,row,dossier,a,b,c\n4,1,9,5,0,1\n4,1,10,5,0,1\n");
            done(&["import", "archive", "cases.csv"], "2 offered, 0 refused, 2 filed in archive as records 2 to 3");
            place.write("one.csv", b"kind,row,dossier,a,b,c\n4,1,11,5,0,1\n");
            done(&["import", "archive", "one.csv"], "1 offered, 0 refused, 1 filed in archive as record 4");
            assert_eq!(place.read("archive").len(), 16 + 5 * 96);
            place.run(&["verify", "archive"]).ends(0);
            assert_eq!(place.names(), ["archive", "cases.csv", "loads", "one.csv", "p1", "shown"]);
        }
    }
}

/// Those that were refused have their lines besides.
#[test]
fn an_import_that_filed_a_part_says_which() {
    let place = Place::new("unheard_part");
    for (output, _) in OUTPUTS {
        place.write("archive", &archive::trailer(0));
        place.write("cases.csv", b"kind,row,dossier,a,b,c\n4,1,9,5,0,1\n9,1,10,5,0,1\n");
        let ran = run(&place, &["import", "archive", "cases.csv", "--keep-going"], output);
        let lines: Vec<&str> = ran.ends(71).err.lines().collect();
        assert!(lines[0].starts_with("cases.csv:3: refused 2: "), "{}", ran.err);
        assert!(
            lines[1].starts_with("csorvelin: 2 offered, 1 refused, 1 filed in archive as record 0; "),
            "{}",
            ran.err
        );
        assert_eq!(place.read("archive").len(), 16 + 96);
    }
}

/// Nobody hears it at all.
#[test]
fn the_status_tells_it_where_standard_error_takes_nothing_either() {
    let place = Place::new("unheard_twice");
    place.run(&["new", "archive"]).ends(0);
    for ((output, _), dossier) in OUTPUTS.into_iter().zip(["dossier=1", "dossier=2"]) {
        let mut command = place.command(&filing("archive", dossier));
        assert_eq!(command.stdout(output()).stderr(output()).status().unwrap().code(), Some(71));
        let mut command = place.command(&filing("archive", dossier));
        assert_eq!(command.stdout(output()).stderr(output()).status().unwrap().code(), Some(22));
    }
    assert_eq!(place.read("archive").len(), 16 + 2 * 96);
}

/// A filing that is refused says so as always: nothing goes to standard output.
#[test]
fn refusals_and_failures_are_heard() {
    let place = Place::new("unheard_refused");
    place.run(&["new", "archive"]).ends(0);
    place.run(&filing("archive", "dossier=1")).ends(0);
    let before = place.files();
    for (output, _) in OUTPUTS {
        for (words, status) in [(&filing("archive", "dossier=1")[..], 22), (&["new", "archive"], 73)] {
            let heard = place.run(words);
            let ran = run(&place, words, output);
            assert_eq!(ran.ends(status).err, heard.ends(status).err);
        }
    }
    assert_eq!(place.files(), before);
}

/// The commands that change nothing, with the status that they end with.
fn reading() -> Vec<(Vec<&'static str>, i32)> {
    vec![
        (vec!["list", "archive"], 0),
        (vec!["list", "archive", "--json"], 0),
        (vec!["list", "archive", "--csv"], 0),
        (vec!["list", "archive", "--top", "3", "stp"], 0),
        (vec!["show", "archive", "1"], 0),
        (vec!["worst", "archive", "stp"], 0),
        (vec!["export", "archive", "1"], 0),
        (vec!["export", "archive", "1", "--json"], 0),
        (vec!["explain", "archive", "1"], 0),
        (vec!["verify", "archive"], 0),
        (vec!["verify", "archive", "--json"], 0),
        (vec!["verify", "changed"], 65),
        (vec!["import", "archive", "case", "--dry-run"], 0),
        (vec!["import", "archive", "case", "--dry-run", "--json"], 0),
        (vec!["show", "archive", "9", "--json"], 24),
        (vec!["help", "list"], 0),
        (vec!["defaults"], 0),
        (vec!["--version"], 0),
    ]
}

#[test]
fn a_command_that_changes_nothing() {
    let place = Place::new("unheard_reading");
    let three = archive_of(3, &mut Random::new(960));
    let archive = [&three[..2 * 96], &archive::trailer(2)].concat();
    place.write("archive", &archive);
    place.write("case", &three[2 * 96..2 * 96 + 64]);
    place.write("changed", &[&[archive[..64].to_vec(), vec![1; 8]].concat(), &archive[72..]].concat());
    let before = place.files();
    for (words, status) in reading() {
        let ran = run(&place, &words, full);
        assert!(ran.ends(74).err.contains("csorvelin: standard output: No space left on device"), "{}", ran.err);
        let ran = run(&place, &words, closed);
        assert_eq!(ran.ends(status).err, "", "{words:?}");
    }
    assert_eq!(place.files(), before);
}

/// As with `head -1`: the reader takes a line and goes while there is much more to come.
#[test]
fn a_reader_that_has_seen_enough() {
    let place = Place::new("seen_enough");
    place.write("big", &archive_of(5000, &mut Random::new(961)));
    for words in [&["list", "big", "--all"][..], &["list", "big", "--csv"], &["list", "big", "--json", "--all"]] {
        let mut child = place.command(words).stdout(Stdio::piped()).stderr(Stdio::piped()).spawn().unwrap();
        let mut reader = BufReader::new(child.stdout.take().unwrap());
        if words.contains(&"--json") {
            assert!(reader.fill_buf().unwrap().starts_with(b"{\"records\":[{\"record\":\"0\""));
        } else {
            assert!(reader.read_until(b'\n', &mut vec![]).unwrap() > 0);
        }
        drop(reader);
        assert_eq!(ended(child).ends(0).err, "", "{words:?}");
    }
    let shell = "\"$0\" list big --all | head -1";
    let mut command = std::process::Command::new("sh");
    let ran =
        Ran::of(command.args(["-c", shell]).arg(common::program()).current_dir(&place.directory).output().unwrap());
    assert_eq!(ran.ends(0).out, "n dossier kind row route stp surface air soil\n");
    assert_eq!(ran.err, "");
}

/// As on a disk that fills: a part of the answer is taken, the rest is not, and nothing is tried again.
#[test]
fn standard_output_that_takes_a_part() {
    let place = Place::new("a_part");
    place.write("big", &archive_of(500, &mut Random::new(962)));
    place.write("archive", &archive::trailer(0));
    let limited = |words: &[&str], length: usize| {
        place.write("out", &vec![0; length]);
        let out = std::fs::OpenOptions::new().append(true).open(place.path("out")).unwrap();
        Ran::of(place.command_after("trap '' XFSZ && ulimit -f 8", words).stdout(out).output().unwrap())
    };
    // Blocks of 512 or of 1,024 bytes: the limit is one of two.
    let end = if limited(&["list", "big", "--csv"], 0).ends(74).err.is_empty() { 0 } else { place.read("out").len() };
    assert!([4096, 8192].contains(&end), "{end}");
    for length in [end - 100, end - 1] {
        let ran = limited(&["list", "big", "--csv"], length);
        assert_eq!((ran.ends(74).err.lines().count(), place.read("out").len()), (1, end), "{}", ran.err);
        let dossier = format!("dossier={length}");
        let ran = limited(&filing("archive", &dossier), length);
        assert!(ran.ends(71).err.starts_with("csorvelin: filed in archive as record "), "{}", ran.err);
        assert_eq!((ran.err.lines().count(), place.read("out").len()), (1, end), "{}", ran.err);
    }
    assert_eq!(place.read("archive").len(), 16 + 2 * 96);
}

/// A folder in which names can be written but not read cannot be synced: it is filed, and a loss of power may undo it.
#[test]
fn a_filing_whose_folder_cannot_be_synced() {
    let shared = Shared::new("unsynced");
    let place = &shared.place;
    place.write("archive", &archive::trailer(0));
    if is_root() {
        chown(place.path("archive"), Some(OTHER), Some(OTHER)).unwrap();
    }
    place.set_mode("", 0o333);
    let doubt = "; a loss of power may undo it: its directory could not be synced (Permission denied";
    let ran = shared.run(&filing("archive", "dossier=7"));
    assert!(ran.ends(71).err.starts_with(&format!("csorvelin: filed in archive as record 0{doubt}")), "{}", ran.err);
    assert!(ran.out.starts_with("filed in archive as record 0\n"), "{}", ran.out);
    let ran = shared.run(&["new", "second"]);
    assert!(ran.ends(71).err.starts_with(&format!("csorvelin: second is created{doubt}")), "{}", ran.err);
    place.set_mode("", 0o777);
    assert_eq!(place.read("archive").len(), 16 + 96);
    assert_eq!(place.names(), ["archive", "second"]);
}

/// Standard input that cannot be read is no archive of no bytes.
#[test]
fn standard_input_that_cannot_be_read() {
    let place = Place::new("unreadable_input");
    for words in [&["list", "-"][..], &["verify", "-"], &["work-out", "--case", "-"]] {
        let directory = File::open(&place.directory).unwrap();
        let ran = Ran::of(place.command(words).stdin(directory).output().unwrap());
        assert!(ran.ends(66).err.contains("cannot read -: Is a directory"), "{}", ran.err);
    }
}
