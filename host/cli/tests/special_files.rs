//! What is no file of the right length: a FIFO, a device, a directory, a socket, input without end. Each is refused at
//! once, in little memory.

mod common;
use common::{archive_of, ended, filing, Place, Ran, Shared};
use csorvelin_differential::random::Random;
use std::fs::{self, File};
use std::os::unix::net::UnixListener;
use std::process::{Command, Stdio};

/// The commands that take an archive file.
fn on(archive: &str) -> Vec<Vec<&str>> {
    let mut commands = vec![
        vec!["list", archive],
        vec!["list", archive, "--json"],
        vec!["list", archive, "--csv"],
        vec!["show", archive, "0"],
        vec!["worst", archive, "stp"],
        vec!["export", archive, "0"],
        vec!["export", archive, "0", "--out", "loads"],
        vec!["verify", archive],
        vec!["explain", archive, "0"],
        vec!["import", archive, "case"],
        vec!["import", archive, "case", "--dry-run"],
        vec!["import", archive, "case", "--wait", "60"],
    ];
    commands.push(filing(archive, "dossier=1").to_vec());
    commands.push([&filing(archive, "dossier=1")[..], &["--wait", "60"]].concat());
    commands
}

/// Runs the command, which must end soon.
fn run(place: &Place, words: &[&str]) -> Ran {
    ended(place.command(words).stdout(Stdio::piped()).stderr(Stdio::piped()).spawn().unwrap())
}

/// A place with a FIFO, a socket and a directory, links to such, and a case file.
fn special(name: &str) -> (Shared, UnixListener) {
    let shared = Shared::new(name);
    let place = &shared.place;
    assert!(Command::new("mkfifo").arg(place.path("fifo")).status().unwrap().success());
    let socket = UnixListener::bind(place.path("socket")).unwrap();
    fs::create_dir(place.path("directory")).unwrap();
    std::os::unix::fs::symlink("fifo", place.path("link")).unwrap();
    place.write("case", &archive_of(1, &mut Random::new(950))[..64]);
    (shared, socket)
}

#[test]
fn what_is_no_regular_file_is_no_archive() {
    let (shared, _socket) = special("special_archives");
    let place = &shared.place;
    let names = place.names();
    let archives = [
        ("fifo", "it is a FIFO, not a file"),
        ("link", "it is a FIFO, not a file"),
        ("directory", "it is a directory, not a file"),
        (".", "it is a directory, not a file"),
        ("socket", "it is a device or socket, not a file"),
        ("/dev/null", "it is a device or socket, not a file"),
        ("/dev/zero", "it is a device or socket, not a file"),
        ("/dev/full", "it is a device or socket, not a file"),
    ];
    for (archive, said) in archives {
        for words in on(archive) {
            let ran = run(place, &words);
            ran.ends(66);
            let json = words.contains(&"--json");
            let (said_on, other) = if json { (&ran.out, &ran.err) } else { (&ran.err, &ran.out) };
            assert!(said_on.contains(said) && other.is_empty(), "{words:?}: {said_on}");
        }
    }
    assert_eq!(place.names(), names);
}

/// Nor is standard input waited for, which here says nothing.
#[test]
fn what_is_no_archive_is_refused_before_input_is_read() {
    let (shared, _socket) = special("special_and_input");
    for words in [["import", "fifo", "-"], ["import", "directory", "-"]] {
        let mut command = shared.place.command(&words);
        let mut child = command.stdin(Stdio::piped()).stdout(Stdio::piped()).stderr(Stdio::piped()).spawn().unwrap();
        let _silent = child.stdin.take();
        ended(child).ends(66);
    }
}

#[test]
fn what_is_no_regular_file_is_not_written_over() {
    let (shared, _socket) = special("special_outputs");
    let place = &shared.place;
    let names = place.names();
    for name in ["fifo", "link", "directory", "socket", "/dev/null", "/dev/full"] {
        run(place, &["new", name]).ends(73);
        run(place, &[&["case", "--out", name], &common::P1[..]].concat()).ends(73);
    }
    assert_eq!(place.names(), names);
}

/// Each gets its line, and the files among them are taken if some may be left out.
#[test]
fn what_is_no_regular_file_is_not_imported() {
    let (shared, _socket) = special("special_cases");
    let place = &shared.place;
    run(place, &["new", "archive"]).ends(0);
    for name in ["fifo", "link", "socket", "/dev/zero", "/dev/null"] {
        let ran = run(place, &["import", "archive", name, "case"]);
        assert!(ran.ends(65).err.starts_with(&format!("{name}: cannot read it: it is a ")), "{}", ran.err);
        assert!(ran.out.starts_with("2 offered, 1 refused, none filed"), "{}", ran.out);
    }
    fs::create_dir(place.path("folder")).unwrap();
    for (name, to) in [("fifo", "folder/a"), ("case", "folder/b"), ("socket", "folder/c")] {
        fs::rename(place.path(name), place.path(to)).unwrap();
    }
    let ran = run(place, &["import", "archive", "folder", "--keep-going"]);
    assert!(ran.ends(65).out.starts_with("3 offered, 2 refused, 1 filed in archive as record 0"), "{}", ran.out);
}

/// Runs a command on zeros without end, with a limit on its memory in kilobytes.
fn run_on_zeros(place: &Place, words: &[&str], limit: u32) -> Ran {
    let mut command = place.command_after(&format!("ulimit -v {limit}"), words);
    let zeros = File::open("/dev/zero").unwrap();
    ended(command.stdin(zeros).stdout(Stdio::piped()).stderr(Stdio::piped()).spawn().unwrap())
}

/// 65 bytes decide a case, and a line that does not end is no CSV: no memory to speak of.
#[test]
fn a_case_or_csv_without_end_is_refused_in_little_memory() {
    let place = Place::new("endless_cases");
    place.run(&["new", "archive"]).ends(0);
    let before = place.files();
    let most = 64 << 10;
    for case in ["-", "/dev/zero"] {
        for words in
            [&["work-out", "--case", case][..], &["explain", "--case", case], &["file", "archive", "--case", case]]
        {
            let ran = run_on_zeros(&place, words, most);
            assert!(ran.ends(1).err.contains("  found    more than 64 bytes\n"), "{words:?}: {}", ran.err);
        }
    }
    let ran = run_on_zeros(&place, &["import", "archive", "-"], most);
    assert!(ran.ends(65).err.starts_with("standard input:1: a line of over 65536 bytes"), "{}", ran.err);
    assert_eq!(place.files(), before);
}

/// One byte more than the longest archive has decides an archive: a hundred million bytes, and as many while they are read.
#[test]
fn an_archive_without_end_is_refused_in_bounded_memory() {
    let place = Place::new("endless_archive");
    place.write("case", &archive_of(1, &mut Random::new(950))[..64]);
    // It has a length, but nothing on the disk.
    File::create(place.path("long")).unwrap().set_len(1 << 33).unwrap();
    let most = 320 << 10;
    let found = "  found    over 96000016 bytes, more than any archive has\n";
    for words in [
        &["list", "-"][..],
        &["verify", "-"],
        &["show", "-", "0"],
        &["worst", "-", "air"],
        &["export", "-", "0"],
        &["explain", "-", "0"],
    ] {
        let ran = run_on_zeros(&place, words, most);
        assert!(ran.ends(21).err.contains(found), "{words:?}: {}", ran.err);
        assert_eq!(ran.out, if words[0] == "list" { "refused 21\n" } else { "" });
    }
    for words in [&["list", "long"][..], &["file", "long", "--case", "case"], &["import", "long", "case"]] {
        let ran = run_on_zeros(&place, words, most);
        assert!(ran.ends(21).err.contains(found), "{words:?}: {}", ran.err);
    }
    assert_eq!(place.path("long").metadata().unwrap().len(), 1 << 33);
    fs::remove_file(place.path("long")).unwrap();
}
