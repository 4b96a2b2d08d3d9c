//! Writers that are ended, or overtaken, while they hold or wait for an archive: held at one of their steps they wait for
//! the end of their standard input.

#[path = "../../cli/tests/common/mod.rs"]
mod common;
use common::{archive_of, ended, filing, Place, Ran};
use csorvelin_differential::random::Random;
use std::fs::{self, File};
use std::io::{BufRead, BufReader};
use std::os::unix::fs::PermissionsExt;
use std::os::unix::process::ExitStatusExt;
use std::process::{Child, Command, Stdio};

/// The steps of a filing into a short archive, counted from 1.
const STEPS: [&str; 9] = [
    "lock the archive",
    "read the archive",
    "create the temporary file",
    "set owner and mode",
    "write a piece",
    "sync the temporary file",
    "rename the temporary file",
    "sync the directory",
    "end",
];

/// The command waiting before its n-th step, which is called so.
fn paused(place: &Place, words: &[&str], n: usize, step: &str) -> Child {
    let mut command = place.command(words);
    command.env("CSORVELIN_TEST_PAUSE", n.to_string());
    let mut child = command.stdin(Stdio::piped()).stdout(Stdio::piped()).stderr(Stdio::piped()).spawn().unwrap();
    let mut line = String::new();
    BufReader::new(child.stderr.as_mut().unwrap()).read_line(&mut line).unwrap();
    assert_eq!(line, format!("paused before: {step}\n"));
    child
}

/// A filing that waits before a step.
fn paused_filing(place: &Place, dossier: &str, step: &str) -> Child {
    let n = STEPS.iter().position(|name| *name == step).unwrap() + 1;
    paused(place, &filing("archive", dossier), n, step)
}

/// A filing that has found the archive locked twice and has opened it for the third time.
fn waiting_filing(place: &Place, dossier: &str) -> Child {
    paused(place, &[&filing("archive", dossier)[..], &["--wait", "60"]].concat(), 3, "lock the archive")
}

/// Lets a process go on to its end.
fn resumed(mut child: Child) -> Ran {
    drop(child.stdin.take());
    ended(child)
}

const SIGNALS: [(&str, i32); 4] = [("KILL", 9), ("INT", 2), ("TERM", 15), ("HUP", 1)];

/// Ends a process by a signal.
fn kill(mut child: Child, (name, number): (&str, i32)) {
    let sent = Command::new("kill").args(["-s", name, &child.id().to_string()]).status().unwrap();
    assert!(sent.success());
    // Held until then: the end of its input would let it go on.
    let input = child.stdin.take();
    assert_eq!(child.wait().unwrap().signal(), Some(number));
    drop(input);
}

/// The signals that end a process here: one that is started by nohup, say, ignores some of them.
fn signals() -> impl Iterator<Item = (&'static str, i32)> {
    let status = fs::read_to_string("/proc/self/status").unwrap();
    let ignored = status.lines().find_map(|line| line.strip_prefix("SigIgn:")).unwrap();
    let ignored = u64::from_str_radix(ignored.trim(), 16).unwrap();
    SIGNALS.into_iter().filter(move |(_, number)| ignored >> (number - 1) & 1 == 0)
}

/// A place with an archive of this many records, of dossiers from 1 on.
fn with_archive(name: &str, n: u64) -> Place {
    let place = Place::new(name);
    place.write("archive", &archive_of(n, &mut Random::new(600)));
    place
}

#[test]
fn a_writer_that_is_ended_leaves_no_lock() {
    for signal in signals() {
        for step in STEPS {
            let place = with_archive("ended_writer", 2);
            let old = place.read("archive");
            let writer = paused_filing(&place, "dossier=3", step);
            let replaced = ["sync the directory", "end"].contains(&step);
            if step != "lock the archive" && !replaced {
                let before = place.files();
                let second = place.run(&filing("archive", "dossier=4"));
                assert!(second.ends(75).err.contains("archive is locked by another writer; "), "{}", second.err);
                assert_eq!(place.files(), before, "{step}");
            }
            kill(writer, signal);
            assert_eq!(place.read("archive") == old, !replaced, "{step}");
            place.run(&filing("archive", "dossier=4")).ends(0);
            let expected: &[u64] = if replaced { &[1, 2, 3, 4] } else { &[1, 2, 4] };
            assert_eq!(place.dossiers("archive"), expected, "{signal:?} before: {step}");
        }
    }
}

#[test]
fn one_that_waits_files_when_the_other_is_ended() {
    for signal in signals() {
        let place = with_archive("ended_holder", 2);
        let holder = paused_filing(&place, "dossier=3", "write a piece");
        let waiting = waiting_filing(&place, "dossier=4");
        kill(holder, signal);
        assert!(resumed(waiting).ends(0).out.starts_with("filed in archive as record 2\n"));
        assert_eq!(place.dossiers("archive"), [1, 2, 4]);
    }
}

/// The one that waits has the old archive open when the other has put a new one in its place.
#[test]
fn one_that_waits_files_behind_the_other() {
    let place = with_archive("resumed_holder", 2);
    let holder = paused_filing(&place, "dossier=3", "read the archive");
    let waiting = waiting_filing(&place, "dossier=4");
    resumed(holder).ends(0);
    assert!(resumed(waiting).ends(0).out.starts_with("filed in archive as record 3\n"));
    assert_eq!(place.dossiers("archive"), [1, 2, 3, 4]);
    assert_eq!(place.names(), ["archive"]);
}

/// Opened, not yet locked, and another files meanwhile: once, and several times.
#[test]
fn one_that_was_overtaken_loses_nothing() {
    let place = with_archive("overtaken", 1);
    let slow = paused_filing(&place, "dossier=2", "lock the archive");
    place.run(&filing("archive", "dossier=3")).ends(0);
    resumed(slow).ends(0);
    let slow = paused_filing(&place, "dossier=4", "lock the archive");
    for dossier in ["dossier=5", "dossier=6"] {
        place.run(&filing("archive", dossier)).ends(0);
    }
    let same = paused_filing(&place, "dossier=6", "lock the archive");
    place.run(&filing("archive", "dossier=7")).ends(0);
    resumed(slow).ends(0);
    resumed(same).ends(22);
    assert_eq!(place.dossiers("archive"), [1, 3, 2, 5, 6, 7, 4]);
    assert_eq!(place.names(), ["archive"]);
}

/// Another program holds the lock and puts another archive in the place of the first.
#[test]
fn an_archive_replaced_while_one_waits_is_the_one_filed_into() {
    let place = with_archive("replaced", 2);
    let old = place.read("archive");
    let held = File::open(place.path("archive")).unwrap();
    held.lock().unwrap();
    let waiting = waiting_filing(&place, "dossier=9");
    fs::rename(place.path("archive"), place.path("put away")).unwrap();
    place.write("other", &archive_of(5, &mut Random::new(601)));
    fs::rename(place.path("other"), place.path("archive")).unwrap();
    drop(held);
    assert!(resumed(waiting).ends(0).out.starts_with("filed in archive as record 5\n"));
    assert_eq!(place.dossiers("archive"), [1, 2, 3, 4, 5, 9]);
    assert_eq!(place.read("put away"), old);
    assert_eq!(place.names(), ["archive", "put away"]);
}

#[test]
fn an_archive_removed_while_one_waits_is_not_made_again() {
    let place = with_archive("removed", 2);
    let slow = paused_filing(&place, "dossier=9", "lock the archive");
    fs::rename(place.path("archive"), place.path("put away")).unwrap();
    resumed(slow).ends(66);
    assert_eq!(place.dossiers("put away"), [1, 2]);
    assert_eq!(place.names(), ["put away"]);
}

/// A filing takes its time; what the user does with the archive until then stays done.
#[test]
fn an_archive_changed_by_its_user_meanwhile_is_left_alone() {
    type Done = fn(&Place);
    let cases: [(Done, i32, &str); 6] = [
        (|place| place.set_mode("archive", 0o444), 77, "archive is sealed: nobody has write permission"),
        (|place| place.set_mode("archive", 0o600), 74, "archive was changed meanwhile; it is left as it is now"),
        (|place| place.write("archive", &place.read("other")), 74, "archive was changed meanwhile"),
        (|place| fs::rename(place.path("other"), place.path("archive")).unwrap(), 74, "archive was changed meanwhile"),
        (|place| fs::rename(place.path("archive"), place.path("second")).unwrap(), 74, "archive was changed meanwhile"),
        (|place| fs::hard_link(place.path("archive"), place.path("second")).unwrap(), 74, "2 names (hard links)"),
    ];
    for (done, status, said) in cases {
        let place = with_archive("changed_meanwhile", 2);
        place.set_mode("archive", 0o644);
        place.write("other", &archive_of(5, &mut Random::new(601)));
        let writer = paused_filing(&place, "dossier=9", "rename the temporary file");
        done(&place);
        let state = |place: &Place| {
            let mode = |name: &String| place.path(name).symlink_metadata().unwrap().permissions().mode();
            let visible = place.files().into_iter().filter(|(name, _)| !name.starts_with('.'));
            visible.map(|(name, bytes)| (mode(&name), name, bytes)).collect::<Vec<_>>()
        };
        let before = state(&place);
        let ran = resumed(writer);
        assert!(ran.ends(status).err.contains(said), "{}", ran.err);
        assert_eq!(state(&place), before, "{said}");
        assert!(!place.names().iter().any(|name| name.starts_with('.')), "{said}");
    }
}

/// The folder that the archive was found in is the one that is written in, whatever its name leads to by then.
#[test]
fn a_folder_swapped_for_another_meanwhile_leads_nobody_astray() {
    for (n, step) in (1..).zip(STEPS) {
        let place = Place::new("swapped_folder");
        for folder in ["folder", "other"] {
            fs::create_dir(place.path(folder)).unwrap();
            place.write(&format!("{folder}/archive"), &archive_of(2, &mut Random::new(602)));
        }
        let other = place.read("other/archive");
        let writer = paused(&place, &filing("folder/archive", "dossier=9"), n, step);
        fs::rename(place.path("folder"), place.path("moved")).unwrap();
        std::os::unix::fs::symlink("other", place.path("folder")).unwrap();
        resumed(writer).ends(0);
        assert_eq!(place.dossiers("moved/archive"), [1, 2, 9], "{step}");
        assert_eq!(place.read("other/archive"), other, "{step}");
        for folder in ["moved", "other"] {
            assert_eq!(Place { directory: place.path(folder) }.names(), ["archive"], "{step}");
        }
    }
}

/// Between the step that gives a new archive its name and the one that takes the temporary name away another may file.
#[test]
fn a_new_archive_is_filed_into_before_its_maker_ends() {
    let place = Place::new("unfinished_new");
    let maker = paused(&place, &["new", "archive"], 5, "remove the temporary name");
    place.run(&filing("archive", "dossier=1")).ends(0);
    resumed(maker).ends(0);
    assert_eq!(place.dossiers("archive"), [1]);
    assert_eq!(place.names(), ["archive"]);
}

/// What has got its name first stays, whoever made it.
#[test]
fn a_name_taken_meanwhile_is_not_taken_again() {
    let place = Place::new("taken_meanwhile");
    let slow = paused(&place, &["new", "archive"], 4, "link the file to its name");
    let case = [&["case", "--out", "p1"], &common::P1[..]].concat();
    let slow_case = paused(&place, &case, 4, "link the file to its name");
    place.run(&["new", "archive"]).ends(0);
    place.run(&filing("archive", "dossier=1")).ends(0);
    place.write("p1", b"mine");
    for slow in [slow, slow_case] {
        let ran = resumed(slow);
        assert!(ran.ends(73).err.contains("exists already; nothing was written"), "{}", ran.err);
    }
    assert_eq!(place.dossiers("archive"), [1]);
    assert_eq!(place.read("p1"), b"mine");
    assert_eq!(place.names(), ["archive", "p1"]);
}
