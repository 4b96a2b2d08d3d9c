//! A writer stopped before each of its file-system steps: a file is always the old one or the new one, whole, the next
//! writer goes on at once, and what is left is hidden, harmless, and removed by nobody.

#[path = "../../cli/tests/common/mod.rs"]
mod common;
use common::{archive_of, filing, with, Place, Ran, P1};
use csorvelin_differential::{cases, random::Random};
use csorvelin_model::archive;
use csorvelin_model::case::Case;
use std::collections::BTreeMap;
use std::fs;
use std::os::unix::fs::MetadataExt;

const PIECE: usize = 4096;

/// The steps of a writer that replaces an archive by one of `length` bytes.
fn replacing(length: usize) -> Vec<&'static str> {
    let pieces = vec!["write a piece"; length.div_ceil(PIECE)];
    let first = ["lock the archive", "read the archive", "create the temporary file", "set owner and mode"];
    let last = ["sync the temporary file", "rename the temporary file", "sync the directory", "end"];
    [&first[..], &pieces, &last].concat()
}

/// The steps of a writer that makes a new file of one piece.
const CREATING: [&str; 6] = [
    "create the temporary file",
    "write a piece",
    "sync the temporary file",
    "link the file to its name",
    "remove the temporary name",
    "sync the directory",
];

/// Whether the new file has its name before this step.
fn is_written(step: &str) -> bool {
    ["remove the temporary name", "sync the directory", "end"].contains(&step)
}

/// Whether there is a temporary file before this step.
fn leaves_a_file(step: &str) -> bool {
    let none = ["lock the archive", "read the archive", "create the temporary file", "sync the directory", "end"];
    !none.contains(&step)
}

/// Runs the command up to its n-th step.
fn run_to(place: &Place, words: &[&str], n: usize) -> Ran {
    Ran::of(place.command(words).env("CSORVELIN_TEST_STOP", n.to_string()).output().unwrap())
}

/// The step that a run was stopped at, if it was.
fn step_of(ran: &Ran) -> Option<String> {
    let step = ran.err.strip_prefix("stopped before: ")?.trim_end().to_string();
    assert_eq!(ran.status, None, "ended by a signal");
    Some(step)
}

/// Runs the command up to its n-th step; the step's name, or none if it came to its end before.
fn stopped(place: &Place, words: &[&str], n: usize) -> Option<String> {
    let ran = run_to(place, words, n);
    let step = step_of(&ran);
    if step.is_none() {
        ran.ends(0);
    }
    step
}

fn is_hidden(name: &str) -> bool {
    name.starts_with(".csorvelin-")
}

/// What stopped writers left.
fn left(place: &Place) -> BTreeMap<String, Vec<u8>> {
    place.files().into_iter().filter(|(name, _)| is_hidden(name)).collect()
}

/// The names of the other files.
fn names(place: &Place) -> Vec<String> {
    place.names().into_iter().filter(|name| !is_hidden(name)).collect()
}

/// Stops a writer that changes the archive from `old` to `new` at each of its steps, and each time goes on with another,
/// which ends with `again` where the first had written. Answers the number of steps.
fn stop_replacing_everywhere(place: &Place, words: &[&str], old: &[u8], new: &[u8], again: i32) -> usize {
    let (mut met, mut earlier) = (vec![], BTreeMap::new());
    loop {
        place.write("archive", old);
        let visible = names(place);
        let Some(step) = stopped(place, words, met.len() + 1) else {
            break;
        };
        let expected = if is_written(&step) { new } else { old };
        assert!(place.read("archive") == expected, "{} bytes, stopped before: {step}", old.len());
        let now = left(place);
        assert_eq!(now.len(), earlier.len() + usize::from(leaves_a_file(&step)), "{step}");
        assert!(now.values().all(|bytes| new.starts_with(bytes)), "{step}");
        place.run(words).ends(if is_written(&step) { again } else { 0 });
        assert!(place.read("archive") == new, "{} bytes, went on after: {step}", old.len());
        // What was left is as it was, and there is nothing else.
        assert!(earlier.iter().all(|(name, bytes)| now.get(name) == Some(bytes)), "{step}");
        assert!(left(place) == now && names(place) == visible, "{step}");
        earlier = now;
        met.push(step);
    }
    assert!(place.read("archive") == new && left(place) == earlier);
    assert_eq!(met, replacing(new.len()));
    met.len()
}

#[test]
fn filing_stopped_at_each_step() {
    let sizes = [0, 1, 2, 3, 10, 20, 41, 42, 43, 60, 84, 85, 100, 128, 170, 213, 300, 400, 500, 600, 650, 682, 1000];
    let points: usize = sizes.iter().map(|&n| stop_filing_everywhere(n)).sum();
    assert!(points >= 300, "{points} points");
}

fn stop_filing_everywhere(n: u64) -> usize {
    let place = Place::new("stopped_filing");
    let mut random = Random::new(400 + n);
    let old = archive_of(n, &mut random);
    let case = Case { dossier: n + 1, ..cases::valid(&mut random) };
    place.write("case", &case.encode());
    stop_replacing_everywhere(&place, &["file", "archive", "--case", "case"], &old, &with(&old, &case), 22)
}

#[test]
fn an_import_stopped_at_each_step_has_filed_all_or_none() {
    let place = Place::new("stopped_import");
    fs::create_dir(place.path("cases")).unwrap();
    let mut random = Random::new(501);
    let old = archive_of(20, &mut random);
    let mut new = old.clone();
    for dossier in 100..200 {
        let case = Case { dossier, ..cases::valid(&mut random) };
        place.write(&format!("cases/{dossier}"), &case.encode());
        new = with(&new, &case);
    }
    stop_replacing_everywhere(&place, &["import", "archive", "cases"], &old, &new, 65);
}

/// Stops a command that makes a new file at each of its steps, and each time goes on with another. The file is there at
/// the end, with what was left beside it.
fn stop_creating_everywhere(place: &Place, words: &[&str], name: &str, bytes: &[u8]) {
    let (mut met, mut earlier) = (vec![], left(place));
    while let Some(step) = stopped(place, words, met.len() + 1) {
        assert_eq!(place.exists(name), is_written(&step), "{step}");
        let now = left(place);
        assert_eq!(now.len(), earlier.len() + usize::from(leaves_a_file(&step)), "{step}");
        place.run(words).ends(if is_written(&step) { 73 } else { 0 });
        assert_eq!(place.read(name), bytes);
        assert!(earlier.iter().all(|(name, bytes)| now.get(name) == Some(bytes)), "{step}");
        assert!(left(place) == now, "{step}");
        fs::remove_file(place.path(name)).unwrap();
        earlier = now;
        met.push(step);
    }
    assert_eq!(place.read(name), bytes);
    assert_eq!(met, CREATING);
}

#[test]
fn a_new_archive_stopped_at_each_step() {
    let place = Place::new("stopped_new");
    stop_creating_everywhere(&place, &["new", "archive"], "archive", &archive::trailer(0));
    assert_eq!(names(&place), ["archive"]);
}

/// What is left in a folder of cases are 64 bytes too, and no case that anybody wrote.
#[test]
fn a_case_file_stopped_at_each_step() {
    let place = Place::new("stopped_case");
    place.run(&["new", "archive"]).ends(0);
    place.run(&[&["file", "archive"], &P1[..]].concat()).ends(0);
    let case = place.read("archive")[..64].to_vec();
    fs::create_dir(place.path("cases")).unwrap();
    let folder = Place { directory: place.path("cases") };
    stop_creating_everywhere(&folder, &[&["case", "--out", "p1"], &P1[..]].concat(), "p1", &case);
    stop_creating_everywhere(&folder, &["show", "../archive", "0", "--out", "shown"], "shown", &case);
    let before = folder.files();
    assert!(before.iter().filter(|(name, bytes)| is_hidden(name) && bytes.len() == 64).count() >= 6);
    let ran = place.run(&["import", "archive", "cases", "--keep-going"]);
    assert!(ran.ends(65).out.starts_with("2 offered, 2 refused, none filed"), "{}", ran.out);
    place.run(&["new", "empty"]).ends(0);
    fs::remove_file(folder.path("shown")).unwrap();
    let ran = place.run(&["import", "empty", "cases"]);
    assert!(ran.ends(0).out.starts_with("1 offered, 0 refused, 1 filed in empty as record 0"), "{}", ran.out);
    assert_eq!(folder.files(), before.into_iter().filter(|(name, _)| name != "shown").collect());
}

#[test]
fn a_file_of_loads_stopped_at_each_step() {
    let place = Place::new("stopped_loads");
    place.run(&["new", "archive"]).ends(0);
    place.run(&[&["file", "archive"], &P1[..]].concat()).ends(0);
    let (_, loads) = archive::export(&place.read("archive"), 112, 0);
    stop_creating_everywhere(&place, &["export", "archive", "0", "--out", "loads"], "loads", &loads);
    assert_eq!(names(&place), ["archive", "loads"]);
}

/// The one who makes a new archive was stopped when it had its name, and the temporary one still: not a name of the user's.
#[test]
fn an_archive_that_was_left_with_two_names_is_filed_into() {
    let place = Place::new("stopped_two_names");
    assert_eq!(stopped(&place, &["new", "archive"], 5).as_deref(), Some("remove the temporary name"));
    assert_eq!(names_of(&place, "archive"), 2);
    let before = left(&place);
    assert_eq!(before.values().collect::<Vec<_>>(), [&archive::trailer(0)]);
    // A second name that is the user's.
    fs::hard_link(place.path("archive"), place.path("mine")).unwrap();
    let ran = place.run(&filing("archive", "dossier=1"));
    assert!(ran.ends(74).err.contains("2 names (hard links)"), "{}", ran.err);
    assert_eq!(place.read("mine"), archive::trailer(0));
    fs::remove_file(place.path("mine")).unwrap();
    for dossier in ["dossier=1", "dossier=2"] {
        place.run(&filing("archive", dossier)).ends(0);
    }
    assert_eq!(place.read("archive").len(), 16 + 2 * 96);
    assert_eq!(names_of(&place, "archive"), 1);
    assert_eq!(left(&place), before);
}

/// How many names a file has.
fn names_of(place: &Place, name: &str) -> u64 {
    place.path(name).metadata().unwrap().nlink()
}

/// The steps of a command that ends with this status.
fn steps(place: &Place, words: &[&str], status: i32) -> Vec<String> {
    let mut steps = vec![];
    loop {
        let ran = run_to(place, words, steps.len() + 1);
        match step_of(&ran) {
            Some(step) => steps.push(step),
            None => {
                ran.ends(status);
                return steps;
            }
        }
    }
}

/// A filing that is refused takes the lock and reads, and those that only read take no lock.
#[test]
fn a_command_that_changes_nothing_has_no_step_that_writes() {
    let place = Place::new("stopped_refused");
    let archive = archive_of(3, &mut Random::new(500));
    place.write("archive", &archive);
    place.write("case", &archive[..64]);
    let before = place.files();
    assert_eq!(steps(&place, &["file", "archive", "--case", "case"], 22), ["lock the archive", "read the archive"]);
    let steps_of_import = steps(&place, &["import", "archive", "case", "--keep-going"], 65);
    assert_eq!(steps_of_import, ["lock the archive", "read the archive", "end"]);
    let nothing = Vec::<String>::new();
    assert_eq!(steps(&place, &["import", "archive", "case", "--dry-run"], 65), nothing);
    assert_eq!(steps(&place, &["new", "archive"], 73), nothing);
    let reading: [&[&str]; 4] =
        [&["list", "archive"], &["show", "archive", "0"], &["worst", "archive", "air"], &["export", "archive", "0"]];
    for words in reading {
        assert_eq!(steps(&place, words, 0), nothing);
    }
    assert_eq!(steps(&place, &["verify", "archive"], 0), nothing);
    assert_eq!(steps(&place, &["explain", "archive", "2"], 0), nothing);
    assert_eq!(place.files(), before);
}
