//! Files beside those that a command writes: whatever they are called, they stay as they are.

mod common;
use common::{archive_of, filing, with, Place, P1};
use csorvelin_differential::random::Random;
use csorvelin_model::archive;
use std::collections::BTreeMap;
use std::fs;

type Files = BTreeMap<String, Vec<u8>>;

/// The files that are not the same in both.
fn changed(before: &Files, now: &Files) -> Vec<String> {
    let names = before.keys().chain(now.keys().filter(|name| !before.contains_key(*name)));
    names.filter(|name| before.get(*name) != now.get(*name)).cloned().collect()
}

/// Runs a command that changes these files and no other.
fn changes(place: &Place, words: &[&str], names: &[&str]) {
    let before = place.files();
    place.run(words).ends(0);
    assert_eq!(changed(&before, &place.files()), names, "{words:?}");
}

/// Runs a command that ends with this status and changes nothing.
fn changes_nothing(place: &Place, words: &[&str], status: i32) {
    let before = place.files();
    place.run(words).ends(status);
    assert_eq!(changed(&before, &place.files()), [""; 0], "{words:?}");
}

#[test]
fn archives_beside_each_other() {
    let place = Place::new("beside");
    let archives = ["Y", "Y.tmp", "Y.lock", "Y~", ".Y", ".Y.tmp", "Y.new", "Y.bak", "Y.tmp.tmp", "Y.lock.lock"];
    for archive in archives {
        changes(&place, &["new", archive], &[archive]);
    }
    for (index, archive) in archives.iter().rev().chain(&archives).enumerate() {
        changes(&place, &filing(archive, &format!("dossier={}", index + 1)), &[archive]);
        changes_nothing(&place, &filing(archive, &format!("dossier={}", index + 1)), 22);
        changes_nothing(&place, &["new", archive], 73);
    }
    place.write("case", &place.read("Y")[..64]);
    for archive in &archives[1..] {
        changes(&place, &["import", archive, "case"], &[archive]);
        changes_nothing(&place, &["import", archive, "case"], 65);
    }
    assert!(archives.iter().all(|archive| place.read(archive).len() >= 16 + 2 * 96));
}

/// Files of the user's that are no archives at all.
#[test]
fn files_with_names_like_temporary_ones() {
    let place = Place::new("names_like_temporary");
    let others = ["n", "archive"].map(|name| [".tmp", ".lock", "~", ".bak", ".new"].map(|end| format!("{name}{end}")));
    let hidden = [".csorvelin-", ".csorvelin-1-0000000000000000", ".csorvelin-lock", ".csorvelin-archive"];
    for name in others.as_flattened().iter().map(String::as_str).chain(hidden) {
        place.write(name, name.as_bytes());
    }
    fs::create_dir(place.path(".csorvelin-folder")).unwrap();
    changes(&place, &["new", "archive"], &["archive"]);
    changes(&place, &filing("archive", "dossier=1"), &["archive"]);
    changes(&place, &[&["case", "--out", "n"], &P1[..]].concat(), &["n"]);
    changes_nothing(&place, &[&["case", "--out", "n"], &P1[..]].concat(), 73);
    changes(&place, &["show", "archive", "0", "--out", "shown"], &["shown"]);
    changes(&place, &["export", "archive", "0", "--out", "loads"], &["loads"]);
    changes_nothing(&place, &["export", "archive", "0", "--out", "loads"], 73);
    changes(&place, &["import", "archive", "n"], &["archive"]);
    for name in hidden {
        changes_nothing(&place, &["new", name], 73);
    }
    changes_nothing(&place, &["new", ".csorvelin-folder"], 73);
    changes_nothing(&place, &filing("n.tmp", "dossier=1"), 21);
    assert!(place.path(".csorvelin-folder").is_dir());
}

/// An archive may have such a name too.
#[test]
fn an_archive_that_is_called_like_a_lock_or_a_temporary_file() {
    let place = Place::new("called_like");
    for archive in ["Z.lock", ".csorvelin-7-0123456789abcdef"] {
        changes(&place, &["new", archive], &[archive]);
        for dossier in ["dossier=1", "dossier=2", "dossier=3"] {
            changes(&place, &filing(archive, dossier), &[archive]);
        }
        changes_nothing(&place, &["verify", archive], 0);
    }
    changes(&place, &["new", "Z"], &["Z"]);
    changes(&place, &filing("Z", "dossier=4"), &["Z"]);
}

/// No command leaves anything but what it is to write, in its folder or where it is run.
#[test]
fn a_command_run_in_another_folder() {
    let place = Place::new("folders");
    for folder in ["here", "there"] {
        fs::create_dir(place.path(folder)).unwrap();
    }
    let [here, there] = ["here", "there"].map(|folder| Place { directory: place.path(folder) });
    let bytes = archive_of(2, &mut Random::new(900));
    there.write("archive", &bytes);
    std::os::unix::fs::symlink("../there/archive", here.path("link")).unwrap();
    here.run(&filing("../there/archive", "dossier=8")).ends(0);
    here.run(&filing("link", "dossier=9")).ends(0);
    assert_eq!(there.read("archive").len(), 16 + 4 * 96);
    assert_eq!(there.read("archive")[..192], bytes[..192]);
    assert_eq!((here.names(), there.names()), (vec!["link".to_string()], vec!["archive".to_string()]));
    assert!(here.path("link").symlink_metadata().unwrap().is_symlink());
}

#[test]
fn links_stay_links_and_are_not_written_through_where_they_lead_nowhere() {
    let place = Place::new("links_of_links");
    let link = |to: &str, name: &str| std::os::unix::fs::symlink(to, place.path(name)).unwrap();
    let case = csorvelin_differential::cases::valid(&mut Random::new(901));
    place.write("archive", &with(&archive::trailer(0), &case));
    for (to, name) in [("archive", "one"), ("one", "two"), ("nowhere", "broken"), ("broken", "more"), ("loop", "loop")]
    {
        link(to, name);
    }
    changes(&place, &filing("two", "dossier=1"), &["archive"]);
    place.write("cases.csv", b"kind,row,dossier,a,b,c\n4,1,2,5,0,1\n4,1,3,5,0,1\n");
    changes(&place, &["import", "one", "cases.csv"], &["archive"]);
    assert_eq!(place.read("archive").len(), 16 + 4 * 96);
    let out = |name| [&["case", "--out", name], &P1[..]].concat();
    for name in ["one", "two", "broken", "more", "loop"] {
        changes_nothing(&place, &["new", name], 73);
        changes_nothing(&place, &out(name), 73);
        changes_nothing(&place, &["show", "archive", "0", "--out", name], 73);
        changes_nothing(&place, &["export", "archive", "0", "--out", name], 73);
    }
    for name in ["broken", "more", "loop", "nowhere"] {
        changes_nothing(&place, &filing(name, "dossier=9"), 66);
        changes_nothing(&place, &["import", name, "cases.csv"], 66);
    }
    assert!(!place.exists("nowhere"));
}
