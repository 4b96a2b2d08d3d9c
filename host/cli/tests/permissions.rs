//! Who may write an archive, and that a filing leaves owner, group, mode and names as they are.

mod common;
use common::{archive_of, filing, is_root, rights, Place, Ran, Shared, OTHER};
use csorvelin_differential::random::Random;
use std::fs;
use std::os::unix::fs::{chown, MetadataExt};

/// A group that neither root nor the other user is in.
const STRANGE: u32 = 54321;

/// Puts an archive of two records into a place.
fn write_archive(place: &Place) {
    place.write("archive", &archive_of(2, &mut Random::new(700)));
}

/// Owner, group and mode of the archive.
fn rights_of_archive(place: &Place) -> (u32, u32, u32) {
    rights(&place.path("archive").metadata().unwrap())
}

/// All that is seen of a file by its name.
fn state(place: &Place, name: &str) -> impl PartialEq + std::fmt::Debug {
    let metadata = place.path(name).metadata().unwrap();
    let written = (metadata.mtime(), metadata.mtime_nsec(), place.read(name));
    (rights(&metadata), metadata.ino(), metadata.nlink(), written)
}

/// The commands that write to `archive` end with a status and a message, and leave all as it is.
fn refused(place: &Place, run: impl Fn(&[&str]) -> Ran, status: i32, said: &str) {
    place.write("case", &archive_of(3, &mut Random::new(701))[192..256]);
    let before = (place.files(), state(place, "archive"));
    let file = filing("archive", "dossier=3");
    let waiting = [&file[..], &["--wait", "60"]].concat();
    for words in [&file[..], &waiting, &["import", "archive", "case"], &["import", "archive", "case", "--keep-going"]] {
        let ran = run(words);
        assert!(ran.ends(status).err.contains(said), "{words:?}: {}", ran.err);
        assert_eq!(ran.out, "");
        assert!((place.files(), state(place, "archive")) == before, "{words:?}: {said}");
    }
    let json = run(&[&file[..], &["--json"]].concat());
    assert!(json.ends(status).out.starts_with(&format!("{{\"error\":{status},\"message\":\"")), "{}", json.out);
    assert!((place.files(), state(place, "archive")) == before, "{said}");
}

/// The commands that read `archive` do what they always do.
fn read(run: impl Fn(&[&str]) -> Ran) {
    let reading: [&[&str]; 6] = [
        &["list", "archive"],
        &["show", "archive", "1"],
        &["worst", "archive", "stp"],
        &["export", "archive", "1"],
        &["explain", "archive", "0"],
        &["verify", "archive"],
    ];
    for words in reading {
        run(words).ends(0);
    }
}

/// A trial of an import: it promises nothing that the import would not keep.
const TRIAL: [&str; 4] = ["import", "archive", "case", "--dry-run"];

#[test]
fn a_sealed_archive_is_not_written_to() {
    let place = Place::new("sealed");
    write_archive(&place);
    for mode in [0o444, 0o440, 0o400, 0o555] {
        place.set_mode("archive", mode);
        refused(&place, |words| place.run(words), 77, "archive is sealed: ");
        place.run(&TRIAL).ends(77);
        read(|words| place.run(words));
    }
    // By a link too, and opened again by the one who sealed it.
    std::os::unix::fs::symlink("archive", place.path("link")).unwrap();
    let ran = place.run(&filing("link", "dossier=3"));
    assert!(ran.ends(77).err.contains("link is sealed: "), "{}", ran.err);
    place.set_mode("archive", 0o644);
    place.run(&filing("link", "dossier=3")).ends(0);
}

#[test]
fn an_archive_that_its_caller_may_not_write_is_not_written_to() {
    if !is_root() {
        return;
    }
    let shared = Shared::new("unwritable");
    let place = &shared.place;
    write_archive(place);
    // What others may do counts, or what its group may.
    for (group, mode) in [(0, 0o644), (0, 0o664), (OTHER, 0o640), (OTHER, 0o646)] {
        chown(place.path("archive"), Some(0), Some(group)).unwrap();
        place.set_mode("archive", mode);
        refused(place, |words| shared.run(words), 77, "archive is sealed: you have no write permission");
        shared.run(&TRIAL).ends(77);
        read(|words| shared.run(words));
        // Root may.
        place.run(&TRIAL).ends(0);
    }
    // One that may not even be read.
    for mode in [0o600, 0o622] {
        place.set_mode("archive", mode);
        chown(place.path("archive"), Some(0), Some(0)).unwrap();
        refused(place, |words| shared.run(words), 66, "cannot read archive: ");
        shared.run(&["list", "archive"]).ends(66);
    }
}

/// Modes of an archive that its owner may write.
const MODES: [u32; 12] = [0o600, 0o604, 0o606, 0o620, 0o640, 0o644, 0o660, 0o664, 0o666, 0o2664, 0o2770, 0o4755];

/// Files into `archive` and imports into it; its rights stay.
fn rights_stay(place: &Place, run: impl Fn(&[&str]) -> Ran) {
    let before = rights_of_archive(place);
    run(&filing("archive", "dossier=3")).ends(0);
    assert_eq!(rights_of_archive(place), before);
    run(&["import", "archive", "case"]).ends(0);
    assert_eq!(rights_of_archive(place), before);
    assert_eq!(place.read("archive").len(), 16 + 4 * 96);
    assert_eq!(place.names(), ["archive", "case"]);
}

#[test]
fn owner_group_and_mode_stay() {
    let shared = Shared::new("rights");
    let place = &shared.place;
    place.write("case", &archive_of(9, &mut Random::new(702))[8 * 96..8 * 96 + 64]);
    place.set_mode("case", 0o644);
    for mode in MODES {
        for group in [OTHER, STRANGE] {
            write_archive(place);
            if is_root() {
                chown(place.path("archive"), Some(OTHER), Some(group)).unwrap();
            }
            place.set_mode("archive", mode);
            rights_stay(place, |words| place.run(words));
            assert_eq!(rights_of_archive(place).2, mode);
        }
        // The owner files: an ordinary user, whose new files have a group by the directory.
        write_archive(place);
        if is_root() {
            chown(place.path("archive"), Some(OTHER), Some(OTHER)).unwrap();
            chown(&place.directory, None, Some(STRANGE)).unwrap();
            place.set_mode("", 0o2777);
        }
        place.set_mode("archive", mode);
        rights_stay(place, |words| shared.run(words));
        assert_eq!(rights_of_archive(place).2, mode);
        place.set_mode("", 0o777);
    }
}

/// What is taken from the mode of new files is not taken from an archive's.
#[test]
fn the_mask_for_new_files_counts_for_new_ones_only() {
    let place = Place::new("mask");
    for (mask, mode) in [("umask 0", 0o666), ("umask 027", 0o640), ("umask 077", 0o600)] {
        let run = |words: &[&str]| Ran::of(place.command_after(mask, words).output().unwrap());
        run(&["new", "archive"]).ends(0);
        assert_eq!(rights_of_archive(&place).2, mode);
        run(&[&["case", "--out", "case"], &common::P1[..]].concat()).ends(0);
        assert_eq!(place.path("case").metadata().unwrap().mode() & 0o7777, mode);
        for mode in MODES {
            write_archive(&place);
            place.set_mode("archive", mode);
            run(&filing("archive", "dossier=3")).ends(0);
            assert_eq!(rights_of_archive(&place).2, mode, "{mask}");
        }
        fs::remove_file(place.path("archive")).unwrap();
        fs::remove_file(place.path("case")).unwrap();
    }
}

/// One who may write an archive that is another's cannot give the new one to that other.
#[test]
fn where_owner_or_group_cannot_stay_nothing_is_filed() {
    if !is_root() {
        return;
    }
    let shared = Shared::new("another's");
    let place = &shared.place;
    write_archive(place);
    // Writable to all, to its group, to its owner who is not in its group.
    for (owner, group, mode) in [(0, 0, 0o666), (STRANGE, OTHER, 0o660), (0, STRANGE, 0o606), (OTHER, STRANGE, 0o600)] {
        chown(place.path("archive"), Some(owner), Some(group)).unwrap();
        place.set_mode("archive", mode);
        refused(
            place,
            |words| shared.run(words),
            74,
            "owner, group, mode and access control list of archive cannot be kept",
        );
        read(|words| shared.run(words));
    }
}

/// A file beside the archive is needed to replace it.
#[test]
fn where_nothing_can_be_written_beside_it_an_archive_stays_as_it_is() {
    let shared = Shared::new("folder");
    let place = &shared.place;
    write_archive(place);
    place.write("case", &archive_of(3, &mut Random::new(701))[192..256]);
    if is_root() {
        chown(place.path("archive"), Some(OTHER), Some(OTHER)).unwrap();
    }
    place.set_mode("archive", 0o644);
    place.set_mode("", 0o555);
    let before = (place.files(), state(place, "archive"));
    for words in [&filing("archive", "dossier=3")[..], &["import", "archive", "case"]] {
        let ran = shared.run(words);
        assert!(ran.ends(74).err.contains("in the directory of archive: "), "{}", ran.err);
    }
    shared.run(&["new", "other"]).ends(73);
    read(|words| shared.run(words));
    assert!((place.files(), state(place, "archive")) == before);
}

/// As on a full disk the first pieces are written; here it is a limit on the length of files that is met then.
#[test]
fn where_the_new_archive_does_not_fit_the_old_one_stays() {
    let place = Place::new("full");
    place.write("archive", &archive_of(200, &mut Random::new(703)));
    let before = (place.files(), state(&place, "archive"));
    let limit = "trap '' XFSZ && ulimit -f 12";
    let run = |words: &[&str]| Ran::of(place.command_after(limit, words).output().unwrap());
    let ran = run(&filing("archive", "dossier=999"));
    assert!(ran.ends(74).err.contains("; it is as it was before\n"), "{}", ran.err);
    assert!((place.files(), state(&place, "archive")) == before);
    run(&["verify", "archive"]).ends(0);
}

#[test]
fn an_archive_of_several_names_is_not_replaced_under_one_of_them() {
    let place = Place::new("names");
    write_archive(&place);
    fs::create_dir(place.path("folder")).unwrap();
    for second in ["second", "folder/archive", ".hidden", ".csorvelin-mine"] {
        fs::hard_link(place.path("archive"), place.path(second)).unwrap();
        refused(&place, |words| place.run(words), 74, "archive has 2 names (hard links), ");
        read(|words| place.run(words));
        assert!(state(&place, "archive") == state(&place, second));
        place.run(&filing(second, "dossier=3")).ends(74);
        assert!(state(&place, "archive") == state(&place, second));
        fs::remove_file(place.path(second)).unwrap();
    }
    place.run(&filing("archive", "dossier=3")).ends(0);
    // Called like a temporary file itself.
    let hidden = ".csorvelin-1-0123456789abcdef";
    place.run(&["new", hidden]).ends(0);
    fs::hard_link(place.path(hidden), place.path("second")).unwrap();
    place.run(&filing(hidden, "dossier=3")).ends(74);
    assert!(state(&place, hidden) == state(&place, "second"));
}
