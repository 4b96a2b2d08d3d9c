//! Many writers at once: each has its turn, and no record is lost.

mod common;
use common::{ended, filing, Place, Ran};
use std::collections::BTreeSet;
use std::fs::{self, File};
use std::ops::RangeInclusive;
use std::process::{Child, Stdio};
use std::time::{Duration, Instant};

fn start(place: &Place, words: &[&str]) -> Child {
    place.command(words).stdout(Stdio::piped()).stderr(Stdio::piped()).spawn().unwrap()
}

/// Starts the filing of a dossier, which waits for its turn.
fn start_filing(place: &Place, archive: &str, dossier: u64) -> Child {
    start(place, &[&filing(archive, &format!("dossier={dossier}"))[..], &["--wait", "60"]].concat())
}

/// The records that a filing or an import says it has filed.
fn filed(ran: &Ran) -> RangeInclusive<u64> {
    let said = ran.ends(0).out.lines().next().unwrap();
    let words: Vec<&str> = said.split(' ').collect();
    let number = |place: usize| words[words.len() - place].parse().unwrap();
    match words.contains(&"records") {
        true => number(3)..=number(1),
        false => number(1)..=number(1),
    }
}

/// The archive is named in several ways.
#[test]
fn a_hundred_writers_at_once() {
    let place = Place::new("hundred");
    place.run(&["new", "archive"]).ends(0);
    fs::create_dir(place.path("folder")).unwrap();
    std::os::unix::fs::symlink("../archive", place.path("folder/link")).unwrap();
    let names = ["archive", "folder/link", "folder/../archive", "./archive"];
    let writers = (0..100).map(|n| start_filing(&place, names[n as usize % names.len()], 1000 + n));
    let writers: Vec<Child> = writers.collect();
    let mut numbers = vec![];
    for (dossier, writer) in (1000..).zip(writers) {
        let number = *filed(&ended(writer)).start();
        numbers.push((number, dossier));
    }
    numbers.sort();
    assert_eq!(numbers.iter().map(|(number, _)| *number).collect::<Vec<_>>(), (0..100).collect::<Vec<_>>());
    // Each stands where its writer was told.
    assert_eq!(numbers.iter().map(|(_, dossier)| *dossier).collect::<Vec<u64>>(), place.dossiers("archive"));
    assert_eq!(place.names(), ["archive", "folder"]);
    assert!(place.path("folder/link").symlink_metadata().unwrap().is_symlink());
}

#[test]
fn writers_of_several_archives_at_once() {
    let place = Place::new("several");
    let archives = ["one", "two", "three", "four"];
    for archive in archives {
        place.run(&["new", archive]).ends(0);
    }
    let writers: Vec<Child> =
        (0..80).map(|n| start_filing(&place, archives[n % archives.len()], n as u64 + 1)).collect();
    for writer in writers {
        ended(writer).ends(0);
    }
    for (first, archive) in (1..).zip(archives) {
        let found = BTreeSet::from_iter(place.dossiers(archive));
        assert_eq!(found, (0..20).map(|n| first + 4 * n).collect());
    }
    assert_eq!(place.names(), ["four", "one", "three", "two"]);
}

/// An import is one filing: its records stand together.
#[test]
fn imports_and_filings_at_once() {
    let place = Place::new("mixed");
    place.run(&["new", "archive"]).ends(0);
    let batch = |n: u64| (1000 * n)..(1000 * n + 10);
    for n in 1..=15 {
        let rows = batch(n).map(|dossier| format!("4,1,{dossier},5,0,1\n"));
        place.write(
            &format!("{n}.csv"),
            ("kind,row,dossier,a,b,c\n".to_string() + &rows.collect::<String>()).as_bytes(),
        );
    }
    let mut writers = vec![];
    for n in 1..=15 {
        let import = ["import", "archive", &format!("{n}.csv"), "--wait", "60"];
        writers.push((start(&place, &import), batch(n).collect::<Vec<_>>()));
        for dossier in [n, 100 + n] {
            writers.push((start_filing(&place, "archive", dossier), vec![dossier]));
        }
    }
    let told: Vec<_> = writers.into_iter().map(|(writer, expected)| (filed(&ended(writer)), expected)).collect();
    let found = place.dossiers("archive");
    assert_eq!(found.len(), 15 * 12);
    for (records, expected) in told {
        assert_eq!(found[*records.start() as usize..=*records.end() as usize], expected);
    }
}

/// Of those that were killed each has filed or not; all others have.
#[test]
fn writers_of_which_many_are_killed() {
    let place = Place::new("killed");
    place.run(&["new", "archive"]).ends(0);
    let mut told = vec![];
    for round in 0..4 {
        let mut writers: Vec<(u64, Child)> = (1..=30)
            .map(|n| 30 * round + n)
            .map(|dossier| (dossier, start_filing(&place, "archive", dossier)))
            .collect();
        for (_, writer) in writers.iter_mut().step_by(3) {
            writer.kill().unwrap();
        }
        for (index, (dossier, writer)) in writers.into_iter().enumerate() {
            let ran = ended(writer);
            if index % 3 != 0 || ran.status.is_some() {
                told.push((*filed(&ran).start() as usize, dossier));
            }
        }
    }
    let found = place.dossiers("archive");
    assert!(told.len() >= 80 && found.len() >= told.len());
    assert!(told.iter().all(|(number, dossier)| found[*number] == *dossier));
    assert_eq!(BTreeSet::from_iter(&found).len(), found.len());
    place.run(&filing("archive", "dossier=999")).ends(0);
    assert!(place.names().iter().all(|name| name == "archive" || name.starts_with(".csorvelin-")));
}

/// A name is got by one.
#[test]
fn makers_of_one_file_at_once() {
    let place = Place::new("makers");
    let case = [&["case", "--out", "case"], &common::P1[..]].concat();
    let makers: Vec<Child> =
        (0..40).map(|n| start(&place, if n % 2 == 0 { &["new", "archive"] } else { &case })).collect();
    let statuses: Vec<i32> = makers.into_iter().map(|maker| ended(maker).status.unwrap()).collect();
    for made in 0..2 {
        let statuses = statuses.iter().skip(made).step_by(2);
        assert_eq!(statuses.clone().filter(|status| **status == 0).count(), 1);
        assert_eq!(statuses.filter(|status| **status == 73).count(), 19);
    }
    assert_eq!(place.names(), ["archive", "case"]);
    assert_eq!((place.read("archive").len(), place.read("case").len()), (16, 64));
}

/// Another program holds the lock, all of it or a share: that is waited for as long as was said, and readers do not mind.
#[test]
fn a_lock_that_is_held_keeps_writers_out() {
    let place = Place::new("held");
    place.run(&["new", "archive"]).ends(0);
    place.write("cases.csv", b"kind,row,dossier,a,b,c\n4,1,9,5,0,1\n");
    let before = place.files();
    let file = filing("archive", "dossier=7");
    for lock in [File::lock, File::lock_shared] {
        let held = File::open(place.path("archive")).unwrap();
        lock(&held).unwrap();
        for words in
            [&file[..], &["import", "archive", "cases.csv"], &["import", "archive", "cases.csv", "--wait", "0"]]
        {
            let ran = place.run(words);
            let said =
                "csorvelin: archive is locked by another writer; nothing was changed. Try again when it is done, \
                        or with --wait SECONDS.\n";
            assert_eq!(ran.ends(75).err, said);
        }
        let started = Instant::now();
        let ran = place.run(&[&file[..], &["--wait", "0.3"]].concat());
        assert!(ran.ends(75).err.contains("locked by another writer, after 0.3 seconds still;"), "{}", ran.err);
        assert!(started.elapsed() >= Duration::from_millis(300));
        for words in
            [&["list", "archive"][..], &["verify", "archive"], &["import", "archive", "cases.csv", "--dry-run"]]
        {
            place.run(words).ends(0);
        }
        assert_eq!(place.files(), before);
    }
    // A process that another test starts has the file open too, for a moment.
    place.run(&[&file[..], &["--wait", "60"]].concat()).ends(0);
}
