//! Many cases filed at once: one lock, one write, one sync.

use super::cases::{blank, worked_out};
use super::{archive_of, done, line, Answer};
use crate::arguments::{Arguments, Given, Opt};
use crate::csv::{Fault, Row, Rows};
use crate::failure::{Failure, NOT_IN_ORDER};
use crate::filings::Filings;
use crate::json::Json;
use crate::output::Output;
use crate::paths::shown;
use crate::progress::Progress;
use crate::refusals::filing_refused;
use crate::store::{self, Change, Written};
use csorvelin_binding::{Archive, Case, CASE_BYTES};
use csorvelin_model::archive::MOST_RECORDS;
use csorvelin_model::ranges::Violation;
use std::ffi::{OsStr, OsString};
use std::io::{self, BufRead, BufReader};
use std::os::unix::ffi::OsStrExt;
use std::path::Path;
use std::rc::Rc;
use std::{fs, mem};

pub fn import(arguments: &Arguments) -> Answer {
    let [archive, paths @ ..] = &arguments.places[..] else {
        return arguments.wrong_places();
    };
    if paths.is_empty() {
        return arguments.wrong_places();
    }
    let (archive, wait) = (arguments.written(archive)?, arguments.wait()?);
    store::is_file(archive)?;
    let (keep_going, dry_run) = (arguments.has(Opt::KeepGoing), arguments.has(Opt::DryRun));
    let batch = Batch::of(paths, arguments.has(Opt::BlankAsZero));
    let judged = |old: Vec<u8>| {
        let (new, outcome) = batch.filed_in(archive_of(archive, old)?, keep_going);
        Ok((if outcome.filed == 0 { Change::Nothing } else { Change::To(new.into_bytes()) }, outcome))
    };
    let written = if dry_run {
        let (_, answer) = judged(store::look(archive)?)?;
        Written { answer, doubt: None }
    } else {
        store::change(archive, wait, judged)?
    };
    let outcome = &written.answer;
    let summary = outcome.summary(archive, dry_run);
    let output = if arguments.json() {
        Output::from(line(outcome.json(archive, dry_run)))
    } else {
        let refused: String = outcome.refused.iter().map(Refused::text).collect();
        Output::from(format!("{summary}\n")).noting(refused)
    };
    let notes = outcome.notes.iter().map(|note| format!("{note}\n")).collect();
    let output = output.noting(notes).ending(if outcome.refused.is_empty() { 0 } else { NOT_IN_ORDER });
    Ok(if dry_run || outcome.filed == 0 { output } else { done(output, &written, summary) })
}

/// Where a case stands: a file, and in CSV a line. They are numbered as they are read.
#[derive(Clone)]
struct Place {
    index: u64,
    file: Rc<str>,
    line: Option<u64>,
}

impl Place {
    fn text(&self) -> String {
        match self.line {
            Some(line) => format!("{}:{line}", self.file),
            None => self.file.to_string(),
        }
    }
}

/// A case that is not taken, and why.
struct Refused {
    place: Place,
    why: Failure,
}

impl Refused {
    fn text(&self) -> String {
        let why = match &self.why {
            Failure::Refused(Violation { number, field, found, allowed }) => {
                format!("refused {number}: {}: {field}: found {found}, allowed {allowed}", self.why.message())
            }
            // It may quote what stands in a file.
            other => shown(other.message()),
        };
        format!("{}: {why}\n", self.place.text())
    }

    fn json(&self) -> Json {
        let place = Json::object([("file", Json::from(&*self.place.file))]);
        place.and("line", self.place.line.map(Json::from)).joined(self.why.json())
    }
}

/// The cases that some paths hold: those that pass by themselves, and the others.
#[derive(Default)]
struct Batch {
    blank_as_zero: bool,
    /// How many places something is said of: cases, lines, files that cannot be read.
    places: u64,
    passed: Vec<Offered>,
    refused: Vec<Refused>,
}

/// A case that passes by itself, and which of its quantities are blanks that count as 0.
struct Offered {
    place: Place,
    case: [u8; CASE_BYTES],
    blank: Option<String>,
}

impl Batch {
    fn of(paths: &[OsString], blank_as_zero: bool) -> Batch {
        let mut batch = Batch { blank_as_zero, ..Batch::default() };
        for path in paths {
            match Path::new(path) {
                input if input == Path::new("-") => batch.csv("standard input".into(), io::stdin().lock()),
                folder if folder.is_dir() => batch.folder(folder),
                file => batch.file(file),
            }
        }
        batch
    }

    /// The next place that something is said of.
    fn place(&mut self, file: &Rc<str>, line: Option<u64>) -> Place {
        self.places += 1;
        Place { index: self.places, file: file.clone(), line }
    }

    fn refuse(&mut self, place: Place, why: Failure) {
        self.refused.push(Refused { place, why });
    }

    /// The files of a folder in the order of their names; hidden ones, as leftovers of a stopped writer are, count for none.
    fn folder(&mut self, folder: &Path) {
        let names = |entries: fs::ReadDir| entries.map(|entry| entry.map(|entry| entry.file_name())).collect();
        let names: io::Result<Vec<OsString>> = fs::read_dir(folder).and_then(names);
        match names {
            Ok(mut names) => {
                names.retain(|name| !name.as_bytes().starts_with(b"."));
                names.sort();
                names.iter().for_each(|name| self.file(&folder.join(name)));
            }
            Err(error) => self.unreadable(folder, &error),
        }
    }

    fn file(&mut self, path: &Path) {
        let file: Rc<str> = shown(path).into();
        let is_csv = path.extension().is_some_and(|ending| ending.eq_ignore_ascii_case("csv"));
        match store::regular_file(path, fs::OpenOptions::new().read(true)) {
            Ok(handle) if is_csv => self.csv(file, BufReader::new(handle)),
            Ok(handle) => match store::case_bytes(handle) {
                Ok(bytes) => {
                    let place = self.place(&file, None);
                    self.offer(place, Row::from(Given { bytes, typed: None, named: None }));
                }
                Err(error) => self.unreadable(path, &error),
            },
            Err(error) => self.unreadable(path, &error),
        }
    }

    fn unreadable(&mut self, path: &Path, error: &io::Error) {
        let place = self.place(&shown(path).into(), None);
        self.refuse(place, Failure::Unreadable(format!("cannot read it: {error}")));
    }

    fn csv(&mut self, file: Rc<str>, from: impl BufRead) {
        let before = self.passed.len();
        let rows = match Rows::new(from) {
            Ok(rows) => rows,
            Err((line, message)) => {
                let place = self.place(&file, Some(line));
                return self.refuse(place, Failure::Usage(message));
            }
        };
        for (line, row) in rows {
            let place = self.place(&file, Some(line));
            let row = match row {
                Ok(_) if self.places > MOST_RECORDS => {
                    Err(Fault::File(format!("these are over {MOST_RECORDS} cases, more than any archive holds")))
                }
                row => row,
            };
            match row {
                Ok(row) => self.offer(place, row),
                Err(Fault::Line(message)) => self.refuse(place, Failure::Usage(message)),
                Err(Fault::File(message)) => {
                    self.passed.truncate(before);
                    return self.refuse(place, Failure::Usage(format!("{message}; nothing of this file is taken")));
                }
            }
        }
    }

    fn offer(&mut self, place: Place, row: Row) {
        let (case, figures) = match worked_out(&row.given) {
            Ok(worked_out) => worked_out,
            Err(failure) => return self.refuse(place, failure),
        };
        let blank = blank(&case, row.given.typed.as_ref());
        if let Some(blank) = blank.as_ref().filter(|_| !self.blank_as_zero) {
            return self.refuse(place, Failure::Usage(format!("{blank}; --blank-as-zero counts it as 0")));
        }
        match row.fault(&case, figures) {
            Some(fault) => self.refuse(place, Failure::Usage(fault)),
            None => self.passed.push(Offered { place, case: case.to_bytes(), blank }),
        }
    }

    /// The archive with the cases filed that it takes: all or, unless some may be left out, none.
    fn filed_in(mut self, mut archive: Archive, keep_going: bool) -> (Archive, Outcome) {
        let first = archive.len();
        let mut filed: Vec<Place> = vec![];
        let (mut filings, mut notes) = (Filings::default(), vec![]);
        let mut progress = Progress::new("judged", "cases", self.passed.len() as u64);
        for (index, Offered { place, case, blank }) in (0..).zip(mem::take(&mut self.passed)) {
            progress.at(index);
            match archive.file(&case) {
                Ok(_) => {
                    notes.extend(blank.map(|blank| format!("{}: note: {blank}; counts as 0", place.text())));
                    filed.push(place);
                }
                Err(refusal) => {
                    let holder = || match filings.first(&archive, &Case::from_bytes(&case))? {
                        number if number < first => Some(format!("record {number}")),
                        number => Some(filed[(number - first) as usize].text()),
                    };
                    let why = filing_refused(refusal, &archive, &case, holder);
                    self.refuse(place, why);
                }
            }
        }
        self.refused.sort_by_key(|refused| refused.place.index);
        let passed = filed.len() as u64;
        let filed = if keep_going || self.refused.is_empty() { passed } else { 0 };
        let Batch { places, refused, .. } = self;
        (archive, Outcome { offered: places, first, passed, filed, refused, notes })
    }
}

/// What became of a batch.
struct Outcome {
    offered: u64,
    /// The number that the first record filed has.
    first: u64,
    passed: u64,
    filed: u64,
    refused: Vec<Refused>,
    /// One for each case that passes with blanks that count as 0.
    notes: Vec<String>,
}

impl Outcome {
    fn summary(&self, archive: &OsStr, dry_run: bool) -> String {
        let Outcome { offered, first, passed, filed, .. } = self;
        let offered = format!("{offered} offered, {} refused", self.refused.len());
        let (would, archive) = (if dry_run { "would be " } else { "" }, shown(archive));
        match filed {
            0 if *passed == 0 => format!("{offered}, none {would}filed; {archive} is as it was"),
            0 => format!("{offered}, none {would}filed; {archive} is as it was; --keep-going would file {passed}"),
            1 => format!("{offered}, 1 {would}filed in {archive} as record {first}"),
            _ => format!("{offered}, {filed} {would}filed in {archive} as records {first} to {}", first + filed - 1),
        }
    }

    fn json(&self, archive: &OsStr, dry_run: bool) -> Json {
        let outcome = Json::object([
            ("archive", Json::from(shown(archive))),
            ("dry_run", Json::from(dry_run)),
            ("offered", Json::from(self.offered)),
            ("passed", Json::from(self.passed)),
            ("filed", Json::from(self.filed)),
            ("notes", Json::list(self.notes.iter().map(|note| Json::from(note.as_str())))),
        ]);
        let first = (self.filed > 0).then(|| Json::from(self.first));
        outcome.and("first", first).and("refused", Some(Json::list(self.refused.iter().map(Refused::json))))
    }
}
