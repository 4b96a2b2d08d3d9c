//! The check of a whole archive.

use super::cases::{agreed_sheet, fault};
use super::{line, opened, Answer};
use crate::arguments::Arguments;
use crate::describe::counted;
use crate::failure::{Failure, DISAGREEMENT, NOT_IN_ORDER};
use crate::filings::Filings;
use crate::json::Json;
use crate::output::Output;
use crate::paths::shown;
use crate::progress::Progress;
use crate::refusals::case_refused;
use crate::store::MOST_ARCHIVE_BYTES;
use crate::{sha256, store};
use csorvelin_binding::{work_out, Archive, Record};
use csorvelin_model::archive::EDITION;
use csorvelin_model::ranges::Violation;
use std::io::{self, Write};

/// What is wrong with a record.
enum Fault {
    /// Its case is out of range.
    Range(Violation),
    /// It does not hold the figures of its case.
    Figures(String),
    /// Library and model differ on its case.
    Models(String),
    /// An earlier record is the same filing.
    Again(u64),
}

impl Fault {
    fn words(&self) -> String {
        match self {
            Fault::Range(Violation { number, field, found, allowed }) => {
                format!("its case is out of range (refusal {number}: {field} found {found}, allowed {allowed})")
            }
            Fault::Figures(words) => words.clone(),
            Fault::Models(words) => format!("LIBRARY AND MODEL DIFFER: {words}"),
            Fault::Again(earlier) => format!("it is the same filing as record {earlier}"),
        }
    }
}

/// An archive's records looked at.
struct Findings {
    file: Named,
    records: u64,
    faults: Vec<(u64, Fault)>,
}

pub fn verify(arguments: &Arguments) -> Answer {
    let [path] = arguments.places()?;
    let bytes = store::read_archive(path)?;
    let file = Named { archive: shown(path), bytes: bytes.len() as u64, sha256: sha256::digest(&bytes) };
    let json = arguments.json();
    match opened(path, bytes) {
        Ok(archive) => {
            let findings = Findings::of(file, &archive);
            let status = findings.status();
            Ok(Output::stream(move |to| if json { findings.write_json(to) } else { findings.write(to) }).ending(status))
        }
        // What is longer than any archive is not read to its end, so it has no digest.
        Err(violation) if file.bytes > MOST_ARCHIVE_BYTES => Err(Failure::Refused(violation)),
        Err(violation) => Ok(no_archive(&file, violation, json)),
    }
}

/// What is said of bytes that are no archive: what they are, and the refusal.
fn no_archive(file: &Named, violation: Violation, json: bool) -> Output {
    let text = format!("{}trailer  NOT AS IT MUST BE: {}\n", file.text(), violation.found);
    let failure = Failure::Refused(violation);
    let output = if json {
        Output::from(line(file.json().joined(failure.json()).and("agrees", Some(Json::from(false)))))
    } else {
        Output::from(text).noting(failure.text())
    };
    output.ending(failure.status())
}

/// A file by its name, its length and its content.
struct Named {
    archive: String,
    bytes: u64,
    sha256: String,
}

impl Named {
    fn text(&self) -> String {
        let Named { archive, bytes, sha256 } = self;
        format!("archive  {archive}, {bytes} bytes\nsha-256  {sha256}\n")
    }

    fn json(&self) -> Json {
        Json::object([
            ("archive", Json::from(self.archive.as_str())),
            ("bytes", Json::from(self.bytes)),
            ("sha256", Json::from(self.sha256.as_str())),
        ])
    }
}

impl Findings {
    fn of(file: Named, archive: &Archive) -> Findings {
        let mut faults = vec![];
        let mut filings = Filings::default();
        let mut progress = Progress::new("verified", "records", archive.len());
        for (number, record) in (0..).zip(archive.records()) {
            progress.at(number);
            faults.extend(record_fault(&record).map(|fault| (number, fault)));
            let earlier = filings.first(archive, &record.case()).filter(|&first| first < number);
            faults.extend(earlier.map(|earlier| (number, Fault::Again(earlier))));
        }
        Findings { file, records: archive.len(), faults }
    }

    fn status(&self) -> u8 {
        if self.faults.iter().any(|(_, fault)| matches!(fault, Fault::Models(_))) {
            DISAGREEMENT
        } else if self.faults.is_empty() {
            0
        } else {
            NOT_IN_ORDER
        }
    }

    /// How many records have a fault of some sort.
    fn count(&self, sort: fn(&Fault) -> bool) -> u64 {
        self.faults.iter().filter(|(_, fault)| sort(fault)).count() as u64
    }

    fn write(&self, to: &mut dyn Write) -> io::Result<()> {
        for (number, fault) in &self.faults {
            writeln!(to, "record {number}: {}", fault.words())?;
        }
        let Findings { file, records, faults } = self;
        let out = self.count(|fault| matches!(fault, Fault::Range(_)));
        let wrong = self.count(|fault| matches!(fault, Fault::Figures(_) | Fault::Models(_)));
        let again = self.count(|fault| matches!(fault, Fault::Again(_)));
        let (count, all) = (counted(*records, "record"), faults.len() as u64);
        writeln!(to, "{}trailer  as it must be: {count}, edition {EDITION}", file.text())?;
        writeln!(to, "ranges   {} of {records} cases are within the ranges", records - out)?;
        writeln!(
            to,
            "figures  {} of {records} records hold the figures of their cases, by the library and by an independent model",
            records - out - wrong
        )?;
        match again {
            0 => writeln!(to, "filings  no two records are the same filing")?,
            _ => writeln!(to, "filings  {again} of {records} records are the same filing as an earlier one")?,
        }
        match all {
            0 => writeln!(to, "verified: all agree"),
            _ => writeln!(to, "NOT IN ORDER: {}", counted(all, "fault")),
        }
    }

    fn write_json(&self, to: &mut dyn Write) -> io::Result<()> {
        write!(to, "{{\"faults\":[")?;
        for (place, (number, fault)) in self.faults.iter().enumerate() {
            let separator = if place == 0 { "" } else { "," };
            let entry = Json::object([("record", Json::from(*number)), ("fault", Json::from(fault.words()))]);
            write!(to, "{separator}{entry}")?;
        }
        let summary = self.file.json().joined(Json::object([
            ("records", Json::from(self.records)),
            ("edition", Json::from(EDITION as u32)),
            ("agrees", Json::from(self.faults.is_empty())),
        ]));
        // The summary's entries stand behind the list.
        write!(to, "],{}", &line(summary)[1..])
    }
}

/// What is wrong with a record by itself.
fn record_fault(record: &Record) -> Option<Fault> {
    let case = record.case_bytes();
    let figures = match work_out(case) {
        Ok(figures) => figures,
        Err(refusal) => {
            return Some(match case_refused(refusal, case) {
                Failure::Refused(violation) => Fault::Range(violation),
                other => Fault::Models(other.message().to_string()),
            })
        }
    };
    match agreed_sheet(case, figures) {
        Ok(_) => fault(record.figures(), figures).map(Fault::Figures),
        Err(failure) => Some(Fault::Models(failure.message().to_string())),
    }
}
