//! The listing: all records or some, as text, CSV or JSON, written record by record.

use super::{compartment, opened, Answer};
use crate::arguments::{number, Arguments, Opt};
use crate::failure::Failure;
use crate::output::Output;
use crate::paths::shown;
use crate::{csv, describe, store};
use csorvelin_binding::{Archive, Case, Record, Refusal};
use csorvelin_model::ranges::Violation;
use std::cmp::Reverse;
use std::ffi::OsStr;
use std::io::{self, Write};

/// The listing program reads no more than this.
const LISTED_BYTES: usize = 65_536;

pub fn list(arguments: &Arguments) -> Answer {
    let [path] = arguments.places()?;
    let form = match (arguments.json(), arguments.has(Opt::Csv)) {
        (true, true) => return Err(Failure::Usage("give --json or --csv, not both".to_string())),
        (true, false) => Form::Json,
        (false, true) => Form::Csv,
        (false, false) => Form::Text,
    };
    let selection = Selection::of(arguments)?;
    let archive = opened(path, store::read_archive(path)?).map_err(Failure::ListRefused)?;
    let length = archive.bytes().len();
    // The limit is that of the printed archive, which is all records in the form of the requirements.
    let printed = selection.is_all() && form != Form::Csv && !arguments.has(Opt::All);
    if length > LISTED_BYTES && printed {
        return Err(too_long(path, length));
    }
    Ok(Output::stream(move |to| write(&archive, &selection, form, to)))
}

fn too_long(path: &OsStr, length: usize) -> Failure {
    let allowed = format!("at most {LISTED_BYTES} bytes; csorvelin list --all prints longer archives too");
    let (field, found) = (format!("archive {}", shown(path)), format!("{length} bytes"));
    Failure::ListTooLong(Violation { number: Refusal::NotAnArchive.number(), field, found, allowed })
}

/// Which records are listed, and in which order.
struct Selection {
    dossier: Option<u64>,
    kind: Option<u64>,
    /// How many, and by the figure of which compartment, from 0.
    top: Option<(usize, usize)>,
}

impl Selection {
    fn of(arguments: &Arguments) -> Result<Selection, Failure> {
        let top = match arguments.values(Opt::Top) {
            Some([count, name]) => {
                let count = number("--top", count, u64::MAX)?;
                Some((usize::try_from(count).unwrap_or(usize::MAX), compartment(name)? as usize - 1))
            }
            _ => None,
        };
        let (dossier, kind) = (arguments.number(Opt::Dossier, u64::MAX)?, arguments.number(Opt::Kind, 255)?);
        Ok(Selection { dossier, kind, top })
    }

    fn is_all(&self) -> bool {
        self.dossier.is_none() && self.kind.is_none() && self.top.is_none()
    }

    fn takes(&self, case: &Case) -> bool {
        self.dossier.is_none_or(|dossier| dossier == case.dossier)
            && self.kind.is_none_or(|kind| kind == u64::from(case.kind))
    }

    /// The records selected, with their numbers.
    fn records<'a>(&'a self, archive: &'a Archive) -> Box<dyn Iterator<Item = (u64, Record<'a>)> + 'a> {
        let records = (0..).zip(archive.records()).filter(|(_, record)| self.takes(&record.case()));
        match self.top {
            None => Box::new(records),
            Some((count, compartment)) => {
                let mut records: Vec<_> = records.collect();
                // The sort is stable, so the first filed among equals stays first.
                records.sort_by_key(|(_, record)| Reverse(<[u64; 4]>::from(record.figures())[compartment]));
                Box::new(records.into_iter().take(count))
            }
        }
    }
}

#[derive(Clone, Copy, PartialEq, Eq)]
enum Form {
    Text,
    Csv,
    Json,
}

fn write(archive: &Archive, selection: &Selection, form: Form, to: &mut dyn Write) -> io::Result<()> {
    match form {
        Form::Text => to.write_all(b"n dossier kind row route stp surface air soil\n")?,
        Form::Csv => to.write_all(csv::header().as_bytes())?,
        Form::Json => to.write_all(b"{\"records\":[")?,
    }
    for (place, (number, record)) in selection.records(archive).enumerate() {
        match form {
            Form::Text => to.write_all(row(number, &record).as_bytes())?,
            Form::Csv => to.write_all(csv::row(number, &record).as_bytes())?,
            Form::Json => {
                let separator = if place == 0 { "" } else { "," };
                write!(to, "{separator}{}", describe::record_json(number, &record))?;
            }
        }
    }
    match form {
        Form::Json => to.write_all(b"]}\n"),
        _ => Ok(()),
    }
}

/// A line of the printed archive: figures in milligrams, each rounded up.
fn row(number: u64, record: &Record) -> String {
    let Case { dossier, kind, row, route, .. } = record.case();
    let [stp, surface, air, soil] = <[u64; 4]>::from(record.figures()).map(|figure| figure.div_ceil(1000));
    format!("{number} {dossier} {kind} {row} {route} {stp} {surface} {air} {soil}\n")
}
