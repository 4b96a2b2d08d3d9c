//! The commands on one record of an archive file: new, file, show, worst, export.

use super::cases::{complete, worked_out};
use super::{
    archive_of, compartment, done, line, number_refused, record_number, record_of, with_bytes_written, Answer,
};
use crate::arguments::{Arguments, Opt};
use crate::describe;
use crate::filings::Filings;
use crate::json::Json;
use crate::output::Output;
use crate::paths::shown;
use crate::refusals::{filing_refused, refused};
use crate::store::{self, Change};
use csorvelin_binding::{Archive, Record};

pub fn new(arguments: &Arguments) -> Answer {
    let [path] = arguments.places()?;
    let path = arguments.written(path)?;
    let archive = Archive::new();
    let written = store::create(path, archive.bytes())?;
    let (name, length) = (shown(path), archive.bytes().len() as u32);
    let text = if arguments.json() {
        line(Json::object([("created", Json::from(name.as_str())), ("bytes", Json::from(length))]))
    } else {
        format!("created {name}, {length} bytes\n")
    };
    Ok(done(text.into(), &written, format!("{name} is created")))
}

pub fn file(arguments: &Arguments) -> Answer {
    let [path] = arguments.places()?;
    let (path, wait) = (arguments.written(path)?, arguments.wait()?);
    store::is_file(path)?;
    let given = arguments.case()?;
    let typed = given.typed.as_ref();
    // A refusal from the input comes before anything of the archive is looked at.
    let (case, _) = worked_out(&given)?;
    complete(arguments, &case, typed)?;
    let written = store::change(path, wait, |old| {
        let mut archive = archive_of(path, old)?;
        let number = archive.file(&given.bytes).map_err(|refusal| {
            let holder = || Filings::default().first(&archive, &case).map(|number| format!("record {number}"));
            filing_refused(refusal, &archive, &given.bytes, holder)
        })?;
        let figures = record_of(&archive, number)?.figures();
        Ok((Change::To(archive.into_bytes()), (number, figures)))
    })?;
    let (number, figures) = written.answer;
    let filed = format!("filed in {} as record {number}", shown(path));
    let text = if arguments.json() {
        line(Json::object([
            ("filed", Json::from(number)),
            ("case", describe::case_json(&case, typed)),
            ("figures", describe::figures_json(figures)),
        ]))
    } else {
        let case = describe::case_text(&case, typed, arguments.has(Opt::Exact));
        format!("{filed}\n{case}\n{}", describe::figures_text(figures))
    };
    let output = Output::from(text).noting(describe::missing(&case, typed));
    Ok(done(output, &written, filed))
}

pub fn show(arguments: &Arguments) -> Answer {
    let [path, number] = arguments.places()?;
    let number = record_number(number)?;
    let archive = archive_of(path, store::read_archive(path)?)?;
    let record = record_of(&archive, number)?;
    let text = record_text(number, &record, arguments);
    with_bytes_written(arguments, record.case_bytes(), text, describe::record_json(number, &record))
}

fn record_text(number: u64, record: &Record, arguments: &Arguments) -> String {
    let case = describe::case_text(&record.case(), None, arguments.has(Opt::Exact));
    format!("record   {number}\n{case}\n{}", describe::figures_text(record.figures()))
}

pub fn worst(arguments: &Arguments) -> Answer {
    let [path, name] = arguments.places()?;
    // The compartment is judged before the archive.
    let compartment = compartment(name)?;
    let archive = archive_of(path, store::read_archive(path)?)?;
    let number = archive.worst(compartment).map_err(|refusal| {
        refused(refusal, "archive", "no record".to_string(), "an archive with at least one record".to_string())
    })?;
    let record = record_of(&archive, number)?;
    let json = arguments.json().then(|| line(describe::record_json(number, &record)));
    Ok(json.unwrap_or_else(|| record_text(number, &record, arguments)).into())
}

pub fn export(arguments: &Arguments) -> Answer {
    let [path, number] = arguments.places()?;
    let number = record_number(number)?;
    let archive = archive_of(path, store::read_archive(path)?)?;
    let loads = archive.export(number).map_err(|refusal| number_refused(refusal, &archive, number))?;
    let figures = record_of(&archive, number)?.figures();
    let text = format!("record   {number}\n{}", describe::loads_text(&loads, figures));
    with_bytes_written(arguments, &loads, text, describe::loads_json(number, &loads, figures))
}
