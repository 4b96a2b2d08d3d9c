//! The commands on a case: work-out, explain, case.

use super::{archive_of, line, record_number, record_of, with_bytes_written, Answer};
use crate::arguments::{Arguments, Given, Opt, Typed};
use crate::explain::{self, Origin};
use crate::failure::{Failure, NOT_IN_ORDER};
use crate::json::Json;
use crate::output::Output;
use crate::paths::shown;
use crate::refusals::case_refused;
use crate::{describe, store};
use csorvelin_binding::{work_out, Case, Figures, Refusal, CASE_BYTES};
use csorvelin_model::equations::Sheet;

/// The fields and figures of a case given on the command line, or its refusal.
pub fn worked_out(given: &Given) -> Result<(Case, Figures), Failure> {
    let figures = work_out(&given.bytes)
        .map_err(|refusal| case_refused(refusal, &given.bytes).of_fields(given.named.as_deref()))?;
    Ok((decoded(&given.bytes)?, figures))
}

fn decoded(bytes: &[u8]) -> Result<Case, Failure> {
    match <&[u8; CASE_BYTES]>::try_from(bytes) {
        Ok(bytes) => Ok(Case::from_bytes(bytes)),
        Err(_) => Err(case_refused(Refusal::CaseLength, bytes)),
    }
}

/// Refuses a case that is to be kept, unless all its quantities are given or blanks are said to be zeros.
pub fn complete(arguments: &Arguments, case: &Case, typed: Option<&Typed>) -> Result<(), Failure> {
    match blank(case, typed) {
        Some(blank) if !arguments.has(Opt::BlankAsZero) => {
            Err(Failure::Usage(format!("{blank}; give what is missing, or --blank-as-zero to have it counted as 0")))
        }
        _ => Ok(()),
    }
}

/// Which quantities that the case carries are not given.
pub fn blank(case: &Case, typed: Option<&Typed>) -> Option<String> {
    let names: Vec<String> = describe::blanks(case, typed).iter().map(describe::named).collect();
    (!names.is_empty()).then(|| format!("not given: {}", names.join(", ")))
}

pub fn work_out_case(arguments: &Arguments) -> Answer {
    let [] = arguments.places()?;
    let given = arguments.case()?;
    let typed = given.typed.as_ref();
    let (case, figures) = worked_out(&given)?;
    let text = if arguments.json() {
        line(Json::object([("case", describe::case_json(&case, typed)), ("figures", describe::figures_json(figures))]))
    } else {
        describe::case_text(&case, typed, arguments.has(Opt::Exact)) + "\n" + &describe::figures_text(figures)
    };
    Ok(Output::from(text).noting(describe::missing(&case, typed)))
}

/// The record that a case was taken from.
struct Stored {
    archive: String,
    number: u64,
    figures: Figures,
}

pub fn explain_case(arguments: &Arguments) -> Answer {
    let (given, stored) = explained(arguments)?;
    let (stored, typed) = (stored.as_ref(), given.typed.as_ref());
    let (case, figures) = worked_out(&given).map_err(|failure| match stored {
        Some(stored) => failure.in_record(stored.number),
        None => failure,
    })?;
    let sheet = agreed_sheet(&given.bytes, figures)?;
    let fault = stored.and_then(|stored| fault(stored.figures, figures));
    let check = match (&fault, stored) {
        (Some(fault), _) => fault,
        (None, Some(_)) => "the library and the model give the same four figures, and the record holds them",
        (None, None) => "the library and the model give the same four figures",
    };
    let origin = Origin::now(stored.map(|stored| (stored.archive.clone(), stored.number)));
    let out = if arguments.json() {
        let sheet = Json::object([("case", describe::case_json(&case, typed)), ("sheet", explain::json(&sheet))]);
        let stored = stored.map(|stored| describe::figures_json(stored.figures));
        line(origin.json(sheet).and("stored", stored).and("check", Some(Json::from(check))))
    } else {
        let verdict = if fault.is_some() { "NOT THE SAME" } else { "Checked" };
        explain::text(&origin, &describe::case_text(&case, typed, true), &sheet, &format!("{verdict}: {check}."))
    };
    let output = Output::from(out).noting(describe::missing(&case, typed));
    Ok(match fault {
        Some(fault) => output.noting(format!("csorvelin: {fault}\n")).ending(NOT_IN_ORDER),
        None => output,
    })
}

/// How what a record holds differs from the figures of its case.
pub fn fault(stored: Figures, figures: Figures) -> Option<String> {
    let (record, case) = (in_words(stored), in_words(figures));
    (stored != figures).then(|| format!("the record holds {record}, its case gives {case}"))
}

/// The case to be explained, and the record that it was taken from.
fn explained(arguments: &Arguments) -> Result<(Given, Option<Stored>), Failure> {
    if arguments.places.is_empty() {
        return Ok((arguments.case()?, None));
    }
    if !arguments.fields.is_empty() || arguments.has(Opt::Case) {
        return arguments.wrong_places();
    }
    let [path, number] = arguments.places()?;
    let archive = archive_of(path, store::read_archive(path)?)?;
    let number = record_number(number)?;
    let record = record_of(&archive, number)?;
    let given = Given { bytes: record.case_bytes().to_vec(), typed: None, named: None };
    Ok((given, Some(Stored { archive: shown(path), number, figures: record.figures() })))
}

/// The model's sheet of a case, which must have the library's figures.
pub fn agreed_sheet(case: &[u8], figures: Figures) -> Result<Sheet, Failure> {
    let sheet = Sheet::of(case).map_err(|violation| {
        Failure::Disagreement(format!("the model refuses this case with {}, the library does not", violation.number))
    })?;
    let own = Figures::from(sheet.figures());
    if figures != own {
        let (library, model) = (in_words(figures), in_words(own));
        return Err(Failure::Disagreement(format!("the library gives {library}, the model {model}")));
    }
    Ok(sheet)
}

fn in_words(figures: Figures) -> String {
    format!("{:?} µg", <[u64; 4]>::from(figures))
}

pub fn describe_case(arguments: &Arguments) -> Answer {
    let [] = arguments.places()?;
    let given = arguments.case()?;
    let typed = given.typed.as_ref();
    let (case, _) = worked_out(&given)?;
    // A file of 64 bytes does not tell a blank from a zero to whoever files it.
    if arguments.has(Opt::Out) {
        complete(arguments, &case, typed)?;
    }
    let text = describe::case_text(&case, typed, arguments.has(Opt::Exact));
    let text = format!("{text}bytes    {}\n", describe::hex(&given.bytes));
    let answer = with_bytes_written(arguments, &given.bytes, text, describe::case_json(&case, typed))?;
    Ok(answer.noting(describe::missing(&case, typed)))
}
