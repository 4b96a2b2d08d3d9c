//! The commands: one table, by which a command line is read, run and explained.

mod archives;
mod cases;
mod import;
mod list;
mod verify;

use crate::arguments::{number, Arguments, Opt};
use crate::failure::{Failure, IN_DOUBT};
use crate::json::Json;
use crate::output::Output;
use crate::paths::shown;
use crate::refusals::{not_an_archive, refused};
use crate::store::{self, Written};
use crate::{defaults, describe, help, manual};
use csorvelin_binding::{Archive, Record, Refusal, VERSION};
use csorvelin_model::ranges::Violation;
use std::ffi::OsStr;

type Answer = Result<Output, Failure>;

pub struct Command {
    pub name: &'static str,
    /// What stands behind the name, and what comes of it.
    pub forms: &'static [(&'static str, &'static str)],
    pub options: &'static [Opt],
    /// What else a user must know, in lines.
    pub about: &'static str,
    pub example: &'static str,
    run: fn(&Arguments) -> Answer,
}

pub const COMMANDS: [Command; 13] = [
    Command {
        name: "work-out",
        forms: &[("CASE", "the four figures of a case")],
        options: &[Opt::Case, Opt::Exact],
        about: "\
The figures are whole micrograms per day, each the exact value of its equation rounded up once.
A quantity that the kind carries and that is not given counts as 0, and a note says so.",
        example: "csorvelin work-out kind=4 row=1 dossier=7 a=100 b=0 c=1",
        run: cases::work_out_case,
    },
    Command {
        name: "explain",
        forms: &[
            ("CASE", "its calculation sheet, checked against an independent model"),
            ("ARCHIVE NUMBER", "the sheet of a record"),
        ],
        options: &[Opt::Case],
        about: "\
The sheet has the equation, each factor with its exact value and its source, the exact fraction and
the one rounding, in lines of at most 100 columns. Of a record it also says whether it holds what
its case gives; where it does not, the exit status is 65.",
        example: "csorvelin explain archive 0",
        run: cases::explain_case,
    },
    Command {
        name: "case",
        forms: &[("CASE", "its fields and 64 bytes; --out FILE writes them to a new file")],
        options: &[Opt::Case, Opt::Out, Opt::Exact, Opt::BlankAsZero],
        about: "\
An existing file is never written over. 64 bytes cannot tell a blank from a zero, so --out takes a
case only with every quantity that its kind carries, or with --blank-as-zero.",
        example: "csorvelin case kind=4 row=1 dossier=7 a=100 b=0 c=1 --out p1.case",
        run: cases::describe_case,
    },
    Command {
        name: "new",
        forms: &[("ARCHIVE", "a new archive file, of no record")],
        options: &[],
        about: "An existing file is never written over.",
        example: "csorvelin new archive",
        run: archives::new,
    },
    Command {
        name: "file",
        forms: &[("ARCHIVE CASE", "works a case out and files it")],
        options: &[Opt::Case, Opt::BlankAsZero, Opt::Exact, Opt::Wait],
        about: "\
A case is taken only with every quantity that its kind carries, so that no blank is filed as 0 by
accident; --blank-as-zero counts a blank as 0. A record is never changed or removed afterwards.
The archive is at any time the old one or the new one, whole; owner, group and mode stay. One
without write permission is sealed and not written to (status 77).",
        example: "csorvelin file archive kind=4 row=1 dossier=7 a=100 b=0 c=1",
        run: archives::file,
    },
    Command {
        name: "import",
        forms: &[("ARCHIVE PATH...", "files many cases at once, all or none")],
        options: &[Opt::KeepGoing, Opt::DryRun, Opt::BlankAsZero, Opt::Wait],
        about: "\
A PATH is a case file of 64 bytes, a folder of such files (in the order of their names; hidden ones
are left out), or CSV: a file whose name ends in .csv, or - for standard input. CSV has a header
line with some of the columns kind, row, route, user, T, dossier, a to f; comma or semicolon; blank
cells as fields that are not given; decimal points, and no thousands separators. The figures and
exact values of list --csv, where they are filled, must agree with the case: a line whose figures
are not those of its case is not filed. The column record is not looked at.
Each case that is refused gets a line with its file and line; the exit status is then 65.",
        example: "csorvelin import archive cases.csv --dry-run",
        run: import::import,
    },
    Command {
        name: "show",
        forms: &[("ARCHIVE NUMBER", "a record, numbered from 0; --out FILE writes its case")],
        options: &[Opt::Out, Opt::Exact],
        about: "Prints what the record holds; explain and verify check it.",
        example: "csorvelin show archive 0 --exact",
        run: archives::show,
    },
    Command {
        name: "list",
        forms: &[("ARCHIVE", "all records, figures in whole mg, each rounded up")],
        options: &[Opt::All, Opt::Csv, Opt::Dossier, Opt::Kind, Opt::Top],
        about: "\
--json and --csv have the figures in µg. An archive over 65,536 bytes, 682 records, is refused
(`refused 21`, with --json too) unless --all, --csv, --dossier, --kind or --top is given.
The compartment of --top is stp, surface, air or soil (1 to 4); among equals the first filed is first.",
        example: "csorvelin list archive --kind 4 --top 10 stp",
        run: list::list,
    },
    Command {
        name: "worst",
        forms: &[("ARCHIVE COMPARTMENT", "the record with the highest figure: stp, surface, air or soil (1 to 4)")],
        options: &[Opt::Exact],
        about: "Among equals it is the first filed.",
        example: "csorvelin worst archive stp",
        run: archives::worst,
    },
    Command {
        name: "export",
        forms: &[("ARCHIVE NUMBER", "a record's four figures as loads for a fate model; --out FILE writes them")],
        options: &[Opt::Out],
        about: "\
A load is the smallest binary64 number of micrograms that is not below its figure: the figure itself
up to 2^53, beyond that at most one part in 2^52 more. Each is printed with all its digits, its
pattern and the figure. --out writes 32 bytes: the four patterns in the order of the figures, the
lowest byte of each first. A record of zeros gives zero bytes; a refusal writes no file, and an
existing one is never written over. Exports what the record holds; explain and verify check it.",
        example: "csorvelin export archive 0 --out loads",
        run: archives::export,
    },
    Command {
        name: "verify",
        forms: &[("ARCHIVE", "every record worked out again, by the library and by an independent model")],
        options: &[],
        about: "\
Looks at the trailer, whether each case is within the ranges, whether each record holds the figures
of its case, and whether two records are the same filing; prints a line for each fault, a summary
and the SHA-256 of the bytes. The exit status is 0 where all agree, 65 where not, 21 where it is no
archive, and 70 where library and model differ.",
        example: "csorvelin verify archive",
        run: verify::verify,
    },
    Command {
        name: "defaults",
        forms: &[("", "the default tables with their sources")],
        options: &[],
        about: "Each number of the equations with the document, table and line that it comes from.",
        example: "csorvelin defaults",
        run: defaults_command,
    },
    Command {
        name: "help",
        forms: &[
            ("", "the overview"),
            ("COMMAND", "that command's page"),
            ("kinds", "the kinds with their fields, limits and equations"),
            ("refusals", "the refusals by number"),
            ("man", "all of it as a manual page, in roff"),
            ("completion", "a completion script for bash"),
        ],
        options: &[],
        about: "",
        example: "csorvelin help kinds",
        run: help_command,
    },
];

pub fn named(name: &OsStr) -> Result<&'static Command, Failure> {
    let command = COMMANDS.iter().find(|command| command.name == name);
    command.ok_or(Failure::Usage(format!("there is no command {}", shown(name))))
}

pub fn run(arguments: &Arguments) -> Answer {
    let json = arguments.json();
    match arguments.command {
        _ if arguments.has(Opt::Version) => Ok(version(json)),
        Some(command) if arguments.has(Opt::Help) => Ok(page(help::command(command), json)),
        Some(command) => (command.run)(arguments),
        None if arguments.has(Opt::Help) => Ok(page(help::overview(), json)),
        None => Err(Failure::Usage("which command?".to_string())),
    }
}

fn version(json: bool) -> Output {
    if json {
        line(Json::object([("version", Json::from(VERSION))])).into()
    } else {
        format!("csorvelin {VERSION}\n").into()
    }
}

fn defaults_command(arguments: &Arguments) -> Answer {
    let [] = arguments.places()?;
    let text = if arguments.json() { line(defaults::json()) } else { defaults::text() };
    Ok(text.into())
}

fn help_command(arguments: &Arguments) -> Answer {
    let json = arguments.json();
    let text = match &arguments.places[..] {
        [] => help::overview(),
        [name] if name == "kinds" => help::kinds(),
        [name] if name == "refusals" => help::refusals(),
        [name] if name == "man" => manual::page(),
        [name] if name == "completion" => manual::completion(),
        [name] => help::command(named(name).map_err(|_| no_help(arguments))?),
        _ => return Err(no_help(arguments)),
    };
    Ok(page(text, json))
}

fn no_help(arguments: &Arguments) -> Failure {
    let words: Vec<String> = arguments.places.iter().map(shown).collect();
    Failure::Usage(format!("there is no help on {}", words.join(" ")))
}

fn page(text: String, json: bool) -> Output {
    let text = if json { line(Json::object([("help", Json::from(text))])) } else { text };
    text.into()
}

fn line(json: Json) -> String {
    format!("{json}\n")
}

/// The output of a command that has written a file, with what was done said on standard error where it is in doubt.
fn done<T>(output: Output, written: &Written<T>, what: String) -> Output {
    match &written.doubt {
        Some(doubt) => output.noting(format!("csorvelin: {what}; {doubt}\n")).ending(IN_DOUBT),
        None => output,
    }
    .done(what)
}

/// The answer of a command that may have been asked to write some bytes, a case or loads, to a new file.
fn with_bytes_written(arguments: &Arguments, bytes: &[u8], text: String, json: Json) -> Answer {
    let form = |text: String, json: Json| Output::from(if arguments.json() { line(json) } else { text });
    let Some(path) = arguments.value(Opt::Out) else {
        return Ok(form(text, json));
    };
    if path == "-" {
        return Err(Failure::Usage("--out needs a file, not standard output".to_string()));
    }
    let written = store::create(path, bytes)?;
    let path = shown(path);
    let output = form(format!("{text}written  {path}\n"), json.and("written", Some(Json::from(path.as_str()))));
    Ok(done(output, &written, format!("{path} is written")))
}

/// The archive in the bytes of a file, or refusal 21.
fn opened(path: &OsStr, bytes: Vec<u8>) -> Result<Archive, Violation> {
    // Made before the archive takes the bytes; it looks at the trailer only.
    let violation = not_an_archive(path, &bytes);
    Archive::from_bytes(bytes).map_err(|_| violation)
}

fn archive_of(path: &OsStr, bytes: Vec<u8>) -> Result<Archive, Failure> {
    opened(path, bytes).map_err(Failure::Refused)
}

fn record_of<'a>(archive: &'a Archive, number: u64) -> Result<Record<'a>, Failure> {
    archive.show(number).map_err(|refusal| number_refused(refusal, archive, number))
}

/// The library's refusal of a record's number.
fn number_refused(refusal: Refusal, archive: &Archive, number: u64) -> Failure {
    let allowed = match archive.len() {
        0 => "none: the archive has no record".to_string(),
        n => format!("0 to {}", n - 1),
    };
    refused(refusal, "number", number.to_string(), allowed)
}

fn record_number(text: &OsStr) -> Result<u64, Failure> {
    number("number", text, u64::MAX)
}

/// A compartment by its name, in any letter case, or by its number; or refusal 12.
fn compartment(text: &OsStr) -> Result<u64, Failure> {
    let name = describe::FIGURE_NAMES.iter().position(|name| text.eq_ignore_ascii_case(name));
    let compartment = match name {
        Some(index) => index as u64 + 1,
        None => number("compartment", text, u64::MAX).map_err(|_| {
            Failure::Usage(format!("compartment: '{}' is none of stp, surface, air, soil, nor a number", shown(text)))
        })?,
    };
    match Archive::new().worst(compartment) {
        Err(Refusal::Compartment) => {
            let allowed = "1 (stp), 2 (surface), 3 (air) or 4 (soil)".to_string();
            Err(refused(Refusal::Compartment, "compartment", compartment.to_string(), allowed))
        }
        _ => Ok(compartment),
    }
}
