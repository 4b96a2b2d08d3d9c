//! The command line taken apart: a command, places, fields of a case, options.

use crate::commands::{self, Command};
use crate::failure::Failure;
use crate::numbers;
use crate::paths::shown;
use crate::store;
use csorvelin_binding::Case;
use csorvelin_model::case::QUANTITIES;
use std::ffi::{OsStr, OsString};
use std::os::unix::ffi::OsStrExt;
use std::time::Duration;

#[derive(Clone, Copy, Debug, PartialEq, Eq)]
pub enum Opt {
    Help,
    Version,
    Json,
    Case,
    Out,
    Exact,
    BlankAsZero,
    Wait,
    All,
    Csv,
    Dossier,
    Kind,
    Top,
    KeepGoing,
    DryRun,
}

/// An option as it is written: its name, the words that follow it, what it does.
pub struct Form {
    pub option: Opt,
    pub name: &'static str,
    pub values: &'static [&'static str],
    pub meaning: &'static str,
}

const fn form(option: Opt, name: &'static str, values: &'static [&'static str], meaning: &'static str) -> Form {
    Form { option, name, values, meaning }
}

pub const OPTIONS: [Form; 15] = [
    form(Opt::Case, "--case", &["FILE"], "takes the case from a file of 64 bytes (- is standard input)"),
    form(Opt::Out, "--out", &["FILE"], "writes to a new file: the 64 bytes of a case, or the 32 of an export"),
    form(
        Opt::Exact,
        "--exact",
        &[],
        "shows a quantity's exact value too, where its shortest decimal is another number",
    ),
    form(Opt::BlankAsZero, "--blank-as-zero", &[], "counts a quantity that is not given as 0, and says so"),
    form(Opt::Wait, "--wait", &["SECONDS"], "waits up to SECONDS for another writer of the archive"),
    form(Opt::All, "--all", &[], "lists archives over 65,536 bytes too"),
    form(Opt::Csv, "--csv", &[], "all fields and the figures in µg as CSV, which import reads back"),
    form(Opt::Dossier, "--dossier", &["NUMBER"], "only the records of this dossier"),
    form(Opt::Kind, "--kind", &["KIND"], "only the records of this kind"),
    form(Opt::Top, "--top", &["COUNT", "COMPARTMENT"], "the COUNT records with the highest figures, the highest first"),
    form(Opt::KeepGoing, "--keep-going", &[], "files what passes, though other cases are refused"),
    form(Opt::DryRun, "--dry-run", &[], "judges every case and writes nothing"),
    form(Opt::Json, "--json", &[], "gives the answer as JSON, 64-bit numbers as strings"),
    form(Opt::Help, "--help", &[], "shows the command's page"),
    form(Opt::Version, "--version", &[], "shows the version"),
];

/// The options that every command takes.
pub const EVERYWHERE: [Opt; 3] = [Opt::Json, Opt::Help, Opt::Version];

pub struct Arguments {
    /// None where only help or the version is asked for.
    pub command: Option<&'static Command>,
    /// Words that are neither fields nor options: archive, number, compartment.
    pub places: Vec<OsString>,
    /// Fields `name=value`, in the order given.
    pub fields: Vec<(String, String)>,
    options: Vec<(Opt, Vec<OsString>)>,
}

/// The text of each quantity that was typed.
pub type Typed = [Option<String>; 6];

/// A case as given: its bytes, and what was typed where it was given by fields: the quantities, and the names of all fields.
pub struct Given {
    pub bytes: Vec<u8>,
    pub typed: Option<Typed>,
    pub named: Option<Vec<String>>,
}

pub const FIELDS: [&str; 12] = ["kind", "row", "route", "user", "T", "dossier", "a", "b", "c", "d", "e", "f"];

/// What helps where a file name was taken for a field.
const NAME_WITH_EQUALS: &str = "a file name with = goes behind -- or is written with its folder, as ./a=b";

/// The place of a quantity among the six.
pub fn quantity_index(name: &str) -> Option<usize> {
    QUANTITIES.iter().position(|&quantity| name.chars().eq([quantity]))
}

fn usage<T>(message: String) -> Result<T, Failure> {
    Err(Failure::Usage(message))
}

impl Arguments {
    pub fn parse(words: Vec<OsString>) -> Result<Arguments, Failure> {
        let mut words = words.into_iter();
        let (mut plain, mut behind, mut options) = (vec![], vec![], vec![]);
        while let Some(word) = words.next() {
            match word.as_bytes() {
                // What stands behind it is a place, whatever it looks like.
                b"--" => behind = words.by_ref().collect(),
                b"-h" => options.push((Opt::Help, vec![])),
                [b'-', _, ..] => options.push(option(&word, &mut words)?),
                _ => plain.push(word),
            }
        }
        let mut plain = plain.into_iter();
        let command = plain.next().map(|name| commands::named(&name)).transpose()?;
        check_options(command, &options)?;
        let (mut places, mut fields) = (vec![], vec![]);
        for word in plain {
            match field(&word).filter(|_| command.is_some_and(|command| command.options.contains(&Opt::Case))) {
                Some(field) => fields.push(field),
                None => places.push(word),
            }
        }
        places.extend(behind);
        Ok(Arguments { command, places, fields, options })
    }

    pub fn has(&self, option: Opt) -> bool {
        self.options.iter().any(|(own, _)| *own == option)
    }

    pub fn json(&self) -> bool {
        self.has(Opt::Json)
    }

    /// The words that follow an option, where it is given.
    pub fn values(&self, option: Opt) -> Option<&[OsString]> {
        self.options.iter().find(|(own, _)| *own == option).map(|(_, values)| values.as_slice())
    }

    /// The one word that follows an option.
    pub fn value(&self, option: Opt) -> Option<&OsStr> {
        self.values(option).and_then(|values| values.first()).map(OsString::as_os_str)
    }

    /// The number that follows an option.
    pub fn number(&self, option: Opt, most: u64) -> Result<Option<u64>, Failure> {
        self.value(option).map(|value| number(name_of(option), value, most)).transpose()
    }

    /// How long to wait for another writer.
    pub fn wait(&self) -> Result<Duration, Failure> {
        let Some(value) = self.value(Opt::Wait) else {
            return Ok(Duration::ZERO);
        };
        let seconds = value.to_str().filter(|text| text.bytes().all(|byte| byte.is_ascii_digit() || byte == b'.'));
        let seconds = seconds.and_then(|text| text.parse().ok());
        match seconds.map(Duration::try_from_secs_f64) {
            Some(Ok(wait)) => Ok(wait),
            _ => usage(format!("--wait needs a number of seconds, not {}", shown(value))),
        }
    }

    fn name(&self) -> &'static str {
        self.command.map_or("csorvelin", |command| command.name)
    }

    /// What to say where other places are given than the command takes.
    pub fn wrong_places<T>(&self) -> Result<T, Failure> {
        let forms = self.command.map_or(&[][..], |command| command.forms);
        let forms: Vec<&str> = forms.iter().map(|(form, _)| if form.is_empty() { "nothing" } else { form }).collect();
        let hint = if self.fields.is_empty() { String::new() } else { format!("; {NAME_WITH_EQUALS}") };
        usage(format!("{} takes {}{hint}", self.name(), forms.join(", or ")))
    }

    /// The places, exactly as many as the command takes.
    pub fn places<const N: usize>(&self) -> Result<[&OsStr; N], Failure> {
        let places: Vec<&OsStr> = self.places.iter().map(OsString::as_os_str).collect();
        <[&OsStr; N]>::try_from(places).or_else(|_| self.wrong_places())
    }

    /// An archive that is written must be a file: `-` would be standard input.
    pub fn written<'a>(&self, archive: &'a OsStr) -> Result<&'a OsStr, Failure> {
        if archive == "-" {
            return usage(format!("{} needs an archive file, not standard input", self.name()));
        }
        Ok(archive)
    }

    /// The case given by fields, or by the file named.
    pub fn case(&self) -> Result<Given, Failure> {
        match self.value(Opt::Case) {
            Some(_) if !self.fields.is_empty() => usage("give fields or --case FILE, not both".to_string()),
            Some(path) => Ok(Given { bytes: store::read_case(path)?, typed: None, named: None }),
            None if self.fields.is_empty() => {
                usage(format!("{} needs a case: fields such as kind=4, or --case FILE", self.name()))
            }
            None => Given::of_fields(&self.fields).or_else(|message| usage(format!("{message}; {NAME_WITH_EQUALS}"))),
        }
    }
}

impl Given {
    /// The case of fields and their texts, or what is wrong with them.
    pub fn of_fields(fields: &[(String, String)]) -> Result<Given, String> {
        let mut case = Case { kind: 0, row: 0, route: 1, user: 0, count: 0, dossier: 0, patterns: [0; 6] };
        let mut typed = Typed::default();
        for (index, (name, value)) in fields.iter().enumerate() {
            if fields[..index].iter().any(|(earlier, _)| earlier == name) {
                return Err(format!("field {name} is given twice"));
            }
            set_field(&mut case, name, value).map_err(|message| format!("field {name}: {message}"))?;
            if let Some(place) = quantity_index(name) {
                typed[place] = Some(value.clone());
            }
        }
        let named = fields.iter().map(|(name, _)| name.clone()).collect();
        Ok(Given { bytes: case.to_bytes().to_vec(), typed: Some(typed), named: Some(named) })
    }
}

/// A whole number given under some name.
pub fn number(name: &str, text: &OsStr, most: u64) -> Result<u64, Failure> {
    let number = text.to_str().ok_or(format!("'{}' is not a whole number", shown(text)));
    number.and_then(|text| numbers::whole(text, most)).or_else(|message| usage(format!("{name}: {message}")))
}

fn name_of(option: Opt) -> &'static str {
    OPTIONS.iter().find(|form| form.option == option).map_or("", |form| form.name)
}

/// An option and the words that follow it: the first may stand behind `=`.
fn option(word: &OsStr, words: &mut impl Iterator<Item = OsString>) -> Result<(Opt, Vec<OsString>), Failure> {
    let bytes = word.as_bytes();
    let (name, first) = match bytes.iter().position(|&byte| byte == b'=') {
        Some(place) => (&bytes[..place], Some(OsStr::from_bytes(&bytes[place + 1..]).to_os_string())),
        None => (bytes, None),
    };
    let Some(form) = OPTIONS.iter().find(|form| form.name.as_bytes() == name) else {
        return usage(format!("unknown option {}; a file of that name goes behind --", shown(word)));
    };
    if first.is_some() && form.values.is_empty() {
        return usage(format!("{} takes no value", form.name));
    }
    let values: Vec<OsString> = first.into_iter().chain(words).take(form.values.len()).collect();
    if values.len() < form.values.len() {
        return usage(format!("{} needs {}", form.name, form.values.join(" and ")));
    }
    Ok((form.option, values))
}

/// Refuses options that the command does not take, and one that needs words given twice.
fn check_options(command: Option<&Command>, options: &[(Opt, Vec<OsString>)]) -> Result<(), Failure> {
    for (index, (option, values)) in options.iter().enumerate() {
        let name = name_of(*option);
        let taken = command.is_some_and(|command| command.options.contains(option)) || EVERYWHERE.contains(option);
        if !taken {
            return usage(format!("{} takes no {name}", command.map_or("csorvelin", |command| command.name)));
        }
        if !values.is_empty() && options[..index].iter().any(|(earlier, _)| earlier == option) {
            return usage(format!("{name} is given twice"));
        }
    }
    Ok(())
}

/// A word `name=value` whose name has letters alone.
fn field(word: &OsStr) -> Option<(String, String)> {
    let (name, value) = word.to_str()?.split_once('=')?;
    let letters = !name.is_empty() && name.bytes().all(|byte| byte.is_ascii_alphabetic());
    letters.then(|| (name.to_string(), value.to_string()))
}

fn set_field(case: &mut Case, name: &str, value: &str) -> Result<(), String> {
    let byte = || numbers::whole(value, 255).map(|value| value as u8);
    match name {
        "kind" => case.kind = byte()?,
        "row" => case.row = byte()?,
        "route" => case.route = byte()?,
        "user" => case.user = byte()?,
        "T" => case.count = numbers::whole(value, u64::from(u32::MAX))? as u32,
        "dossier" => case.dossier = numbers::whole(value, u64::MAX)?,
        _ => match quantity_index(name) {
            Some(index) => case.patterns[index] = numbers::quantity(value)?,
            None => return Err("there is no such field (kind, row, route, user, T, dossier, a to f)".to_string()),
        },
    }
    Ok(())
}
