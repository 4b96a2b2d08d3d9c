//! Why a command gave no result, and the exit status for it.

use crate::json::Json;
use crate::output::Output;
use crate::paths::shown;
use csorvelin_binding::Refusal;
use csorvelin_model::ranges::Violation;

#[derive(Debug)]
pub enum Failure {
    /// A refusal of the requirements: its number is the exit status.
    Refused(Violation),
    /// The listing of what is no archive; its own line goes to standard output.
    ListRefused(Violation),
    /// The listing of an archive that is sound but too long for it, which has the same number and line.
    ListTooLong(Violation),
    Usage(String),
    Unreadable(String),
    /// Library and model differ, which the proofs exclude as long as the library and the requirements are those proved.
    Disagreement(String),
    /// It was done, but that could not be printed, or may still be undone.
    InDoubt(String),
    NotCreated(String),
    NotWritten(String),
    Locked(String),
    /// An archive that its permissions keep from being written.
    Sealed(String),
}

/// Exit status where not all is in order: a record whose figures are not its case's, a case that was not imported.
pub const NOT_IN_ORDER: u8 = 65;
pub const UNREADABLE: u8 = 66;
pub const DISAGREEMENT: u8 = 70;
pub const IN_DOUBT: u8 = 71;

/// The exit statuses beside 0 and the refusals' numbers.
pub const STATUSES: [(u8, &str); 9] = [
    (64, "usage"),
    (NOT_IN_ORDER, "a record is not in order (explain, verify), or a case was not taken (import)"),
    (UNREADABLE, "file not readable"),
    (DISAGREEMENT, "library and model differ"),
    (IN_DOUBT, "done, but the answer could not be printed, or a loss of power may undo it"),
    (73, "file not created"),
    (74, "file or standard output not written"),
    (75, "archive locked by another writer"),
    (77, "archive sealed: no write permission"),
];

impl Failure {
    pub fn status(&self) -> u8 {
        match self {
            Failure::Refused(violation) | Failure::ListRefused(violation) | Failure::ListTooLong(violation) => {
                violation.number as u8
            }
            Failure::Usage(_) => 64,
            Failure::Unreadable(_) => UNREADABLE,
            Failure::Disagreement(_) => DISAGREEMENT,
            Failure::InDoubt(_) => IN_DOUBT,
            Failure::NotCreated(_) => 73,
            Failure::NotWritten(_) => 74,
            Failure::Locked(_) => 75,
            Failure::Sealed(_) => 77,
        }
    }

    /// Says why there is no result: on standard error, or as JSON on standard output.
    pub fn output(&self, json: bool) -> Output {
        let status = self.status();
        if json {
            return Output::from(format!("{}\n", self.json())).ending(status);
        }
        let out = match self {
            Failure::ListRefused(_) | Failure::ListTooLong(_) => "refused 21\n".to_string(),
            _ => String::new(),
        };
        Output::from(out).noting(self.text()).ending(status)
    }

    /// The refusal of a case given by the fields named: says so where the one refused is not among them, or where T is and the
    /// row, which T goes by, is not.
    pub fn of_fields(self, named: Option<&[String]>) -> Failure {
        let (Failure::Refused(violation), Some(named)) = (&self, named) else { return self };
        let missing = |name: &str| !named.iter().any(|given| given == name);
        let found = &violation.found;
        let found = match violation.field.as_str() {
            "T" if missing("T") && missing("row") => format!("{found} (not given, nor is row, which counts as 0)"),
            "T" if missing("row") => format!("{found} (row is not given and counts as 0)"),
            field @ ("kind" | "row" | "user" | "T" | "dossier") if missing(field) => format!("{found} (not given)"),
            _ => return self,
        };
        Failure::Refused(Violation { found, ..violation.clone() })
    }

    /// The refusal of a case that a record holds.
    pub fn in_record(self, number: u64) -> Failure {
        match self {
            Failure::Refused(violation) => {
                let field = format!("{} of record {number}", violation.field);
                Failure::Refused(Violation { field, ..violation })
            }
            other => other,
        }
    }

    fn violation(&self) -> Option<&Violation> {
        match self {
            Failure::Refused(violation) | Failure::ListRefused(violation) | Failure::ListTooLong(violation) => {
                Some(violation)
            }
            _ => None,
        }
    }

    pub fn text(&self) -> String {
        // It may quote what was typed.
        let message = shown(self.message());
        match (self, self.violation()) {
            (_, Some(Violation { number, field, found, allowed })) => {
                format!("refused {number}: {message}\n  field    {field}\n  found    {found}\n  allowed  {allowed}\n")
            }
            (Failure::Usage(_), None) => format!("csorvelin: {message}\nTry: csorvelin help\n"),
            _ => format!("csorvelin: {message}\n"),
        }
    }

    pub fn message(&self) -> &str {
        match self {
            Failure::Refused(violation) | Failure::ListRefused(violation) => {
                Refusal::from_number(violation.number).map_or("refused", Refusal::words)
            }
            Failure::ListTooLong(_) => "the archive is longer than the listing takes",
            Failure::Usage(message)
            | Failure::Unreadable(message)
            | Failure::Disagreement(message)
            | Failure::InDoubt(message)
            | Failure::NotCreated(message)
            | Failure::NotWritten(message)
            | Failure::Locked(message)
            | Failure::Sealed(message) => message,
        }
    }

    pub fn json(&self) -> Json {
        match self.violation() {
            Some(Violation { number, field, found, allowed }) => Json::object([
                ("refused", Json::from(*number)),
                ("words", Json::from(self.message())),
                ("field", Json::from(field.as_str())),
                ("found", Json::from(found.as_str())),
                ("allowed", Json::from(allowed.as_str())),
            ]),
            None => Json::object([("error", Json::from(self.status())), ("message", Json::from(self.message()))]),
        }
    }
}
