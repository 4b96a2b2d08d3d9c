//! Refusals in plain words: which field, what it holds, what is allowed there.

use crate::failure::Failure;
use crate::paths::shown;
use crate::store::MOST_ARCHIVE_BYTES;
use csorvelin_binding::{Archive, Refusal, CASE_BYTES};
use csorvelin_model::archive;
use csorvelin_model::ranges::{self, Violation};
use std::ffi::OsStr;

/// The library's refusal of a case, with the field that the model names for it.
pub fn case_refused(refusal: Refusal, case: &[u8]) -> Failure {
    match ranges::violation(case) {
        // Of a longer case no more is read than shows that it is longer.
        Some(violation) if refusal == Refusal::CaseLength && case.len() > CASE_BYTES => {
            Failure::Refused(Violation { found: format!("more than {CASE_BYTES} bytes"), ..violation })
        }
        Some(violation) if violation.number == refusal.number() => Failure::Refused(violation),
        other => Failure::Disagreement(format!(
            "the library refuses this case with {}, the model with {}",
            refusal.number(),
            other.map_or("nothing".to_string(), |violation| violation.number.to_string())
        )),
    }
}

pub fn refused(refusal: Refusal, field: &str, found: String, allowed: String) -> Failure {
    Failure::Refused(Violation { number: refusal.number(), field: field.to_string(), found, allowed })
}

/// Refusal 21 of some bytes, with the trailer as it was found and the first point that is wrong.
pub fn not_an_archive(path: &OsStr, bytes: &[u8]) -> Violation {
    let trailer = archive::trailer_fields(bytes)
        .map(|[distance, n, edition]| format!("; distance {distance}, n {n}, edition {edition}"));
    let fault = archive::fault(bytes).unwrap_or("the model finds no fault".to_string());
    let found = if bytes.len() as u64 > MOST_ARCHIVE_BYTES {
        format!("over {MOST_ARCHIVE_BYTES} bytes, more than any archive has")
    } else {
        format!("{} bytes{} ({fault})", bytes.len(), trailer.unwrap_or_default())
    };
    Violation {
        number: Refusal::NotAnArchive.number(),
        field: format!("archive {}", shown(path)),
        found,
        allowed: "96·n + 16 bytes, the last 16 being 96·n, n (at most 1000000) and the edition 1".to_string(),
    }
}

/// The library's refusal of a filing; `holder` names the record that holds it already.
pub fn filing_refused(
    refusal: Refusal,
    archive: &Archive,
    case: &[u8],
    holder: impl FnOnce() -> Option<String>,
) -> Failure {
    match refusal {
        Refusal::Held => {
            let found = holder().map_or("held".to_string(), |holder| format!("held as {holder}"));
            let allowed = "another kind, row, route, user or dossier: these five make a filing".to_string();
            refused(refusal, "kind, row, route, user, dossier", found, allowed)
        }
        Refusal::Full => {
            refused(refusal, "archive", format!("{} records", archive.len()), "at most 1000000 records".to_string())
        }
        _ => case_refused(refusal, case),
    }
}
