//! The numbers of the binding are those of the C header, each by its name, and the header has no others. MOST_RECORDS,
//! which the binding has no use for, is the model's.

use csorvelin_binding::{sys, Compartment, Refusal, VERSION};
use csorvelin_binding::{CASE_BYTES, LOADS_BYTES, LOAD_BYTES, RECORD_BYTES, TRAILER_BYTES};
use csorvelin_model::archive::MOST_RECORDS;

const HEADER: &str = include_str!("../../../include/csorvelin.h");

/// Names and values of all macros, without comments, each on one line.
fn macros(header: &str) -> Vec<(String, String)> {
    let text = header.replace("\\\n", " ");
    let definitions = text.lines().filter_map(|line| line.trim_start().strip_prefix("#define "));
    let named = definitions.map(|definition| {
        let definition = definition.split("/*").next().unwrap_or_default().trim();
        let (name, value) = definition.split_once(' ').unwrap_or((definition, ""));
        (name.to_string(), value.trim().to_string())
    });
    named.collect()
}

fn name_of_refusal(refusal: Refusal) -> &'static str {
    match refusal {
        Refusal::CaseLength => "CASE_SIZE_WRONG",
        Refusal::Kind => "KIND_UNKNOWN",
        Refusal::Row => "ROW_UNKNOWN",
        Refusal::Route => "ROUTE_NOT_ALLOWED",
        Refusal::User => "USER_NOT_ALLOWED",
        Refusal::NoUsage => "NO_USAGE",
        Refusal::Count => "COUNT_NOT_ALLOWED",
        Refusal::Dossier => "DOSSIER_ZERO",
        Refusal::Pattern => "NOT_A_NUMBER",
        Refusal::Unlisted => "UNLISTED_NOT_ZERO",
        Refusal::OverLimit => "OVER_LIMIT",
        Refusal::SumOverOne => "FRACTIONS_OVER_ONE",
        Refusal::Compartment => "COMPARTMENT_UNKNOWN",
        Refusal::NotAnArchive => "BROKEN",
        Refusal::Held => "HELD",
        Refusal::Full => "NO_SPACE",
        Refusal::NoRecord => "NO_RECORD",
    }
}

fn name_of_compartment(compartment: Compartment) -> &'static str {
    match compartment {
        Compartment::Stp => "STP",
        Compartment::SurfaceWater => "SURFACE_WATER",
        Compartment::Air => "AIR",
        Compartment::Soil => "SOIL",
    }
}

#[test]
fn numbers_of_the_header() {
    let mut used = 0;
    let accepted = sys::empty(&mut [0; TRAILER_BYTES], &mut used);
    let mut ours = vec![
        ("H", String::new()),
        ("VERSION", format!("{VERSION:?}")),
        ("CASE_SIZE", CASE_BYTES.to_string()),
        ("RECORD_SIZE", RECORD_BYTES.to_string()),
        ("TRAILER_SIZE", TRAILER_BYTES.to_string()),
        ("LOAD_SIZE", LOAD_BYTES.to_string()),
        ("LOADS_SIZE", LOADS_BYTES.to_string()),
        ("MOST_RECORDS", MOST_RECORDS.to_string()),
        ("USED_LENGTH(n)", "((uint64_t)CSORVELIN_RECORD_SIZE * (uint64_t)(n) + CSORVELIN_TRAILER_SIZE)".to_string()),
        ("ACCEPTED", accepted.to_string()),
    ];
    let compartments = [Compartment::Stp, Compartment::SurfaceWater, Compartment::Air, Compartment::Soil];
    ours.extend(compartments.map(|compartment| (name_of_compartment(compartment), u64::from(compartment).to_string())));
    ours.extend(Refusal::ALL.map(|refusal| (name_of_refusal(refusal), refusal.number().to_string())));
    let mut ours: Vec<_> = ours.into_iter().map(|(name, value)| (format!("CSORVELIN_{name}"), value)).collect();
    let mut theirs = macros(HEADER);
    ours.sort();
    theirs.sort();
    for (our, their) in ours.iter().zip(&theirs) {
        assert_eq!(our, their, "ours, and the header's");
    }
    assert_eq!(ours.len(), theirs.len());
}
