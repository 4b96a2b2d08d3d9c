//! A case, its figures and their loads as text and as JSON.

use crate::arguments::Typed;
use crate::json::Json;
use crate::numbers;
use csorvelin_binding::{Case, Figures, Record, LOADS_BYTES, LOAD_BYTES};
use csorvelin_model::case::QUANTITIES;
use csorvelin_model::ranges::{self, Listed};
use csorvelin_model::tables;

pub const FIGURE_NAMES: [&str; 4] = ["stp", "surface", "air", "soil"];

/// A line for each field of a case that carries something, quantities with their shortest decimals and, for `exact`, with
/// the exact values where those are others. `typed` is there when the case was given by fields.
pub fn case_text(case: &Case, typed: Option<&Typed>, exact: bool) -> String {
    let mut text = String::new();
    let mut line = |name: &str, value: String, note: &str| {
        let line = format!("{name:<9}{value}  {note}");
        text += line.trim_end();
        text += "\n";
    };
    line("kind", case.kind.to_string(), kind_name(case.kind));
    line("row", case.row.to_string(), row_name(case.kind, case.row));
    line("route", case.route.to_string(), route_name(case.route));
    if case.user != 0 {
        line("user", case.user.to_string(), ranges::user_meaning(case.kind, case.user));
    }
    if case.count != 0 {
        line("T", case.count.to_string(), ranges::count_meaning(case.kind));
    }
    line("dossier", case.dossier.to_string(), "");
    for (index, name) in QUANTITIES.iter().enumerate() {
        let meaning = meaning(case, index);
        if meaning.is_some() || case.patterns[index] != 0 {
            let value = match typed.map(|typed| typed[index].as_deref()) {
                Some(None) => "0 (not given, counted as 0)".to_string(),
                given => taken(case.patterns[index], given.flatten(), exact),
            };
            line(&name.to_string(), value, &meaning.unwrap_or_default());
        }
    }
    text
}

/// The quantities that the case carries and that were not typed.
pub fn blanks(case: &Case, typed: Option<&Typed>) -> Vec<Listed> {
    let listed = ranges::listed(case.kind, case.row).into_iter();
    typed.map_or(vec![], |typed| listed.filter(|listed| typed[listed.index].is_none()).collect())
}

/// A quantity's name and meaning.
pub fn named(listed: &Listed) -> String {
    format!("{} ({})", QUANTITIES[listed.index], listed.meaning)
}

/// A line for each quantity that the case carries and that was not typed.
pub fn missing(case: &Case, typed: Option<&Typed>) -> String {
    let blanks = blanks(case, typed);
    blanks.iter().map(|blank| format!("csorvelin: note: {} is not given and counts as 0\n", named(blank))).collect()
}

/// A quantity, its pattern, and how it lies to the decimal that was typed.
fn taken(pattern: u64, typed: Option<&str>, exact: bool) -> String {
    let mut value = numbers::shortest(pattern);
    if exact && !numbers::shortest_is_exact(pattern) {
        value += &format!(" = {}", numbers::exact_pattern(pattern));
    }
    let aside = typed.and_then(|typed| numbers::deviation(typed, pattern).map(|side| format!(", {side} {typed}")));
    format!("{value} ({pattern:#018x}{})", aside.unwrap_or_default())
}

/// Meaning and unit of a quantity that the case's kind and row carry.
fn meaning(case: &Case, index: usize) -> Option<String> {
    let listed = ranges::listed(case.kind, case.row).into_iter().find(|listed| listed.index == index)?;
    Some(match listed.unit {
        "" => listed.meaning.to_string(),
        unit => format!("{}, {unit}", listed.meaning),
    })
}

pub fn kind_name(kind: u8) -> &'static str {
    ranges::KIND_NAMES.get(usize::from(kind).wrapping_sub(1)).copied().unwrap_or("")
}

fn row_name(kind: u8, row: u8) -> &'static str {
    match (kind, row) {
        (1..=3, 1..) => tables::city_row(row).map_or("", |city| city.name),
        (6, 1..) => tables::hygiene_row(row).map_or("", |hygiene| hygiene.name),
        (8, _) => tables::polymer_row(row).map_or("", |polymer| polymer.name),
        (4 | 7, 1) => "defaults of the document",
        (_, 0) => "values of the case",
        _ => "",
    }
}

fn route_name(route: u8) -> &'static str {
    match route {
        1 => "to the sewage treatment plant (STP)",
        2 => "to surface water, by the rain sewer",
        _ => "",
    }
}

pub fn figures_text(figures: Figures) -> String {
    let mut text = String::new();
    for (name, figure) in FIGURE_NAMES.iter().zip(<[u64; 4]>::from(figures)) {
        text += &format!("{name:<9}{}\n", figure_text(figure));
    }
    text
}

/// A figure in micrograms, with milligrams and kilograms beside.
pub fn figure_text(figure: u64) -> String {
    let (milligrams, kilograms) = (numbers::milligrams(figure), numbers::kilograms(figure));
    format!("{figure} µg per day = {milligrams} mg = {kilograms} kg")
}

pub fn case_json(case: &Case, typed: Option<&Typed>) -> Json {
    let quantities = QUANTITIES.iter().enumerate().map(|(index, name)| {
        let pattern = case.patterns[index];
        let value = Json::object([
            ("pattern", Json::from(format!("{pattern:#018x}"))),
            ("shortest", Json::from(numbers::shortest(pattern))),
            ("exact", Json::from(numbers::exact_pattern(pattern))),
        ]);
        (name.to_string(), value.and("given", typed.map(|typed| Json::from(typed[index].is_some()))))
    });
    Json::object([
        ("kind", Json::from(case.kind)),
        ("row", Json::from(case.row)),
        ("route", Json::from(case.route)),
        ("user", Json::from(case.user)),
        ("T", Json::from(case.count)),
        ("dossier", Json::from(case.dossier)),
        ("quantities", Json::Object(quantities.collect())),
        ("bytes", Json::from(hex(&case.to_bytes()))),
    ])
}

/// A record: its number, its case and what it holds for figures.
pub fn record_json(number: u64, record: &Record) -> Json {
    Json::object([
        ("record", Json::from(number)),
        ("case", case_json(&record.case(), None)),
        ("figures", figures_json(record.figures())),
    ])
}

/// The figures in micrograms per day.
pub fn figures_json(figures: Figures) -> Json {
    let entries = FIGURE_NAMES.iter().zip(<[u64; 4]>::from(figures));
    Json::Object(entries.map(|(name, figure)| (name.to_string(), Json::from(figure))).collect())
}

/// The name of each compartment, the pattern of its load, and the figure that this comes from.
fn named_loads(loads: &[u8; LOADS_BYTES], figures: Figures) -> impl Iterator<Item = (&'static str, u64, u64)> + '_ {
    let patterns = loads.as_chunks::<LOAD_BYTES>().0.iter().map(|&load| u64::from_le_bytes(load));
    let figures = <[u64; 4]>::from(figures).into_iter();
    FIGURE_NAMES.into_iter().zip(patterns.zip(figures)).map(|(name, (load, figure))| (name, load, figure))
}

/// A line for each load in micrograms, with its pattern and the figure, and the bytes of all four.
pub fn loads_text(loads: &[u8; LOADS_BYTES], figures: Figures) -> String {
    let mut text = String::new();
    for (name, load, figure) in named_loads(loads, figures) {
        let above = numbers::deviation(&figure.to_string(), load) == Some("above");
        let (exact, rounded) = (numbers::exact_pattern(load), if above { ", rounded up" } else { "" });
        text += &format!("{name:<9}{exact} µg per day ({load:#018x})  figure {figure}{rounded}\n");
    }
    text + &format!("bytes    {}\n", hex(loads))
}

/// The loads of a record, each with the figure that it comes from.
pub fn loads_json(number: u64, loads: &[u8; LOADS_BYTES], figures: Figures) -> Json {
    let entries = named_loads(loads, figures).map(|(name, load, figure)| {
        let value = Json::object([
            ("pattern", Json::from(format!("{load:#018x}"))),
            ("exact", Json::from(numbers::exact_pattern(load))),
            ("figure", Json::from(figure)),
        ]);
        (name.to_string(), value)
    });
    Json::object([
        ("record", Json::from(number)),
        ("loads", Json::Object(entries.collect())),
        ("bytes", Json::from(hex(loads))),
    ])
}

/// So many of something: one record, two records.
pub fn counted(number: u64, what: &str) -> String {
    format!("{number} {what}{}", if number == 1 { "" } else { "s" })
}

pub fn hex(bytes: &[u8]) -> String {
    bytes.iter().map(|byte| format!("{byte:02x}")).collect()
}
