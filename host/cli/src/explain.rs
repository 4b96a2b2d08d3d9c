//! The calculation sheet: enough to work each figure again by hand.

use crate::describe::{self, figure_text, FIGURE_NAMES};
use crate::json::Json;
use crate::{date, layout, numbers};
use csorvelin_binding::VERSION;
use csorvelin_model::equations::{product, Chain, Factor, Sheet, COMPARTMENTS};
use csorvelin_model::ratio::Ratio;
use csorvelin_model::tables;

/// Values are padded to one column up to this width.
const MOST_PADDED: usize = 24;

/// Where a sheet comes from: software, day, and the record, if it is one's.
pub struct Origin {
    printed: String,
    record: Option<(String, u64)>,
}

impl Origin {
    pub fn now(record: Option<(String, u64)>) -> Origin {
        Origin { printed: date::today(), record }
    }

    fn text(&self) -> String {
        let record = self.record.as_ref();
        let record = record.map(|(archive, number)| format!("archive  {archive}\nrecord   {number}\n"));
        format!("sheet    csorvelin {VERSION}, printed {} (UTC)\n{}", self.printed, record.unwrap_or_default())
    }

    /// A sheet in JSON with its origin behind it.
    pub fn json(&self, sheet: Json) -> Json {
        let sheet =
            sheet.and("version", Some(Json::from(VERSION))).and("printed", Some(Json::from(self.printed.as_str())));
        match &self.record {
            Some((archive, number)) => {
                sheet.and("archive", Some(Json::from(archive.as_str()))).and("record", Some(Json::from(*number)))
            }
            None => sheet,
        }
    }
}

/// The whole sheet, in lines that fit a page.
pub fn text(origin: &Origin, case: &str, sheet: &Sheet, check: &str) -> String {
    let text = format!("{}{case}{}\n{check}\n", origin.text(), equations_text(sheet));
    let broken = "A number that ends in \\ goes on in the next line.\n";
    layout::wrapped(&text) + if layout::breaks_words(&text) { broken } else { "" }
}

fn equations_text(sheet: &Sheet) -> String {
    let figures = sheet.figures();
    let mut text = format!("equation {}  (kg per day)\n         [{}]\n", sheet.equation, sheet.source);
    for (compartment, name) in COMPARTMENTS.iter().enumerate() {
        let chains = &sheet.emissions[compartment];
        if chains.is_empty() {
            text += &format!("\nTo {name}: no equation, figure 0\n");
            continue;
        }
        text += &format!("\nTo {name}:\n");
        for chain in chains {
            text += &chain_text(chain);
            if chains.len() > 1 {
                text += &format!("  = {} kg per day, to be added\n", with_decimal(&product(chain)));
            }
        }
        text += &rounding_text(&sheet.kilograms(compartment), &sheet.micrograms(compartment), figures[compartment]);
    }
    let note = note(sheet).map_or(String::new(), |note| format!("\nNote: {note}\n"));
    text + &note + "\n" + &documents(sheet)
}

/// A fraction with its decimal beside it; a whole number alone.
fn with_decimal(value: &Ratio) -> String {
    let (fraction, decimal) = (value.to_string(), numbers::decimal(value));
    if fraction == decimal {
        fraction
    } else {
        format!("{fraction} (= {decimal})")
    }
}

/// What must be known of the kind's and the row's numbers.
fn note(sheet: &Sheet) -> Option<&'static str> {
    match sheet.case.kind {
        2 | 3 => tables::volume_note(sheet.case.row),
        8 => Some(tables::PLASTICS_NOTE),
        _ => None,
    }
}

/// A line for each factor: sign, symbol, exact value, meaning, source. A symbol that is the value itself is left out.
fn chain_text(chain: &Chain) -> String {
    let width = |column: &dyn Fn(&Factor) -> String| chain.iter().map(|factor| column(factor).chars().count()).max();
    let symbols = width(&|factor| factor.symbol.clone()).unwrap_or(0);
    let values = width(&factor_value).unwrap_or(0).min(MOST_PADDED);
    let mut text = String::new();
    for (index, factor) in chain.iter().enumerate() {
        let sign = match (factor.divides, index) {
            (true, _) => "/",
            (false, 0) => " ",
            (false, _) => "×",
        };
        let Factor { symbol, meaning, source, .. } = factor;
        let value = factor_value(factor);
        let symbol = if *symbol == value { "" } else { symbol };
        text += &format!("  {sign} {symbol:<symbols$}  {value:<values$}  {meaning}  [{source}]\n");
    }
    text
}

/// A factor's exact value: all its digits, or a fraction with its first digits beside it.
fn factor_value(factor: &Factor) -> String {
    let exact = numbers::exact(&factor.value);
    if exact.contains('/') {
        with_decimal(&factor.value)
    } else {
        exact
    }
}

/// The exact fraction, and the one rounding up.
fn rounding_text(kilograms: &Ratio, micrograms: &Ratio, figure: u64) -> String {
    let (whole, rest) = micrograms.mixed();
    let exact = if rest.is_zero() {
        format!("{whole} µg per day, a whole number")
    } else {
        format!("{whole} + {rest} µg per day (= {}), rounded up", numbers::decimal(micrograms))
    };
    format!("  = {} kg per day\n  = {exact}\n  figure {}\n", with_decimal(kilograms), figure_text(figure))
}

/// The titles of the documents that the sheet names.
fn documents(sheet: &Sheet) -> String {
    let sources = sheet.emissions.iter().flatten().flatten().map(|factor| factor.source);
    let sources: Vec<&str> = sources.chain([sheet.source]).collect();
    let named = tables::DOCUMENTS.iter().filter(|(number, _)| sources.iter().any(|source| names(source, number)));
    named.map(|(number, title)| format!("{number}  {title}\n")).collect()
}

/// A source names a document by its number, which may stand anywhere in it but not inside another number.
fn names(source: &str, document: &str) -> bool {
    source.split(|character: char| !character.is_alphanumeric()).any(|word| word == document)
}

pub fn json(sheet: &Sheet) -> Json {
    let figures = sheet.figures();
    let emissions = (0..4).map(|compartment| {
        let chains = sheet.emissions[compartment].iter();
        Json::object([
            ("compartment", Json::from(FIGURE_NAMES[compartment])),
            ("terms", Json::list(chains.map(|chain| Json::list(chain.iter().map(factor_json))))),
            ("kilograms", Json::from(sheet.kilograms(compartment).to_string())),
            ("micrograms", Json::from(sheet.micrograms(compartment).to_string())),
            ("kilograms_decimal", Json::from(numbers::decimal(&sheet.kilograms(compartment)))),
            ("micrograms_decimal", Json::from(numbers::decimal(&sheet.micrograms(compartment)))),
            ("figure", Json::from(figures[compartment])),
        ])
    });
    let documents = tables::DOCUMENTS.iter().map(|(number, title)| (number.to_string(), Json::from(*title)));
    let sheet_json = Json::object([
        ("kind", Json::from(describe::kind_name(sheet.case.kind))),
        ("equation", Json::from(sheet.equation)),
        ("source", Json::from(sheet.source)),
        ("emissions", Json::list(emissions)),
        ("documents", Json::Object(documents.collect())),
    ]);
    sheet_json.and("note", note(sheet).map(Json::from))
}

fn factor_json(factor: &Factor) -> Json {
    Json::object([
        ("operation", Json::from(if factor.divides { "divide" } else { "multiply" })),
        ("symbol", Json::from(factor.symbol.as_str())),
        ("meaning", Json::from(factor.meaning.as_str())),
        ("value", Json::from(factor.value.to_string())),
        ("source", Json::from(factor.source)),
    ])
}

#[cfg(test)]
mod tests {
    use super::*;

    #[test]
    fn a_document_is_named_by_its_number_alone() {
        assert!(names("built from 001, worst case, l. 192–194", "001"));
        assert!(names("000, Table 8, l. 777", "000"));
        assert!(!names("002, Table 3, l. 1000", "000"));
    }
}
