//! The default tables with their sources.

use crate::json::Json;
use csorvelin_model::ranges;
use csorvelin_model::tables::{self, CityRow, DefaultValue, HygieneRow, PolymerRow};

pub fn text() -> String {
    let mut text = "Source documents (l. is a line of the text copy; docs/DEFAULTS.md has its SHA-256)\n".to_string();
    for (number, title) in tables::DOCUMENTS {
        text += &format!("  {number}  {title}\n");
    }
    text +=
        "\nCity rows, kinds 1 to 3: life L in days, area A in m2, density R in kg/m3, volume V in L/m2, houses per \
             day N (kind 3)\n";
    for city in tables::CITY_ROWS {
        text += &city_text(&city);
    }
    text += "\nHygiene rows, kind 6: grams per use G, uses per day M, share of inhabitants H\n";
    for hygiene in tables::HYGIENE_ROWS {
        text += &hygiene_text(&hygiene);
    }
    let processes = ranges::named_users(8, ranges::users(8));
    text += &format!("\nPolymer rows, kind 8: usage on site Q in t per year by user, {processes}; - is none\n");
    for polymer in tables::POLYMER_ROWS {
        text += &polymer_text(&polymer);
    }
    text += &format!("     Note: {}\n", tables::PLASTICS_NOTE);
    text += "\nOther defaults of the equations\n";
    for (kinds, meaning, default) in tables::CONSTANTS {
        text += &format!("  kind {kinds:<5}{:<7}{meaning}  [{}]\n", default.decimal, default.source);
    }
    text += "\nWhat the documents suggest for quantities that a case gives itself (never filled in by csorvelin)\n";
    for (kind, quantity, meaning, default) in tables::SUGGESTIONS {
        text += &format!("  kind {kind:<5}{:<7}{quantity}, {meaning}  [{}]\n", default.decimal, default.source);
    }
    text
}

fn city_text(city: &CityRow) -> String {
    let CityRow { row, name, life, area, density, volume, houses } = city;
    let note = tables::volume_note(*row).map_or(String::new(), |note| format!("     Note: {note}\n"));
    let sources = if life.source == area.source {
        format!("L, A [{}]", life.source)
    } else {
        format!("L [{}]\n     A [{}]", life.source, area.source)
    };
    let row = format!(
        "  {row}  {name:<23}L {:<6}A {:<6}R {:<6}V {:<6}N {}\n     {sources}\n     R, V [{}]  N [{}]\n",
        life.decimal, area.decimal, density.decimal, volume.decimal, houses.decimal, density.source, houses.source
    );
    row + &note
}

fn hygiene_text(hygiene: &HygieneRow) -> String {
    let HygieneRow { row, name, grams, uses, share } = hygiene;
    let (g, m, h, source) = (grams.decimal, uses.decimal, share.decimal, grams.source);
    format!("  {row}  {name:<23}G {g:<6}M {m:<6}H {h:<6}[{source}]\n")
}

/// A usage that the table does not have is a dash.
fn polymer_text(polymer: &PolymerRow) -> String {
    let PolymerRow { row, name, usages } = polymer;
    let [open, partially_open, closed] = usages.map(|usage| usage.map_or("-", |usage| usage.decimal));
    let source = usages.iter().flatten().map(|usage| usage.source).next().unwrap_or("");
    format!("  {row:<3}{name:<23}1: {open:<7}2: {partially_open:<7}3: {closed:<7}[{source}]\n")
}

pub fn json() -> Json {
    let documents = tables::DOCUMENTS.iter().map(|(number, title)| (number.to_string(), Json::from(*title)));
    let constants = tables::CONSTANTS.iter().map(|(kinds, meaning, default)| {
        Json::object([
            ("kinds", Json::from(*kinds)),
            ("meaning", Json::from(*meaning)),
            ("value", Json::from(default.decimal)),
            ("source", Json::from(default.source)),
        ])
    });
    let suggestions = tables::SUGGESTIONS.iter().map(|(kind, quantity, meaning, default)| {
        Json::object([
            ("kind", Json::from(*kind)),
            ("quantity", Json::from(quantity.to_string())),
            ("meaning", Json::from(*meaning)),
            ("value", Json::from(default.decimal)),
            ("source", Json::from(default.source)),
        ])
    });
    Json::object([
        ("documents", Json::Object(documents.collect())),
        ("city", Json::list(tables::CITY_ROWS.iter().map(city_json))),
        ("hygiene", Json::list(tables::HYGIENE_ROWS.iter().map(hygiene_json))),
        ("polymers", Json::list(tables::POLYMER_ROWS.iter().map(polymer_json))),
        ("polymers_note", Json::from(tables::PLASTICS_NOTE)),
        ("constants", Json::list(constants)),
        ("suggestions", Json::list(suggestions)),
    ])
}

fn city_json(city: &CityRow) -> Json {
    let row = Json::object([
        ("row", Json::from(city.row)),
        ("name", Json::from(city.name)),
        ("L", default_json(&city.life)),
        ("A", default_json(&city.area)),
        ("R", default_json(&city.density)),
        ("V", default_json(&city.volume)),
        ("N", default_json(&city.houses)),
    ]);
    row.and("note", tables::volume_note(city.row).map(Json::from))
}

fn hygiene_json(hygiene: &HygieneRow) -> Json {
    Json::object([
        ("row", Json::from(hygiene.row)),
        ("name", Json::from(hygiene.name)),
        ("G", default_json(&hygiene.grams)),
        ("M", default_json(&hygiene.uses)),
        ("H", default_json(&hygiene.share)),
    ])
}

/// A process without usage is left out.
fn polymer_json(polymer: &PolymerRow) -> Json {
    let usages = ranges::users(8).filter_map(|user| {
        Some(Json::object([
            ("user", Json::from(user)),
            ("process", Json::from(ranges::user_meaning(8, user))),
            ("Q", default_json(&tables::usage(polymer.row, user)?)),
        ]))
    });
    Json::object([("row", Json::from(polymer.row)), ("name", Json::from(polymer.name)), ("usages", Json::list(usages))])
}

fn default_json(default: &DefaultValue) -> Json {
    Json::object([("value", Json::from(default.decimal)), ("source", Json::from(default.source))])
}
