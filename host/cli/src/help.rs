//! Help pages, made from the table of commands.

use crate::arguments::{Form, Opt, EVERYWHERE, OPTIONS};
use crate::commands::{Command, COMMANDS};
use crate::failure::STATUSES;
use csorvelin_binding::{Refusal, VERSION};
use csorvelin_model::case::QUANTITIES;
use csorvelin_model::{equations, ranges};

/// The column in which the meaning of a command, option or status stands.
const COLUMN: usize = 40;
const OPTION_COLUMN: usize = 27;

/// What a CASE is.
pub const CASE: &str = "\
CASE is fields such as  kind=4 row=1 dossier=7 a=100 b=0 c=1  or  --case FILE  with 64 bytes.
Fields are kind, row, route, user, T, dossier and a to f; csorvelin help kinds says which a kind
has. Route is 1 unless given, the others 0. Quantities are decimals (0.71, 1e-3), taken as the
nearest binary64 number, or patterns (0x3fe6b851eb851eb8).";

/// What holds of every command.
pub const GENERAL: &str = "\
ARCHIVE may be - (standard input) where it is only read. Words behind -- are file names, whatever
they look like. --json gives every answer as JSON, 64-bit numbers as strings. A quantity is shown
by the shortest decimal that reads back to it; --exact shows its exact value too.";

pub fn overview() -> String {
    let mut text = format!("csorvelin {VERSION}: daily emissions of preservatives, worked out exactly and filed\n\n");
    for command in &COMMANDS {
        for (form, meaning) in command.forms {
            text += &entry(&format!("csorvelin {} {form}", command.name), meaning, COLUMN);
        }
    }
    text += &format!("\n{CASE}\n{GENERAL}\n\n");
    text + "csorvelin help COMMAND has that command's options and an example.\n\n" + &statuses()
}

/// A line: what is typed, and behind it what it means.
fn entry(typed: &str, meaning: &str, column: usize) -> String {
    format!("  {:<width$}{meaning}\n", typed.trim_end(), width = column - 2)
}

pub fn statuses() -> String {
    let statuses = STATUSES.iter().map(|(status, meaning)| entry(&status.to_string(), meaning, 6));
    let refusals = "Exit status: 0, or a refusal's number (1 to 12, 21 to 24, 31; csorvelin help refusals), or\n";
    refusals.to_string() + &statuses.collect::<String>()
}

/// The page of one command.
pub fn command(command: &Command) -> String {
    let forms = command.forms.iter().map(|(form, meaning)| {
        let typed = format!("csorvelin {} {form}", command.name);
        format!("{}\n    {meaning}\n", typed.trim_end())
    });
    let mut text: String = forms.collect();
    if !command.about.is_empty() {
        text += &format!("\n{}\n", command.about);
    }
    if command.options.contains(&Opt::Case) {
        text += &format!("\n{CASE}\n");
    }
    let options = options(command).map(|form| entry(&typed(form), form.meaning, OPTION_COLUMN));
    text + "\nOptions:\n" + &options.collect::<String>() + &format!("\nExample:\n  {}\n", command.example)
}

/// The options of a command, those of every command last.
pub fn options(command: &Command) -> impl Iterator<Item = &'static Form> + '_ {
    OPTIONS.iter().filter(|form| command.options.contains(&form.option) || EVERYWHERE.contains(&form.option))
}

/// An option with the words that follow it.
pub fn typed(form: &Form) -> String {
    [&[form.name], form.values].concat().join(" ")
}

/// The refusals by number, and in which order each command looks for them.
pub fn refusals() -> String {
    let refusals = Refusal::ALL.iter().map(|refusal| entry(&refusal.number().to_string(), refusal.words(), 6));
    let refusals: String = refusals.collect();
    format!(
        "Refusals, which are exit statuses too. The first that holds is told, in this order:\n\
         work-out, explain and case look for 1 to 5, 31, 6 to 11; file and import for the same, then 21,\n\
         22, 23; show, export and explain of a record for 21, 24; worst for 12, 21, 24; list and verify\n\
         for 21. A refusal gives no figure and no load, and changes no byte of the archive.\n\n{refusals}"
    )
}

/// The kinds: equation, rows, routes, and a line for each field that they carry.
pub fn kinds() -> String {
    let kinds: Vec<String> = ranges::KINDS.map(kind).collect();
    kinds.join("\n") + "\nLimits are inclusive. csorvelin defaults prints what the rows from 1 on stand for.\n"
}

fn kind(kind: u8) -> String {
    let (equation, source) = equations::equation(kind);
    let rows = ranges::rows(kind);
    let (first, last) = (*rows.start(), *rows.end());
    let rows = if first == last { format!("row {first}") } else { format!("rows {first} to {last}") };
    let mut text = format!("kind {kind}: {}\n", ranges::KIND_NAMES[usize::from(kind) - 1]);
    text += &format!("  {equation}\n  [{source}]\n  {rows}; {}\n", routes(kind));
    let users = ranges::users(kind);
    if *users.end() > 0 {
        text += &format!("  user  {}\n", ranges::named_users(kind, users));
    }
    // What the first row takes and the last does not, only row 0 takes.
    let only = |elsewhere: bool| if elsewhere { "" } else { ", row 0 only" };
    let counts = ranges::counts(kind, first);
    if *counts.end() > 0 {
        let (meaning, only) = (ranges::count_meaning(kind), only(ranges::counts(kind, last) == counts));
        text += &format!("  T  {meaning}, {} to {}{only}\n", counts.start(), counts.end());
    }
    let elsewhere = ranges::listed(kind, last);
    for listed in ranges::listed(kind, first) {
        let only = only(elsewhere.contains(&listed));
        let unit = if listed.unit.is_empty() { String::new() } else { format!(" {}", listed.unit) };
        let name = QUANTITIES[listed.index];
        text += &format!("  {name}  {}, 0 to {}{unit}{only}\n", listed.meaning, listed.limit);
    }
    match ranges::summed(kind) {
        ([], _) => {}
        (_, sum) => text += &format!("  {sum}  {}\n", ranges::SUM_LIMIT),
    }
    for remark in scope(kind) {
        text += &format!("  {remark}\n");
    }
    text
}

const DOWNTOWN: &str = "The city is paved downtown only (001, l. 66–69).";

/// What a kind does not cover, or covers only with evidence; what its rows stand for, where the equation does not say it.
fn scope(kind: u8) -> &'static [&'static str] {
    match kind {
        1 | 2 => &[DOWNTOWN, "A share below 1 needs tonnage data (001, l. 107–108)."],
        3 => &[
            DOWNTOWN,
            "B is for brush and roller; spraying loses 0.1 + 0.2 (000, Table 17, l. 1074–1075) and is not covered.",
        ],
        8 => &[
            "Q is what a site uses of the row's polymer in the user's process; where it has none, 31 refuses the case.",
            "csorvelin defaults prints the usages, and what must be known of them and of b and c.",
        ],
        _ => &[],
    }
}

fn routes(kind: u8) -> &'static str {
    match kind {
        1..=3 => "route 1 (STP), in rows 0 and 3 to 7 also 2 (surface water)",
        _ => "route 1 (STP)",
    }
}
