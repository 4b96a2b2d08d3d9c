//! The manual page and the completion script, made from the table of commands.

use crate::arguments::{Form, EVERYWHERE, FIELDS, OPTIONS};
use crate::commands::COMMANDS;
use crate::describe::FIGURE_NAMES;
use crate::failure::STATUSES;
use crate::help;
use csorvelin_binding::{Refusal, VERSION};

/// The manual page csorvelin(1), in roff.
pub fn page() -> String {
    let mut text = format!(".TH CSORVELIN 1 \"\" \"csorvelin {VERSION}\"\n.SH NAME\n");
    text += "csorvelin \\- daily emissions of preservatives, worked out exactly and filed\n.SH SYNOPSIS\n";
    for command in &COMMANDS {
        for (form, _) in command.forms {
            text += &format!(".B csorvelin {} {}\n.br\n", roff(command.name), roff(form));
        }
    }
    text += &format!(".SH DESCRIPTION\n{}\n.PP\n{}\n.SH COMMANDS\n", lines(help::CASE), lines(help::GENERAL));
    for command in &COMMANDS {
        for (form, meaning) in command.forms {
            text += &format!(".TP\n.B {} {}\n{}\n", roff(command.name), roff(form), line(meaning));
        }
        text += &format!(".RS\n.PP\n{}\n", lines(command.about));
        for form in OPTIONS.iter().filter(|form| command.options.contains(&form.option)) {
            text += &option(form);
        }
        text += &format!(".PP\nExample:\n.B {}\n.RE\n", roff(command.example));
    }
    text += ".SH OPTIONS\nEvery command takes these.\n";
    for form in OPTIONS.iter().filter(|form| EVERYWHERE.contains(&form.option)) {
        text += &option(form);
    }
    text += ".SH EXIT STATUS\nRefusals stand in the order in which they are looked for.\n.TP\n.B 0\nas asked\n";
    for refusal in Refusal::ALL {
        text += &format!(".TP\n.B {}\nrefused: {}\n", refusal.number(), line(refusal.words()));
    }
    for (status, meaning) in STATUSES {
        text += &format!(".TP\n.B {status}\n{}\n", line(meaning));
    }
    text
}

fn option(form: &Form) -> String {
    format!(".TP\n.B {}\n{}\n", roff(&help::typed(form)), line(form.meaning))
}

/// Text inside a line: a hyphen that is typed stays one.
fn roff(text: &str) -> String {
    text.replace('\\', "\\e").replace('-', "\\-")
}

/// A line of text, which no dot or quote at its start makes a request.
fn line(text: &str) -> String {
    let text = roff(text);
    if text.starts_with(['.', '\'']) {
        format!("\\&{text}")
    } else {
        text
    }
}

fn lines(text: &str) -> String {
    text.lines().map(line).collect::<Vec<_>>().join("\n")
}

/// What bash is told of commands, options, fields and compartments; file names it completes itself.
pub fn completion() -> String {
    let names: Vec<&str> = COMMANDS.iter().map(|command| command.name).collect();
    let (names, compartments) = (names.join(" "), FIGURE_NAMES.join(" "));
    let fields = FIELDS.map(|name| format!("{name}=")).join(" ");
    let options: String = COMMANDS
        .iter()
        .map(|command| {
            let options: Vec<&str> = help::options(command).map(|form| form.name).collect();
            format!("            {}) words='{}' ;;\n", command.name, options.join(" "))
        })
        .collect();
    format!(
        "\
# Completion of csorvelin for bash.
_csorvelin() {{
    local word=${{COMP_WORDS[COMP_CWORD]}} before=${{COMP_WORDS[COMP_CWORD - 1]}} words=
    if [ \"$COMP_CWORD\" -eq 1 ]; then
        words='{names} --help --version'
    elif [[ $word == -* ]]; then
        case ${{COMP_WORDS[1]}} in
{options}        esac
    elif [[ $before == --case || $before == --out ]]; then
        words=
    else
        case ${{COMP_WORDS[1]}} in
            help) words='{names} kinds refusals man completion' ;;
            worst) [ \"$COMP_CWORD\" -eq 3 ] && words='{compartments}' ;;
            list) [[ ${{COMP_WORDS[COMP_CWORD - 2]}} == --top ]] && words='{compartments}' ;;
            file) [ \"$COMP_CWORD\" -gt 2 ] && words='{fields}' ;;
            work-out | explain | case) words='{fields}' ;;
        esac
    fi
    COMPREPLY=($(compgen -W \"$words\" -- \"$word\"))
    if [ \"${{COMP_WORDS[1]}}\" = explain ] && [ \"$COMP_CWORD\" -eq 2 ]; then
        COMPREPLY+=($(compgen -f -- \"$word\"))
    fi
    if [[ ${{COMPREPLY[0]}} == *= ]]; then
        compopt -o nospace
    fi
}}
complete -o default -F _csorvelin csorvelin
"
    )
}
