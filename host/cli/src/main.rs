//! The command `csorvelin`: works out, explains and files cases through the proved library.
//!
//! Exit status: 0, the number of a refusal (1 to 12, 21 to 24, 31), or one of those of [`failure`], 64 and above.

mod arguments;
mod commands;
mod csv;
mod date;
mod defaults;
mod describe;
mod explain;
mod failure;
mod filings;
mod help;
mod json;
mod layout;
mod manual;
mod numbers;
mod output;
mod paths;
mod progress;
mod refusals;
mod sha256;
mod steps;
mod store;

use arguments::Arguments;
use failure::Failure;
use output::{Body, Output};
use std::ffi::OsString;
use std::fs::File;
use std::io::{self, BufWriter, ErrorKind, Write};
use std::os::fd::AsFd;
use std::process::ExitCode;

fn main() -> ExitCode {
    let words: Vec<OsString> = std::env::args_os().skip(1).collect();
    let json = words.iter().take_while(|&word| word != "--").any(|word| word == "--json");
    let answer = Arguments::parse(words).and_then(|arguments| commands::run(&arguments));
    leave(answer.unwrap_or_else(|failure| failure.output(json)))
}

fn leave(output: Output) -> ExitCode {
    let Output { out, err, status, done } = output;
    say(&err);
    match print(out) {
        Ok(()) => ExitCode::from(status),
        Err(error) => {
            let (status, err) = unprinted(&error, status, done);
            say(&err);
            ExitCode::from(status)
        }
    }
}

/// Where standard error is closed there is nobody to tell.
fn say(text: &str) {
    let _ = io::stderr().write_all(text.as_bytes());
}

/// Writes to standard output itself: what it did not take must not be tried again.
fn print(out: Body) -> io::Result<()> {
    let mut to = BufWriter::new(File::from(io::stdout().as_fd().try_clone_to_owned()?));
    let written = out.write(&mut to).and_then(|()| to.flush());
    let _ = to.into_parts();
    written
}

/// Status and words where standard output takes no more. A reader that has seen enough is no failure, unless something was
/// done of which it now does not hear.
fn unprinted(error: &io::Error, status: u8, done: Option<String>) -> (u8, String) {
    let failure = match done {
        Some(done) => Failure::InDoubt(format!("{done}; the answer could not be printed: {error}")),
        None if error.kind() == ErrorKind::BrokenPipe => return (status, String::new()),
        None => Failure::NotWritten(format!("standard output: {error}")),
    };
    (failure.status(), failure.text())
}
