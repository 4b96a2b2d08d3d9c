//! What a command leaves: standard output, standard error, exit status.

use std::io::{self, Write};

pub struct Output {
    pub out: Body,
    pub err: String,
    pub status: u8,
    /// What was changed on disk, to be said where standard output takes nothing.
    pub done: Option<String>,
}

/// What goes to standard output.
pub enum Body {
    Text(String),
    /// Written piece by piece, so that a long answer never stands in memory.
    Stream(Box<Stream>),
}

type Stream = dyn FnOnce(&mut dyn Write) -> io::Result<()>;

impl Body {
    pub fn write(self, to: &mut dyn Write) -> io::Result<()> {
        match self {
            Body::Text(text) => to.write_all(text.as_bytes()),
            Body::Stream(stream) => stream(to),
        }
    }
}

impl Output {
    pub fn stream(stream: impl FnOnce(&mut dyn Write) -> io::Result<()> + 'static) -> Output {
        Output { out: Body::Stream(Box::new(stream)), ..Output::from(String::new()) }
    }

    /// With this on standard error beside the result.
    pub fn noting(self, err: String) -> Output {
        Output { err: self.err + &err, ..self }
    }

    pub fn ending(self, status: u8) -> Output {
        Output { status, ..self }
    }

    /// Of a command that has changed something.
    pub fn done(self, what: String) -> Output {
        Output { done: Some(what), ..self }
    }
}

impl From<String> for Output {
    fn from(out: String) -> Output {
        Output { out: Body::Text(out), err: String::new(), status: 0, done: None }
    }
}
