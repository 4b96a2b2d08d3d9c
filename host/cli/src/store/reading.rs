//! Reading, never more than decides: 65 bytes of a case, one byte more than the largest archive has of an archive.

use crate::failure::Failure;
use crate::paths::shown;
use csorvelin_binding::{CASE_BYTES, RECORD_BYTES, TRAILER_BYTES};
use csorvelin_model::archive::MOST_RECORDS;
use std::ffi::OsStr;
use std::fs::{File, FileType, OpenOptions};
use std::io::{self, ErrorKind, Read};
use std::os::unix::fs::{FileTypeExt, OpenOptionsExt};
use std::path::Path;

pub const MOST_ARCHIVE_BYTES: u64 = RECORD_BYTES as u64 * MOST_RECORDS + TRAILER_BYTES as u64;

/// Linux's number on x86-64: an open that never waits, should a name be a FIFO's by then.
const O_NONBLOCK: i32 = 0o4000;

/// The bytes of a case file, or of standard input for `-`; of a longer one 65.
pub fn read_case(path: &OsStr) -> Result<Vec<u8>, Failure> {
    let read = if path == "-" { case_bytes(io::stdin().lock()) } else { File::open(path).and_then(case_bytes) };
    read.map_err(|error| unreadable(path, &error))
}

pub fn case_bytes(from: impl Read) -> io::Result<Vec<u8>> {
    bounded(from, CASE_BYTES as u64 + 1)
}

/// The bytes of an archive file, or of standard input for `-`; of a longer one a byte more than any archive has.
pub fn read_archive(path: &OsStr) -> Result<Vec<u8>, Failure> {
    let read = if path == "-" {
        archive_bytes(io::stdin().lock())
    } else {
        regular_file(path.as_ref(), OpenOptions::new().read(true)).and_then(archive_bytes)
    };
    read.map_err(|error| unreadable(path, &error))
}

pub fn archive_bytes(from: impl Read) -> io::Result<Vec<u8>> {
    bounded(from, MOST_ARCHIVE_BYTES + 1)
}

fn bounded(from: impl Read, most: u64) -> io::Result<Vec<u8>> {
    let mut bytes = Vec::new();
    from.take(most).read_to_end(&mut bytes)?;
    Ok(bytes)
}

/// Refuses what is there and is no regular file, before anything is waited for.
pub fn is_file(path: &OsStr) -> Result<(), Failure> {
    match Path::new(path).metadata() {
        Ok(metadata) => regular(metadata.file_type()).map_err(|error| unreadable(path, &error)),
        Err(_) => Ok(()),
    }
}

/// A regular file, opened; anything else is refused without waiting for it.
pub fn regular_file(path: &Path, options: &OpenOptions) -> io::Result<File> {
    regular(path.metadata()?.file_type())?;
    let file = options.clone().custom_flags(O_NONBLOCK).open(path)?;
    // It may have become another one since.
    regular(file.metadata()?.file_type())?;
    Ok(file)
}

fn regular(file_type: FileType) -> io::Result<()> {
    let what = if file_type.is_file() {
        return Ok(());
    } else if file_type.is_dir() {
        "it is a directory, not a file"
    } else if file_type.is_fifo() {
        "it is a FIFO, not a file"
    } else {
        "it is a device or socket, not a file"
    };
    Err(io::Error::new(ErrorKind::InvalidInput, what))
}

pub fn unreadable(path: impl AsRef<OsStr>, error: &io::Error) -> Failure {
    Failure::Unreadable(format!("cannot read {}: {error}", shown(path)))
}
