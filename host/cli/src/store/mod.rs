//! Archive files and case files. An archive is read whole, changed in memory through the library, written to a temporary
//! file beside it, synced and renamed, and its directory is synced. So it is at any time the old archive or the new one,
//! whole. A lock of the operating system on the archive keeps a second writer out and ends with the process. Nothing is
//! removed or written over that this run did not itself make, but the archive that is filed into.

mod acl;
mod lock;
mod owned;
mod place;
mod reading;
mod temporary;

pub use reading::{case_bytes, is_file, read_archive, read_case, regular_file, MOST_ARCHIVE_BYTES};

use crate::failure::Failure;
use crate::paths::{directory_of, shown};
use crate::steps;
use lock::{Locked, Writable};
use std::ffi::OsStr;
use std::fs::File;
use std::io::{self, ErrorKind};
use std::path::Path;
use std::time::Duration;
use temporary::Temporary;

/// An answer about a file that is written, and what may still undo it: a loss of power, where the directory was not synced.
pub struct Written<T> {
    pub answer: T,
    pub doubt: Option<String>,
}

/// What a change of an archive's bytes leads to: the new ones, or the file as it is.
pub enum Change {
    To(Vec<u8>),
    Nothing,
}

/// Writes a new file that must not exist yet, whole or not at all.
pub fn create(path: &OsStr, bytes: &[u8]) -> Result<Written<()>, Failure> {
    let file = Path::new(path);
    if file.symlink_metadata().is_ok() {
        return Err(exists(path));
    }
    let not_created = |error: io::Error| match error.kind() {
        ErrorKind::AlreadyExists => exists(path),
        _ => Failure::NotCreated(format!("cannot create {}: {error}", shown(path))),
    };
    let mut temporary = Temporary::create(directory_of(file), None).map_err(not_created)?;
    let written = temporary.write(bytes).and_then(|()| temporary.sync()).and_then(|()| temporary.link(file));
    written.map_err(not_created)?;
    steps::before("remove the temporary name");
    drop(temporary);
    Ok(Written { answer: (), doubt: sync(directory_of(file)) })
}

fn exists(path: &OsStr) -> Failure {
    Failure::NotCreated(format!("{} exists already; nothing was written", shown(path)))
}

/// Takes the lock of an archive file, lets `change` judge its bytes, and puts new ones in their place. Where `change` fails
/// or asks for nothing the file is left alone. `wait` is how long to wait for another writer.
pub fn change<T>(
    path: &OsStr,
    wait: Duration,
    change: impl FnOnce(Vec<u8>) -> Result<(Change, T), Failure>,
) -> Result<Written<T>, Failure> {
    let locked = Locked::take(path, wait)?;
    locked.archive.sole_name()?;
    steps::before("read the archive");
    let (change, answer) = change(locked.archive.read()?)?;
    let doubt = match change {
        Change::Nothing => None,
        Change::To(bytes) => {
            replace(path, &locked, &bytes)?;
            sync(&locked.archive.place.directory)
        }
    };
    steps::before("end");
    Ok(Written { answer, doubt })
}

/// The bytes of an archive that could be filed into, as far as is seen without a lock.
pub fn look(path: &OsStr) -> Result<Vec<u8>, Failure> {
    let archive = Writable::open(path)?;
    archive.sole_name()?;
    archive.read()
}

/// Puts a file of these bytes in place of the one that is locked, with its owner, group, mode and access control list.
fn replace(path: &OsStr, locked: &Locked, bytes: &[u8]) -> Result<(), Failure> {
    let path = shown(path);
    let not_written = |error| Failure::NotWritten(format!("cannot write {path}: {error}; it is as it was before"));
    let not_kept = |error| {
        let whose = "owner, group, mode and access control list";
        Failure::NotWritten(format!("{whose} of {path} cannot be kept ({error}); nothing was changed"))
    };
    let mut temporary = Temporary::create(&locked.archive.place.directory, Some(&locked.owned)).map_err(|error| {
        Failure::NotWritten(format!("cannot write in the directory of {path}: {error}; nothing was changed"))
    })?;
    steps::before("set owner and mode");
    temporary.take_over(&locked.owned).map_err(not_kept)?;
    temporary.write(bytes).map_err(not_written)?;
    // Again: the system takes set-user and set-group bits away from a file that is written to.
    temporary.take_over(&locked.owned).map_err(not_kept)?;
    temporary.sync().map_err(not_written)?;
    steps::before("rename the temporary file");
    locked.is_as_it_was()?;
    temporary.rename(&locked.archive.place.file).map_err(not_written)
}

/// Syncs a directory in which a file has just got its name; what is to be said where that fails.
fn sync(directory: &Path) -> Option<String> {
    steps::before("sync the directory");
    let synced = File::open(directory).and_then(|directory| directory.sync_all());
    synced.err().map(|error| format!("a loss of power may undo it: its directory could not be synced ({error})"))
}
