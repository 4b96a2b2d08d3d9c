//! An archive that is to be replaced: opened as if for writing, and locked by the operating system's lock on the open file,
//! which ends with the process, however that ends.

use super::owned::Owned;
use super::place::{same_file, Place};
use super::reading::{archive_bytes, regular_file, unreadable};
use super::temporary;
use crate::failure::Failure;
use crate::paths::shown;
use crate::steps;
use std::ffi::{OsStr, OsString};
use std::fs::{self, File, OpenOptions, TryLockError};
use std::io::{self, ErrorKind};
use std::os::unix::fs::MetadataExt;
use std::thread;
use std::time::{Duration, Instant};

/// So often another file may stand under the name by the time the lock is there.
const MOST_TRIES: u32 = 1000;

/// An archive file that the caller may write, and that has no other name.
pub struct Writable {
    path: OsString,
    handle: File,
    pub place: Place,
}

impl Writable {
    /// The file that a path leads to, opened for writing, though nothing is written to it: whoever may not write an archive
    /// does not replace it, and one without any write permission is sealed, for the system's administrator too.
    pub fn open(path: &OsStr) -> Result<Writable, Failure> {
        let unreadable = |error| unreadable(path, &error);
        let place = Place::of(path).map_err(unreadable)?;
        let open = |write| regular_file(&place.file, OpenOptions::new().read(true).write(write));
        let handle = match open(true) {
            Err(error) if error.kind() == ErrorKind::ReadOnlyFilesystem => {
                return Err(sealed(path, "its file system is read-only"));
            }
            Err(error) if error.kind() == ErrorKind::PermissionDenied && open(false).is_ok() => {
                return Err(sealed(path, "you have no write permission"));
            }
            opened => opened.map_err(unreadable)?,
        };
        if Owned::of(&handle).map_err(unreadable)?.is_sealed() {
            return Err(sealed(path, FOR_ALL));
        }
        Ok(Writable { path: path.to_os_string(), handle, place })
    }

    fn unreadable(&self, error: io::Error) -> Failure {
        unreadable(&self.path, &error)
    }

    pub fn read(&self) -> Result<Vec<u8>, Failure> {
        archive_bytes(&self.handle).map_err(|error| self.unreadable(error))
    }

    /// Refuses a file that has other names: they would keep the old archive.
    pub fn sole_name(&self) -> Result<(), Failure> {
        let names = self.names().map_err(|error| self.unreadable(error))?;
        if names == 1 {
            return Ok(());
        }
        Err(Failure::NotWritten(format!(
            "{} has {names} names (hard links), and a filing would leave the others with the old archive; nothing was \
             changed. Make a copy of it and file into that.",
            shown(&self.path)
        )))
    }

    /// How many names the file has. One that a stopped writer left beside it is none of the user's.
    fn names(&self) -> io::Result<u64> {
        let count = || self.handle.metadata().map(|metadata| metadata.nlink());
        if count()? == 1 {
            return Ok(1);
        }
        let left = self.left_names()?;
        // Counted again: whoever made the archive may have taken the temporary name away by now.
        Ok(count()?.saturating_sub(left).max(1))
    }

    fn left_names(&self) -> io::Result<u64> {
        let own = self.handle.metadata()?;
        let mut left = 0;
        for entry in fs::read_dir(&self.place.directory)? {
            let entry = entry?;
            let name = entry.file_name();
            // The archive's own name may be of that form too.
            if !temporary::is_ours(&name) || self.place.file.file_name() == Some(&name) {
                continue;
            }
            match entry.metadata() {
                Ok(metadata) => left += u64::from(same_file(&metadata, &own)),
                // Another writer's, removed by now.
                Err(error) if error.kind() == ErrorKind::NotFound => {}
                Err(error) => return Err(error),
            }
        }
        Ok(left)
    }
}

/// An archive file that this process alone may write, and what it was when the lock was taken.
pub struct Locked {
    pub archive: Writable,
    pub owned: Owned,
    written: Written,
}

/// Length and time of the last write.
type Written = (u64, i64, i64);

fn written(handle: &File) -> io::Result<Written> {
    let metadata = handle.metadata()?;
    Ok((metadata.len(), metadata.mtime(), metadata.mtime_nsec()))
}

impl Locked {
    /// Takes the lock of the file that a path leads to, at once or within `wait`.
    pub fn take(path: &OsStr, wait: Duration) -> Result<Locked, Failure> {
        let unreadable = |error| unreadable(path, &error);
        let (deadline, mut overtaken) = (Instant::now().checked_add(wait), 0);
        while overtaken < MOST_TRIES {
            let archive = Writable::open(path)?;
            steps::before("lock the archive");
            match archive.handle.try_lock() {
                Ok(()) if archive.place.is(&archive.handle).map_err(unreadable)? => {
                    let owned = Owned::of(&archive.handle).map_err(unreadable)?;
                    let written = written(&archive.handle).map_err(unreadable)?;
                    return Ok(Locked { archive, owned, written });
                }
                // Another writer has replaced the file before the lock was there: the name is another file's now.
                Ok(()) => overtaken += 1,
                Err(TryLockError::WouldBlock) if deadline.is_some_and(|end| Instant::now() >= end) => break,
                // Waiting writers come back at different times, so that none is always the last.
                Err(TryLockError::WouldBlock) => thread::sleep(Duration::from_millis(2 + temporary::random() % 16)),
                Err(TryLockError::Error(error)) => {
                    let path = shown(path);
                    return Err(Failure::NotWritten(format!("cannot lock {path}: {error}; nothing was changed")));
                }
            }
        }
        Err(held(path, wait))
    }

    /// Refuses to replace a file to which something was done since the lock was taken: that would be undone.
    pub fn is_as_it_was(&self) -> Result<(), Failure> {
        let Writable { path, handle, place } = &self.archive;
        let now = || Ok((place.is(handle)?, Owned::of(handle)?, written(handle)?));
        let (there, owned, written) = now().map_err(|error| self.archive.unreadable(error))?;
        if there && owned.is_sealed() {
            return Err(sealed(path, FOR_ALL));
        }
        if !there || owned != self.owned || written != self.written {
            let name = shown(path);
            return Err(Failure::NotWritten(format!(
                "{name} was changed meanwhile; it is left as it is now. Try again."
            )));
        }
        self.archive.sole_name()
    }
}

const FOR_ALL: &str = "nobody has write permission (chmod u+w opens it)";

fn sealed(path: &OsStr, why: &str) -> Failure {
    Failure::Sealed(format!("{} is sealed: {why}; nothing was changed", shown(path)))
}

fn held(path: &OsStr, wait: Duration) -> Failure {
    let still = if wait.is_zero() { String::new() } else { format!(", after {} seconds still", wait.as_secs_f64()) };
    let advice = "Try again when it is done, or with --wait SECONDS.";
    Failure::Locked(format!("{} is locked by another writer{still}; nothing was changed. {advice}", shown(path)))
}
