//! Temporary files: hidden, with process and random number in their names, made new, and removed by nobody but the run that
//! made them.

use super::owned::Owned;
use crate::steps;
use std::ffi::OsStr;
use std::fs::{self, File, OpenOptions};
use std::hash::{BuildHasher, RandomState};
use std::io::{self, ErrorKind, Write};
use std::os::unix::fs::OpenOptionsExt;
use std::path::{Path, PathBuf};

const PREFIX: &str = ".csorvelin-";

/// A file is written in pieces of this many bytes.
const PIECE: usize = 4096;

const OWNER_READS_AND_WRITES: u32 = 0o600;
const NEW_FILE: u32 = 0o666;

fn new_name() -> String {
    format!("{PREFIX}{}-{:016x}", std::process::id(), random())
}

/// Whether a name is one of a temporary file, which a stopped writer may have left.
pub fn is_ours(name: &OsStr) -> bool {
    let parts = name.to_str().and_then(|name| name.strip_prefix(PREFIX)).and_then(|rest| rest.split_once('-'));
    parts.is_some_and(|(process, random)| {
        !process.is_empty()
            && process.bytes().all(|digit| digit.is_ascii_digit())
            && random.len() == 16
            && random.bytes().all(|digit| digit.is_ascii_hexdigit())
    })
}

/// A number that nobody can guess.
pub fn random() -> u64 {
    RandomState::new().hash_one(std::process::id())
}

/// A temporary file, removed when dropped unless it has been renamed.
pub struct Temporary {
    handle: File,
    path: PathBuf,
    renamed: bool,
}

impl Temporary {
    /// A new file in a directory. Where it is to replace another, nobody reads it who does not read that one: group and
    /// others not at all until it has that one's owner and group, its owner only if the other's may.
    pub fn create(directory: &Path, replaced: Option<&Owned>) -> io::Result<Temporary> {
        steps::before("create the temporary file");
        let mode = replaced.map_or(NEW_FILE, |replaced| replaced.mode & OWNER_READS_AND_WRITES);
        loop {
            let path = directory.join(new_name());
            match OpenOptions::new().write(true).create_new(true).mode(mode).open(&path) {
                Ok(handle) => return Ok(Temporary { handle, path, renamed: false }),
                Err(error) if error.kind() == ErrorKind::AlreadyExists => continue,
                Err(error) => return Err(error),
            }
        }
    }

    /// Gives the file another's owner, group, mode and list.
    pub fn take_over(&self, owned: &Owned) -> io::Result<()> {
        owned.give(&self.handle)
    }

    pub fn write(&mut self, bytes: &[u8]) -> io::Result<()> {
        for piece in bytes.chunks(PIECE) {
            steps::before("write a piece");
            self.handle.write_all(piece)?;
        }
        Ok(())
    }

    pub fn sync(&self) -> io::Result<()> {
        steps::before("sync the temporary file");
        self.handle.sync_all()
    }

    /// Puts the file in the place of another.
    pub fn rename(&mut self, to: &Path) -> io::Result<()> {
        fs::rename(&self.path, to)?;
        self.renamed = true;
        Ok(())
    }

    /// Gives the file a second name, which must be free: unlike a rename this never takes the place of another file.
    pub fn link(&self, to: &Path) -> io::Result<()> {
        steps::before("link the file to its name");
        fs::hard_link(&self.path, to).map_err(|error| match error.kind() {
            ErrorKind::PermissionDenied | ErrorKind::Unsupported => {
                io::Error::new(error.kind(), format!("{error} (a new file is made by a hard link)"))
            }
            _ => error,
        })
    }
}

impl Drop for Temporary {
    fn drop(&mut self) {
        if !self.renamed {
            // Where it cannot be removed it stays, hidden and harmless.
            let _ = fs::remove_file(&self.path);
        }
    }
}

#[cfg(test)]
mod tests {
    use super::*;

    #[test]
    fn temporary_names_are_told_from_a_user_s() {
        assert!(is_ours(new_name().as_ref()));
        for name in
            [".csorvelin-mine", ".csorvelin-", ".csorvelin-7-", "csorvelin-7-0123456789abcdef", ".csorvelin-7-0123"]
        {
            assert!(!is_ours(name.as_ref()), "{name}");
        }
    }
}
