//! A file in a directory that is held: whatever becomes of the path meanwhile, its name is looked up in that directory.

use crate::paths::directory_of;
use std::ffi::OsStr;
use std::fs::{self, File, Metadata, OpenOptions};
use std::io::{self, ErrorKind};
use std::os::fd::AsRawFd;
use std::os::unix::fs::{MetadataExt, OpenOptionsExt};
use std::path::PathBuf;

/// Linux's number on x86-64: a directory that is held and not read.
const O_PATH: i32 = 0o10_000_000;

pub struct Place {
    pub directory: PathBuf,
    pub file: PathBuf,
    _held: File,
}

impl Place {
    /// Where a path leads. A link stays a link: what counts is the file that it names.
    pub fn of(path: &OsStr) -> io::Result<Place> {
        let file = fs::canonicalize(path)?;
        let name = file.file_name().ok_or(io::Error::from(ErrorKind::IsADirectory))?;
        let directory = directory_of(&file);
        let held = OpenOptions::new().read(true).custom_flags(O_PATH).open(directory)?;
        let by_handle = PathBuf::from(format!("/proc/self/fd/{}", held.as_raw_fd()));
        let directory = if by_handle.is_dir() { by_handle } else { directory.to_path_buf() };
        Ok(Place { file: directory.join(name), directory, _held: held })
    }

    /// Whether the file of this name is the one that is open.
    pub fn is(&self, handle: &File) -> io::Result<bool> {
        match fs::symlink_metadata(&self.file) {
            Ok(now) => Ok(same_file(&now, &handle.metadata()?)),
            Err(error) if error.kind() == ErrorKind::NotFound => Ok(false),
            Err(error) => Err(error),
        }
    }
}

/// Whether two files are one.
pub fn same_file(one: &Metadata, other: &Metadata) -> bool {
    (one.dev(), one.ino()) == (other.dev(), other.ino())
}
