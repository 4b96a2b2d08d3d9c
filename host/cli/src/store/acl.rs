//! The access control list of a file: an extended attribute, carried over as it is and not read. The standard library has no
//! call for it, so the system's own are declared here; the only unsafe code of the command.
#![allow(unsafe_code)]

use std::ffi::{c_char, c_int, c_void, CStr};
use std::fs::File;
use std::io;
use std::os::fd::AsRawFd;

extern "C" {
    fn fgetxattr(file: c_int, name: *const c_char, value: *mut c_void, size: usize) -> isize;
    fn fsetxattr(file: c_int, name: *const c_char, value: *const c_void, size: usize, flags: c_int) -> c_int;
    fn fremovexattr(file: c_int, name: *const c_char) -> c_int;
}

const ACCESS: &CStr = c"system.posix_acl_access";

/// No attribute is longer on Linux.
const MOST_BYTES: usize = 1 << 16;

/// Linux's numbers: there is no such attribute; the file system has none at all.
const NO_DATA: i32 = 61;
const NOT_SUPPORTED: i32 = 95;

/// The bytes of a file's list; none where its mode says all.
pub type List = Option<Vec<u8>>;

pub fn of(file: &File) -> io::Result<List> {
    attribute(file, ACCESS)
}

/// Gives a file this list, or takes away the one that it has from its directory.
pub fn set(file: &File, list: &List) -> io::Result<()> {
    set_attribute(file, ACCESS, list)
}

fn attribute(file: &File, name: &CStr) -> io::Result<List> {
    let mut bytes = vec![0; MOST_BYTES];
    // SAFETY: the name ends in a zero byte, and the buffer is as long as is said.
    let length = unsafe { fgetxattr(file.as_raw_fd(), name.as_ptr(), bytes.as_mut_ptr().cast(), bytes.len()) };
    match usize::try_from(length) {
        Ok(length) => {
            bytes.truncate(length);
            Ok(Some(bytes))
        }
        Err(_) => none_or(io::Error::last_os_error()).map(|()| None),
    }
}

fn set_attribute(file: &File, name: &CStr, list: &List) -> io::Result<()> {
    let file = file.as_raw_fd();
    let set = match list {
        // SAFETY: the name ends in a zero byte, and the list is as long as is said.
        Some(bytes) => unsafe { fsetxattr(file, name.as_ptr(), bytes.as_ptr().cast(), bytes.len(), 0) },
        // SAFETY: the name ends in a zero byte.
        None => unsafe { fremovexattr(file, name.as_ptr()) },
    };
    match (set, list) {
        (0, _) => Ok(()),
        (_, None) => none_or(io::Error::last_os_error()),
        (_, Some(_)) => Err(io::Error::last_os_error()),
    }
}

/// Where there is no list it is none that is missing.
fn none_or(error: io::Error) -> io::Result<()> {
    match error.raw_os_error() {
        Some(NO_DATA | NOT_SUPPORTED) => Ok(()),
        _ => Err(error),
    }
}

#[cfg(test)]
mod tests {
    use super::*;
    use crate::store::{change, Change};
    use std::fs::{self, Permissions};
    use std::os::unix::fs::PermissionsExt;
    use std::path::Path;
    use std::time::Duration;

    /// The list that a directory gives to what is made in it.
    const DEFAULT: &CStr = c"system.posix_acl_default";

    /// The owner and user 1001 read and write, the group and others do nothing: version, then tag, rights and number of each.
    fn list() -> List {
        let entries: [(u16, u16, u32); 5] =
            [(1, 6, u32::MAX), (2, 6, 1001), (4, 0, u32::MAX), (16, 6, u32::MAX), (32, 0, u32::MAX)];
        let mut bytes = 2u32.to_le_bytes().to_vec();
        for (tag, rights, id) in entries {
            bytes.extend([tag.to_le_bytes(), rights.to_le_bytes()].concat());
            bytes.extend(id.to_le_bytes());
        }
        Some(bytes)
    }

    fn mode(path: &Path) -> u32 {
        path.metadata().unwrap().permissions().mode() & 0o777
    }

    /// With a list the group's bits of the mode are a mask: without it they would let the group in. A list that the directory
    /// gives to new files does not come to an archive that has none.
    #[test]
    fn a_list_stays_and_none_comes() {
        let directory = std::env::temp_dir().join(format!("csorvelin-acl-{}", std::process::id()));
        fs::create_dir(&directory).unwrap();
        let path = directory.join("archive");
        fs::write(&path, b"old").unwrap();
        fs::set_permissions(&path, Permissions::from_mode(0o600)).unwrap();
        let open = || File::open(&path).unwrap();
        let replace = |bytes: &[u8]| {
            change(path.as_os_str(), Duration::ZERO, |_| Ok((Change::To(bytes.to_vec()), ()))).unwrap();
            assert_eq!(fs::read(&path).unwrap(), bytes);
        };
        assert_eq!(of(&open()).unwrap(), None);
        match set(&open(), &list()) {
            // A file system without lists says so.
            Err(error) => assert_eq!(error.raw_os_error(), Some(NOT_SUPPORTED)),
            Ok(()) => {
                assert_eq!(mode(&path), 0o660);
                replace(b"with a list");
                assert_eq!((of(&open()).unwrap(), mode(&path)), (list(), 0o660));
                set(&open(), &None).unwrap();
                fs::set_permissions(&path, Permissions::from_mode(0o640)).unwrap();
                set_attribute(&File::open(&directory).unwrap(), DEFAULT, &list()).unwrap();
                replace(b"without");
                assert_eq!((of(&open()).unwrap(), mode(&path)), (None, 0o640));
                // The directory does give its list to others.
                fs::write(directory.join("other"), b"").unwrap();
                assert!(of(&File::open(directory.join("other")).unwrap()).unwrap().is_some());
            }
        }
        fs::remove_dir_all(&directory).unwrap();
    }
}
