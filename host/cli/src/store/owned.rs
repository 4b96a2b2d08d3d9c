//! Who may do what with a file: owner, group, mode, access control list.

use super::acl;
use std::fs::{File, Permissions};
use std::io;
use std::os::unix::fs::{fchown, MetadataExt, PermissionsExt};

/// Rights of owner, group and others, and the bits for set-user, set-group and sticky.
const MODE: u32 = 0o7777;

const ANYONE_WRITES: u32 = 0o222;

#[derive(PartialEq, Eq)]
pub struct Owned {
    uid: u32,
    gid: u32,
    pub mode: u32,
    list: acl::List,
}

impl Owned {
    pub fn of(file: &File) -> io::Result<Owned> {
        let metadata = file.metadata()?;
        Ok(Owned { uid: metadata.uid(), gid: metadata.gid(), mode: metadata.mode() & MODE, list: acl::of(file)? })
    }

    /// Whether nobody may write the file.
    pub fn is_sealed(&self) -> bool {
        self.mode & ANYONE_WRITES == 0
    }

    /// Gives another file the same. The mode comes last: a change of owner takes bits of it away.
    pub fn give(&self, file: &File) -> io::Result<()> {
        let now = Owned::of(file)?;
        let changed = |now: u32, wanted: u32| (now != wanted).then_some(wanted);
        if (now.uid, now.gid) != (self.uid, self.gid) {
            fchown(file, changed(now.uid, self.uid), changed(now.gid, self.gid))?;
        }
        if now.list != self.list {
            acl::set(file, &self.list)?;
        }
        file.set_permissions(Permissions::from_mode(self.mode))?;
        if Owned::of(file)? != *self {
            return Err(io::Error::other("the file system gives it others"));
        }
        Ok(())
    }
}
