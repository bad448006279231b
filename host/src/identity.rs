//! Which file it is, whatever names it goes by.

use std::fs::Metadata;
use std::os::unix::fs::MetadataExt;

/// Device and inode.
#[derive(Clone, Copy, Debug, PartialEq, Eq)]
pub struct Identity(u64, u64);

impl Identity {
    pub fn of(data: &Metadata) -> Identity {
        Identity(data.dev(), data.ino())
    }

    /// Only a regular file can be destroyed by writing it.
    pub fn of_regular(data: &Metadata) -> Option<Identity> {
        if data.is_file() {
            Some(Identity::of(data))
        } else {
            None
        }
    }
}
