// Made from crates/command/src/identity.rt by tools/erase: not to be edited.
//! Whether two paths lead to one file.

use crate::kit::fs::Metadata;
use std::os::unix::fs::{FileTypeExt, MetadataExt};

/// The device that a file is on, and the number of the file's inode there. They are the same under each name of the file.
#[derive(Clone, Copy)]
pub struct Identity {
    pub device: u64,
    pub inode: u64,
}

impl Identity {
    // Returns the identity of a regular file or a block device. Anything else, as a pipe or a terminal, holds no bytes that a
    // write could destroy, and may serve as IN and as OUT at once.
    pub(in crate::command) fn of(about: &Metadata) -> Option<Identity> {
        if !about.is_file() && !about.file_type().is_block_device() {
            return None;
        }
        Some(Identity { device: about.dev(), inode: about.ino() })
    }
}

// Returns whether two files are one: the same inode of the same device. Without both identities they are taken for two.
pub(in crate::command) fn is_one_file(one: Option<Identity>, other: Option<Identity>) -> bool {
    match (one, other) {
        (Some(one), Some(other)) => one.device == other.device && one.inode == other.inode,
        _ => false,
    }
}
