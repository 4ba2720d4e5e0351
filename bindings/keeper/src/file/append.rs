//! The journal's file: appended to and synced, never rewritten.

use std::fs::{File, OpenOptions};
use std::io::{self, Write};
use std::os::unix::fs::{FileExt, OpenOptionsExt};
use std::path::Path;

use super::OWNER_ONLY;
use crate::Failure;

/// Adds a block. The file is made at the ledger's start and at no other time.
pub fn append(path: &Path, block: &str, start: bool) -> Result<(), Failure> {
    let opened = OpenOptions::new().read(true).append(true).create(start).mode(OWNER_ONLY).open(path);
    let file = opened.map_err(|error| match error.kind() {
        io::ErrorKind::NotFound => Failure::Damaged("the journal is gone"),
        _ => Failure::not_made(error),
    })?;
    add(file, block).map_err(Failure::not_made)
}

fn add(mut file: File, block: &str) -> io::Result<()> {
    let length = file.metadata()?.len();
    let mut last = *b"\n";
    if length > 0 {
        file.read_exact_at(&mut last, length - 1)?;
    }
    let torn = last != *b"\n";
    file.write_all(format!("{}{block}", if torn { "\n" } else { "" }).as_bytes())?;
    file.sync_data()
}
