//! The lock of a ledger, and beside it the number of the latest step that is known to last.
//!
//! The number stands in one of two places in turn, with its checksum, so that a torn write leaves the one before. It is written
//! behind the folder's sync and needs none of its own but the first: where it is lost, the step is stored once more.

use std::convert::TryInto;
use std::fs::{self, File, OpenOptions};
use std::io;
use std::os::raw::c_int;
use std::os::unix::fs::{FileExt, MetadataExt, OpenOptionsExt};
use std::os::unix::io::AsRawFd;
use std::path::Path;

use super::OWNER_ONLY;
use crate::checksum;

const PLACE: usize = 16;
const LOCK_EX: c_int = 2;

extern "C" {
    fn flock(file: c_int, operation: c_int) -> c_int;
}

/// Held until it is dropped, or its process ends in whatever way.
pub struct Lock(File);

impl Lock {
    pub fn take(path: &Path) -> io::Result<Lock> {
        loop {
            let file = OpenOptions::new().read(true).write(true).create(true).mode(OWNER_ONLY).open(path)?;
            wait(&file)?;
            // another file may have been put in its place meanwhile, and others hold that one
            let (held, there) = (file.metadata()?, fs::metadata(path));
            if matches!(there, Ok(there) if (there.dev(), there.ino()) == (held.dev(), held.ino())) {
                return Ok(Lock(file));
            }
        }
    }

    /// The latest step that is known to last; 0 where none is.
    pub fn known(&self) -> io::Result<u64> {
        let mut places = [0; 2 * PLACE];
        let length = self.0.metadata()?.len().min(places.len() as u64) as usize;
        self.0.read_exact_at(&mut places[..length], 0)?;
        Ok(places.chunks_exact(PLACE).filter_map(number).max().unwrap_or(0))
    }

    pub fn set_known(&self, step: u64) -> io::Result<()> {
        let mut place = step.to_be_bytes().to_vec();
        place.extend_from_slice(&checksum(&place).to_be_bytes());
        self.0.write_all_at(&place, step % 2 * PLACE as u64)?;
        if step == 1 {
            self.0.sync_all()?; // a ledger that was started is known as started
        }
        Ok(())
    }
}

fn wait(file: &File) -> io::Result<()> {
    loop {
        // SAFETY: the descriptor is the open file's.
        if unsafe { flock(file.as_raw_fd(), LOCK_EX) } == 0 {
            return Ok(());
        }
        let error = io::Error::last_os_error();
        if error.kind() != io::ErrorKind::Interrupted {
            return Err(error);
        }
    }
}

fn number(place: &[u8]) -> Option<u64> {
    let (step, sum) = place.split_at(8);
    let right = checksum(step).to_be_bytes() == sum;
    let step = u64::from_be_bytes(step.try_into().ok()?);
    if right && step > 0 {
        Some(step)
    } else {
        None
    }
}
