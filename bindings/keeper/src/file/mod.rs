//! Engine 1: a ledger in files of one folder, on a local file system.
//!
//! | File | Has |
//! |---|---|
//! | NAME.ledger | what is kept |
//! | NAME.new | what the step under way is about to keep; nobody reads it |
//! | NAME.lock | the lock, and the number of the latest step that is known to last |
//! | NAME.journal | the journal, where the ledger has one |

mod append;
mod lock;

use std::fs::{self, File, OpenOptions};
use std::io::{self, Write};
use std::os::unix::fs::OpenOptionsExt;
use std::path::{Path, PathBuf};
use std::time::{SystemTime, UNIX_EPOCH};

use self::lock::Lock;
use crate::engine::StepOn;
use crate::{Engine, Failure, Kept, Name};

/// The rights of every file: the ledger holds live values, and so does its journal.
const OWNER_ONLY: u32 = 0o600;

/// A folder of ledgers.
#[derive(Clone, Debug)]
pub struct Files {
    folder: PathBuf,
}

impl Files {
    pub fn new(folder: impl AsRef<Path>) -> Files {
        Files { folder: folder.as_ref().to_path_buf() }
    }
}

impl Engine for Files {
    fn exchange(&self, name: &Name, step: &mut StepOn<'_>) -> Result<(), Failure> {
        let files = Paths::of(&self.folder, name);
        let lock = Lock::take(&files.lock).map_err(Failure::not_made)?; // until this function returns
        let known = lock.known().map_err(Failure::not_made)?;
        let stored = files.read()?;
        match &stored {
            None if known > 0 => return Err(Failure::Damaged("the ledger is gone")),
            Some(kept) if kept.step < known => return Err(Failure::OldCopy { stored: kept.step, known }),
            // nobody saw that step's storing to its end, so it may not last yet
            Some(kept) if kept.step > known => {
                files.store(kept, &lock).map_err(|(_, error)| Failure::not_made(error))?
            }
            _ => {}
        }
        let change = step(stored.as_ref(), seconds()?)?;
        if !change.journal.is_empty() {
            append::append(&files.journal, &change.journal, stored.is_none())?;
        }
        match change.kept {
            Some(kept) => files.store(&kept, &lock).map_err(|(made, error)| match made {
                Made::No => Failure::not_made(error),
                Made::Perhaps => Failure::in_doubt(error),
            }),
            None => Ok(()),
        }
    }
}

/// How far a storing came that failed.
enum Made {
    No,
    Perhaps,
}

struct Paths {
    folder: PathBuf,
    ledger: PathBuf,
    new: PathBuf,
    lock: PathBuf,
    journal: PathBuf,
}

impl Paths {
    fn of(folder: &Path, name: &Name) -> Paths {
        let path = |end: &str| folder.join(format!("{name}.{end}"));
        Paths {
            folder: folder.to_path_buf(),
            ledger: path("ledger"),
            new: path("new"),
            lock: path("lock"),
            journal: path("journal"),
        }
    }

    fn read(&self) -> Result<Option<Kept>, Failure> {
        match fs::read(&self.ledger) {
            Ok(bytes) => Kept::from_bytes(&bytes).map(Some),
            Err(error) if error.kind() == io::ErrorKind::NotFound => Ok(None),
            Err(error) => Err(Failure::not_made(error)),
        }
    }

    /// Puts it in the ledger's place: afterwards the file has all of it, or what it had before. Well ended, it lasts.
    fn store(&self, kept: &Kept, lock: &Lock) -> Result<(), (Made, io::Error)> {
        self.write_new(&kept.to_bytes()).map_err(|error| (Made::No, error))?;
        self.put_in_place().and_then(|()| lock.set_known(kept.step)).map_err(|error| (Made::Perhaps, error))
    }

    fn write_new(&self, bytes: &[u8]) -> io::Result<()> {
        let mut file = OpenOptions::new().write(true).create(true).truncate(true).mode(OWNER_ONLY).open(&self.new)?;
        file.write_all(bytes)?;
        file.sync_all()
    }

    fn put_in_place(&self) -> io::Result<()> {
        fs::rename(&self.new, &self.ledger)?;
        File::open(&self.folder)?.sync_all()
    }
}

fn seconds() -> Result<u64, Failure> {
    SystemTime::now().duration_since(UNIX_EPOCH).map(|since| since.as_secs()).map_err(Failure::not_made)
}
