//! Why a step handed out no answer.

use std::error::Error;
use std::fmt;

/// What the machine, the file system or the server said.
pub type Trouble = Box<dyn Error + Send + Sync>;

/// A step without an answer. A refusal of the desk is an answer, and none of these.
#[derive(Debug)]
pub enum Failure {
    /// A ledger's name is 1 to 64 of a-z, 0-9 and -.
    BadName,
    /// No ledger of this name was started.
    NoLedger,
    /// A ledger of this name was started before.
    Started,
    /// What is stored is not what a keeper stored: it is cut, spoilt or gone.
    Damaged(&'static str),
    /// What is stored is of an earlier step than one that is known to have been stored.
    OldCopy { stored: u64, known: u64 },
    /// Nothing was stored: the calls were not made, and can be made again.
    NotMade(Trouble),
    /// It is not known whether the step was stored, so its answer is not handed out.
    InDoubt(Trouble),
}

impl Failure {
    pub fn not_made(trouble: impl Into<Trouble>) -> Failure {
        Failure::NotMade(trouble.into())
    }

    pub fn in_doubt(trouble: impl Into<Trouble>) -> Failure {
        Failure::InDoubt(trouble.into())
    }
}

impl fmt::Display for Failure {
    fn fmt(&self, to: &mut fmt::Formatter<'_>) -> fmt::Result {
        match self {
            Failure::BadName => to.write_str("a ledger's name is 1 to 64 of a-z, 0-9 and -"),
            Failure::NoLedger => to.write_str("no ledger of this name was started"),
            Failure::Started => to.write_str("a ledger of this name was started before"),
            Failure::Damaged(what) => write!(to, "damaged: {what}"),
            Failure::OldCopy { stored, known } => {
                write!(to, "an old copy: step {stored} is stored, {known} was before")
            }
            Failure::NotMade(trouble) => write!(to, "not made: {trouble}"),
            Failure::InDoubt(trouble) => write!(to, "in doubt: {trouble}"),
        }
    }
}

impl Error for Failure {}
