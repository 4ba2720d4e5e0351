//! What a keeper asks of the place where ledgers are stored.

use std::sync::Arc;

use crate::{Failure, Kept, Name};

/// What a step leaves to be stored.
pub struct Change {
    /// What is kept from then on, if it differs from what was read.
    pub kept: Option<Kept>,
    /// What the journal gets, in the same step; empty where there is no journal.
    pub journal: String,
}

pub trait Engine {
    /// Takes the lock of that name, hands what is stored to `step` with the time, and stores what it gives back. It ends well
    /// only once that will last; a failure after the point at which it may be stored is [`Failure::InDoubt`].
    ///
    /// `step` is run at most once. Where it fails, nothing is stored.
    fn exchange(&self, name: &Name, step: &mut StepOn<'_>) -> Result<(), Failure>;
}

/// Keepers of several ledgers share an engine: a connection to the server, say.
impl<E: Engine + ?Sized> Engine for Arc<E> {
    fn exchange(&self, name: &Name, step: &mut StepOn<'_>) -> Result<(), Failure> {
        (**self).exchange(name, step)
    }
}

/// What is stored, none where the ledger was not started; and the time, read under the lock, in seconds.
pub type StepOn<'a> = dyn FnMut(Option<&Kept>, u64) -> Result<Change, Failure> + 'a;
