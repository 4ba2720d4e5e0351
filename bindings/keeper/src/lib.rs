//! Keeps ledgers of the permissions desk: in files, or in PostgreSQL (feature `postgres`).
//!
//! A [`Keeper`] runs a step on one ledger: it takes the lock, reads, makes the calls on a copy, stores, and only then hands out
//! the answer. Demand 3 holds of calls one after the other on a ledger that lasts; this is what makes it so. docs/KEEPER.md has
//! the reasons, and what a crash leaves.
//!
//! ```no_run
//! # use perdigolh_keeper::*;
//! # let (table, request): (Vec<u8>, Push) = unimplemented!();
//! let keeper = Keeper::new(Files::new("/var/lib/desk"), "north")?;
//! keeper.start(200, Options { journal: true, memo: true })?;
//! match keeper.call(|ledger| ledger.push(&table, &request))? {
//!     Ok(pushed) => println!("grant {}", pushed.answer.grant),
//!     Err(refusal) => println!("refused: {refusal}"),
//! }
//! # Ok::<(), Failure>(())
//! ```

mod chance;
mod checksum;
mod engine;
mod failure;
mod file;
mod frame;
pub mod journal;
mod keeper;
mod kept;
mod memo;
mod name;
#[cfg(feature = "postgres")]
mod postgres;
mod record;
mod replay;
mod requests;
mod step;

pub use checksum::checksum;
pub use engine::{Change, Engine, StepOn};
pub use failure::{Failure, Trouble};
pub use file::Files;
pub use keeper::Keeper;
pub use kept::{Kept, Options};
pub use name::Name;
#[cfg(feature = "postgres")]
pub use postgres::Postgres;
pub use replay::Replay;
pub use requests::{Decide, Decided, Push, Pushed, Redeem, Redeemed, Shown};
pub use step::Step;
