//! Engine 2: a ledger in a row of PostgreSQL, for fronts on more than one machine. The tables are postgres.sql's.
//!
//! The row is the lock: `SELECT .. FOR UPDATE` waits for whoever has it, and holds it until the commit. The answer goes out once
//! the commit is answered. A commit whose answer does not come is in doubt.

mod connection;
mod pq;

use std::convert::TryInto;
use std::sync::{Mutex, PoisonError};

use self::connection::{Connection, Value};
use crate::engine::StepOn;
use crate::{Change, Engine, Failure, Kept, Name};

const BEGIN: &str = "BEGIN ISOLATION LEVEL READ COMMITTED"; // so that a wait for the row ends with the row as it is then
const READ: &str = "SELECT step, kept FROM perdigolh_ledger WHERE name = $1 FOR UPDATE";
const TIME: &str = "SELECT floor(extract(epoch FROM clock_timestamp()))::bigint";
const START: &str = "INSERT INTO perdigolh_ledger (name, step, kept) VALUES ($1, $2, $3) ON CONFLICT (name) DO NOTHING";
const STORE: &str = "UPDATE perdigolh_ledger SET step = $2, kept = $3 WHERE name = $1";
const JOURNAL: &str = "INSERT INTO perdigolh_journal (name, block) VALUES ($1, $2)";

/// A database of ledgers, by libpq's connection string. It has one connection, which threads share one step at a time.
#[derive(Debug)]
pub struct Postgres {
    address: String,
    connection: Mutex<Option<Connection>>,
}

impl Postgres {
    pub fn new(address: &str) -> Postgres {
        Postgres { address: address.to_string(), connection: Mutex::new(None) }
    }

    /// A connection with a transaction begun. One that has gone stale meanwhile is replaced: nothing was done on it.
    fn begun(&self, kept: Option<Connection>) -> Result<Connection, Failure> {
        if let Some(connection) = kept {
            if connection.run(BEGIN, &[]).is_ok() {
                return Ok(connection);
            }
        }
        let connection = Connection::open(&self.address)?;
        connection.run(BEGIN, &[])?;
        Ok(connection)
    }
}

impl Engine for Postgres {
    fn exchange(&self, name: &Name, step: &mut StepOn<'_>) -> Result<(), Failure> {
        let mut place = self.connection.lock().unwrap_or_else(PoisonError::into_inner);
        // taken out, so that only a transaction that was ended leaves its connection here
        let connection = self.begun(place.take())?;
        match transact(&connection, name, step) {
            Ok(()) => connection.commit()?,
            Err(failure) => {
                if connection.run("ROLLBACK", &[]).is_ok() {
                    *place = Some(connection);
                }
                return Err(failure);
            }
        }
        *place = Some(connection);
        Ok(())
    }
}

/// All of a step but its commit; whatever fails here is undone.
fn transact(connection: &Connection, name: &Name, step: &mut StepOn<'_>) -> Result<(), Failure> {
    let name = Value::text(name.as_str());
    let stored = stored(connection, &name)?;
    let time = connection.run(TIME, &[])?.bytes(0, 0).and_then(number).ok_or(Failure::Damaged("no time"))?;
    let Change { kept, journal } = step(stored.as_ref(), time)?;
    if let Some(kept) = kept {
        let words = [name.clone(), Value::number(kept.step), Value::bytes(kept.to_bytes())];
        let changed = connection.run(if stored.is_none() { START } else { STORE }, &words)?.changed();
        match (changed, stored.is_none()) {
            (1, _) => {}
            (_, true) => return Err(Failure::Started), // by another, between the look and the insert
            (_, false) => return Err(Failure::Damaged("the row is gone")),
        }
    }
    if !journal.is_empty() {
        connection.run(JOURNAL, &[name, Value::text(&journal)])?;
    }
    Ok(())
}

fn stored(connection: &Connection, name: &Value) -> Result<Option<Kept>, Failure> {
    let row = connection.run(READ, &[name.clone()])?;
    match (row.bytes(0, 0).and_then(number), row.bytes(0, 1)) {
        (Some(step), Some(bytes)) => match Kept::from_bytes(bytes)? {
            kept if kept.step == step => Ok(Some(kept)),
            _ => Err(Failure::Damaged("the row's step is not that of its bytes")),
        },
        _ => Ok(None),
    }
}

fn number(bytes: &[u8]) -> Option<u64> {
    bytes.try_into().ok().map(u64::from_be_bytes)
}
