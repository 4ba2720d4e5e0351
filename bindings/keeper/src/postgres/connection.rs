//! A connection to the server: statements with their values in binary, and a commit that is known or in doubt.

use std::ffi::{CStr, CString};
use std::os::raw::{c_char, c_int, c_void};
use std::ptr::NonNull;
use std::sync::atomic::{AtomicBool, Ordering};

use super::pq::*;
use crate::Failure;

/// The server is one that keeps what it was told, and a session that hangs does not keep the others waiting for good.
const DURABLE: &str = "SELECT current_setting('fsync')";
const SESSION: [&str; 2] = [
    "SELECT set_config('synchronous_commit', 'on', false) WHERE current_setting('synchronous_commit') <> 'remote_apply'",
    "SET idle_in_transaction_session_timeout = '30s'",
];

/// A statement's value, with its type's number in the server's catalogue.
#[derive(Clone)]
pub struct Value {
    kind: c_uint,
    bytes: Vec<u8>,
}

impl Value {
    pub fn text(text: &str) -> Value {
        Value { kind: 25, bytes: text.into() }
    }

    pub fn number(number: u64) -> Value {
        Value { kind: 20, bytes: number.to_be_bytes().to_vec() }
    }

    pub fn bytes(bytes: Vec<u8>) -> Value {
        Value { kind: 17, bytes }
    }
}

#[derive(Debug)]
pub struct Connection {
    raw: NonNull<PGconn>,
    /// Whether the server has said anything beside its answers; at a fixed place, which libpq is told.
    warned: Box<AtomicBool>,
}

// SAFETY: libpq lets any one thread at a time use a connection.
unsafe impl Send for Connection {}

impl Connection {
    pub fn open(address: &str) -> Result<Connection, Failure> {
        let address = CString::new(address).map_err(Failure::not_made)?;
        // SAFETY: the string ends with a zero, and libpq keeps no pointer to it.
        let raw = unsafe { PQconnectdb(address.as_ptr()) };
        let raw = NonNull::new(raw).ok_or_else(|| Failure::not_made("no memory for a connection"))?;
        let connection = Connection { raw, warned: Box::new(AtomicBool::new(false)) };
        // SAFETY: the connection is open or failed, and closed once, when it is dropped.
        if unsafe { PQstatus(raw.as_ptr()) } != CONNECTION_OK {
            return Err(connection.trouble());
        }
        let place: *const AtomicBool = &*connection.warned;
        // SAFETY: the place outlives the connection, whose notices alone are sent to it.
        unsafe { PQsetNoticeReceiver(raw.as_ptr(), note, place as *mut c_void) };
        if connection.run(DURABLE, &[])?.bytes(0, 0) != Some(b"on") {
            return Err(Failure::not_made("the server runs with fsync off, and would forget what it was told"));
        }
        for statement in SESSION {
            connection.run(statement, &[])?;
        }
        Ok(connection)
    }

    /// Runs a statement and gives its rows, values in binary.
    pub fn run(&self, statement: &str, values: &[Value]) -> Result<Rows, Failure> {
        let statement = CString::new(statement).map_err(Failure::not_made)?;
        let kinds: Vec<c_uint> = values.iter().map(|value| value.kind).collect();
        let starts: Vec<*const c_char> = values.iter().map(|value| value.bytes.as_ptr().cast()).collect();
        let lengths: Vec<c_int> = values.iter().map(|value| value.bytes.len() as c_int).collect();
        let formats = vec![BINARY; values.len()];
        // SAFETY: every list has as many entries as there are values, and each start its length behind it.
        let raw = unsafe {
            PQexecParams(
                self.raw.as_ptr(),
                statement.as_ptr(),
                values.len() as c_int,
                kinds.as_ptr(),
                starts.as_ptr(),
                lengths.as_ptr(),
                formats.as_ptr(),
                BINARY,
            )
        };
        let rows = Rows(NonNull::new(raw).ok_or_else(|| self.trouble())?);
        // SAFETY: the result is there.
        match unsafe { PQresultStatus(raw) } {
            COMMAND_OK | TUPLES_OK => Ok(rows),
            _ => Err(self.trouble()),
        }
    }

    /// Ends well only where the server has answered that the transaction is committed, and has nothing to say beside it: a wait
    /// for a standby that was cut short ends with a warning and the same answer.
    pub fn commit(&self) -> Result<(), Failure> {
        self.warned.store(false, Ordering::Relaxed);
        let doubt = |failure| match failure {
            Failure::NotMade(trouble) => Failure::InDoubt(trouble),
            other => other,
        };
        let rows = self.run("COMMIT", &[]).map_err(doubt)?;
        // SAFETY: the result is there, and so is the word that libpq keeps in it.
        let said = unsafe { CStr::from_ptr(PQcmdStatus(rows.0.as_ptr())) };
        match (said.to_bytes(), self.warned.load(Ordering::Relaxed)) {
            (b"COMMIT", false) => Ok(()),
            (b"COMMIT", true) => Err(Failure::in_doubt("the server committed with a warning")),
            _ => Err(Failure::not_made("the server rolled the transaction back")),
        }
    }

    fn trouble(&self) -> Failure {
        // SAFETY: the connection is there, and so is its latest message.
        let message = unsafe { CStr::from_ptr(PQerrorMessage(self.raw.as_ptr())) };
        Failure::not_made(message.to_string_lossy().split_whitespace().collect::<Vec<_>>().join(" "))
    }
}

impl Drop for Connection {
    fn drop(&mut self) {
        // SAFETY: nobody uses the connection any more.
        unsafe { PQfinish(self.raw.as_ptr()) }
    }
}

extern "C" fn note(place: *mut c_void, _: *const PGresult) {
    // SAFETY: it is the place that was given with this function, and outlives the connection.
    unsafe { &*(place as *const AtomicBool) }.store(true, Ordering::Relaxed);
}

pub struct Rows(NonNull<PGresult>);

impl Rows {
    /// A value's bytes; none where there is no such row, or no value.
    pub fn bytes(&self, row: c_int, column: c_int) -> Option<&[u8]> {
        let raw = self.0.as_ptr();
        // SAFETY: row and column are within the result, whose values stay until it is dropped.
        unsafe {
            if row >= PQntuples(raw) || column >= PQnfields(raw) || PQgetisnull(raw, row, column) != 0 {
                return None;
            }
            let (start, length) = (PQgetvalue(raw, row, column), PQgetlength(raw, row, column));
            Some(std::slice::from_raw_parts(start.cast(), length as usize))
        }
    }

    /// How many rows the statement changed.
    pub fn changed(&self) -> u64 {
        // SAFETY: the result is there, and so is the word that libpq keeps in it.
        let count = unsafe { CStr::from_ptr(PQcmdTuples(self.0.as_ptr())) };
        count.to_str().ok().and_then(|count| count.parse().ok()).unwrap_or(0)
    }
}

impl Drop for Rows {
    fn drop(&mut self) {
        // SAFETY: nobody uses the result any more.
        unsafe { PQclear(self.0.as_ptr()) }
    }
}
