//! The permissions desk's calls for a web front, six and two that only read, over the archive that `tools/archives` writes.
//!
//! The ledger is lent: a [`Ledger`] borrows its bytes for as long as it writes to them, so that one ledger has one writer.
//! Every call checks for itself what it reads, and ends with an answer or a [`Refusal`]. A refusal has changed nothing, but
//! [`Refusal::CodeRedeemed`], which has freed a record and set the clock: the ledger is stored before it is given out.
//! What the front must have checked before a call is said at that call's request. docs/FRONT.md says how to keep the bytes.
//!
//! What a refusal is outside is [`Refusal::at`] a [`Call`]. A value travels by its `to_text` and comes back by its `from_text`,
//! which reads one spelling. Nothing here shows a value, a code, a token, a verifier or a key by `Debug`.
//!
//! ```compile_fail
//! let mut bytes = [0; perdigolh::ledger_bytes(1)];
//! let mut one = perdigolh::Ledger::lent(&mut bytes);
//! let mut two = perdigolh::Ledger::lent(&mut bytes); // a second writer
//! let _ = one.sweep(1);
//! ```

use std::fmt;
use std::str;

mod outside;
pub mod raw;
mod refusal;
mod request;
mod text;
mod value;

pub use outside::{Alarm, Call, Outside, Retry};
pub use refusal::Refusal;
pub use request::{Choice, Decide, Pending, Push, Read, Redeem};
pub use text::REQUEST_URI;
pub use value::{ClientId, Code, Key, Reference, Token};

/// The release, a million a major, a thousand a minor, one a patch, and the interface that the archive must have.
pub const VERSION_NUMBER: u32 = 1000;
pub const INTERFACE: u32 = 1;

/// The archive is asked for its interface by name, so that a program is not linked with another.
#[used]
static INTERFACE_ASKED: unsafe extern "C" fn() -> u32 = raw::perdigolh_interface_1;

/// The release of the archive that is linked.
pub fn version() -> u32 {
    // SAFETY: it takes nothing and reads nothing.
    unsafe { raw::perdigolh_version() }
}

/// Bytes before the first record of a ledger.
pub const LEDGER_HEAD: usize = 32;
/// Bytes of a ledger's record.
pub const LEDGER_RECORD: usize = 256;
/// The fewest and the most records of a ledger.
pub const LEDGER_LEAST: usize = 1;
pub const LEDGER_MOST: usize = 200;
/// Bytes of a client's record in the table, and the most clients.
pub const CLIENT_SIZE: usize = 64;
pub const TABLE_MOST: usize = 64;
/// The fewest bytes of decide's and pending's output.
pub const OUTPUT_LEAST: usize = 64;
/// The most characters of what introspect writes: an output of so many bytes is never too short.
pub const TEXT_MOST: usize = 304;
/// The fewest and the most characters of a redirect and of a verifier, and the characters of a challenge.
pub const REDIRECT_LEAST: usize = 9;
pub const REDIRECT_MOST: usize = 64;
pub const CHALLENGE_LENGTH: usize = 43;
pub const VERIFIER_LEAST: usize = 43;
pub const VERIFIER_MOST: usize = 128;
/// Time, in whole seconds, stays below this.
pub const TIME_LIMIT: u64 = 1099511627776;
/// Seconds that a reference lives where the client's record says 0, and the most that it may say; that a code and a token live.
pub const REFERENCE_LIFETIME: u64 = 90;
pub const REFERENCE_MOST: u64 = 599;
pub const CODE_LIFETIME: u64 = 60;
pub const TOKEN_LIFETIME: u64 = 300;

const YES: u8 = 1;
const NO: u8 = 0;

/// The bytes of a ledger with this many records.
pub const fn ledger_bytes(records: usize) -> usize {
    LEDGER_HEAD + records * LEDGER_RECORD
}

/// The bytes of a table with this many clients.
pub const fn table_bytes(clients: usize) -> usize {
    clients * CLIENT_SIZE
}

/// A client's record in the table: id, thumbprint of the authentication key, permitted scope bits, the seconds that its references
/// live (0 means [`REFERENCE_LIFETIME`]), ten zeros. A table is 1 to 64 of them, one behind the other; it answers 3 where an id or a
/// key is all zeros, two ids are alike, or a lifetime is above [`REFERENCE_MOST`].
pub fn client_record(id: ClientId, key: Key, permitted: u32, lifetime: u16) -> [u8; CLIENT_SIZE] {
    let mut record = [0; CLIENT_SIZE];
    record[..16].copy_from_slice(&id.0);
    record[16..48].copy_from_slice(&key.0);
    record[48..52].copy_from_slice(&permitted.to_be_bytes());
    record[52..54].copy_from_slice(&lifetime.to_be_bytes());
    record
}

/// What push, token and resource answer, as the record has it after the call.
#[derive(Clone, Copy, Debug, PartialEq, Eq)]
pub struct Answer {
    /// The grant number: the name of this one permission, for good.
    pub grant: u64,
    pub holder: u64,
    pub scope: u32,
    /// The first second at which the record is expired.
    pub expiry: u64,
}

/// What decide answers. After a no: the grant number, the holder given, scope 0, expiry 0.
#[derive(Clone, Copy, Debug, PartialEq, Eq)]
pub struct Decided {
    pub answer: Answer,
    /// How many bytes at the front of the output are the redirect.
    pub redirect_length: usize,
}

/// What pending answers: the request as it waits, its holder 0.
#[derive(Clone, Copy, Debug, PartialEq, Eq)]
pub struct Shown {
    pub answer: Answer,
    /// How many bytes at the front of the output are the redirect.
    pub redirect_length: usize,
}

/// What sweep answers: the records freed, by the state that they were in.
#[derive(Clone, Copy, Debug, PartialEq, Eq)]
pub struct Swept {
    pub pushed: usize,
    pub consented: usize,
    pub redeemed: usize,
}

/// A ledger's bytes, lent to their one writer.
pub struct Ledger<'a>(&'a mut [u8]);

impl fmt::Debug for Ledger<'_> {
    /// Its bytes hold secrets, and are not shown.
    fn fmt(&self, to: &mut fmt::Formatter<'_>) -> fmt::Result {
        write!(to, "Ledger({} bytes)", self.0.len())
    }
}

impl<'a> Ledger<'a> {
    /// Makes a ledger of zeros with next grant number 1, whatever the bytes held before.
    pub fn start(bytes: &'a mut [u8]) -> Result<Self, Refusal> {
        // SAFETY: the pointer and the length are those of a slice that nobody else holds.
        let number = unsafe { raw::perdigolh_start(bytes.as_mut_ptr(), bytes.len()) };
        done(number).map(|()| Ledger(bytes))
    }

    /// A ledger that was started before. Nothing is looked at here: every call checks the bytes for itself.
    pub fn lent(bytes: &'a mut [u8]) -> Self {
        Ledger(bytes)
    }

    pub fn bytes(&self) -> &[u8] {
        self.0
    }

    /// Checks 1, 2, 3, 4, 5, 6, 7, 8, 9; then the first free record stands under the fresh reference.
    pub fn push(&mut self, time: u64, table: &[u8], request: &Push) -> Result<Answer, Refusal> {
        // SAFETY: every pointer is a reference's or a slice's with its length, and the ledger is borrowed alone.
        let answer = unsafe {
            raw::perdigolh_push(
                self.0.as_mut_ptr(),
                self.0.len(),
                time,
                table.as_ptr(),
                table.len(),
                &request.client.0,
                &request.key.0,
                request.scope,
                request.challenge.as_ptr(),
                request.challenge.len(),
                request.redirect.as_ptr(),
                request.redirect.len(),
                &request.fresh.0,
            )
        };
        answered(answer)
    }

    /// Checks 1, 2, 20, 10, 11, 12, and on yes 7. Then the redirect stands in the first 64 bytes of the output, with zeros behind
    /// it; on yes the record stands under the fresh code, on no it is free.
    pub fn decide(&mut self, time: u64, request: &Decide, output: &mut [u8]) -> Result<Decided, Refusal> {
        let (yes, fresh) = match request.choice {
            Choice::Yes(Code(fresh)) => (YES, fresh),
            Choice::No => (NO, [0; 32]), // not looked at
        };
        // SAFETY: as at push; ledger and output are borrowed alone.
        let decided = unsafe {
            raw::perdigolh_decide(
                self.0.as_mut_ptr(),
                self.0.len(),
                time,
                &request.reference.0,
                &request.client.0,
                yes,
                request.holder,
                &fresh,
                output.as_mut_ptr(),
                output.len(),
            )
        };
        let answer = answered(decided.answer)?;
        Ok(Decided { answer, redirect_length: decided.length.into() })
    }

    /// Checks 1, 2, 3, 4, 13, 5, then 14 or 15, 11, 16, 7; then the record has the fresh token, bound to the presented key.
    pub fn token(&mut self, time: u64, table: &[u8], request: &Redeem) -> Result<Answer, Refusal> {
        // SAFETY: as at push.
        let answer = unsafe {
            raw::perdigolh_token(
                self.0.as_mut_ptr(),
                self.0.len(),
                time,
                table.as_ptr(),
                table.len(),
                &request.client.0,
                &request.key.0,
                &request.presented.0,
                &request.code.0,
                request.verifier.as_ptr(),
                request.verifier.len(),
                &request.fresh.0,
            )
        };
        answered(answer)
    }

    /// Checks 1, 2, 17, 11, 18, 6, 19; then the reading is granted, and only the clock changes. The answer's scope is the one
    /// that was granted.
    pub fn resource(&mut self, time: u64, request: &Read) -> Result<Answer, Refusal> {
        // SAFETY: as at push.
        let answer = unsafe {
            raw::perdigolh_resource(
                self.0.as_mut_ptr(),
                self.0.len(),
                time,
                &request.token.0,
                &request.presented.0,
                request.scope,
                request.holder,
            )
        };
        answered(answer)
    }

    /// Checks 1, 2; then every expired record is free.
    pub fn sweep(&mut self, time: u64) -> Result<Swept, Refusal> {
        // SAFETY: as at push.
        let swept = unsafe { raw::perdigolh_sweep(self.0.as_mut_ptr(), self.0.len(), time) };
        done(swept.number)?;
        Ok(Swept { pushed: swept.pushed, consented: swept.consented, redeemed: swept.redeemed })
    }

    /// Checks 1, 2, 20, 10, 11; then the answer is the request that the holder is to see, and its redirect stands in the first 64
    /// bytes of the output, with zeros behind it. The ledger is only read; as it is, a decide on this reference is about this grant
    /// number and this redirect, and a yes allows this scope.
    pub fn pending(&self, time: u64, request: &Pending, output: &mut [u8]) -> Result<Shown, Refusal> {
        // SAFETY: every pointer is a reference's or a slice's with its length, and the output is borrowed alone.
        let shown = unsafe {
            raw::perdigolh_pending(
                self.0.as_ptr(),
                self.0.len(),
                time,
                &request.reference.0,
                &request.client.0,
                output.as_mut_ptr(),
                output.len(),
            )
        };
        let answer = answered(shown.answer)?;
        Ok(Shown { answer, redirect_length: shown.length.into() })
    }

    /// Checks 1, 2, 20; then the front of the output is the token's text (RFC 7662): that of an unknown or expired token says so,
    /// and is no refusal. The ledger is only read. The front has checked before that a figure server of the scheme asks.
    pub fn introspect<'b>(&self, time: u64, token: &Token, output: &'b mut [u8]) -> Result<&'b str, Refusal> {
        // SAFETY: as at pending.
        let said = unsafe {
            let (output, output_length) = (output.as_mut_ptr(), output.len());
            raw::perdigolh_introspect(self.0.as_ptr(), self.0.len(), time, &token.0, output, output_length)
        };
        done(said.number)?;
        Ok(str::from_utf8(&output[..said.length]).expect("the text has ASCII characters alone"))
    }
}

fn answered(answer: raw::Answer) -> Result<Answer, Refusal> {
    done(answer.number)?;
    Ok(Answer { grant: answer.grant, holder: answer.holder, scope: answer.scope, expiry: answer.expiry })
}

fn done(number: u8) -> Result<(), Refusal> {
    match (number, Refusal::of(number)) {
        (0, _) => Ok(()),
        (_, Some(refusal)) => Err(refusal),
        (_, None) => unreachable!("a number that is not in the table"),
    }
}
