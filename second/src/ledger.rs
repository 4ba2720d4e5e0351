//! The ledger's layout, its soundness and the pool of values and tokens.

use crate::form;
use crate::limits::form::{MAX_REDIRECT, MIN_REDIRECT};
use crate::limits::ledger::*;
use crate::limits::time::{CLOCK_END, EXPIRY_END};

pub type Record = [u8; RECORD_BYTES];

/// Where the fields of a record stand; numbers are big-endian.
pub mod field {
    use std::ops::Range;
    pub const STATE: usize = 0;
    pub const REDIRECT_LENGTH: usize = 1;
    pub const ZERO_BEFORE_SCOPE: Range<usize> = 2..4;
    pub const SCOPE: Range<usize> = 4..8;
    pub const GRANT: Range<usize> = 8..16;
    pub const EXPIRY: Range<usize> = 16..24;
    pub const HOLDER: Range<usize> = 24..32;
    pub const CLIENT: Range<usize> = 32..48;
    pub const CHALLENGE: Range<usize> = 48..91;
    pub const ZERO_BEHIND_CHALLENGE: Range<usize> = 91..96;
    pub const VALUE: Range<usize> = 96..128;
    pub const TOKEN: Range<usize> = 128..160;
    pub const BOUND_KEY: Range<usize> = 160..192;
    pub const REDIRECT: Range<usize> = 192..256;
}
use field::*;

/// Where the fields of the head stand.
pub mod head {
    use std::ops::Range;
    pub const CLOCK: Range<usize> = 0..8;
    pub const NEXT_GRANT: Range<usize> = 8..16;
    pub const ZERO: Range<usize> = 16..32;
}

/// What byte 0 of a record says.
pub mod state {
    pub const FREE: u8 = 0;
    pub const PUSHED: u8 = 1;
    pub const CONSENTED: u8 = 2;
    pub const REDEEMED: u8 = 3;
}

pub fn length_ok(ledger: &[u8]) -> bool {
    let (_, rest) = ledger.split_at(HEAD_BYTES.min(ledger.len()));
    rest.len() % RECORD_BYTES == 0 && (1..=MAX_RECORDS).contains(&(rest.len() / RECORD_BYTES))
}

pub fn sound(ledger: &[u8]) -> bool {
    length_ok(ledger)
        && clock(ledger) < CLOCK_END
        && next_grant(ledger) >= FIRST_GRANT
        && zero(&ledger[head::ZERO])
        && records(ledger).all(|record| record_sound(record, next_grant(ledger)))
        && !any_clash(ledger)
}

pub fn clock(ledger: &[u8]) -> u64 {
    number(&ledger[head::CLOCK])
}

pub fn next_grant(ledger: &[u8]) -> u64 {
    number(&ledger[head::NEXT_GRANT])
}

/// The records in ledger order.
pub fn records(ledger: &[u8]) -> impl Iterator<Item = &Record> + Clone {
    ledger[HEAD_BYTES..].chunks_exact(RECORD_BYTES).map(|bytes| bytes.try_into().unwrap())
}

pub fn records_mut(ledger: &mut [u8]) -> impl Iterator<Item = &mut Record> {
    ledger[HEAD_BYTES..].chunks_exact_mut(RECORD_BYTES).map(|bytes| bytes.try_into().unwrap())
}

pub fn record(ledger: &[u8], place: usize) -> &Record {
    ledger[HEAD_BYTES + place * RECORD_BYTES..][..RECORD_BYTES].try_into().unwrap()
}

pub fn record_mut(ledger: &mut [u8], place: usize) -> &mut Record {
    (&mut ledger[HEAD_BYTES + place * RECORD_BYTES..][..RECORD_BYTES]).try_into().unwrap()
}

/// Whether the value stands in the pool of values and tokens.
pub fn in_pool(ledger: &[u8], value: &[u8; 32]) -> bool {
    records(ledger).any(|record| holds(record, value))
}

pub fn expired(record: &Record, now: u64) -> bool {
    now >= number(&record[EXPIRY])
}

pub fn zero(bytes: &[u8]) -> bool {
    bytes.iter().all(|&b| b == 0)
}

/// The number in a field of at most eight bytes.
pub fn number(bytes: &[u8]) -> u64 {
    bytes.iter().fold(0, |n, &b| n << 8 | u64::from(b))
}

fn record_sound(record: &Record, next_grant: u64) -> bool {
    match record[STATE] {
        state::FREE => zero(record),
        state::PUSHED => used_sound(record, next_grant, false, false),
        state::CONSENTED => used_sound(record, next_grant, true, false),
        state::REDEEMED => used_sound(record, next_grant, true, true),
        _ => false,
    }
}

fn used_sound(record: &Record, next_grant: u64, has_holder: bool, has_token: bool) -> bool {
    let length = usize::from(record[REDIRECT_LENGTH]);
    zero(&record[ZERO_BEFORE_SCOPE])
        && zero(&record[ZERO_BEHIND_CHALLENGE])
        && (FIRST_GRANT..next_grant).contains(&number(&record[GRANT]))
        && !zero(&record[SCOPE])
        && !zero(&record[CLIENT])
        && !zero(&record[VALUE])
        && number(&record[EXPIRY]) < EXPIRY_END
        && form::challenge_ok(&record[CHALLENGE])
        && (MIN_REDIRECT..=MAX_REDIRECT).contains(&length)
        && form::redirect_ok(&record[REDIRECT][..length])
        && zero(&record[REDIRECT][length..])
        && zero(&record[HOLDER]) != has_holder
        && zero(&record[TOKEN]) != has_token
        && zero(&record[BOUND_KEY]) != has_token
        && record[VALUE] != record[TOKEN]
}

/// Whether two used records share a grant number, or a value or token of the pool.
fn any_clash(ledger: &[u8]) -> bool {
    let mut later = records(ledger);
    while let Some(record) = later.next() {
        if record[STATE] != state::FREE && later.clone().any(|other| clash(record, other)) {
            return true;
        }
    }
    false
}

fn clash(record: &Record, other: &Record) -> bool {
    record[GRANT] == other[GRANT] || holds(other, value(record)) || holds(other, token(record))
}

fn holds(record: &Record, wanted: &[u8; 32]) -> bool {
    (value(record) == wanted || token(record) == wanted) && *wanted != [0; 32]
}

fn value(record: &Record) -> &[u8; 32] {
    record[VALUE].try_into().unwrap()
}

fn token(record: &Record) -> &[u8; 32] {
    record[TOKEN].try_into().unwrap()
}
