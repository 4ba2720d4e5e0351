//! The calls of both programs under names of their own, so that each can be counted; and a prepared request for each.

use front_tests::beside::{Kind, Request};
use front_tests::chance::Chance;
use perdigolh::{raw, TEXT_MOST};
use second::base64url::s256;
use second::desk;
use second::ledger::{field::*, head, state, Record};
use second::limits::ledger::{HEAD_BYTES, MAX_RECORDS, RECORD_BYTES};
use second::limits::table::{CLIENT_BYTES, MAX_CLIENTS};

/// The time of every call but sweep, and the expiry of every record: sweep is called then, and frees them all.
const NOW: u64 = 1_000_000;
const EXPIRY: u64 = NOW + 50;
const HOLDER_NUMBER: u64 = 7;
const SCOPE_BITS: u32 = 5;
const VERIFIER: &[u8; 43] = b"dBjftJeZ4CVP-mB92K27uhbUJU1p1r_wW1gFWFOEjXk";
const REDIRECT_TEXT: &[u8; 64] = b"https://buyer.example/a/way/back/that/is/as/long/as/it/may/be/aa";

/// A request in order on the greatest ledger, so many of whose records are in use once the call is made, and on the greatest table.
/// The record that the call is about is the last in use; all others are redeemed.
pub fn prepared(kind: Kind, used: usize) -> Request {
    let mut chance = Chance::new(used as u64);
    let table: Vec<u8> = (0..MAX_CLIENTS).flat_map(|_| client(&mut chance)).collect();
    let own = &table[(MAX_CLIENTS - 1) * CLIENT_BYTES..];
    let mut ledger = vec![0; HEAD_BYTES + MAX_RECORDS * RECORD_BYTES];
    desk::start(&mut ledger);
    let before = if kind == Kind::Push { used - 1 } else { used };
    ledger[head::CLOCK].copy_from_slice(&NOW.to_be_bytes());
    ledger[head::NEXT_GRANT].copy_from_slice(&(before as u64 + 1).to_be_bytes());
    let mut last = [0; RECORD_BYTES];
    for place in 0..before {
        let about = place + 1 == before;
        let state = match kind {
            Kind::Decide | Kind::Pending if about => state::PUSHED,
            Kind::Token if about => state::CONSENTED,
            _ => state::REDEEMED,
        };
        last = record(state, place as u64 + 1, &own[..16], &mut chance);
        *second::ledger::record_mut(&mut ledger, place) = last;
    }
    let value = if matches!(kind, Kind::Resource | Kind::Introspect) { TOKEN } else { VALUE };
    Request {
        kind,
        time: if kind == Kind::Sweep { EXPIRY } else { NOW },
        client: own[..16].try_into().unwrap(),
        key: own[16..48].try_into().unwrap(),
        presented: if kind == Kind::Resource { last[BOUND_KEY].try_into().unwrap() } else { chance.array() },
        value: last[value].try_into().unwrap(),
        fresh: chance.array(),
        scope: SCOPE_BITS,
        holder: HOLDER_NUMBER,
        yes: 1,
        challenge: s256(VERIFIER).to_vec(),
        redirect: REDIRECT_TEXT.to_vec(),
        verifier: VERIFIER.to_vec(),
        output: vec![0; TEXT_MOST],
        ledger,
        table,
    }
}

fn client(chance: &mut Chance) -> [u8; CLIENT_BYTES] {
    let mut record = [0; CLIENT_BYTES];
    record[..16].copy_from_slice(&chance.array::<16>());
    record[16..48].copy_from_slice(&chance.array::<32>());
    record[48..52].copy_from_slice(&SCOPE_BITS.to_be_bytes());
    record
}

fn record(state: u8, grant: u64, client: &[u8], chance: &mut Chance) -> Record {
    let mut record = [0; RECORD_BYTES];
    record[STATE] = state;
    record[REDIRECT_LENGTH] = REDIRECT_TEXT.len() as u8;
    record[SCOPE].copy_from_slice(&SCOPE_BITS.to_be_bytes());
    record[GRANT].copy_from_slice(&grant.to_be_bytes());
    record[second::ledger::field::EXPIRY].copy_from_slice(&EXPIRY.to_be_bytes());
    record[CLIENT].copy_from_slice(client);
    record[CHALLENGE].copy_from_slice(&s256(VERIFIER));
    record[VALUE].copy_from_slice(&chance.array::<32>());
    record[REDIRECT].copy_from_slice(REDIRECT_TEXT);
    if state >= state::CONSENTED {
        record[HOLDER].copy_from_slice(&HOLDER_NUMBER.to_be_bytes());
    }
    if state == state::REDEEMED {
        record[TOKEN].copy_from_slice(&chance.array::<32>());
        record[BOUND_KEY].copy_from_slice(&chance.array::<32>());
    }
    record
}

/// One call of the archive, on the request's own buffers; its number.
#[inline(always)]
pub fn archive(r: &mut Request) -> u8 {
    let (ledger, length) = (r.ledger.as_mut_ptr(), r.ledger.len());
    let (table, table_length) = (r.table.as_ptr(), r.table.len());
    let (output, output_length) = (r.output.as_mut_ptr(), r.output.len());
    // SAFETY: every pointer is that of a buffer of its own.
    unsafe {
        match r.kind {
            Kind::Start => raw::perdigolh_start(ledger, length),
            Kind::Push => {
                raw::perdigolh_push(
                    ledger,
                    length,
                    r.time,
                    table,
                    table_length,
                    &r.client,
                    &r.key,
                    r.scope,
                    r.challenge.as_ptr(),
                    r.challenge.len(),
                    r.redirect.as_ptr(),
                    r.redirect.len(),
                    &r.fresh,
                )
                .number
            }
            Kind::Decide => {
                raw::perdigolh_decide(
                    ledger,
                    length,
                    r.time,
                    &r.value,
                    &r.client,
                    r.yes,
                    r.holder,
                    &r.fresh,
                    output,
                    output_length,
                )
                .answer
                .number
            }
            Kind::Token => {
                raw::perdigolh_token(
                    ledger,
                    length,
                    r.time,
                    table,
                    table_length,
                    &r.client,
                    &r.key,
                    &r.presented,
                    &r.value,
                    r.verifier.as_ptr(),
                    r.verifier.len(),
                    &r.fresh,
                )
                .number
            }
            Kind::Resource => {
                raw::perdigolh_resource(ledger, length, r.time, &r.value, &r.presented, r.scope, r.holder).number
            }
            Kind::Sweep => raw::perdigolh_sweep(ledger, length, r.time).number,
            Kind::Pending => {
                let shown = raw::perdigolh_pending(ledger, length, r.time, &r.value, &r.client, output, output_length);
                shown.answer.number
            }
            Kind::Introspect => {
                raw::perdigolh_introspect(ledger, length, r.time, &r.value, output, output_length).number
            }
        }
    }
}

/// The same through the second program.
#[inline(always)]
pub fn twin(r: &mut Request) -> u8 {
    match r.kind {
        Kind::Start => second_start(r),
        Kind::Push => second_push(r),
        Kind::Decide => second_decide(r),
        Kind::Token => second_token(r),
        Kind::Resource => second_resource(r),
        Kind::Sweep => second_sweep(r),
        Kind::Pending => second_pending(r),
        Kind::Introspect => second_introspect(r),
    }
}

#[no_mangle]
#[inline(never)]
fn second_start(r: &mut Request) -> u8 {
    desk::start(&mut r.ledger)
}

#[no_mangle]
#[inline(never)]
fn second_push(r: &mut Request) -> u8 {
    let (ledger, table) = (&mut r.ledger, &r.table);
    desk::push(ledger, table, r.time, &r.client, &r.key, r.scope, &r.challenge, &r.redirect, &r.fresh).number
}

#[no_mangle]
#[inline(never)]
fn second_decide(r: &mut Request) -> u8 {
    let (ledger, output) = (&mut r.ledger, &mut r.output);
    desk::decide(ledger, r.time, &r.client, &r.value, r.yes == 1, r.holder, &r.fresh, output).answer.number
}

#[no_mangle]
#[inline(never)]
fn second_token(r: &mut Request) -> u8 {
    let (ledger, table) = (&mut r.ledger, &r.table);
    desk::token(ledger, table, r.time, &r.client, &r.key, &r.presented, &r.value, &r.verifier, &r.fresh).number
}

#[no_mangle]
#[inline(never)]
fn second_resource(r: &mut Request) -> u8 {
    desk::resource(&mut r.ledger, r.time, &r.value, &r.presented, r.scope, r.holder).number
}

#[no_mangle]
#[inline(never)]
fn second_sweep(r: &mut Request) -> u8 {
    desk::sweep(&mut r.ledger, r.time).number
}

#[no_mangle]
#[inline(never)]
fn second_pending(r: &mut Request) -> u8 {
    desk::pending(&r.ledger, r.time, &r.client, &r.value, &mut r.output).answer.number
}

#[no_mangle]
#[inline(never)]
fn second_introspect(r: &mut Request) -> u8 {
    desk::introspect(&r.ledger, r.time, &r.value, &mut r.output).number
}
