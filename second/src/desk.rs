//! The six calls of document 01, and two that only read: introspect (document 02, Q-1) and pending.
//! Each checks for itself all that it reads, in its list's order; a refusal changes nothing, but 15 at token (document 02, Q-3).

use crate::base64url::s256;
use crate::description;
use crate::form;
use crate::ledger::{self, field::*, head, state, Record};
use crate::limits::form::OUTPUT_BYTES;
use crate::limits::ledger::{FIRST_GRANT, GRANTS_SPENT};
use crate::limits::time::*;
use crate::table::{Client, Table};

/// The refusals of document 01, "Numbers returned", by their numbers.
#[derive(Clone, Copy, Debug, PartialEq, Eq)]
#[repr(u8)]
pub enum Refusal {
    LedgerUnsound = 1,
    TimeOut = 2,
    TableUnsound = 3,
    ClientUnknown = 4,
    IllFormed = 5,
    ScopeOutside = 6,
    FreshNotFresh = 7,
    NoFreeRecord = 8,
    GrantsSpent = 9,
    ReferenceUnknown = 10,
    Expired = 11,
    HolderZero = 12,
    PresentedKeyZero = 13,
    CodeUnknown = 14,
    CodeRedeemed = 15,
    VerifierWrong = 16,
    TokenUnknown = 17,
    KeyNotBound = 18,
    HolderWrong = 19,
    OutputShort = 20,
}

/// The number that says done.
pub const DONE: u8 = 0;

/// What push, token and resource answer: the record as it stands after the call.
#[derive(Clone, Copy, Debug, Default, PartialEq, Eq)]
pub struct Answer {
    pub number: u8,
    pub grant: u64,
    pub holder: u64,
    pub scope: u32,
    pub expiry: u64,
}

/// What decide answers, and pending, of the request as it waits.
#[derive(Clone, Copy, Debug, Default, PartialEq, Eq)]
pub struct Decided {
    pub answer: Answer,
    pub redirect_length: u8,
}

/// What sweep answers: its number, and how many records of each state it freed.
#[derive(Clone, Copy, Debug, Default, PartialEq, Eq)]
pub struct Swept {
    pub number: u8,
    pub pushed: u16,
    pub consented: u16,
    pub redeemed: u16,
}

/// What introspect answers: its number, and how many bytes at the front of the output are the text.
#[derive(Clone, Copy, Debug, Default, PartialEq, Eq)]
pub struct Introspected {
    pub number: u8,
    pub length: usize,
}

impl Answer {
    fn of(record: &Record) -> Self {
        Answer {
            number: DONE,
            grant: ledger::number(&record[GRANT]),
            holder: ledger::number(&record[HOLDER]),
            scope: ledger::number(&record[SCOPE]) as u32,
            expiry: ledger::number(&record[EXPIRY]),
        }
    }
}

impl From<Refusal> for Answer {
    fn from(refusal: Refusal) -> Self {
        Answer { number: refusal as u8, ..Answer::default() }
    }
}

impl From<Refusal> for Decided {
    fn from(refusal: Refusal) -> Self {
        Decided { answer: refusal.into(), redirect_length: 0 }
    }
}

impl From<Refusal> for Swept {
    fn from(refusal: Refusal) -> Self {
        Swept { number: refusal as u8, ..Swept::default() }
    }
}

impl From<Refusal> for Introspected {
    fn from(refusal: Refusal) -> Self {
        Introspected { number: refusal as u8, ..Introspected::default() }
    }
}

pub fn start(ledger: &mut [u8]) -> u8 {
    if !ledger::length_ok(ledger) {
        return Refusal::LedgerUnsound as u8;
    }
    ledger.fill(0);
    ledger[head::NEXT_GRANT].copy_from_slice(&FIRST_GRANT.to_be_bytes());
    DONE
}

#[allow(clippy::too_many_arguments)]
pub fn push(
    ledger: &mut [u8],
    table: &[u8],
    now: u64,
    client: &[u8; 16],
    auth_key: &[u8; 32],
    scope: u32,
    challenge: &[u8],
    redirect: &[u8],
    fresh: &[u8; 32],
) -> Answer {
    let mut call = || -> Result<Answer, Refusal> {
        check_ledger(ledger, now)?;
        let known = check_client(table, client, auth_key)?;
        ensure(form::redirect_ok(redirect) && form::challenge_ok(challenge), Refusal::IllFormed)?;
        ensure(within(scope, known.permitted()), Refusal::ScopeOutside)?;
        check_fresh(ledger, fresh)?;
        let place = find(ledger, |record| record[STATE] == state::FREE);
        let place = place.ok_or(Refusal::NoFreeRecord)?;
        ensure(ledger::next_grant(ledger) != GRANTS_SPENT, Refusal::GrantsSpent)?;

        let grant = ledger::next_grant(ledger);
        ledger[head::NEXT_GRANT].copy_from_slice(&(grant + 1).to_be_bytes());
        set_clock(ledger, now);
        let record = ledger::record_mut(ledger, place);
        record[STATE] = state::PUSHED;
        record[REDIRECT_LENGTH] = redirect.len() as u8;
        record[SCOPE].copy_from_slice(&scope.to_be_bytes());
        record[GRANT].copy_from_slice(&grant.to_be_bytes());
        record[EXPIRY].copy_from_slice(&(now + known.lifetime()).to_be_bytes());
        record[CLIENT].copy_from_slice(client);
        record[CHALLENGE].copy_from_slice(challenge);
        record[VALUE].copy_from_slice(fresh);
        record[REDIRECT][..redirect.len()].copy_from_slice(redirect);
        Ok(Answer::of(record))
    };
    call().unwrap_or_else(Answer::from)
}

#[allow(clippy::too_many_arguments)]
pub fn decide(
    ledger: &mut [u8],
    now: u64,
    client: &[u8; 16],
    reference: &[u8; 32],
    yes: bool,
    holder: u64,
    fresh: &[u8; 32],
    output: &mut [u8],
) -> Decided {
    let mut call = || -> Result<Decided, Refusal> {
        check_ledger(ledger, now)?;
        ensure(output.len() >= OUTPUT_BYTES, Refusal::OutputShort)?;
        let place = waiting(ledger, client, reference).ok_or(Refusal::ReferenceUnknown)?;
        check_alive(ledger, place, now)?;
        ensure(holder != 0, Refusal::HolderZero)?;
        if yes {
            check_fresh(ledger, fresh)?;
        }

        set_clock(ledger, now);
        let record = ledger::record_mut(ledger, place);
        let redirect_length = record[REDIRECT_LENGTH];
        output[..OUTPUT_BYTES].copy_from_slice(&record[REDIRECT]);
        if !yes {
            let grant = ledger::number(&record[GRANT]);
            record.fill(0);
            let answer = Answer { grant, holder, ..Answer::default() };
            return Ok(Decided { answer, redirect_length });
        }
        record[STATE] = state::CONSENTED;
        record[HOLDER].copy_from_slice(&holder.to_be_bytes());
        record[VALUE].copy_from_slice(fresh);
        record[EXPIRY].copy_from_slice(&(now + CODE_LIFETIME).to_be_bytes());
        Ok(Decided { answer: Answer::of(record), redirect_length })
    };
    call().unwrap_or_else(Decided::from)
}

#[allow(clippy::too_many_arguments)]
pub fn token(
    ledger: &mut [u8],
    table: &[u8],
    now: u64,
    client: &[u8; 16],
    auth_key: &[u8; 32],
    presented_key: &[u8; 32],
    code: &[u8; 32],
    verifier: &[u8],
    fresh: &[u8; 32],
) -> Answer {
    let mut call = || -> Result<Answer, Refusal> {
        check_ledger(ledger, now)?;
        check_client(table, client, auth_key)?;
        ensure(!ledger::zero(presented_key), Refusal::PresentedKeyZero)?;
        ensure(form::verifier_ok(verifier), Refusal::IllFormed)?;
        let place = find(ledger, |record| {
            matches!(record[STATE], state::CONSENTED | state::REDEEMED)
                && record[VALUE] == *code
                && record[CLIENT] == *client
        });
        let place = place.ok_or(Refusal::CodeUnknown)?;
        if ledger::record(ledger, place)[STATE] == state::REDEEMED {
            // Document 02, Q-3: a code shown twice ends its token.
            ledger::record_mut(ledger, place).fill(0);
            set_clock(ledger, now);
            return Err(Refusal::CodeRedeemed);
        }
        let record = ledger::record(ledger, place);
        check_alive(ledger, place, now)?;
        ensure(record[CHALLENGE] == s256(verifier), Refusal::VerifierWrong)?;
        check_fresh(ledger, fresh)?;

        set_clock(ledger, now);
        let record = ledger::record_mut(ledger, place);
        record[STATE] = state::REDEEMED;
        record[TOKEN].copy_from_slice(fresh);
        record[BOUND_KEY].copy_from_slice(presented_key);
        record[EXPIRY].copy_from_slice(&(now + TOKEN_LIFETIME).to_be_bytes());
        Ok(Answer::of(record))
    };
    call().unwrap_or_else(Answer::from)
}

pub fn resource(
    ledger: &mut [u8],
    now: u64,
    token: &[u8; 32],
    presented_key: &[u8; 32],
    scope: u32,
    holder: u64,
) -> Answer {
    let mut call = || -> Result<Answer, Refusal> {
        check_ledger(ledger, now)?;
        let place = issued(ledger, token).ok_or(Refusal::TokenUnknown)?;
        check_alive(ledger, place, now)?;
        let record = ledger::record(ledger, place);
        let granted = Answer::of(record);
        ensure(record[BOUND_KEY] == *presented_key, Refusal::KeyNotBound)?;
        ensure(within(scope, granted.scope), Refusal::ScopeOutside)?;
        ensure(holder == granted.holder, Refusal::HolderWrong)?;

        set_clock(ledger, now);
        Ok(granted)
    };
    call().unwrap_or_else(Answer::from)
}

pub fn sweep(ledger: &mut [u8], now: u64) -> Swept {
    if let Err(refusal) = check_ledger(ledger, now) {
        return refusal.into();
    }
    set_clock(ledger, now);
    let mut swept = Swept::default();
    let used = |record: &&mut Record| record[STATE] != state::FREE;
    for record in ledger::records_mut(ledger).filter(used) {
        if ledger::expired(record, now) {
            match record[STATE] {
                state::PUSHED => swept.pushed += 1,
                state::CONSENTED => swept.consented += 1,
                _ => swept.redeemed += 1,
            }
            record.fill(0);
        }
    }
    swept
}

/// The request that the holder is to see: checks 1, 2, 20, 10, 11, in decide's order.
pub fn pending(
    ledger: &[u8],
    now: u64,
    client: &[u8; 16],
    reference: &[u8; 32],
    output: &mut [u8],
) -> Decided {
    let mut call = || -> Result<Decided, Refusal> {
        check_ledger(ledger, now)?;
        ensure(output.len() >= OUTPUT_BYTES, Refusal::OutputShort)?;
        let place = waiting(ledger, client, reference).ok_or(Refusal::ReferenceUnknown)?;
        check_alive(ledger, place, now)?;

        let record = ledger::record(ledger, place);
        output[..OUTPUT_BYTES].copy_from_slice(&record[REDIRECT]);
        Ok(Decided { answer: Answer::of(record), redirect_length: record[REDIRECT_LENGTH] })
    };
    call().unwrap_or_else(Decided::from)
}

/// The text of a token at a time: checks 1, 2, then 20 where the output is shorter than the text.
pub fn introspect(ledger: &[u8], now: u64, token: &[u8; 32], output: &mut [u8]) -> Introspected {
    let mut call = || -> Result<Introspected, Refusal> {
        check_ledger(ledger, now)?;
        let record = issued(ledger, token).map(|place| ledger::record(ledger, place));
        let live = record.filter(|record| !ledger::expired(record, now));
        let text = live.map_or_else(|| description::INACTIVE.to_owned(), description::of);
        ensure(output.len() >= text.len(), Refusal::OutputShort)?;

        output[..text.len()].copy_from_slice(text.as_bytes());
        Ok(Introspected { number: DONE, length: text.len() })
    };
    call().unwrap_or_else(Introspected::from)
}

fn ensure(holds: bool, refusal: Refusal) -> Result<(), Refusal> {
    holds.then_some(()).ok_or(refusal)
}

/// 1, then 2: how each call but start begins.
fn check_ledger(ledger: &[u8], now: u64) -> Result<(), Refusal> {
    ensure(ledger::sound(ledger), Refusal::LedgerUnsound)?;
    ensure((ledger::clock(ledger)..CLOCK_END).contains(&now), Refusal::TimeOut)
}

/// 3, then 4.
fn check_client<'a>(
    table: &'a [u8],
    id: &[u8; 16],
    auth_key: &[u8; 32],
) -> Result<Client<'a>, Refusal> {
    let client = Table::read(table).ok_or(Refusal::TableUnsound)?.find(id);
    client.filter(|client| client.auth_key() == auth_key).ok_or(Refusal::ClientUnknown)
}

fn check_fresh(ledger: &[u8], fresh: &[u8; 32]) -> Result<(), Refusal> {
    let used = ledger::zero(fresh) || ledger::in_pool(ledger, fresh);
    ensure(!used, Refusal::FreshNotFresh)
}

fn check_alive(ledger: &[u8], place: usize, now: u64) -> Result<(), Refusal> {
    ensure(!ledger::expired(ledger::record(ledger, place), now), Refusal::Expired)
}

fn within(scope: u32, bits: u32) -> bool {
    scope != 0 && scope & !bits == 0
}

fn find(ledger: &[u8], wanted: impl Fn(&Record) -> bool) -> Option<usize> {
    ledger::records(ledger).position(wanted)
}

/// The record in state 1 with this reference and client id.
fn waiting(ledger: &[u8], client: &[u8; 16], reference: &[u8; 32]) -> Option<usize> {
    find(ledger, |record| {
        record[STATE] == state::PUSHED && record[VALUE] == *reference && record[CLIENT] == *client
    })
}

/// The record in state 3 with this token.
fn issued(ledger: &[u8], token: &[u8; 32]) -> Option<usize> {
    find(ledger, |record| record[STATE] == state::REDEEMED && record[TOKEN] == *token)
}

fn set_clock(ledger: &mut [u8], now: u64) {
    ledger[head::CLOCK].copy_from_slice(&now.to_be_bytes());
}
