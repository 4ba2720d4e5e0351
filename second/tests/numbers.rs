//! Every number of document 01's table for every call that lists it, the order of the checks, and what is written.

mod common;
use common::*;
use second::desk::{Answer, Decided, Swept};

const ZERO: [u8; 32] = [0; 32];

#[test]
fn push_numbers() {
    let ok = Push::default();
    let number = |change: fn(&mut Push)| {
        let mut push = Push::default();
        change(&mut push);
        Desk::started(1).push(&push).number
    };
    assert_eq!(number(|_| ()), 0);
    assert_eq!(number(|p| p.now = 1 << 40), 2);
    assert_eq!(number(|p| p.client = [9; 16]), 4);
    assert_eq!(number(|p| p.client = B), 4);
    assert_eq!(number(|p| p.auth_key = B_KEY), 4);
    assert_eq!(number(|p| p.challenge[42] = b'.'), 5);
    assert_eq!(number(|p| p.challenge.truncate(42)), 5);
    assert_eq!(number(|p| p.redirect = b"https://".to_vec()), 5);
    assert_eq!(number(|p| p.scope = 2), 6);
    assert_eq!(number(|p| p.fresh = ZERO), 7);

    let mut desk = Desk::started(1);
    desk.ledger[31] = 1;
    assert_eq!(desk.push(&ok).number, 1);
    let mut desk = Desk::started(1);
    desk.table.clear();
    assert_eq!(desk.push(&ok).number, 3);
    for mut desk in [Desk::pushed(), Desk::consented(), Desk::redeemed()] {
        let now = 2000;
        let used = desk.record(0)[96..128].try_into().unwrap();
        assert_eq!(desk.push(&Push { now, fresh: used, ..ok.clone() }).number, 7);
    }
    assert_eq!(Desk::redeemed().push(&Push { now: 2000, fresh: TOKEN, ..ok.clone() }).number, 7);
    let mut desk = Desk::started(1);
    assert_eq!(desk.push(&ok).number, 0);
    assert_eq!(desk.push(&Push { fresh: UNUSED, ..ok.clone() }).number, 8);
    for (next, number) in [(u64::MAX - 1, 0), (u64::MAX, 9)] {
        let mut desk = Desk::started(1);
        desk.ledger[8..16].copy_from_slice(&next.to_be_bytes());
        assert_eq!(desk.push(&ok).number, number);
    }
}

#[test]
fn decide_numbers() {
    let number = |change: fn(&mut Decide)| {
        let mut decide = Decide::default();
        change(&mut decide);
        Desk::pushed().decide(&decide).answer.number
    };
    assert_eq!(number(|_| ()), 0);
    assert_eq!(number(|d| d.now = 999), 2);
    assert_eq!(number(|d| d.reference = UNUSED), 10);
    assert_eq!(number(|d| d.reference = ZERO), 10);
    assert_eq!(number(|d| d.client = B), 10);
    assert_eq!(number(|d| d.now = 1599), 11);
    assert_eq!(number(|d| d.holder = 0), 12);
    assert_eq!(number(|d| d.fresh = ZERO), 7);
    assert_eq!(number(|d| (d.yes, d.holder) = (false, 0)), 12);
    assert_eq!(number(|d| (d.yes, d.fresh) = (false, ZERO)), 0);

    let mut desk = Desk::pushed();
    desk.ledger.pop();
    assert_eq!(desk.decide(&Decide::default()).answer.number, 1);
    for (length, number) in [(0, 20), (63, 20), (64, 0)] {
        let mut desk = Desk::pushed();
        desk.output.truncate(length);
        assert_eq!(desk.decide(&Decide::default()).answer.number, number);
    }
    let code_as_reference = Decide { reference: CODE, fresh: UNUSED, ..Decide::default() };
    assert_eq!(Desk::consented().decide(&code_as_reference).answer.number, 10);
    let again = Decide { fresh: UNUSED, ..Decide::default() };
    assert_eq!(Desk::consented().decide(&again).answer.number, 10);
}

#[test]
fn token_numbers() {
    let number = |change: fn(&mut Token)| {
        let mut token = Token::default();
        change(&mut token);
        Desk::consented().token(&token).number
    };
    assert_eq!(number(|_| ()), 0);
    assert_eq!(number(|t| t.now = 999), 2);
    assert_eq!(number(|t| t.client = B), 4);
    assert_eq!(number(|t| t.auth_key = BOUND), 4);
    assert_eq!(number(|t| t.presented_key = ZERO), 13);
    assert_eq!(number(|t| t.verifier[0] = b'+'), 5);
    assert_eq!(number(|t| t.code = UNUSED), 14);
    assert_eq!(number(|t| t.code = REFERENCE), 14);
    assert_eq!(number(|t| t.now = 1060), 11);
    assert_eq!(number(|t| t.verifier[0] = b'~'), 16);
    assert_eq!(number(|t| t.fresh = ZERO), 7);
    assert_eq!(number(|t| t.fresh = CODE), 7);

    let mut desk = Desk::consented();
    desk.ledger[32] = 4;
    assert_eq!(desk.token(&Token::default()).number, 1);
    let mut desk = Desk::consented();
    desk.table[63] = 1;
    assert_eq!(desk.token(&Token::default()).number, 3);
    assert_eq!(Desk::redeemed().token(&Token { fresh: UNUSED, ..Token::default() }).number, 15);
    let reference_as_code = Token { code: REFERENCE, ..Token::default() };
    assert_eq!(Desk::pushed().token(&reference_as_code).number, 14);
    let token_as_code = Token { code: TOKEN, fresh: UNUSED, ..Token::default() };
    assert_eq!(Desk::redeemed().token(&token_as_code).number, 14);
}

#[test]
fn resource_numbers() {
    let number = |change: fn(&mut Resource)| {
        let mut resource = Resource::default();
        change(&mut resource);
        Desk::redeemed().resource(&resource).number
    };
    assert_eq!(number(|_| ()), 0);
    assert_eq!(number(|r| r.now = 1058), 2);
    assert_eq!(number(|r| r.token = UNUSED), 17);
    assert_eq!(number(|r| r.token = CODE), 17);
    assert_eq!(number(|r| r.token = ZERO), 17);
    assert_eq!(number(|r| r.now = 1359), 11);
    assert_eq!(number(|r| r.presented_key = A_KEY), 18);
    assert_eq!(number(|r| r.scope = 0), 6);
    assert_eq!(number(|r| r.scope = 5), 6);
    assert_eq!(number(|r| r.holder = 8), 19);
    assert_eq!(number(|r| r.holder = 0), 19);

    let mut desk = Desk::redeemed();
    desk.ledger.clear();
    assert_eq!(desk.resource(&Resource::default()).number, 1);
    let mut desk = Desk::redeemed();
    desk.table.clear();
    assert_eq!(desk.resource(&Resource::default()).number, 0, "the client table is not read");
    assert_eq!(
        Desk::consented().resource(&Resource { token: CODE, ..Resource::default() }).number,
        17
    );
    assert_eq!(
        Desk::consented().resource(&Resource { token: ZERO, ..Resource::default() }).number,
        17
    );
}

#[test]
fn sweep_numbers() {
    assert_eq!(Desk::pushed().sweep(1000).number, 0);
    assert_eq!(Desk::pushed().sweep(999).number, 2);
    assert_eq!(Desk::pushed().sweep(1 << 40).number, 2);
    let mut desk = Desk::pushed();
    desk.ledger[15] = 0;
    assert_eq!(desk.sweep(1000).number, 1);
}

/// Mends a call's faults one by one in the order of the checks; each time the next number shows.
#[test]
fn order_of_the_checks_of_push() {
    let mut desk = Desk::started(1);
    assert_eq!(desk.push(&Push { fresh: UNUSED, ..Push::default() }).number, 0);
    desk.ledger[8..16].fill(0xff);
    desk.ledger[16] = 1;
    let table = std::mem::take(&mut desk.table);
    let redirect = Vec::new();
    let mut push =
        Push { now: 0, auth_key: ZERO, redirect, scope: 0, fresh: ZERO, ..Push::default() };
    let mut seen = vec![desk.push(&push).number];
    desk.ledger[16] = 0;
    seen.push(desk.push(&push).number);
    push.now = 1000;
    seen.push(desk.push(&push).number);
    desk.table = table;
    seen.push(desk.push(&push).number);
    push.auth_key = A_KEY;
    seen.push(desk.push(&push).number);
    push.redirect = Push::default().redirect;
    seen.push(desk.push(&push).number);
    push.scope = 4;
    seen.push(desk.push(&push).number);
    push.fresh = REFERENCE;
    seen.push(desk.push(&push).number);
    desk.ledger[32..].fill(0);
    seen.push(desk.push(&push).number);
    assert_eq!(seen, [1, 2, 3, 4, 5, 6, 7, 8, 9]);
}

#[test]
fn order_of_the_checks_of_decide() {
    let mut desk = Desk::pushed();
    let output = std::mem::take(&mut desk.output);
    desk.ledger[16] = 1;
    let client = B;
    let mut decide = Decide { now: 0, client, holder: 0, fresh: ZERO, ..Decide::default() };
    let mut seen = vec![desk.decide(&decide).answer.number];
    desk.ledger[16] = 0;
    seen.push(desk.decide(&decide).answer.number);
    decide.now = 1599;
    seen.push(desk.decide(&decide).answer.number);
    desk.output = output;
    seen.push(desk.decide(&decide).answer.number);
    decide.client = A;
    seen.push(desk.decide(&decide).answer.number);
    decide.now = 1598;
    seen.push(desk.decide(&decide).answer.number);
    decide.holder = HOLDER;
    seen.push(desk.decide(&decide).answer.number);
    assert_eq!(seen, [1, 2, 20, 10, 11, 12, 7]);
}

#[test]
fn order_of_the_checks_of_token() {
    let mut desk = Desk::consented();
    let table = std::mem::take(&mut desk.table);
    desk.ledger[16] = 1;
    let mut token = Token {
        now: 0,
        auth_key: ZERO,
        presented_key: ZERO,
        code: UNUSED,
        verifier: Vec::new(),
        fresh: ZERO,
        ..Token::default()
    };
    let mut seen = vec![desk.token(&token).number];
    desk.ledger[16] = 0;
    seen.push(desk.token(&token).number);
    token.now = 1060;
    seen.push(desk.token(&token).number);
    desk.table = table;
    seen.push(desk.token(&token).number);
    token.auth_key = A_KEY;
    seen.push(desk.token(&token).number);
    token.presented_key = BOUND;
    seen.push(desk.token(&token).number);
    token.verifier = vec![b'x'; 43];
    seen.push(desk.token(&token).number);
    token.code = CODE;
    seen.push(desk.token(&token).number);
    token.now = 1059;
    seen.push(desk.token(&token).number);
    token.verifier = VERIFIER.to_vec();
    seen.push(desk.token(&token).number);
    assert_eq!(seen, [1, 2, 3, 4, 13, 5, 14, 11, 16, 7]);
    let late = Token { now: 9000, verifier: vec![b'x'; 43], fresh: ZERO, ..Token::default() };
    assert_eq!(Desk::redeemed().token(&late).number, 15);
}

#[test]
fn order_of_the_checks_of_resource() {
    let mut desk = Desk::redeemed();
    desk.ledger[16] = 1;
    let mut resource = Resource { now: 0, token: UNUSED, presented_key: ZERO, scope: 0, holder: 0 };
    let mut seen = vec![desk.resource(&resource).number];
    desk.ledger[16] = 0;
    seen.push(desk.resource(&resource).number);
    resource.now = 1359;
    seen.push(desk.resource(&resource).number);
    resource.token = TOKEN;
    seen.push(desk.resource(&resource).number);
    resource.now = 1358;
    seen.push(desk.resource(&resource).number);
    resource.presented_key = BOUND;
    seen.push(desk.resource(&resource).number);
    resource.scope = 4;
    seen.push(desk.resource(&resource).number);
    assert_eq!(seen, [1, 2, 17, 11, 18, 6, 19]);
}

/// The record of document 01's table, written out.
fn record(
    state: u8,
    expiry: u64,
    holder: u64,
    value: [u8; 32],
    token: [u8; 32],
    key: [u8; 32],
) -> Vec<u8> {
    let mut bytes = vec![state, 9, 0, 0];
    bytes.extend(4u32.to_be_bytes());
    bytes.extend(1u64.to_be_bytes());
    bytes.extend(expiry.to_be_bytes());
    bytes.extend(holder.to_be_bytes());
    bytes.extend(A);
    bytes.extend(CHALLENGE);
    bytes.extend([0; 5]);
    bytes.extend(value);
    bytes.extend(token);
    bytes.extend(key);
    bytes.extend(b"https://a");
    bytes.resize(256, 0);
    bytes
}

fn ledger(clock: u64, next: u64, first: Vec<u8>) -> Vec<u8> {
    [&clock.to_be_bytes()[..], &next.to_be_bytes(), &[0; 16], &first, &[0; 256]].concat()
}

#[test]
fn a_grant_byte_by_byte() {
    let mut desk = Desk::started(2);
    let pushed = Answer { number: 0, grant: 1, holder: 0, scope: 4, expiry: 1599 };
    assert_eq!(desk.push(&Push::default()), pushed);
    assert_eq!(desk.ledger, ledger(1000, 2, record(1, 1599, 0, REFERENCE, ZERO, ZERO)));

    let decided = desk.decide(&Decide { now: 1001, ..Decide::default() });
    let answer = Answer { number: 0, grant: 1, holder: HOLDER, scope: 4, expiry: 1061 };
    assert_eq!(decided, Decided { answer, redirect_length: 9 });
    assert_eq!(desk.ledger, ledger(1001, 2, record(2, 1061, HOLDER, CODE, ZERO, ZERO)));
    assert_eq!(desk.output, [&b"https://a"[..], &[0; 55], &[0xcc; 6]].concat());

    let redeemed = Answer { number: 0, grant: 1, holder: HOLDER, scope: 4, expiry: 1302 };
    assert_eq!(desk.token(&Token { now: 1002, ..Token::default() }), redeemed);
    let after = record(3, 1302, HOLDER, CODE, TOKEN, BOUND);
    assert_eq!(desk.ledger, ledger(1002, 2, after.clone()));

    assert_eq!(desk.resource(&Resource { now: 1003, ..Resource::default() }), redeemed);
    assert_eq!(desk.ledger, ledger(1003, 2, after));

    let swept = Swept { number: 0, pushed: 0, consented: 0, redeemed: 1 };
    assert_eq!(desk.sweep(1302), swept);
    assert_eq!(desk.ledger, ledger(1302, 2, vec![0; 256]));
}

#[test]
fn a_no_frees_the_record_and_still_gives_the_redirect() {
    let mut desk = Desk::pushed();
    let decided =
        desk.decide(&Decide { now: 1001, yes: false, fresh: REFERENCE, ..Decide::default() });
    let answer = Answer { number: 0, grant: 1, holder: HOLDER, scope: 0, expiry: 0 };
    assert_eq!(decided, Decided { answer, redirect_length: 9 });
    assert_eq!(desk.ledger, ledger(1001, 2, vec![0; 256]));
    assert_eq!(desk.output, [&b"https://a"[..], &[0; 55], &[0xcc; 6]].concat());
}

#[test]
fn a_push_takes_the_first_free_record_and_the_next_number() {
    let mut desk = Desk::started(3);
    for (i, grant) in [(1, 1), (2, 2), (3, 3)] {
        assert_eq!(desk.push(&Push { fresh: [i; 32], ..Push::default() }).grant, grant);
    }
    let no = Decide { reference: [2; 32], yes: false, ..Decide::default() };
    assert_eq!(desk.decide(&no).answer.grant, 2);
    assert_eq!(desk.push(&Push { fresh: [2; 32], ..Push::default() }).grant, 4);
    let grants: Vec<u8> = (0..3).map(|place| desk.record(place)[15]).collect();
    assert_eq!(grants, [1, 4, 3]);
}

#[test]
fn a_sweep_counts_by_state_and_leaves_the_living() {
    let mut desk = Desk::started(5);
    for i in 1..=4 {
        assert_eq!(desk.push(&Push { fresh: [i; 32], ..Push::default() }).number, 0);
    }
    for i in 1..=2 {
        let decide = Decide { reference: [i; 32], fresh: [10 + i; 32], ..Decide::default() };
        assert_eq!(desk.decide(&decide).answer.number, 0);
    }
    assert_eq!(desk.token(&Token { now: 1000, code: [11; 32], ..Token::default() }).number, 0);
    assert_eq!(desk.sweep(1059), Swept::default());
    assert_eq!(desk.sweep(1060), Swept { consented: 1, ..Swept::default() });
    assert_eq!(desk.push(&Push { now: 1299, fresh: [9; 32], ..Push::default() }).number, 0);
    assert_eq!(desk.sweep(1599), Swept { pushed: 2, redeemed: 1, ..Swept::default() });
    assert_eq!(desk.sweep(1898), Swept { pushed: 1, ..Swept::default() });
    assert_eq!(desk.ledger[32..], [0; 5 * 256]);
}
