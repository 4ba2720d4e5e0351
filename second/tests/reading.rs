//! The calls that only read: introspect (document 02, Q-1) and pending.

mod common;
use common::*;
use second::desk::{self, Answer, Decided};

/// The digest whose base64url text is RFC 7636's challenge.
const BOUND_DIGEST: [u8; 32] = [
    19, 211, 30, 150, 26, 26, 216, 236, 47, 22, 177, 12, 76, 152, 46, 8, 118, 168, 120, 173, 109,
    241, 68, 86, 110, 225, 137, 74, 203, 112, 249, 195,
];
const INACTIVE: &str = r#"{"active":false}"#;

fn redeemed_with(scope: u32, holder: u64) -> Desk {
    let mut desk = Desk::started(2);
    desk.table[48..52].fill(0xff);
    assert_eq!(desk.push(&Push { scope, ..Push::default() }).number, 0);
    assert_eq!(desk.decide(&Decide { holder, ..Decide::default() }).answer.number, 0);
    let token = Token { presented_key: BOUND_DIGEST, ..Token::default() };
    assert_eq!(desk.token(&token).number, 0);
    desk
}

/// The text, at the front of an output whose other bytes stay.
fn text(desk: &Desk, now: u64, token: [u8; 32]) -> String {
    let mut output = vec![0xcc; 400];
    let ledger = desk.ledger.clone();
    let said = desk::introspect(&ledger, now, &token, &mut output);
    assert_eq!(said.number, 0);
    assert!(output[said.length..].iter().all(|&byte| byte == 0xcc));
    output.truncate(said.length);
    String::from_utf8(output).unwrap()
}

fn live(sub: u64, exp: u64, scope: &str) -> String {
    let client = "a1".repeat(16);
    let key = std::str::from_utf8(CHALLENGE).unwrap();
    format!(
        r#"{{"active":true,"client_id":"{client}","sub":"{sub}","exp":{exp},"scope":"{scope}","cnf":{{"x5t#S256":"{key}"}}}}"#
    )
}

#[test]
fn the_text_of_a_live_token() {
    assert_eq!(text(&redeemed_with(5, 7), 1059, TOKEN), live(7, 1359, "s0 s2"));
    assert_eq!(text(&redeemed_with(1 << 31, u64::MAX), 1059, TOKEN), live(u64::MAX, 1359, "s31"));
    let all: Vec<String> = (0..32).map(|bit| format!("s{bit}")).collect();
    assert_eq!(text(&redeemed_with(u32::MAX, 10), 1059, TOKEN), live(10, 1359, &all.join(" ")));
}

#[test]
fn unknown_and_expired_are_inactive() {
    let desk = redeemed_with(4, 7);
    assert_eq!(text(&desk, 1358, TOKEN), live(7, 1359, "s2"));
    assert_eq!(text(&desk, 1359, TOKEN), INACTIVE);
    for value in [[0; 32], CODE, UNUSED] {
        assert_eq!(text(&desk, 1059, value), INACTIVE);
    }
    assert_eq!(text(&Desk::consented(), 1059, [0; 32]), INACTIVE);
    assert_eq!(text(&Desk::pushed(), 1059, REFERENCE), INACTIVE);
}

#[test]
fn introspect_numbers_in_order() {
    let desk = redeemed_with(4, 7);
    let length = text(&desk, 1059, TOKEN).len();
    let said = |ledger: &[u8], now, token: &[u8; 32], room: usize| {
        let mut output = vec![0xcc; room];
        let said = desk::introspect(ledger, now, token, &mut output);
        assert!(said.number == 0 || (said.length == 0 && output == vec![0xcc; room]));
        (said.number, said.length)
    };
    assert_eq!(said(&desk.ledger[1..], 0, &TOKEN, 0), (1, 0));
    assert_eq!(said(&desk.ledger, 1058, &TOKEN, 0), (2, 0));
    assert_eq!(said(&desk.ledger, 1 << 40, &TOKEN, 0), (2, 0));
    assert_eq!(said(&desk.ledger, 1059, &TOKEN, length - 1), (20, 0));
    assert_eq!(said(&desk.ledger, 1059, &TOKEN, length), (0, length));
    assert_eq!(said(&desk.ledger, 1059, &UNUSED, 15), (20, 0));
    assert_eq!(said(&desk.ledger, 1059, &UNUSED, 16), (0, 16));
    assert_eq!(said(&desk.ledger, 1059, &TOKEN, 16), (20, 0));
}

#[test]
fn pending_shows_what_decide_then_allows() {
    let mut desk = Desk::pushed();
    let mut output = vec![0xcc; 70];
    let shown = desk::pending(&desk.ledger, 1010, &A, &REFERENCE, &mut output);
    let answer = Answer { number: 0, grant: 1, holder: 0, scope: 4, expiry: 1599 };
    assert_eq!(shown, Decided { answer, redirect_length: 9 });
    assert_eq!(output, [&b"https://a"[..], &[0; 55], &[0xcc; 6]].concat());
    assert_eq!(desk.clock(), 1000, "the ledger is only read");
    let decided = desk.decide(&Decide { now: 1010, ..Decide::default() });
    assert_eq!((decided.answer.grant, decided.answer.scope), (1, 4));
    assert_eq!((decided.redirect_length, &desk.output), (9, &output));
}

#[test]
fn pending_numbers_in_order() {
    let said = |ledger: &[u8], now, client: &[u8; 16], reference: &[u8; 32], room: usize| {
        let mut output = vec![0xcc; room];
        let shown = desk::pending(ledger, now, client, reference, &mut output);
        let number = shown.answer.number;
        if number != 0 {
            let answer = Answer { number, ..Answer::default() };
            assert_eq!(shown, Decided { answer, redirect_length: 0 });
            assert_eq!(output, vec![0xcc; room]);
        }
        number
    };
    let desk = Desk::pushed();
    assert_eq!(said(&desk.ledger[1..], 0, &B, &UNUSED, 0), 1);
    assert_eq!(said(&desk.ledger, 999, &B, &UNUSED, 0), 2);
    assert_eq!(said(&desk.ledger, 1599, &B, &UNUSED, 63), 20);
    assert_eq!(said(&desk.ledger, 1599, &B, &REFERENCE, 64), 10);
    assert_eq!(said(&desk.ledger, 1599, &A, &UNUSED, 64), 10);
    assert_eq!(said(&desk.ledger, 1599, &A, &REFERENCE, 64), 11);
    assert_eq!(said(&desk.ledger, 1598, &A, &REFERENCE, 64), 0);
    assert_eq!(said(&Desk::consented().ledger, 1010, &A, &REFERENCE, 64), 10);
    assert_eq!(said(&Desk::consented().ledger, 1010, &A, &CODE, 64), 10);
}
