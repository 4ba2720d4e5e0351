//! Document 01, "At the edges" and "Easy to get wrong".

mod common;
use common::*;
use second::base64url::s256;
use second::desk::{self, Answer, Swept};
use second::sha256;

#[test]
fn p1_start_on_288_bytes() {
    let mut ledger = vec![0x5a; 288];
    assert_eq!(desk::start(&mut ledger), 0);
    assert!(ledger.iter().enumerate().all(|(i, &b)| b == u8::from(i == 15)));
}

#[test]
fn p2_p3_lengths_of_a_ledger() {
    for (length, number) in
        [(0, 1), (32, 1), (287, 1), (288, 0), (289, 1), (51_232, 0), (51_488, 1)]
    {
        let mut ledger = vec![0x5a; length];
        assert_eq!(desk::start(&mut ledger), number, "{length}");
        assert!(number == 0 || ledger.iter().all(|&b| b == 0x5a));
    }
}

/// The push at 1,000 of a client whose record says this lifetime.
fn pushed_saying(lifetime: u16) -> Desk {
    let mut desk = Desk::started(2);
    let others = client_saying(B, B_KEY, 2, 599);
    desk.table = [others, client_saying(A, A_KEY, 5, lifetime)].concat();
    assert_eq!(desk.push(&Push::default()).number, 0);
    desk
}

#[test]
fn last_second_of_a_reference_by_the_record() {
    for (lifetime, seconds) in [(0, 90), (1, 1), (2, 2), (89, 89), (90, 90), (256, 256), (599, 599)] {
        for (now, number) in [(999 + seconds, 0), (1000 + seconds, 11)] {
            let decided = pushed_saying(lifetime).decide(&Decide { now, ..Decide::default() });
            assert_eq!(decided.answer.number, number, "{lifetime}");
        }
    }
}

#[test]
fn p4_last_second_of_a_reference() {
    for (now, number) in [(1598, 0), (1599, 11)] {
        let decided = Desk::pushed().decide(&Decide { now, ..Decide::default() });
        assert_eq!(decided.answer.number, number);
    }
}

#[test]
fn p5_last_second_of_a_code() {
    for (now, number) in [(1059, 0), (1060, 11)] {
        assert_eq!(Desk::consented().token(&Token { now, ..Token::default() }).number, number);
    }
}

#[test]
fn p6_last_second_of_a_token() {
    for (now, number) in [(1358, 0), (1359, 11)] {
        assert_eq!(
            Desk::redeemed().resource(&Resource { now, ..Resource::default() }).number,
            number
        );
    }
}

#[test]
fn p7_scope_within_the_permitted_bits() {
    for (scope, number) in [(4, 0), (1, 0), (5, 0), (2, 6), (0, 6), (7, 6)] {
        assert_eq!(Desk::started(1).push(&Push { scope, ..Push::default() }).number, number);
    }
}

#[test]
fn p8_end_of_time() {
    assert_eq!(Desk::started(1).sweep((1 << 40) - 1).number, 0);
    assert_eq!(Desk::started(1).sweep(1 << 40).number, 2);
    assert_eq!(Desk::started(1).sweep(u64::MAX).number, 2);
}

#[test]
fn p9_length_of_a_verifier() {
    for (length, number) in [(0, 5), (42, 5), (43, 0), (128, 0), (129, 5)] {
        let verifier = vec![b'~'; length];
        let mut desk = Desk::consented_for(&verifier);
        assert_eq!(desk.token(&Token { verifier, ..Token::default() }).number, number, "{length}");
    }
}

#[test]
fn p10_form_of_a_redirect() {
    for (redirect, number) in
        [("https://a", 0), ("https://", 5), ("http://ab", 5), ("", 5), ("HTTPS://a", 5)]
    {
        let redirect = redirect.as_bytes().to_vec();
        assert_eq!(Desk::started(1).push(&Push { redirect, ..Push::default() }).number, number);
    }
    for (length, number) in [(64, 0), (65, 5), (184, 5)] {
        let mut redirect = b"https://".to_vec();
        redirect.resize(length, b'~');
        assert_eq!(Desk::started(1).push(&Push { redirect, ..Push::default() }).number, number);
    }
    for (byte, number) in [(0x20, 5), (0x21, 0), (0x7e, 0), (0x7f, 5), (0x00, 5), (0xff, 5)] {
        let redirect = [b"https://a", &[byte][..]].concat();
        assert_eq!(Desk::started(1).push(&Push { redirect, ..Push::default() }).number, number);
    }
}

#[test]
fn p11_fresh_equal_to_the_value_that_it_would_replace() {
    let decide = Decide { fresh: REFERENCE, ..Decide::default() };
    assert_eq!(Desk::pushed().decide(&decide).answer.number, 7);
    assert_eq!(Desk::consented().token(&Token { fresh: CODE, ..Token::default() }).number, 7);
}

#[test]
fn p12_blocks_of_a_message() {
    let blocks = [(0, 1), (55, 1), (56, 2), (64, 2), (119, 2), (120, 3), (128, 3)];
    for (length, count) in blocks {
        assert_eq!(sha256::block_count(length), count, "{length}");
    }
}

fn hex(bytes: &[u8]) -> String {
    bytes.iter().map(|b| format!("{b:02x}")).collect()
}

/// FIPS 180-4's examples: one block, two blocks, and a million times "a"; and the empty message.
#[test]
fn vectors_of_fips_180_4() {
    let two_blocks = b"abcdbcdecdefdefgefghfghighijhijkijkljklmklmnlmnomnopnopq";
    let vectors: [(&[u8], &str); 4] = [
        (b"abc", "ba7816bf8f01cfea414140de5dae2223b00361a396177a9cb410ff61f20015ad"),
        (two_blocks, "248d6a61d20638b8e5c026930c3e6039a33ce45964ff2167f6ecedd419db06c1"),
        (&[b'a'; 1_000_000], "cdc76e5c9914fb9281a1c7e284d73e67f1809a48a497200e046d39ccc7112cd0"),
        (b"", "e3b0c44298fc1c149afbf4c8996fb92427ae41e4649b934ca495991b7852b855"),
    ];
    for (message, digest) in vectors {
        assert_eq!(hex(&sha256::digest(message)), digest);
    }
}

#[test]
fn vector_of_rfc_7636_appendix_b() {
    assert_eq!(s256(VERIFIER), *CHALLENGE);
}

#[test]
fn another_clients_code_is_14_redeemed_or_not() {
    let other = Token { client: B, auth_key: B_KEY, fresh: UNUSED, ..Token::default() };
    assert_eq!(Desk::consented().token(&other).number, 14);
    assert_eq!(Desk::redeemed().token(&other).number, 14);
}

#[test]
fn the_record_stays_at_redemption() {
    let mut desk = Desk::redeemed();
    let again = Token { fresh: UNUSED, ..Token::default() };
    assert_eq!(desk.resource(&Resource::default()).number, 0);
    assert_eq!(desk.sweep(9000).redeemed, 1);
    assert_eq!(desk.token(&Token { now: 9000, ..again.clone() }).number, 14);
    assert_eq!(Desk::redeemed().token(&again).number, 15);
    assert_eq!(Desk::redeemed().token(&Token { now: 9000, ..again }).number, 15, "expired or not");
}

/// Document 02, Q-3, whatever the verifier and the fresh value are.
#[test]
fn a_code_shown_twice_ends_its_token() {
    let empty = Desk::started(1).ledger;
    let again = Token { now: 1200, verifier: vec![b'x'; 43], fresh: [0; 32], ..Token::default() };
    for now in [1059, 1200, 9000] {
        let mut desk = Desk::redeemed();
        let next = desk.ledger[8..16].to_vec();
        assert_eq!(
            desk.token(&Token { now, ..again.clone() }),
            Answer { number: 15, ..Answer::default() }
        );
        assert_eq!(desk.clock(), now);
        assert_eq!(desk.ledger[8..16], next);
        assert_eq!(desk.ledger[16..288], empty[16..288], "the record is free");
        assert_eq!(desk.resource(&Resource { now, ..Resource::default() }).number, 17);
        assert_eq!(desk.token(&Token { now, ..again.clone() }).number, 14, "the third use");
        assert_eq!(desk.sweep(now), Swept::default(), "no sweep counts it");
    }
    let mut desk = Desk::redeemed();
    let other = Token { client: B, auth_key: B_KEY, ..again };
    assert_eq!(desk.token(&other).number, 14);
    assert_eq!(desk.resource(&Resource::default()).number, 0, "another client ends nothing");
}

#[test]
fn the_bound_key_counts_at_resource() {
    let registered = Resource { presented_key: A_KEY, ..Resource::default() };
    assert_eq!(Desk::redeemed().resource(&registered).number, 18);
    assert_eq!(Desk::redeemed().resource(&Resource::default()).number, 0);
}

#[test]
fn expiry_is_the_first_bad_second() {
    let expiry = Desk::started(1).push(&Push::default()).expiry;
    assert_eq!(expiry, 1599);
    assert_eq!(Desk::pushed().sweep(expiry - 1).pushed, 0);
    assert_eq!(Desk::pushed().sweep(expiry).pushed, 1);
}

#[test]
fn a_refusal_leaves_the_clock() {
    let mut desk = Desk::pushed();
    assert_eq!(
        desk.decide(&Decide { now: 1500, holder: 0, ..Decide::default() }).answer.number,
        12
    );
    assert_eq!(desk.clock(), 1000);
    assert_eq!(desk.decide(&Decide::default()).answer.number, 0);
}
