//! Nothing that the bindings show for a log has a value, a code, a token, a verifier or a key in it, in any spelling.

use std::fmt::Debug;

use perdigolh::*;

const VERIFIER: &[u8] = b"verifierverifierverifierverifierverifierver";
const CHALLENGE: &[u8] = b"challengechallengechallengechallengechallen";
const REDIRECT: &[u8] = b"https://buyer.example/back?session=redirect";
const CLIENT: ClientId = ClientId([0xa1; 16]);
const KEY: Key = Key([201; 32]);
const PRESENTED: Key = Key([202; 32]);
const REFERENCE: Reference = Reference([203; 32]);
const CODE: Code = Code([204; 32]);
const TOKEN: Token = Token([205; 32]);

/// What must not be found: the bytes of each secret in decimal, hexadecimal and as they travel, and the texts.
fn spellings() -> Vec<String> {
    let mut found: Vec<String> =
        ["verifier", "challenge", "redirect"].iter().map(|text| format!("{text}{text}")).collect();
    found.push("session".to_owned());
    for byte in 201..=205 {
        found.extend([format!("{byte}, {byte}"), format!("{byte:x}{byte:x}"), format!("{byte:X}{byte:X}")]);
        found.extend([format!("{byte:x}, {byte:x}"), format!("{byte:X}, {byte:X}"), Token([byte; 32]).to_text()]);
    }
    for text in [VERIFIER, CHALLENGE, REDIRECT] {
        found.push(format!("{}, {}", text[0], text[1]));
    }
    found
}

fn shown(what: &dyn Debug) -> [String; 4] {
    let flat = format!("{what:#?}").split_whitespace().collect::<Vec<_>>().join(" ");
    [format!("{what:?}"), flat, format!("{what:x?}"), format!("{what:X?}")]
}

#[test]
fn nothing_shown_has_a_secret() {
    let mut bytes = vec![203; ledger_bytes(1)];
    let push = Push { client: CLIENT, key: KEY, scope: 4, challenge: CHALLENGE, redirect: REDIRECT, fresh: REFERENCE };
    let yes = Decide { reference: REFERENCE, client: CLIENT, choice: Choice::Yes(CODE), holder: 7 };
    let redeem =
        Redeem { client: CLIENT, key: KEY, presented: PRESENTED, code: CODE, verifier: VERIFIER, fresh: TOKEN };
    let read = Read { token: TOKEN, presented: PRESENTED, scope: 4, holder: 7 };
    let pending = Pending { reference: REFERENCE, client: CLIENT };
    let ledger = Ledger::lent(&mut bytes);
    let all: [&dyn Debug; 12] =
        [&ledger, &push, &pending, &yes, &yes.choice, &redeem, &read, &KEY, &REFERENCE, &CODE, &TOKEN, &Some([TOKEN])];
    for what in all {
        for text in shown(what) {
            for secret in spellings() {
                assert!(!text.contains(&secret), "{secret} in {text}");
            }
        }
    }
}

#[test]
fn a_request_is_shown_by_who_asks_for_what() {
    let redeem =
        Redeem { client: CLIENT, key: KEY, presented: PRESENTED, code: CODE, verifier: VERIFIER, fresh: TOKEN };
    assert_eq!(
        format!("{redeem:?}"),
        "Redeem { client: ClientId(a1a1a1a1a1a1a1a1a1a1a1a1a1a1a1a1), key: Key(..), presented: Key(..), code: Code(..), \
         verifier: (43 bytes), fresh: Token(..) }"
    );
    let push = Push { client: CLIENT, key: KEY, scope: 4, challenge: CHALLENGE, redirect: REDIRECT, fresh: REFERENCE };
    assert_eq!(
        format!("{push:?}"),
        "Push { client: ClientId(a1a1a1a1a1a1a1a1a1a1a1a1a1a1a1a1), key: Key(..), scope: 4, challenge: (43 bytes), \
         redirect: (43 bytes), fresh: Reference(..) }"
    );
    assert_eq!(format!("{:?}", Ledger::lent(&mut [7; 544])), "Ledger(544 bytes)");
}
