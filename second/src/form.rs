//! The forms of redirect, challenge and verifier (document 01, "Ledger").

use crate::limits::form::*;

pub fn redirect_ok(redirect: &[u8]) -> bool {
    (MIN_REDIRECT..=MAX_REDIRECT).contains(&redirect.len())
        && redirect.starts_with(REDIRECT_PREFIX)
        && redirect.iter().all(|b| (0x21..=0x7e).contains(b))
}

pub fn challenge_ok(challenge: &[u8]) -> bool {
    challenge.len() == CHALLENGE_CHARACTERS && challenge.iter().all(|&b| is_base64url(b))
}

pub fn verifier_ok(verifier: &[u8]) -> bool {
    (MIN_VERIFIER..=MAX_VERIFIER).contains(&verifier.len())
        && verifier.iter().all(|&b| is_base64url(b) || b == b'.' || b == b'~')
}

fn is_base64url(b: u8) -> bool {
    b.is_ascii_alphanumeric() || b == b'-' || b == b'_'
}
