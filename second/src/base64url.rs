//! The base64url text of a digest, without padding, and the S256 rule of RFC 7636.

use crate::limits::form::CHALLENGE_CHARACTERS;
use crate::sha256;

const ALPHABET: &[u8; 64] = b"ABCDEFGHIJKLMNOPQRSTUVWXYZabcdefghijklmnopqrstuvwxyz0123456789-_";

pub fn text(digest: &[u8; 32]) -> [u8; CHALLENGE_CHARACTERS] {
    let mut out = [0; CHALLENGE_CHARACTERS];
    for (three, four) in digest.chunks(3).zip(out.chunks_mut(4)) {
        let byte = |i: usize| u32::from(*three.get(i).unwrap_or(&0));
        let bits = byte(0) << 16 | byte(1) << 8 | byte(2);
        for (i, character) in four.iter_mut().enumerate() {
            *character = ALPHABET[(bits >> (18 - 6 * i) & 63) as usize];
        }
    }
    out
}

/// The challenge that belongs to a verifier.
pub fn s256(verifier: &[u8]) -> [u8; CHALLENGE_CHARACTERS] {
    text(&sha256::digest(verifier))
}
