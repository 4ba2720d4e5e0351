//! Four buyers' programs, with one key and the pair of RFC 7636, Appendix B.

use perdigolh::*;
use perdigolh_keeper as keeper;

const VERIFIER: &[u8] = b"dBjftJeZ4CVP-mB92K27uhbUJU1p1r_wW1gFWFOEjXk";
const CHALLENGE: &[u8] = b"E9Melhoa2OwvFrEMTJguCHaoeK1t8URWbuGJSstw-cM";
const KEY: Key = Key([0xa2; 32]);
pub const BOUND: Key = Key([0xee; 32]);
const CLIENTS: u64 = 4;

fn client(number: u64) -> ClientId {
    ClientId([0xa0 + number as u8; 16])
}

pub fn table() -> Vec<u8> {
    (1..=CLIENTS).flat_map(|number| client_record(client(number), KEY, 5, 599)).collect()
}

pub fn push(number: u64) -> keeper::Push<'static> {
    let redirect = b"https://buyer.example/back";
    keeper::Push { client: client(number), key: KEY, scope: 4, challenge: CHALLENGE, redirect }
}

pub fn yes(number: u64, holder: u64, reference: [u8; 32]) -> keeper::Decide {
    keeper::Decide { reference: Reference(reference), client: client(number), yes: true, holder }
}

pub fn redeem(number: u64, code: [u8; 32]) -> keeper::Redeem<'static> {
    keeper::Redeem { client: client(number), key: KEY, presented: BOUND, code: Code(code), verifier: VERIFIER }
}

pub fn number(word: &str) -> u64 {
    word.parse().expect("a number")
}

pub fn value(word: &str) -> [u8; 32] {
    let mut value = [0; 32];
    for (at, byte) in value.iter_mut().enumerate() {
        *byte = u8::from_str_radix(&word[2 * at..2 * at + 2], 16).expect("hexadecimal");
    }
    value
}

pub fn hex(value: &[u8; 32]) -> String {
    value.iter().map(|byte| format!("{byte:02x}")).collect()
}
