//! Values as they travel. A value has one spelling, and nothing else is read: no other case, no padding, no set pad bits, no blanks.
//!
//! A code is 64 hexadecimal digits in lower case, a client id 32; a reference travels in a `request_uri` (RFC 9126), in front of it
//! [`REQUEST_URI`]; a token and a thumbprint are 43 characters of base64url (RFC 4648, section 5) without padding.
//! include/perdigolh_text.h has the same for C.

use crate::{ClientId, Code, Key, Reference, Token};

/// What stands before the 64 digits of a reference in a `request_uri`.
pub const REQUEST_URI: &str = "urn:ietf:params:oauth:request_uri:";

const DIGITS: &[u8; 16] = b"0123456789abcdef";
const ALPHABET: &[u8; 64] = b"ABCDEFGHIJKLMNOPQRSTUVWXYZabcdefghijklmnopqrstuvwxyz0123456789-_";
const BASE64URL_LENGTH: usize = 43;

macro_rules! texts {
    ($($name:ident: $to:ident, $from:ident;)*) => {$(
        impl $name {
            /// The text as it travels.
            pub fn to_text(&self) -> String {
                $to(&self.0)
            }

            /// The value of a text; nothing where it is not the one spelling of a value.
            pub fn from_text(text: impl AsRef<[u8]>) -> Option<Self> {
                $from(text.as_ref()).map($name)
            }
        }
    )*};
}

texts! {
    ClientId: to_hex, from_hex;
    Code: to_hex, from_hex;
    Reference: to_request_uri, from_request_uri;
    Token: to_base64url, from_base64url;
    Key: to_base64url, from_base64url;
}

fn to_hex(bytes: &[u8]) -> String {
    let digit = |nibble: u8| char::from(DIGITS[usize::from(nibble)]);
    bytes.iter().flat_map(|&byte| [digit(byte >> 4), digit(byte & 15)]).collect()
}

fn from_hex<const N: usize>(text: &[u8]) -> Option<[u8; N]> {
    if text.len() != 2 * N {
        return None;
    }
    let mut bytes = [0; N];
    for (byte, pair) in bytes.iter_mut().zip(text.chunks(2)) {
        *byte = (place(DIGITS, pair[0])? << 4 | place(DIGITS, pair[1])?) as u8;
    }
    Some(bytes)
}

fn to_request_uri(bytes: &[u8; 32]) -> String {
    REQUEST_URI.to_owned() + &to_hex(bytes)
}

fn from_request_uri(text: &[u8]) -> Option<[u8; 32]> {
    from_hex(text.strip_prefix(REQUEST_URI.as_bytes())?)
}

fn to_base64url(bytes: &[u8; 32]) -> String {
    let character = |bits: u32| char::from(ALPHABET[(bits & 63) as usize]);
    let four = |three: &[u8]| {
        let byte = |at: usize| u32::from(*three.get(at).unwrap_or(&0));
        let bits = byte(0) << 16 | byte(1) << 8 | byte(2);
        [character(bits >> 18), character(bits >> 12), character(bits >> 6), character(bits)]
    };
    bytes.chunks(3).flat_map(four).take(BASE64URL_LENGTH).collect()
}

fn from_base64url(text: &[u8]) -> Option<[u8; 32]> {
    if text.len() != BASE64URL_LENGTH {
        return None;
    }
    let mut bytes = [0; 32];
    for (three, four) in bytes.chunks_mut(3).zip(text.chunks(4)) {
        let mut bits = 0;
        for &character in four {
            bits = bits << 6 | place(ALPHABET, character)?;
        }
        // the last group is three characters for two bytes: its two lowest bits are no part of the value
        if four.len() == 3 && bits & 3 != 0 {
            return None;
        }
        bits <<= if four.len() == 3 { 6 } else { 0 };
        three.copy_from_slice(&bits.to_be_bytes()[1..][..three.len()]);
    }
    Some(bytes)
}

fn place(alphabet: &[u8], character: u8) -> Option<u32> {
    alphabet.iter().position(|&other| other == character).map(|at| at as u32)
}
