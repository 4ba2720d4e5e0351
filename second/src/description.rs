//! The introspection text of a token (document 02, Q-1): one JSON object as RFC 7662 has it, no blanks outside scope.

use crate::base64url;
use crate::ledger::{field::*, number, Record};

/// The text of a token that is unknown or expired.
pub const INACTIVE: &str = r#"{"active":false}"#;

/// The text of a live token's record, its members in the request's order.
pub fn of(record: &Record) -> String {
    let client: String = record[CLIENT].iter().map(|byte| format!("{byte:02x}")).collect();
    let (holder, expiry) = (number(&record[HOLDER]), number(&record[EXPIRY]));
    let scope = names(number(&record[SCOPE]));
    let key = base64url::text(record[BOUND_KEY].try_into().unwrap());
    let key = String::from_utf8_lossy(&key);
    format!(
        r#"{{"active":true,"client_id":"{client}","sub":"{holder}","exp":{expiry},"scope":"{scope}","cnf":{{"x5t#S256":"{key}"}}}}"#
    )
}

/// s0 to s31 for bits 2^0 to 2^31, ascending, one blank between.
fn names(scope: u64) -> String {
    let set = (0..u32::BITS).filter(|bit| scope >> bit & 1 == 1);
    set.map(|bit| format!("s{bit}")).collect::<Vec<_>>().join(" ")
}
