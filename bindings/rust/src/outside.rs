//! What a refusal is outside: OAuth error, HTTP status, whether to try again, what to log, whether somebody is woken.
//!
//! docs/OUTSIDE.md shows the table and says why; tests/lint/outside.py holds both to the numbers that each call gives.

use crate::Refusal;

/// The six calls, and the two that only read.
#[derive(Clone, Copy, Debug, PartialEq, Eq, Hash)]
pub enum Call {
    Start,
    Push,
    Decide,
    Token,
    Resource,
    Sweep,
    Pending,
    Introspect,
}

/// Whether the same call may be made once more. Nothing is sent outside before that.
#[derive(Clone, Copy, Debug, PartialEq, Eq, Hash)]
pub enum Retry {
    Never,
    /// Once, with the time read anew under the lock.
    Time,
    /// Once, with another fresh value.
    Fresh,
    /// Once, after a sweep.
    Sweep,
}

/// Whether somebody is woken.
#[derive(Clone, Copy, Debug, PartialEq, Eq, Hash)]
pub enum Alarm {
    Never,
    /// When it comes again at the second try.
    Again,
    Always,
}

/// What a refusal of a call is outside.
#[derive(Clone, Copy, Debug, PartialEq, Eq, Hash)]
pub struct Outside {
    /// The HTTP status; none where nobody outside has asked, at start and at sweep.
    pub status: Option<u16>,
    /// The OAuth error. None at pending and decide, where the browser gets a page and is sent nowhere, and where no RFC has one.
    pub error: Option<&'static str>,
    pub retry: Retry,
    pub alarm: Alarm,
    /// What the log has beside time, call and number. Never a value, a code, a token or a verifier.
    pub log: &'static str,
}

macro_rules! option {
    (-) => {
        None
    };
    ($given:literal) => {
        Some($given)
    };
}

macro_rules! outside {
    ($($call:ident $refusal:ident: $status:tt, $error:tt, $retry:ident, $alarm:ident, $log:literal;)*) => {
        impl Refusal {
            /// What this refusal of a call is outside; nothing where the call does not give it.
            pub fn at(self, call: Call) -> Option<Outside> {
                match (call, self) {
                    $((Call::$call, Refusal::$refusal) => Some(Outside {
                        status: option!($status),
                        error: option!($error),
                        retry: Retry::$retry,
                        alarm: Alarm::$alarm,
                        log: $log,
                    }),)*
                    _ => None,
                }
            }
        }
    };
}

outside! {
    Start LedgerUnsound: -, -, Never, Always, "the ledger's name and length";

    Push LedgerUnsound: 500, "server_error", Never, Always, "the ledger's name and length";
    Push TimeWrong: 503, "temporarily_unavailable", Time, Again, "the time handed in and the ledger's clock";
    Push TableUnsound: 500, "server_error", Never, Always, "the table's name and length";
    Push ClientUnknown: 401, "invalid_client", Never, Never, "the client id";
    Push IllFormed: 400, "invalid_request", Never, Never, "the client id";
    Push ScopeRefused: 400, "invalid_scope", Never, Never, "the client id and the scope asked";
    Push FreshTaken: 500, "server_error", Fresh, Again, "that the random source repeats itself";
    Push LedgerFull: 503, "temporarily_unavailable", Sweep, Again, "the client id, and how many records each client has";
    Push NumbersSpent: 500, "server_error", Never, Always, "the ledger's name";

    Decide LedgerUnsound: 500, -, Never, Always, "the ledger's name and length";
    Decide TimeWrong: 503, -, Time, Again, "the time handed in and the ledger's clock";
    Decide OutputShort: 500, -, Never, Always, "that the front lent too short an output";
    Decide NoReference: 400, -, Never, Never, "the client id and the holder";
    Decide RecordExpired: 400, -, Never, Never, "the client id and the holder";
    Decide NoHolder: 500, -, Never, Always, "that the front asked with nobody logged in";
    Decide FreshTaken: 500, -, Fresh, Again, "that the random source repeats itself";

    Token LedgerUnsound: 500, -, Never, Always, "the ledger's name and length";
    Token TimeWrong: 503, -, Time, Again, "the time handed in and the ledger's clock";
    Token TableUnsound: 500, -, Never, Always, "the table's name and length";
    Token ClientUnknown: 401, "invalid_client", Never, Never, "the client id";
    Token NoKey: 400, "invalid_request", Never, Never, "the client id";
    Token IllFormed: 400, "invalid_request", Never, Never, "the client id";
    Token NoCode: 400, "invalid_grant", Never, Never, "the client id";
    Token CodeRedeemed: 400, "invalid_grant", Never, Never, "the client id, and that a code came twice";
    Token RecordExpired: 400, "invalid_grant", Never, Never, "the client id";
    Token VerifierDiffers: 400, "invalid_grant", Never, Never, "the client id, and that a code came without its secret";
    Token FreshTaken: 500, -, Fresh, Again, "that the random source repeats itself";

    Resource LedgerUnsound: 500, -, Never, Always, "the ledger's name and length";
    Resource TimeWrong: 503, -, Time, Again, "the time handed in and the ledger's clock";
    Resource NoToken: 401, "invalid_token", Never, Never, "where the reading came from";
    Resource RecordExpired: 401, "invalid_token", Never, Never, "where the reading came from";
    Resource KeyDiffers: 401, "invalid_token", Never, Never, "where the reading came from, and that a token came with another key";
    Resource ScopeRefused: 403, "insufficient_scope", Never, Never, "the scope asked";
    Resource HolderDiffers: 403, "insufficient_scope", Never, Never, "the holder asked";

    Sweep LedgerUnsound: -, -, Never, Always, "the ledger's name and length";
    Sweep TimeWrong: -, -, Time, Again, "the time handed in and the ledger's clock";

    Pending LedgerUnsound: 500, -, Never, Always, "the ledger's name and length";
    Pending TimeWrong: 503, -, Time, Again, "the time handed in and the ledger's clock";
    Pending OutputShort: 500, -, Never, Always, "that the front lent too short an output";
    Pending NoReference: 400, -, Never, Never, "the client id";
    Pending RecordExpired: 400, -, Never, Never, "the client id";

    Introspect LedgerUnsound: 500, -, Never, Always, "the ledger's name and length";
    Introspect TimeWrong: 503, -, Time, Again, "the time handed in and the ledger's clock";
    Introspect OutputShort: 500, -, Never, Always, "that the front lent too short an output";
}
