//! Every lifetime and every limit of time and size, each under the thing it belongs to.

/// Time, in whole seconds.
pub mod time {
    /// "now" and the clock stay below this.
    pub const CLOCK_END: u64 = 1 << 40;
    /// An expiry stays below this.
    pub const EXPIRY_END: u64 = 1 << 41;
    /// For a client whose record says 0.
    pub const REFERENCE_LIFETIME: u64 = 90;
    /// The most that a client's record may say.
    pub const MAX_REFERENCE_LIFETIME: u16 = 599;
    pub const CODE_LIFETIME: u64 = 60;
    pub const TOKEN_LIFETIME: u64 = 300;
}

pub mod ledger {
    pub const HEAD_BYTES: usize = 32;
    pub const RECORD_BYTES: usize = 256;
    pub const MAX_RECORDS: usize = 200;
    pub const FIRST_GRANT: u64 = 1;
    /// A ledger whose next grant number is this takes no push.
    pub const GRANTS_SPENT: u64 = u64::MAX;
}

pub mod table {
    pub const CLIENT_BYTES: usize = 64;
    pub const MAX_CLIENTS: usize = 64;
}

pub mod form {
    pub const REDIRECT_PREFIX: &[u8; 8] = b"https://";
    pub const MIN_REDIRECT: usize = 9;
    pub const MAX_REDIRECT: usize = 64;
    pub const CHALLENGE_CHARACTERS: usize = 43;
    pub const MIN_VERIFIER: usize = 43;
    pub const MAX_VERIFIER: usize = 128;
    /// Decide writes this many bytes of its output buffer.
    pub const OUTPUT_BYTES: usize = MAX_REDIRECT;
}

pub mod line {
    /// A longer line is no frame.
    pub const MAX_DIGITS: usize = 640;
    /// Bytes asked of the input at a time.
    pub const READ_BYTES: usize = 1 << 16;
}
