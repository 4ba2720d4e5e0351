//! The refusals of document 01, "Numbers returned", with its words.

use std::error::Error;
use std::fmt;

macro_rules! refusals {
    ($($name:ident = $number:literal, $words:literal;)*) => {
        /// Why a call was refused. A refusal has changed nothing, but `CodeRedeemed`: the ledger it left is to be stored.
        #[derive(Clone, Copy, Debug, PartialEq, Eq, Hash)]
        #[repr(u8)]
        pub enum Refusal {
            $(#[doc = $words] $name = $number,)*
        }

        impl Refusal {
            pub const ALL: &'static [Refusal] = &[$(Refusal::$name),*];

            /// The refusal of a number, unless it is 0 or none of the table's.
            pub fn of(number: u8) -> Option<Refusal> {
                match number {
                    $($number => Some(Refusal::$name),)*
                    _ => None,
                }
            }

            /// The table's words.
            pub fn words(self) -> &'static str {
                match self {
                    $(Refusal::$name => $words,)*
                }
            }
        }
    };
}

refusals! {
    LedgerUnsound = 1, "ledger length wrong or ledger not sound";
    TimeWrong = 2, "now is below the clock, or 2^40 or more";
    TableUnsound = 3, "client table not sound";
    ClientUnknown = 4, "no such client id, or its authentication key differs";
    IllFormed = 5, "redirect or challenge (push), or verifier (token) ill formed";
    ScopeRefused = 6, "scope 0, or not within the permitted (push) or granted (resource) bits";
    FreshTaken = 7, "fresh value all zeros, or in the pool";
    LedgerFull = 8, "no free record";
    NumbersSpent = 9, "next grant number is 2^64 - 1";
    NoReference = 10, "no record in state 1 with this reference and client id";
    RecordExpired = 11, "the record is expired";
    NoHolder = 12, "holder 0";
    NoKey = 13, "presented key all zeros";
    NoCode = 14, "no record in state 2 or 3 with this code and client id";
    CodeRedeemed = 15, "that record is in state 3, expired or not";
    VerifierDiffers = 16, "verifier does not match";
    NoToken = 17, "no record in state 3 with this token";
    KeyDiffers = 18, "presented key differs from the bound key";
    HolderDiffers = 19, "holder asked is not the record's holder";
    OutputShort = 20, "output buffer shorter than 64 bytes (decide, pending) or than the text (introspect)";
}

impl Refusal {
    /// The table's number.
    pub fn number(self) -> u8 {
        self as u8
    }
}

impl fmt::Display for Refusal {
    fn fmt(&self, to: &mut fmt::Formatter<'_>) -> fmt::Result {
        write!(to, "{}: {}", self.number(), self.words())
    }
}

impl Error for Refusal {}
