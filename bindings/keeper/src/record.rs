//! A ledger's records by named fields, as document 01 lays them out: what the memo needs.

use std::convert::TryInto;
use std::ops::Range;

use perdigolh::{LEDGER_HEAD, LEDGER_RECORD};

pub const CONSENTED: u8 = 2;

const STATE: usize = 0;
const REDIRECT_LENGTH: usize = 1;
const SCOPE: Range<usize> = 4..8;
const GRANT: Range<usize> = 8..16;
const EXPIRY: Range<usize> = 16..24;
const HOLDER: Range<usize> = 24..32;
const CLIENT: Range<usize> = 32..48;
const VALUE: Range<usize> = 96..128;
const REDIRECT: usize = 192;

#[derive(Clone, Copy)]
pub struct Record<'a>(&'a [u8]);

pub fn records(ledger: &[u8]) -> impl Iterator<Item = Record<'_>> {
    ledger.get(LEDGER_HEAD..).unwrap_or(&[]).chunks_exact(LEDGER_RECORD).map(Record)
}

impl<'a> Record<'a> {
    pub fn state(self) -> u8 {
        self.0[STATE]
    }

    pub fn scope(self) -> u32 {
        u32::from_be_bytes(self.0[SCOPE].try_into().expect("four bytes"))
    }

    pub fn grant(self) -> u64 {
        self.number(GRANT)
    }

    pub fn expiry(self) -> u64 {
        self.number(EXPIRY)
    }

    pub fn holder(self) -> u64 {
        self.number(HOLDER)
    }

    pub fn client(self) -> &'a [u8] {
        &self.0[CLIENT]
    }

    pub fn value(self) -> &'a [u8] {
        &self.0[VALUE]
    }

    pub fn redirect(self) -> &'a [u8] {
        &self.0[REDIRECT..][..usize::from(self.0[REDIRECT_LENGTH]).min(LEDGER_RECORD - REDIRECT)]
    }

    fn number(self, field: Range<usize>) -> u64 {
        u64::from_be_bytes(self.0[field].try_into().expect("eight bytes"))
    }
}
