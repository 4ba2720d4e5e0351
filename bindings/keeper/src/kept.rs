//! What is stored of a ledger, in one piece: the step's number, the ledger, and what goes with it.
//!
//! | Bytes | Field |
//! |---|---|
//! | 0..8 | `PERDIGO1` |
//! | 8..16 | the number of the step that left it, 1 after the start |
//! | 16 | options: 1 a journal, 2 a memo |
//! | 17..20 | zero |
//! | 20..32 | lengths of ledger, memo and table, four bytes each |
//! | 32.. | ledger, memo, table |
//! | last 8 | checksum of all before |
//!
//! Numbers are big-endian, as in the ledger.

use std::convert::TryInto;

use crate::{checksum, Failure};

const MARK: &[u8; 8] = b"PERDIGO1";
const HEAD: usize = 32;
const SUM: usize = 8;

/// What the keeper does beyond the calls; chosen at the start, for good.
#[derive(Clone, Copy, Debug, Default, PartialEq, Eq)]
pub struct Options {
    /// Each call and its answer are written down.
    pub journal: bool,
    /// A yes that is pressed again gets the answer that it got.
    pub memo: bool,
}

#[derive(Clone, Debug, PartialEq, Eq)]
pub struct Kept {
    pub step: u64,
    pub options: Options,
    pub ledger: Vec<u8>,
    /// References that were allowed, each with its code, while the code waits.
    pub memo: Vec<u8>,
    /// The client table that the journal has last.
    pub table: Vec<u8>,
}

impl Kept {
    pub fn to_bytes(&self) -> Vec<u8> {
        let parts = [&self.ledger, &self.memo, &self.table];
        let mut bytes = Vec::with_capacity(HEAD + parts.iter().map(|part| part.len()).sum::<usize>() + SUM);
        bytes.extend_from_slice(MARK);
        bytes.extend_from_slice(&self.step.to_be_bytes());
        bytes.extend_from_slice(&[u8::from(self.options.journal) | u8::from(self.options.memo) << 1, 0, 0, 0]);
        for part in parts {
            bytes.extend_from_slice(&(part.len() as u32).to_be_bytes());
        }
        for part in parts {
            bytes.extend_from_slice(part);
        }
        let sum = checksum(&bytes);
        bytes.extend_from_slice(&sum.to_be_bytes());
        bytes
    }

    pub fn from_bytes(bytes: &[u8]) -> Result<Kept, Failure> {
        if bytes.len() < HEAD + SUM {
            return Err(Failure::Damaged("shorter than its head"));
        }
        let (whole, sum) = bytes.split_at(bytes.len() - SUM);
        if checksum(whole).to_be_bytes() != sum {
            return Err(Failure::Damaged("the checksum differs"));
        }
        if &whole[..8] != MARK || whole[16] > 3 {
            return Err(Failure::Damaged("of another form"));
        }
        let length = |at: usize| u32::from_be_bytes(whole[at..at + 4].try_into().expect("four bytes")) as usize;
        let (ledger, memo, table) = (length(20), length(24), length(28));
        if HEAD + ledger + memo + table != whole.len() {
            return Err(Failure::Damaged("the lengths do not add up"));
        }
        let (ledger_end, memo_end) = (HEAD + ledger, HEAD + ledger + memo);
        Ok(Kept {
            step: u64::from_be_bytes(whole[8..16].try_into().expect("eight bytes")),
            options: Options { journal: whole[16] & 1 != 0, memo: whole[16] & 2 != 0 },
            ledger: whole[HEAD..ledger_end].to_vec(),
            memo: whole[ledger_end..memo_end].to_vec(),
            table: whole[memo_end..].to_vec(),
        })
    }
}

#[cfg(test)]
mod tests {
    use super::*;

    fn some() -> Kept {
        let options = Options { journal: true, memo: false };
        Kept { step: 0x0102, options, ledger: vec![7; 288], memo: vec![8; 64], table: vec![9; 64] }
    }

    #[test]
    fn what_was_stored_comes_back() {
        assert_eq!(Kept::from_bytes(&some().to_bytes()).unwrap(), some());
    }

    #[test]
    fn every_bit_and_every_cut_is_noticed() {
        let bytes = some().to_bytes();
        for at in 0..bytes.len() {
            assert!(Kept::from_bytes(&bytes[..at]).is_err(), "cut at {at}");
            for bit in 0..8 {
                let mut spoilt = bytes.clone();
                spoilt[at] ^= 1 << bit;
                assert!(Kept::from_bytes(&spoilt).is_err(), "bit {bit} of byte {at}");
            }
        }
    }
}
