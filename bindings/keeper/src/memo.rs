//! Allow once, pressed twice: which code a reference got, for as long as that code waits in the ledger.
//!
//! An entry is reference and code, 32 bytes each. All else that the yes answered stands in the code's record.

use perdigolh::{Answer, Code, Reference};

use crate::record::{records, Record, CONSENTED};
use crate::{Decide, Decided};

const ENTRY: usize = 64;
const VALUE: usize = 32;

/// What the same yes answered, where its code waits: under the same reference, client and holder.
pub fn found(memo: &[u8], ledger: &[u8], request: &Decide) -> Option<Decided> {
    let entry = memo.chunks_exact(ENTRY).find(|entry| entry[..VALUE] == request.reference.0)?;
    let record = waiting(ledger, &entry[VALUE..])?;
    let same = record.client() == request.client.0 && record.holder() == request.holder;
    if !same {
        return None;
    }
    let mut code = [0; VALUE];
    code.copy_from_slice(record.value());
    Some(Decided {
        code: Some(Code(code)),
        redirect: record.redirect().to_vec(),
        answer: Answer {
            grant: record.grant(),
            holder: record.holder(),
            scope: record.scope(),
            expiry: record.expiry(),
        },
    })
}

pub fn add(memo: &mut Vec<u8>, reference: Reference, code: Code) {
    memo.extend_from_slice(&reference.0);
    memo.extend_from_slice(&code.0);
}

/// The memo without the entries whose code waits no longer.
pub fn kept(memo: &[u8], ledger: &[u8]) -> Vec<u8> {
    let waits = |entry: &&[u8]| waiting(ledger, &entry[VALUE..]).is_some();
    memo.chunks_exact(ENTRY).filter(waits).flatten().copied().collect()
}

fn waiting<'a>(ledger: &'a [u8], code: &[u8]) -> Option<Record<'a>> {
    records(ledger).find(|record| record.state() == CONSENTED && record.value() == code)
}
