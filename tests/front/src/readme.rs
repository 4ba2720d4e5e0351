//! README's lines for a web front, as they stand there; tests/lint/readme.py looks for each.

use perdigolh::{Answer, Decide, Ledger, Pending, Push, Read, Redeem, Refusal, OUTPUT_LEAST, TEXT_MOST};

/// One grant at one time.
pub fn grant(
    mut bytes: Vec<u8>,
    time: u64,
    table: Vec<u8>,
    request: Push,
    asked: Pending,
    choice: Decide,
    redeem: Redeem,
    read: Read,
) -> Result<([Answer; 5], String), Refusal> {
    let (mut output, mut text) = ([0; OUTPUT_LEAST], [0; TEXT_MOST]);
    let mut ledger = Ledger::lent(&mut bytes);
    let pushed = ledger.push(time, &table, &request)?;
    let shown = ledger.pending(time, &asked, &mut output)?;
    let decided = ledger.decide(time, &choice, &mut output)?;
    let redeemed = ledger.token(time, &table, &redeem)?;
    let reading = ledger.resource(time, &read)?;
    let told = ledger.introspect(time, &read.token, &mut text)?;
    Ok(([pushed, shown.answer, decided.answer, redeemed, reading], told.to_owned()))
}
