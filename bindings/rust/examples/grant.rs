//! One grant from push to reading, and what the desk refuses afterwards.

use perdigolh::*;

/// The pair of RFC 7636, Appendix B: the secret that the program keeps, and the hash that it leaves.
const VERIFIER: &[u8] = b"dBjftJeZ4CVP-mB92K27uhbUJU1p1r_wW1gFWFOEjXk";
const CHALLENGE: &[u8] = b"E9Melhoa2OwvFrEMTJguCHaoeK1t8URWbuGJSstw-cM";

fn main() -> Result<(), Refusal> {
    // The front's part: a registered program, and the keys that it has verified. Its random source would give the fresh values.
    let (buyer, key, manager) = (ClientId([0xa1; 16]), Key([0xa2; 32]), 7);
    let presented = Key([0xee; 32]);
    let table = client_record(buyer, key, 0b101, 0);

    let mut bytes = vec![0; ledger_bytes(2)];
    let mut ledger = Ledger::start(&mut bytes)?;

    let reference = Reference([0x11; 32]);
    let redirect = b"https://buyer.example/back";
    let request = Push { client: buyer, key, scope: 0b100, challenge: CHALLENGE, redirect, fresh: reference };
    let pushed = ledger.push(1000, &table, &request)?;
    println!("pushed: grant {}, for the holder to see until {}", pushed.grant, pushed.expiry);

    let mut output = [0; OUTPUT_LEAST];
    let shown = ledger.pending(1005, &Pending { reference, client: buyer }, &mut output)?;
    let back = String::from_utf8_lossy(&output[..shown.redirect_length]);
    println!("she sees: grant {}, scope {}, and that it goes back to {back}", shown.answer.grant, shown.answer.scope);

    let code = Code([0x22; 32]);
    let yes = Decide { reference, client: buyer, choice: Choice::Yes(code), holder: manager };
    let decided = ledger.decide(1010, &yes, &mut output)?;
    let back = &output[..decided.redirect_length];
    println!("allowed once by holder {}: back to {}", decided.answer.holder, String::from_utf8_lossy(back));
    assert_eq!(back, redirect);

    let token = Token([0x33; 32]);
    let redeem = Redeem { client: buyer, key, presented, code, verifier: VERIFIER, fresh: token };
    let redeemed = ledger.token(1020, &table, &redeem)?;
    println!("redeemed: the token reads scope {} until {}", redeemed.scope, redeemed.expiry);

    let read = Read { token, presented, scope: 0b100, holder: manager };
    let reading = ledger.resource(1030, &read)?;
    println!("read: grant {} of holder {}", reading.grant, reading.holder);
    assert_eq!(reading, Answer { grant: pushed.grant, holder: manager, scope: 0b100, expiry: 1320 });

    let mut text = [0; TEXT_MOST];
    println!("a figure server is told {}", ledger.introspect(1030, &token, &mut text)?);

    let again = ledger.token(1040, &table, &Redeem { fresh: Token([0x44; 32]), ..redeem });
    println!("the code a second time: {}", again.unwrap_err());
    assert_eq!(again, Err(Refusal::CodeRedeemed));

    let ended = ledger.resource(1050, &read);
    println!("the token afterwards: {}", ended.unwrap_err());
    assert_eq!(ended, Err(Refusal::NoToken));
    assert_eq!(ledger.sweep(1320)?.redeemed, 0);
    Ok(())
}
