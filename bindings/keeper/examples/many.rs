//! Many ledgers: which one a call goes to, and a token that travels with its ledger's name. many FOLDER
//!
//! Push, yes and token name their client, and go to that client's ledger. A reading names no client, so the token says where.

use std::error::Error;

use perdigolh::*;
use perdigolh_keeper as keeper;
use perdigolh_keeper::{checksum, Files, Keeper, Options};

const LEDGERS: u64 = 8; // fixed at the start: an empty ledger costs a file
const VERIFIER: &[u8] = b"dBjftJeZ4CVP-mB92K27uhbUJU1p1r_wW1gFWFOEjXk";
const CHALLENGE: &[u8] = b"E9Melhoa2OwvFrEMTJguCHaoeK1t8URWbuGJSstw-cM";
const KEY: Key = Key([0xa2; 32]);

/// The ledger of a client, for good.
fn ledger_of(client: ClientId) -> String {
    format!("desk-{}", checksum(&client.0) % LEDGERS)
}

/// A token as its program carries it.
fn travelling(ledger: &str, token: Token) -> String {
    let hex: String = token.0.iter().map(|byte| format!("{byte:02x}")).collect();
    format!("{ledger}.{hex}")
}

fn arrived(text: &str) -> Option<(&str, Token)> {
    let (ledger, hex) = text.split_once('.').filter(|(_, hex)| hex.len() == 64 && hex.is_ascii())?;
    let mut token = [0; 32];
    for (at, byte) in token.iter_mut().enumerate() {
        *byte = u8::from_str_radix(&hex[2 * at..2 * at + 2], 16).ok()?;
    }
    Some((ledger, Token(token)))
}

fn main() -> Result<(), Box<dyn Error>> {
    let files = Files::new(std::env::args().nth(1).expect("many FOLDER"));
    for number in 0..LEDGERS {
        Keeper::new(files.clone(), &format!("desk-{number}"))?
            .start(LEDGER_MOST, Options { journal: true, memo: true })?;
    }
    let clients: Vec<ClientId> = (1..=12).map(|number| ClientId([number; 16])).collect();
    let table: Vec<u8> = clients.iter().flat_map(|&client| client_record(client, KEY, 5, 0)).collect();
    let redirect = b"https://buyer.example/back";
    for client in clients {
        let ledger = ledger_of(client);
        let desk = Keeper::new(files.clone(), &ledger)?;
        let push = keeper::Push { client, key: KEY, scope: 4, challenge: CHALLENGE, redirect };
        let reference = desk.call(|ledger| ledger.push(&table, &push))??.reference;
        let yes = keeper::Decide { reference, client, yes: true, holder: 7 };
        let code = desk.call(|ledger| ledger.decide(&yes))??.code.expect("a yes has a code");
        let redeem = keeper::Redeem { client, key: KEY, presented: KEY, code, verifier: VERIFIER };
        let token = desk.call(|ledger| ledger.token(&table, &redeem))??.token;
        let carried = travelling(&ledger, token);
        let (name, token) = arrived(&carried).ok_or("no token")?;
        let read = Read { token, presented: KEY, scope: 4, holder: 7 };
        let reading = Keeper::new(files.clone(), name)?.call(|ledger| ledger.resource(&read))??;
        println!("client {}: {name}, grant {}", client.0[0], reading.grant);
        let other = format!("desk-{}", (checksum(&client.0) + 1) % LEDGERS);
        let elsewhere = Keeper::new(files.clone(), &other)?.call(|ledger| ledger.resource(&read))?;
        assert_eq!(elsewhere, Err(Refusal::NoToken)); // a token opens nothing in another ledger
    }
    Ok(())
}
