//! Calls and answers as text: the line program's frames (document 01), and a form of the journal's own for what no frame can say.

use perdigolh::{Answer, Choice, Decide, Push, Read, Redeem, Refusal, Swept};

const CHALLENGE: usize = 43;
const FRAME_MOST: usize = 320;

pub const TABLE: &str = "table";
pub const PUSH: &str = "push";
pub const TOKEN: &str = "token";

pub fn start(records: u8) -> String {
    hex(&[&[0, records]])
}

pub fn push(time: u64, request: &Push) -> String {
    let fields: [&[u8]; 7] = [
        &time.to_be_bytes(),
        &request.client.0,
        &request.key.0,
        &request.scope.to_be_bytes(),
        request.challenge,
        &request.fresh.0,
        request.redirect,
    ];
    said(1, PUSH, &fields, request.challenge.len() == CHALLENGE)
}

pub fn decide(time: u64, request: &Decide) -> String {
    let (yes, fresh) = match request.choice {
        Choice::Yes(code) => (1, code.0),
        Choice::No => (0, [0; 32]), // not looked at
    };
    let (time, holder) = (time.to_be_bytes(), request.holder.to_be_bytes());
    hex(&[&[2], &time, &request.client.0, &request.reference.0, &[yes], &holder, &fresh])
}

pub fn token(time: u64, request: &Redeem) -> String {
    let fields: [&[u8]; 7] = [
        &time.to_be_bytes(),
        &request.client.0,
        &request.key.0,
        &request.presented.0,
        &request.code.0,
        &request.fresh.0,
        request.verifier,
    ];
    said(3, TOKEN, &fields, true)
}

pub fn resource(time: u64, request: &Read) -> String {
    let (time, scope, holder) = (time.to_be_bytes(), request.scope.to_be_bytes(), request.holder.to_be_bytes());
    hex(&[&[4], &time, &request.token.0, &request.presented.0, &scope, &holder])
}

pub fn sweep(time: u64) -> String {
    hex(&[&[5], &time.to_be_bytes()])
}

pub fn client(record: &[u8]) -> String {
    hex(&[&[6], record])
}

/// A table that does not go on from the one before it.
pub fn table(table: &[u8]) -> String {
    format!("{TABLE} {}", word(table))
}

/// The answer of start and of a client's frame.
pub const DONE: &str = "00";

pub fn answer(answer: Result<Answer, Refusal>) -> String {
    let (number, answer) = match answer {
        Ok(answer) => (0, answer),
        Err(refusal) => (refusal.number(), Answer { grant: 0, holder: 0, scope: 0, expiry: 0 }),
    };
    let (grant, holder) = (answer.grant.to_be_bytes(), answer.holder.to_be_bytes());
    hex(&[&[number], &grant, &holder, &answer.scope.to_be_bytes(), &answer.expiry.to_be_bytes()])
}

/// Decide's answer, and behind it the redirect with its length.
pub fn decided(decided: Result<Answer, Refusal>, redirect: &[u8]) -> String {
    answer(decided) + &hex(&[&[redirect.len() as u8], redirect])
}

pub fn swept(swept: Result<Swept, Refusal>) -> String {
    let (number, swept) = match swept {
        Ok(swept) => (0, swept),
        Err(refusal) => (refusal.number(), Swept { pushed: 0, consented: 0, redeemed: 0 }),
    };
    let count = |records: usize| (records as u16).to_be_bytes();
    hex(&[&[number], &count(swept.pushed), &count(swept.consented), &count(swept.redeemed)])
}

/// A frame where one can say it, else the name of the call and its fields as words.
fn said(kind: u8, name: &str, fields: &[&[u8]], widths_right: bool) -> String {
    let bytes = 1 + fields.iter().map(|field| field.len()).sum::<usize>();
    if widths_right && bytes <= FRAME_MOST {
        return hex(&[&[kind]]) + &hex(fields);
    }
    let words: Vec<String> = fields.iter().map(|field| word(field)).collect();
    format!("{name} {}", words.join(" "))
}

fn word(bytes: &[u8]) -> String {
    if bytes.is_empty() {
        "-".to_string()
    } else {
        hex(&[bytes])
    }
}

fn hex(parts: &[&[u8]]) -> String {
    parts.iter().flat_map(|part| part.iter()).map(|byte| format!("{byte:02x}")).collect()
}
