//! Requests for the calls: in order, and then spoilt in none, one or a few ways.
//!
//! The world is a ledger that the second program's accepted calls have brought about, and a sound table. A request in order is read
//! off the ledger, so that most calls get far. What is spoilt is the ledger, the table, the request or the output.

use second::base64url::s256;
use second::description;
use second::ledger::{self, field::*, head, state, Record};
use second::limits::form::{
    CHALLENGE_CHARACTERS, MAX_REDIRECT, MAX_VERIFIER, MIN_REDIRECT, MIN_VERIFIER, OUTPUT_BYTES,
};
use second::limits::ledger::{HEAD_BYTES, MAX_RECORDS, RECORD_BYTES};
use second::limits::table::{CLIENT_BYTES, MAX_CLIENTS};
use second::limits::time::*;

use crate::beside::{Kind, Outcome, Request};
use crate::chance::Chance;

/// A ledger or a table is spoilt to no more than this many bytes.
pub const LEDGER_ROOM: usize = HEAD_BYTES + (MAX_RECORDS + 2) * RECORD_BYTES;
pub const TABLE_ROOM: usize = (MAX_CLIENTS + 2) * CLIENT_BYTES;
/// So is a text or an output.
const TEXT_ROOM: usize = 400;

const VERIFIERS: usize = 8;
const BASE64URL: &[u8] = b"ABCDEFGHIJKLMNOPQRSTUVWXYZabcdefghijklmnopqrstuvwxyz0123456789-_";

pub struct World {
    ledger: Vec<u8>,
    table: Vec<u8>,
    verifiers: Vec<Vec<u8>>,
    left: usize,
}

impl World {
    pub fn new(chance: &mut Chance) -> World {
        let characters = |chance: &mut Chance, n| (0..n).map(|_| chance.one_of(BASE64URL)).collect::<Vec<_>>();
        let verifiers = (0..VERIFIERS)
            .map(|_| {
                let length = MIN_VERIFIER + chance.below(MAX_VERIFIER - MIN_VERIFIER + 1);
                characters(chance, length)
            })
            .collect();
        let mut world = World { ledger: Vec::new(), table: Vec::new(), verifiers, left: 0 };
        world.begin(chance);
        world
    }

    /// The next request, and whether the ledger that it is made on is the world's own.
    pub fn request(&mut self, chance: &mut Chance) -> (Request, bool) {
        if self.left == 0 {
            self.begin(chance);
        }
        self.left -= 1;
        let kind = chance.one_of(&[
            Kind::Start,
            Kind::Push,
            Kind::Push,
            Kind::Push,
            Kind::Push,
            Kind::Decide,
            Kind::Decide,
            Kind::Decide,
            Kind::Token,
            Kind::Token,
            Kind::Token,
            Kind::Resource,
            Kind::Resource,
            Kind::Sweep,
            Kind::Pending,
            Kind::Introspect,
            Kind::Introspect,
        ]);
        let mut request = self.in_order(kind, chance);
        let mut own = kind != Kind::Start || chance.once_in(50);
        for _ in 0..chance.one_of(&[0, 0, 1, 1, 1, 2, 3]) {
            match chance.below(6) {
                0 | 1 => {
                    self.spoil_ledger(&mut request, chance);
                    own = false;
                }
                2 => spoil_table(&mut request.table, chance),
                _ => self.spoil_request(&mut request, chance),
            }
        }
        (request, own)
    }

    /// Takes on the ledger that an accepted call left.
    pub fn keep(&mut self, outcome: Outcome) {
        self.ledger = outcome.ledger;
    }

    /// A new ledger and a new table.
    fn begin(&mut self, chance: &mut Chance) {
        let slots = match chance.below(12) {
            0 => MAX_RECORDS - chance.below(3),
            1..=3 => 1,
            4 | 5 => 9 + chance.below(50),
            _ => 2 + chance.below(7),
        };
        self.ledger = vec![0; HEAD_BYTES + slots * RECORD_BYTES];
        second::desk::start(&mut self.ledger);
        let clock = chance.one_of(&[0, 1000, 1 << 32, CLOCK_END - 2000, CLOCK_END - 700]);
        self.ledger[head::CLOCK].copy_from_slice(&clock.to_be_bytes());
        let clients = chance.one_of(&[1, 2, 3, 4, MAX_CLIENTS]);
        self.table = (0..clients).flat_map(|_| client(chance)).collect();
        self.left = slots * 4 + 60;
    }

    fn in_order(&self, kind: Kind, chance: &mut Chance) -> Request {
        let mut own: Vec<&[u8]> = self.table.chunks(CLIENT_BYTES).collect();
        let wanted = match kind {
            Kind::Decide | Kind::Pending => &[state::PUSHED][..],
            Kind::Token if chance.once_in(6) => &[state::REDEEMED],
            Kind::Token => &[state::CONSENTED],
            _ => &[state::REDEEMED],
        };
        let records: Vec<&Record> = ledger::records(&self.ledger).filter(|r| wanted.contains(&r[STATE])).collect();
        let record = if records.is_empty() { None } else { Some(chance.one_of(&records)) };
        if let Some(record) = record {
            own.retain(|client| client[..16] == record[CLIENT]);
        }
        let client = chance.one_of(&own);
        let challenge = record.map(|r| r[CHALLENGE].to_vec());
        let verifier = self.verifiers.iter().find(|v| challenge.as_deref() == Some(&s256(v)[..]));
        let verifier = verifier.cloned().unwrap_or_else(|| chance.one_of(&self.verifiers));
        let value = if matches!(kind, Kind::Resource | Kind::Introspect) { TOKEN } else { VALUE };
        let redirect_length = MIN_REDIRECT + chance.below(MAX_REDIRECT - MIN_REDIRECT + 1);
        let permitted = u32::from_be_bytes(client[48..52].try_into().unwrap());
        let granted = record.map_or(permitted, |r| u32::from_be_bytes(r[SCOPE].try_into().unwrap()));
        let bits = if kind == Kind::Resource { granted } else { permitted };
        let narrowed = bits & chance.number() as u32;
        Request {
            kind,
            ledger: self.ledger.clone(),
            table: self.table.clone(),
            output: vec![chance.byte(); output_length(kind, record, chance)],
            time: self.time(record, chance),
            client: client[..16].try_into().unwrap(),
            key: client[16..48].try_into().unwrap(),
            presented: match (kind, record) {
                (Kind::Resource, Some(r)) => r[BOUND_KEY].try_into().unwrap(),
                _ => chance.array(),
            },
            value: record.map_or_else(|| chance.array(), |r| r[value.clone()].try_into().unwrap()),
            fresh: chance.array(),
            scope: if narrowed == 0 { bits } else { narrowed },
            holder: match (kind, record) {
                (Kind::Resource, Some(r)) => ledger::number(&r[HOLDER]),
                _ => chance.one_of(&[1, 7, 10, 1 << 32, u64::MAX]),
            },
            yes: chance.one_of(&[1, 1, 1, 0]),
            challenge: s256(&chance.one_of(&self.verifiers)).to_vec(),
            redirect: (0..redirect_length)
                .map(|i| b"https://".get(i).copied().unwrap_or_else(|| 0x21 + chance.below(0x5e) as u8))
                .collect(),
            verifier,
        }
    }

    /// The clock's time, a little later, or next to the record's expiry.
    fn time(&self, record: Option<&Record>, chance: &mut Chance) -> u64 {
        let clock = ledger::clock(&self.ledger);
        let expiry = record.map_or(clock, |r| ledger::number(&r[EXPIRY]));
        match chance.below(12) {
            0 => expiry,
            1 => expiry.saturating_sub(1),
            2 => clock + chance.below(700) as u64,
            _ => clock + chance.below(4) as u64,
        }
    }

    fn spoil_ledger(&self, request: &mut Request, chance: &mut Chance) {
        let whole = &mut request.ledger;
        let slots = (whole.len() - HEAD_BYTES.min(whole.len())) / RECORD_BYTES;
        let used = whole.len().min(HEAD_BYTES + RECORD_BYTES * slots.clamp(1, 8));
        match chance.below(if slots == 0 { 3 } else { 12 }) {
            0 => {
                let length = chance.one_of(&[0, 1, 31, 32, 33, 287, 288, 289, 544, 51231, 51232, 51233, 51488]);
                whole.resize(length, chance.byte());
            }
            1 => {
                let length = whole.len();
                let lengths =
                    [length.saturating_sub(RECORD_BYTES), length.saturating_sub(1), length + 1, length + RECORD_BYTES];
                whole.resize(chance.one_of(&lengths).min(LEDGER_ROOM), 0);
            }
            2 => {
                let length = chance.one_of(&[whole.len(), 288, 300, 64]);
                *whole = chance.bytes(length);
            }
            3 => whole[chance.below(used)] ^= 1 << chance.below(8),
            4 => whole[chance.below(used)] = chance.byte(),
            5 => {
                let edges = [0, 1, 2, u64::MAX - 1, u64::MAX, 1 << 32];
                whole[head::NEXT_GRANT].copy_from_slice(&chance.one_of(&edges).to_be_bytes());
            }
            6 => {
                let edges = [0, request.time, request.time.wrapping_add(1), CLOCK_END - 1, CLOCK_END, u64::MAX];
                whole[head::CLOCK].copy_from_slice(&chance.one_of(&edges).to_be_bytes());
            }
            7 => {
                // one record over another
                let (from, to) = (chance.below(slots), chance.below(slots));
                let record = *ledger::record(whole, from);
                *ledger::record_mut(whole, to) = record;
            }
            8 => {
                // what one record holds, in a field of another
                let (from, to) = (chance.below(slots), chance.below(slots));
                let (out, into) = (chance.one_of(&[VALUE, TOKEN]), chance.one_of(&[VALUE, TOKEN, BOUND_KEY]));
                let value: [u8; 32] = ledger::record(whole, from)[out].try_into().unwrap();
                ledger::record_mut(whole, to)[into].copy_from_slice(&value);
            }
            9 => {
                let grant: [u8; 8] = ledger::record(whole, chance.below(slots))[GRANT].try_into().unwrap();
                ledger::record_mut(whole, chance.below(slots))[GRANT].copy_from_slice(&grant);
            }
            _ => spoil_record(ledger::record_mut(whole, chance.below(slots)), request.time, chance),
        }
    }

    fn spoil_request(&self, r: &mut Request, chance: &mut Chance) {
        let pool: Vec<[u8; 32]> = if r.ledger.len() > HEAD_BYTES {
            let fields = |record: &Record| [VALUE, TOKEN, BOUND_KEY].map(|field| record[field].try_into().unwrap());
            ledger::records(&r.ledger).flat_map(fields).collect()
        } else {
            Vec::new()
        };
        let value = |chance: &mut Chance| match chance.below(4) {
            0 => [0; 32],
            1 | 2 if !pool.is_empty() => chance.one_of(&pool),
            _ => chance.array(),
        };
        let any = chance.number();
        match chance.below(14) {
            0 => r.fresh = value(chance),
            1 => r.value = value(chance),
            2 => r.presented = value(chance),
            3 => r.key[chance.below(32)] ^= 1 << chance.below(8),
            4 => {
                let other = chance.below(self.table.len() / CLIENT_BYTES) * CLIENT_BYTES;
                let random = chance.array();
                r.client = chance.one_of(&[self.table[other..other + 16].try_into().unwrap(), [0; 16], random]);
            }
            5 => r.scope = chance.one_of(&[0, 1, u32::MAX, any as u32]),
            6 => r.holder = chance.one_of(&[0, 1, 7, u64::MAX, any]),
            7 => r.time = chance.one_of(&[0, r.time.wrapping_sub(1), CLOCK_END - 1, CLOCK_END, u64::MAX, any]),
            8 => r.yes = chance.byte(),
            9 => r
                .output
                .resize(chance.one_of(&[0, 1, OUTPUT_BYTES - 1, OUTPUT_BYTES, OUTPUT_BYTES + 1, TEXT_ROOM]), 0x5a),
            10 => spoil_text(
                &mut r.challenge,
                &[0, 1, CHALLENGE_CHARACTERS - 1, CHALLENGE_CHARACTERS, CHALLENGE_CHARACTERS + 1],
                chance,
            ),
            11 => r.verifier = chance.one_of(&self.verifiers),
            12 => spoil_text(&mut r.redirect, &[0, 8, MIN_REDIRECT, MAX_REDIRECT, MAX_REDIRECT + 1], chance),
            _ => spoil_text(
                &mut r.verifier,
                &[0, MIN_VERIFIER - 1, MIN_VERIFIER, MAX_VERIFIER, MAX_VERIFIER + 1],
                chance,
            ),
        }
    }
}

/// Long enough, and for introspect, whose texts differ in length, one byte too short as often as not.
fn output_length(kind: Kind, record: Option<&Record>, chance: &mut Chance) -> usize {
    if kind != Kind::Introspect {
        return OUTPUT_BYTES + chance.one_of(&[0, 0, 1, 70]);
    }
    let text = record.map_or(description::INACTIVE.len(), |record| description::of(record).len());
    chance.one_of(&[text, text, text - 1, text + 1, description::INACTIVE.len(), TEXT_ROOM])
}

fn client(chance: &mut Chance) -> [u8; CLIENT_BYTES] {
    let mut record = [0; CLIENT_BYTES];
    record[..16].copy_from_slice(&chance.array::<16>());
    record[16..48].copy_from_slice(&chance.array::<32>());
    record[48..52].copy_from_slice(&chance.one_of(&[5, 1, u32::MAX, 0]).to_be_bytes());
    let some = 1 + chance.below(usize::from(MAX_REFERENCE_LIFETIME)) as u16;
    record[52..54].copy_from_slice(&chance.one_of(&[0, 0, 1, some, MAX_REFERENCE_LIFETIME]).to_be_bytes());
    record
}

/// One field of a record set to an edge of what is allowed.
fn spoil_record(record: &mut Record, time: u64, chance: &mut Chance) {
    let expiry = [0, time, time.wrapping_add(1), EXPIRY_END - 1, EXPIRY_END, u64::MAX];
    match chance.below(11) {
        0 => record[STATE] = chance.one_of(&[0, 1, 2, 3, 4, 255]),
        1 => record[REDIRECT_LENGTH] = chance.one_of(&[0, 8, 9, 10, 63, 64, 65, 255]),
        2 => record[SCOPE].fill(chance.one_of(&[0, 1])),
        3 => record[GRANT].copy_from_slice(&chance.one_of(&[0, 1, 2, u64::MAX]).to_be_bytes()),
        4 => record[EXPIRY].copy_from_slice(&chance.one_of(&expiry).to_be_bytes()),
        5 => record[HOLDER].copy_from_slice(&chance.one_of(&[0u64, 7]).to_be_bytes()),
        6 => record[CLIENT].fill(0),
        7 => record[CHALLENGE][chance.below(CHALLENGE_CHARACTERS)] = chance.byte(),
        8 => record[REDIRECT][chance.below(MAX_REDIRECT)] = chance.byte(),
        9 => record[chance.one_of(&[VALUE, TOKEN, BOUND_KEY])].fill(chance.one_of(&[0, 0x77])),
        _ => record[chance.one_of(&[ZERO_BEFORE_SCOPE, ZERO_BEHIND_CHALLENGE])].fill(1),
    }
}

fn spoil_table(table: &mut Vec<u8>, chance: &mut Chance) {
    let clients = table.len() / CLIENT_BYTES;
    let at = chance.below(clients.max(1)) * CLIENT_BYTES;
    match chance.below(if clients == 0 { 2 } else { 9 }) {
        0 => table.resize(chance.one_of(&[0, 1, 63, 64, 65, 4095, 4096, 4097, 4160]), chance.byte()),
        1 => {
            let length = chance.one_of(&[table.len(), 64, 128, 100]);
            *table = chance.bytes(length);
        }
        2 => table[at + chance.below(CLIENT_BYTES)] ^= 1 << chance.below(8),
        3 => table[at..at + 16].fill(0),
        4 => table[at + 16..at + 48].fill(0),
        5 if chance.once_in(2) => table[at + 54 + chance.below(10)] = chance.byte(),
        5 => {
            let lifetimes = [MAX_REFERENCE_LIFETIME, MAX_REFERENCE_LIFETIME + 1, 0x5702, u16::MAX, chance.number() as u16];
            table[at + 52..at + 54].copy_from_slice(&chance.one_of(&lifetimes).to_be_bytes());
        }
        6 => table[at + 48..at + 52].fill(0),
        7 => {
            let id: [u8; 16] = table[at..at + 16].try_into().unwrap();
            let other = chance.below(clients) * CLIENT_BYTES;
            table[other..other + 16].copy_from_slice(&id);
        }
        _ => table.extend((clients..MAX_CLIENTS + 1).flat_map(|_| client(chance)).collect::<Vec<_>>()),
    }
}

fn spoil_text(text: &mut Vec<u8>, lengths: &[usize], chance: &mut Chance) {
    match chance.below(4) {
        0 => text.resize(chance.one_of(lengths), b'a'),
        1 => {
            let length = chance.one_of(lengths);
            *text = chance.bytes(length);
        }
        2 => text.resize(chance.below(TEXT_ROOM), chance.one_of(b"a~.\x20\x7f\0")),
        _ => {
            if !text.is_empty() {
                let at = chance.below(text.len());
                text[at] = chance.one_of(b"\0\x1f\x20!+./:=@[`{~\x7f\x80\xff");
            }
        }
    }
}
