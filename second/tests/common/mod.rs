//! A desk with two clients, and calls that are in order as they stand; a test changes one field and looks.
//! Every refusal seen here is also checked to have zeros beside its number and to change no lent byte.
#![allow(dead_code)]

use second::base64url::s256;
use second::desk::{self, Answer, Decided, Swept};

pub const A: [u8; 16] = [0xa1; 16];
pub const A_KEY: [u8; 32] = [0xa2; 32];
pub const A_PERMITTED: u32 = 5;
pub const B: [u8; 16] = [0xb1; 16];
pub const B_KEY: [u8; 32] = [0xb2; 32];
pub const REFERENCE: [u8; 32] = [0x11; 32];
pub const CODE: [u8; 32] = [0x22; 32];
pub const TOKEN: [u8; 32] = [0x33; 32];
pub const UNUSED: [u8; 32] = [0x77; 32];
pub const BOUND: [u8; 32] = [0xee; 32];
pub const HOLDER: u64 = 7;
/// RFC 7636, Appendix B.
pub const VERIFIER: &[u8] = b"dBjftJeZ4CVP-mB92K27uhbUJU1p1r_wW1gFWFOEjXk";
pub const CHALLENGE: &[u8] = b"E9Melhoa2OwvFrEMTJguCHaoeK1t8URWbuGJSstw-cM";

#[derive(Clone)]
pub struct Desk {
    pub ledger: Vec<u8>,
    pub table: Vec<u8>,
    pub output: Vec<u8>,
}

#[derive(Clone)]
pub struct Push {
    pub now: u64,
    pub client: [u8; 16],
    pub auth_key: [u8; 32],
    pub scope: u32,
    pub challenge: Vec<u8>,
    pub redirect: Vec<u8>,
    pub fresh: [u8; 32],
}

#[derive(Clone)]
pub struct Decide {
    pub now: u64,
    pub client: [u8; 16],
    pub reference: [u8; 32],
    pub yes: bool,
    pub holder: u64,
    pub fresh: [u8; 32],
}

#[derive(Clone)]
pub struct Token {
    pub now: u64,
    pub client: [u8; 16],
    pub auth_key: [u8; 32],
    pub presented_key: [u8; 32],
    pub code: [u8; 32],
    pub verifier: Vec<u8>,
    pub fresh: [u8; 32],
}

#[derive(Clone)]
pub struct Resource {
    pub now: u64,
    pub token: [u8; 32],
    pub presented_key: [u8; 32],
    pub scope: u32,
    pub holder: u64,
}

impl Default for Push {
    fn default() -> Self {
        Push {
            now: 1000,
            client: A,
            auth_key: A_KEY,
            scope: 4,
            challenge: CHALLENGE.to_vec(),
            redirect: b"https://a".to_vec(),
            fresh: REFERENCE,
        }
    }
}

impl Default for Decide {
    fn default() -> Self {
        Decide {
            now: 1000,
            client: A,
            reference: REFERENCE,
            yes: true,
            holder: HOLDER,
            fresh: CODE,
        }
    }
}

impl Default for Token {
    fn default() -> Self {
        Token {
            now: 1059,
            client: A,
            auth_key: A_KEY,
            presented_key: BOUND,
            code: CODE,
            verifier: VERIFIER.to_vec(),
            fresh: TOKEN,
        }
    }
}

impl Default for Resource {
    fn default() -> Self {
        Resource { now: 1059, token: TOKEN, presented_key: BOUND, scope: 4, holder: HOLDER }
    }
}

/// The record of a harbour kiosk: it says the longest lifetime.
pub fn client(id: [u8; 16], key: [u8; 32], permitted: u32) -> Vec<u8> {
    client_saying(id, key, permitted, 599)
}

pub fn client_saying(id: [u8; 16], key: [u8; 32], permitted: u32, lifetime: u16) -> Vec<u8> {
    [&id[..], &key, &permitted.to_be_bytes(), &lifetime.to_be_bytes(), &[0; 10]].concat()
}

impl Desk {
    pub fn started(slots: usize) -> Self {
        let mut ledger = vec![0xff; 32 + 256 * slots];
        assert_eq!(desk::start(&mut ledger), 0);
        let table = [client(A, A_KEY, A_PERMITTED), client(B, B_KEY, 2)].concat();
        Desk { ledger, table, output: vec![0xcc; 70] }
    }

    /// One record in state 1, and one free.
    pub fn pushed() -> Self {
        let mut desk = Desk::started(2);
        assert_eq!(desk.push(&Push::default()).number, 0);
        desk
    }

    /// One record in state 2, and one free.
    pub fn consented() -> Self {
        let mut desk = Desk::pushed();
        assert_eq!(desk.decide(&Decide::default()).answer.number, 0);
        desk
    }

    /// One record in state 3, and one free.
    pub fn redeemed() -> Self {
        let mut desk = Desk::consented();
        assert_eq!(desk.token(&Token::default()).number, 0);
        desk
    }

    /// Pushes with this challenge's verifier and consents, so that a token call may follow.
    pub fn consented_for(verifier: &[u8]) -> Self {
        let mut desk = Desk::started(2);
        let challenge = s256(verifier).to_vec();
        assert_eq!(desk.push(&Push { challenge, ..Push::default() }).number, 0);
        assert_eq!(desk.decide(&Decide::default()).answer.number, 0);
        desk
    }

    pub fn record(&self, place: usize) -> &[u8] {
        &self.ledger[32 + 256 * place..][..256]
    }

    pub fn clock(&self) -> u64 {
        u64::from_be_bytes(self.ledger[..8].try_into().unwrap())
    }

    pub fn push(&mut self, p: &Push) -> Answer {
        let before = self.clone();
        let (ledger, table) = (&mut self.ledger, &self.table);
        let answer = desk::push(
            ledger,
            table,
            p.now,
            &p.client,
            &p.auth_key,
            p.scope,
            &p.challenge,
            &p.redirect,
            &p.fresh,
        );
        self.check(&before, answer);
        answer
    }

    pub fn decide(&mut self, d: &Decide) -> Decided {
        let before = self.clone();
        let (ledger, output) = (&mut self.ledger, &mut self.output);
        let decided =
            desk::decide(ledger, d.now, &d.client, &d.reference, d.yes, d.holder, &d.fresh, output);
        self.check(&before, decided.answer);
        assert!(decided.answer.number == 0 || decided.redirect_length == 0);
        decided
    }

    pub fn token(&mut self, t: &Token) -> Answer {
        let before = self.clone();
        let (ledger, table) = (&mut self.ledger, &self.table);
        let answer = desk::token(
            ledger,
            table,
            t.now,
            &t.client,
            &t.auth_key,
            &t.presented_key,
            &t.code,
            &t.verifier,
            &t.fresh,
        );
        self.check(&before, answer);
        answer
    }

    pub fn resource(&mut self, r: &Resource) -> Answer {
        let before = self.clone();
        let ledger = &mut self.ledger;
        let answer = desk::resource(ledger, r.now, &r.token, &r.presented_key, r.scope, r.holder);
        self.check(&before, answer);
        answer
    }

    pub fn sweep(&mut self, now: u64) -> Swept {
        let before = self.clone();
        let swept = desk::sweep(&mut self.ledger, now);
        self.check(&before, Answer { number: swept.number, ..Answer::default() });
        assert!(swept.number == 0 || swept == Swept { number: swept.number, ..Swept::default() });
        swept
    }

    fn check(&self, before: &Desk, answer: Answer) {
        if answer.number != 0 {
            assert_eq!(answer, Answer { number: answer.number, ..Answer::default() });
            // Document 02, Q-3: 15 at token alone writes.
            let writes = answer.number == 15;
            assert!((writes || self.ledger == before.ledger) && self.output == before.output);
        }
    }
}
