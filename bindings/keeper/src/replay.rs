//! A journal's calls made again over the archive, from the start, with the answers that stand beside them.

use std::convert::TryInto;

use perdigolh::*;

use crate::frame;

/// The ledger and the client table as the calls so far left them.
#[derive(Default)]
pub struct Replay {
    pub ledger: Vec<u8>,
    table: Vec<u8>,
}

impl Replay {
    /// Makes a call and gives its answer, as the journal writes both; none where the call is of no form.
    pub fn call(&mut self, call: &str) -> Option<String> {
        let mut words = call.split(' ');
        let first = words.next()?;
        let words: Vec<Vec<u8>> = words.map(unword).collect::<Option<_>>()?;
        match (first, &words[..]) {
            (frame::TABLE, [table]) => {
                self.table = table.clone();
                Some(frame::DONE.to_string())
            }
            (frame::PUSH, [time, client, key, scope, challenge, fresh, redirect]) => {
                self.push(time, client, key, scope, challenge, fresh, redirect)
            }
            (frame::TOKEN, [time, client, key, presented, code, fresh, verifier]) => {
                self.token(time, client, key, presented, code, fresh, verifier)
            }
            (hex, []) => self.frame(&unword(hex)?),
            _ => None,
        }
    }

    fn frame(&mut self, bytes: &[u8]) -> Option<String> {
        let (&kind, rest) = bytes.split_first()?;
        match (kind, rest.len()) {
            (0, 1) => {
                self.ledger = vec![0; ledger_bytes(rest[0].into())];
                Ledger::start(&mut self.ledger).ok()?;
                Some(frame::DONE.to_string())
            }
            (1, 135..) => {
                let [time, client, key, scope, challenge, fresh, redirect] = cut(rest, [8, 16, 32, 4, 43, 32]);
                self.push(time, client, key, scope, challenge, fresh, redirect)
            }
            (2, 97) => {
                let [time, client, reference, yes, holder, fresh, _] = cut(rest, [8, 16, 32, 1, 8, 32]);
                self.decide(time, client, reference, yes, holder, fresh)
            }
            (3, 152..) => {
                let [time, client, key, presented, code, fresh, verifier] = cut(rest, [8, 16, 32, 32, 32, 32]);
                self.token(time, client, key, presented, code, fresh, verifier)
            }
            (4, 84) => {
                let [time, token, presented, scope, holder, _, _] = cut(rest, [8, 32, 32, 4, 8, 0]);
                let (token, presented) = (Token(array(token)?), Key(array(presented)?));
                let request = Read { token, presented, scope: number(scope)? as u32, holder: number(holder)? };
                Some(frame::answer(Ledger::lent(&mut self.ledger).resource(number(time)?, &request)))
            }
            (5, 8) => Some(frame::swept(Ledger::lent(&mut self.ledger).sweep(number(rest)?))),
            (6, CLIENT_SIZE) => {
                self.table.extend_from_slice(rest);
                Some(frame::DONE.to_string())
            }
            _ => None,
        }
    }

    #[allow(clippy::too_many_arguments)]
    fn push(
        &mut self,
        time: &[u8],
        client: &[u8],
        key: &[u8],
        scope: &[u8],
        challenge: &[u8],
        fresh: &[u8],
        redirect: &[u8],
    ) -> Option<String> {
        let (client, key, fresh) = (ClientId(array(client)?), Key(array(key)?), Reference(array(fresh)?));
        let request = Push { client, key, scope: number(scope)? as u32, challenge, redirect, fresh };
        Some(frame::answer(Ledger::lent(&mut self.ledger).push(number(time)?, &self.table, &request)))
    }

    fn decide(
        &mut self,
        time: &[u8],
        client: &[u8],
        reference: &[u8],
        yes: &[u8],
        holder: &[u8],
        fresh: &[u8],
    ) -> Option<String> {
        let choice = if yes == [1] { Choice::Yes(Code(array(fresh)?)) } else { Choice::No };
        let (reference, client) = (Reference(array(reference)?), ClientId(array(client)?));
        let request = Decide { reference, client, choice, holder: number(holder)? };
        let mut output = [0; OUTPUT_LEAST];
        let decided = Ledger::lent(&mut self.ledger).decide(number(time)?, &request, &mut output);
        let length = decided.map_or(0, |decided| decided.redirect_length);
        Some(frame::decided(decided.map(|decided| decided.answer), &output[..length]))
    }

    #[allow(clippy::too_many_arguments)]
    fn token(
        &mut self,
        time: &[u8],
        client: &[u8],
        key: &[u8],
        presented: &[u8],
        code: &[u8],
        fresh: &[u8],
        verifier: &[u8],
    ) -> Option<String> {
        let (client, key, presented) = (ClientId(array(client)?), Key(array(key)?), Key(array(presented)?));
        let (code, fresh) = (Code(array(code)?), Token(array(fresh)?));
        let request = Redeem { client, key, presented, code, verifier, fresh };
        Some(frame::answer(Ledger::lent(&mut self.ledger).token(number(time)?, &self.table, &request)))
    }
}

/// The fields of these widths, and what is left behind them.
fn cut(bytes: &[u8], widths: [usize; 6]) -> [&[u8]; 7] {
    let mut fields: [&[u8]; 7] = [&[]; 7];
    let mut rest = bytes;
    for (field, width) in fields.iter_mut().zip(widths) {
        let (part, behind) = rest.split_at(width);
        *field = part;
        rest = behind;
    }
    fields[6] = rest;
    fields
}

fn array<const N: usize>(bytes: &[u8]) -> Option<[u8; N]> {
    bytes.try_into().ok()
}

fn number(bytes: &[u8]) -> Option<u64> {
    if bytes.len() > 8 {
        return None;
    }
    Some(bytes.iter().fold(0, |number, &byte| number << 8 | u64::from(byte)))
}

fn unword(word: &str) -> Option<Vec<u8>> {
    if word == "-" {
        return Some(Vec::new());
    }
    if word.len() % 2 != 0 || !word.bytes().all(|byte| byte.is_ascii_hexdigit()) {
        return None;
    }
    (0..word.len()).step_by(2).map(|at| u8::from_str_radix(&word[at..at + 2], 16).ok()).collect()
}
