//! The line program of document 01 over the safe calls of the bindings, so that it can be run beside the others.

use std::io::{self, BufRead, Write};

use perdigolh::*;

const MOST_DIGITS: usize = 640;
const NO_FRAME: &[u8] = &[0xff];

#[derive(Default)]
struct Program {
    ledger: Vec<u8>,
    table: Vec<u8>,
}

fn main() -> io::Result<()> {
    let mut program = Program::default();
    let (mut input, mut output) = (io::stdin().lock(), io::BufWriter::new(io::stdout().lock()));
    let mut line = Vec::new();
    while input.read_until(b'\n', &mut line)? > 0 {
        let digits = line.strip_suffix(b"\n").unwrap_or(&line);
        let answer = bytes_of(digits).and_then(|frame| program.frame(&frame)).unwrap_or(NO_FRAME.to_vec());
        for byte in answer {
            write!(output, "{byte:02x}")?;
        }
        writeln!(output)?;
        line.clear();
    }
    output.flush()
}

fn bytes_of(line: &[u8]) -> Option<Vec<u8>> {
    if line.len() > MOST_DIGITS || line.len() % 2 != 0 {
        return None;
    }
    let digit = |byte: u8| char::from(byte).to_digit(16);
    line.chunks(2).map(|pair| Some((digit(pair[0])? * 16 + digit(pair[1])?) as u8)).collect()
}

/// What is left of a frame.
struct Fields<'a>(&'a [u8]);

impl<'a> Fields<'a> {
    fn array<const N: usize>(&mut self) -> Option<[u8; N]> {
        let field = self.0.get(..N)?;
        self.0 = &self.0[N..];
        field.try_into().ok()
    }

    fn number(&mut self) -> Option<u64> {
        self.array().map(u64::from_be_bytes)
    }

    fn bits(&mut self) -> Option<u32> {
        self.array().map(u32::from_be_bytes)
    }

    fn end(&self) -> Option<()> {
        self.0.is_empty().then_some(())
    }
}

impl Program {
    fn frame(&mut self, frame: &[u8]) -> Option<Vec<u8>> {
        let (&kind, rest) = frame.split_first()?;
        let mut fields = Fields(rest);
        match kind {
            0 => self.start(&mut fields),
            1 => self.push(&mut fields),
            2 => self.decide(&mut fields),
            3 => self.token(&mut fields),
            4 => self.resource(&mut fields),
            5 => self.sweep(&mut fields),
            6 => self.client(&mut fields),
            _ => None,
        }
    }

    fn start(&mut self, fields: &mut Fields) -> Option<Vec<u8>> {
        let [slots] = fields.array()?;
        fields.end()?;
        let mut bytes = vec![0xff; ledger_bytes(slots.into())];
        let number = match Ledger::start(&mut bytes) {
            Ok(_) => 0,
            Err(refusal) => return Some(vec![refusal.number()]),
        };
        self.ledger = bytes;
        Some(vec![number])
    }

    fn push(&mut self, fields: &mut Fields) -> Option<Vec<u8>> {
        let time = fields.number()?;
        let (client, key) = (ClientId(fields.array()?), Key(fields.array()?));
        let scope = fields.bits()?;
        let challenge: [u8; 43] = fields.array()?;
        let fresh = Reference(fields.array()?);
        let request = Push { client, key, scope, challenge: &challenge, redirect: fields.0, fresh };
        Some(answer(Ledger::lent(&mut self.ledger).push(time, &self.table, &request)))
    }

    fn decide(&mut self, fields: &mut Fields) -> Option<Vec<u8>> {
        let time = fields.number()?;
        let (client, reference) = (ClientId(fields.array()?), Reference(fields.array()?));
        let [yes] = fields.array()?;
        let holder = fields.number()?;
        let fresh = Code(fields.array()?);
        fields.end()?;
        let choice = match yes {
            0 => Choice::No,
            1 => Choice::Yes(fresh),
            _ => return None,
        };
        let mut output = [0; OUTPUT_LEAST];
        let request = Decide { reference, client, choice, holder };
        let decided = Ledger::lent(&mut self.ledger).decide(time, &request, &mut output);
        let length = decided.map_or(0, |decided| decided.redirect_length);
        let mut bytes = answer(decided.map(|decided| decided.answer));
        bytes.push(length as u8);
        bytes.extend(&output[..length]);
        Some(bytes)
    }

    fn token(&mut self, fields: &mut Fields) -> Option<Vec<u8>> {
        let time = fields.number()?;
        let (client, key, presented) = (ClientId(fields.array()?), Key(fields.array()?), Key(fields.array()?));
        let (code, fresh) = (Code(fields.array()?), Token(fields.array()?));
        let request = Redeem { client, key, presented, code, verifier: fields.0, fresh };
        Some(answer(Ledger::lent(&mut self.ledger).token(time, &self.table, &request)))
    }

    fn resource(&mut self, fields: &mut Fields) -> Option<Vec<u8>> {
        let time = fields.number()?;
        let (token, presented) = (Token(fields.array()?), Key(fields.array()?));
        let (scope, holder) = (fields.bits()?, fields.number()?);
        fields.end()?;
        Some(answer(Ledger::lent(&mut self.ledger).resource(time, &Read { token, presented, scope, holder })))
    }

    fn sweep(&mut self, fields: &mut Fields) -> Option<Vec<u8>> {
        let time = fields.number()?;
        fields.end()?;
        let swept = Ledger::lent(&mut self.ledger).sweep(time);
        let mut bytes = vec![number(&swept)];
        let counts = swept.map_or([0; 3], |swept| [swept.pushed, swept.consented, swept.redeemed]);
        bytes.extend(counts.iter().flat_map(|&count| (count as u16).to_be_bytes()));
        Some(bytes)
    }

    fn client(&mut self, fields: &mut Fields) -> Option<Vec<u8>> {
        let record: [u8; CLIENT_SIZE] = fields.array()?;
        fields.end()?;
        if self.table.len() == table_bytes(TABLE_MOST) {
            return Some(vec![Refusal::TableUnsound.number()]);
        }
        self.table.extend(record);
        Some(vec![0])
    }
}

fn number<T>(result: &Result<T, Refusal>) -> u8 {
    result.as_ref().err().map_or(0, |refusal| refusal.number())
}

fn answer(result: Result<Answer, Refusal>) -> Vec<u8> {
    let mut bytes = vec![number(&result)];
    let answer = result.unwrap_or(Answer { grant: 0, holder: 0, scope: 0, expiry: 0 });
    bytes.extend(answer.grant.to_be_bytes());
    bytes.extend(answer.holder.to_be_bytes());
    bytes.extend(answer.scope.to_be_bytes());
    bytes.extend(answer.expiry.to_be_bytes());
    bytes
}
