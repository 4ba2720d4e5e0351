//! The line program: one frame of hexadecimal a line in, one answer a line out.

use std::io::{self, ErrorKind, Read, Write};

use crate::desk::{self, Answer, Refusal, DONE};
use crate::limits::form::{CHALLENGE_CHARACTERS, OUTPUT_BYTES};
use crate::limits::ledger::{HEAD_BYTES, MAX_RECORDS, RECORD_BYTES};
use crate::limits::line::{MAX_DIGITS, READ_BYTES};
use crate::limits::table::{CLIENT_BYTES, MAX_CLIENTS};

/// The answer to a line that is no frame.
const NO_FRAME: u8 = 0xff;

/// The ledger and the client table that the lines work on; both begin empty.
#[derive(Clone, Debug, Default, PartialEq, Eq)]
pub struct Program {
    pub ledger: Vec<u8>,
    pub table: Vec<u8>,
}

impl Program {
    /// Answers one line, given without its LF; the answer ends in LF.
    pub fn answer(&mut self, line: &[u8]) -> String {
        let bytes = bytes_of(line).and_then(|frame| self.frame(&frame));
        text_of(&bytes.unwrap_or(vec![NO_FRAME]))
    }

    fn frame(&mut self, frame: &[u8]) -> Option<Vec<u8>> {
        let (&kind, rest) = frame.split_first()?;
        let fields = Fields(rest);
        match kind {
            0x00 => self.start(fields),
            0x01 => self.push(fields),
            0x02 => self.decide(fields),
            0x03 => self.token(fields),
            0x04 => self.resource(fields),
            0x05 => self.sweep(fields),
            0x06 => self.client(fields),
            _ => None,
        }
    }

    fn start(&mut self, mut fields: Fields) -> Option<Vec<u8>> {
        let [slots] = *fields.take()?;
        fields.end()?;
        let slots = usize::from(slots);
        if !(1..=MAX_RECORDS).contains(&slots) {
            return Some(vec![Refusal::LedgerUnsound as u8]);
        }
        self.ledger = vec![0; HEAD_BYTES + slots * RECORD_BYTES];
        Some(vec![desk::start(&mut self.ledger)])
    }

    fn push(&mut self, mut fields: Fields) -> Option<Vec<u8>> {
        let now = fields.u64()?;
        let client = fields.take()?;
        let auth_key = fields.take()?;
        let scope = fields.u32()?;
        let challenge: &[u8; CHALLENGE_CHARACTERS] = fields.take()?;
        let fresh = fields.take()?;
        let redirect = fields.0;
        let (ledger, table) = (&mut self.ledger, &self.table);
        let answer =
            desk::push(ledger, table, now, client, auth_key, scope, challenge, redirect, fresh);
        Some(answer_bytes(&answer))
    }

    fn decide(&mut self, mut fields: Fields) -> Option<Vec<u8>> {
        let now = fields.u64()?;
        let client = fields.take()?;
        let reference = fields.take()?;
        let yes = match fields.take()? {
            [0] => false,
            [1] => true,
            _ => return None,
        };
        let holder = fields.u64()?;
        let fresh = fields.take()?;
        fields.end()?;
        let mut output = [0; OUTPUT_BYTES];
        let ledger = &mut self.ledger;
        let decided = desk::decide(ledger, now, client, reference, yes, holder, fresh, &mut output);
        let mut bytes = answer_bytes(&decided.answer);
        bytes.push(decided.redirect_length);
        bytes.extend(&output[..usize::from(decided.redirect_length)]);
        Some(bytes)
    }

    fn token(&mut self, mut fields: Fields) -> Option<Vec<u8>> {
        let now = fields.u64()?;
        let client = fields.take()?;
        let auth_key = fields.take()?;
        let presented = fields.take()?;
        let code = fields.take()?;
        let fresh = fields.take()?;
        let verifier = fields.0;
        let (ledger, table) = (&mut self.ledger, &self.table);
        let answer =
            desk::token(ledger, table, now, client, auth_key, presented, code, verifier, fresh);
        Some(answer_bytes(&answer))
    }

    fn resource(&mut self, mut fields: Fields) -> Option<Vec<u8>> {
        let now = fields.u64()?;
        let token = fields.take()?;
        let key = fields.take()?;
        let scope = fields.u32()?;
        let holder = fields.u64()?;
        fields.end()?;
        Some(answer_bytes(&desk::resource(&mut self.ledger, now, token, key, scope, holder)))
    }

    fn sweep(&mut self, mut fields: Fields) -> Option<Vec<u8>> {
        let now = fields.u64()?;
        fields.end()?;
        let swept = desk::sweep(&mut self.ledger, now);
        let mut bytes = vec![swept.number];
        for count in [swept.pushed, swept.consented, swept.redeemed] {
            bytes.extend(count.to_be_bytes());
        }
        Some(bytes)
    }

    fn client(&mut self, mut fields: Fields) -> Option<Vec<u8>> {
        let record: &[u8; CLIENT_BYTES] = fields.take()?;
        fields.end()?;
        if self.table.len() == MAX_CLIENTS * CLIENT_BYTES {
            return Some(vec![Refusal::TableUnsound as u8]);
        }
        self.table.extend(record);
        Some(vec![DONE])
    }
}

/// What is left of a frame behind the fields already taken.
struct Fields<'a>(&'a [u8]);

impl<'a> Fields<'a> {
    fn take<const N: usize>(&mut self) -> Option<&'a [u8; N]> {
        let field = self.0.get(..N)?;
        self.0 = &self.0[N..];
        field.try_into().ok()
    }

    fn u64(&mut self) -> Option<u64> {
        self.take().map(|bytes| u64::from_be_bytes(*bytes))
    }

    fn u32(&mut self) -> Option<u32> {
        self.take().map(|bytes| u32::from_be_bytes(*bytes))
    }

    fn end(&self) -> Option<()> {
        self.0.is_empty().then_some(())
    }
}

/// Answers every line of a whole input.
pub fn run(input: &[u8]) -> Vec<u8> {
    let mut output = Vec::new();
    serve(input, &mut output).expect("memory takes every write");
    output
}

/// Answers lines until the input ends; whatever can be answered is out before more input is awaited.
pub fn serve(mut input: impl Read, mut output: impl Write) -> io::Result<()> {
    let mut program = Program::default();
    let mut line = Vec::with_capacity(MAX_DIGITS + 1);
    let mut buffer = vec![0; READ_BYTES];
    loop {
        let count = match input.read(&mut buffer) {
            Err(error) if error.kind() == ErrorKind::Interrupted => continue,
            count => count?,
        };
        if count == 0 {
            break;
        }
        for piece in buffer[..count].split_inclusive(|&b| b == b'\n') {
            let (part, ended) = match piece.split_last() {
                Some((b'\n', part)) => (part, true),
                _ => (piece, false),
            };
            // One digit too many marks the line as no frame; the rest of it need not be kept.
            let room = MAX_DIGITS + 1 - line.len();
            line.extend(&part[..part.len().min(room)]);
            if ended {
                output.write_all(program.answer(&line).as_bytes())?;
                line.clear();
            }
        }
        output.flush()?;
    }
    if !line.is_empty() {
        output.write_all(program.answer(&line).as_bytes())?;
    }
    output.flush()
}

fn answer_bytes(answer: &Answer) -> Vec<u8> {
    let mut bytes = vec![answer.number];
    bytes.extend(answer.grant.to_be_bytes());
    bytes.extend(answer.holder.to_be_bytes());
    bytes.extend(answer.scope.to_be_bytes());
    bytes.extend(answer.expiry.to_be_bytes());
    bytes
}

fn bytes_of(line: &[u8]) -> Option<Vec<u8>> {
    if line.len() > MAX_DIGITS || line.len() % 2 != 0 {
        return None;
    }
    line.chunks_exact(2).map(|pair| Some(digit(pair[0])? << 4 | digit(pair[1])?)).collect()
}

fn digit(character: u8) -> Option<u8> {
    char::from(character).to_digit(16).map(|value| value as u8)
}

fn text_of(bytes: &[u8]) -> String {
    let mut text: String = bytes.iter().map(|byte| format!("{byte:02x}")).collect();
    text.push('\n');
    text
}
