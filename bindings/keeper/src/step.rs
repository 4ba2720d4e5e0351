//! The calls of one step, on a copy of what is stored, at one time.

use std::io;

use perdigolh::*;

use crate::journal::{self, Left};
use crate::requests::*;
use crate::{frame, memo, Change, Failure, Kept};

/// A ledger under its lock: a copy, which is stored once the step is over.
pub struct Step<'a> {
    kept: Kept,
    time: u64,
    draw: &'a dyn Fn() -> io::Result<[u8; 32]>,
    calls: String,
    trouble: Option<io::Error>,
}

impl<'a> Step<'a> {
    pub(crate) fn on(kept: &Kept, time: u64, draw: &'a dyn Fn() -> io::Result<[u8; 32]>) -> Step<'a> {
        Step { kept: kept.clone(), time, draw, calls: String::new(), trouble: None }
    }

    /// The time of this step, in seconds.
    pub fn time(&self) -> u64 {
        self.time
    }

    /// The ledger's bytes as they stand.
    pub fn bytes(&self) -> &[u8] {
        &self.kept.ledger
    }

    /// Draws the reference. Where the ledger is full it is swept, and the call made once more.
    pub fn push(&mut self, table: &[u8], request: &crate::Push) -> Result<Pushed, Refusal> {
        self.clients(table);
        let pushed = self.with_fresh(|step, fresh| step.push_once(table, request, fresh));
        if pushed == Err(Refusal::LedgerFull) && self.sweep().is_ok() {
            return self.with_fresh(|step, fresh| step.push_once(table, request, fresh));
        }
        pushed
    }

    /// Draws the code on a yes. Where the ledger keeps a memo, a yes that was given before and whose code waits gets the same
    /// answer, and no second decision is made.
    pub fn decide(&mut self, request: &crate::Decide) -> Result<crate::Decided, Refusal> {
        if !request.yes {
            return self.decide_once(request, Choice::No);
        }
        let again = memo::found(&self.kept.memo, &self.kept.ledger, request);
        if let Some(decided) = again {
            return Ok(decided);
        }
        let decided = self.with_fresh(|step, fresh| step.decide_once(request, Choice::Yes(Code(fresh))));
        if let (true, Ok(crate::Decided { code: Some(code), .. })) = (self.kept.options.memo, &decided) {
            memo::add(&mut self.kept.memo, request.reference, *code);
        }
        decided
    }

    /// Draws the token.
    pub fn token(&mut self, table: &[u8], request: &crate::Redeem) -> Result<Redeemed, Refusal> {
        self.clients(table);
        self.with_fresh(|step, fresh| step.token_once(table, request, fresh))
    }

    pub fn resource(&mut self, request: &Read) -> Result<Answer, Refusal> {
        let answer = Ledger::lent(&mut self.kept.ledger).resource(self.time, request);
        self.note(frame::resource(self.time, request), frame::answer(answer));
        answer
    }

    pub fn sweep(&mut self) -> Result<Swept, Refusal> {
        let swept = Ledger::lent(&mut self.kept.ledger).sweep(self.time);
        self.note(frame::sweep(self.time), frame::swept(swept));
        swept
    }

    /// The request that the holder is to see before she decides. It changes nothing, and the journal has nothing of it.
    pub fn pending(&mut self, request: &Pending) -> Result<crate::Shown, Refusal> {
        let mut output = [0; OUTPUT_LEAST];
        let shown = Ledger::lent(&mut self.kept.ledger).pending(self.time, request, &mut output)?;
        Ok(crate::Shown { redirect: output[..shown.redirect_length].to_vec(), answer: shown.answer })
    }

    /// The text of a token for a figure server (RFC 7662). It changes nothing, and the journal has nothing of it.
    pub fn introspect(&mut self, token: &Token) -> Result<String, Refusal> {
        let mut output = [0; TEXT_MOST];
        Ledger::lent(&mut self.kept.ledger).introspect(self.time, token, &mut output).map(str::to_owned)
    }

    /// What the step leaves to be stored. Whether it is stored is judged by the bytes, never by the number: a refusal may change
    /// them, and a reading within the same second does not.
    pub(crate) fn change(mut self, before: &Kept) -> Result<Change, Failure> {
        if let Some(trouble) = self.trouble {
            return Err(Failure::not_made(trouble));
        }
        self.kept.memo = memo::kept(&self.kept.memo, &self.kept.ledger);
        let changed = self.kept != *before;
        if changed {
            self.kept.step += 1;
        }
        let journal = if self.calls.is_empty() {
            String::new()
        } else {
            journal::block(Left::by(Some(before)), Left::by(Some(&self.kept)), &self.calls)
        };
        Ok(Change { kept: if changed { Some(self.kept) } else { None }, journal })
    }

    fn push_once(&mut self, table: &[u8], request: &crate::Push, fresh: [u8; 32]) -> Result<Pushed, Refusal> {
        let &crate::Push { client, key, scope, challenge, redirect } = request;
        let reference = Reference(fresh);
        let request = perdigolh::Push { client, key, scope, challenge, redirect, fresh: reference };
        let answer = Ledger::lent(&mut self.kept.ledger).push(self.time, table, &request);
        self.note(frame::push(self.time, &request), frame::answer(answer));
        answer.map(|answer| Pushed { reference, answer })
    }

    fn decide_once(&mut self, request: &crate::Decide, choice: Choice) -> Result<crate::Decided, Refusal> {
        let &crate::Decide { reference, client, holder, .. } = request;
        let request = perdigolh::Decide { reference, client, choice, holder };
        let mut output = [0; OUTPUT_LEAST];
        let decided = Ledger::lent(&mut self.kept.ledger).decide(self.time, &request, &mut output);
        let redirect = &output[..decided.map_or(0, |decided| decided.redirect_length)];
        let answer = decided.map(|decided| decided.answer);
        self.note(frame::decide(self.time, &request), frame::decided(answer, redirect));
        let code = if let Choice::Yes(code) = choice { Some(code) } else { None };
        answer.map(|answer| crate::Decided { code, redirect: redirect.to_vec(), answer })
    }

    fn token_once(&mut self, table: &[u8], request: &crate::Redeem, fresh: [u8; 32]) -> Result<Redeemed, Refusal> {
        let &crate::Redeem { client, key, presented, code, verifier } = request;
        let token = Token(fresh);
        let request = perdigolh::Redeem { client, key, presented, code, verifier, fresh: token };
        let answer = Ledger::lent(&mut self.kept.ledger).token(self.time, table, &request);
        self.note(frame::token(self.time, &request), frame::answer(answer));
        answer.map(|answer| Redeemed { token, answer })
    }

    /// Makes the call with a fresh value, and with another one where the first is taken.
    fn with_fresh<T>(
        &mut self,
        mut call: impl FnMut(&mut Step<'a>, [u8; 32]) -> Result<T, Refusal>,
    ) -> Result<T, Refusal> {
        let fresh = self.fresh();
        match call(self, fresh) {
            Err(Refusal::FreshTaken) => {
                let fresh = self.fresh();
                call(self, fresh)
            }
            answer => answer,
        }
    }

    /// A fresh value; zeros, which every call refuses, where there is none, and then the step comes to nothing.
    fn fresh(&mut self) -> [u8; 32] {
        (self.draw)().unwrap_or_else(|error| {
            self.trouble = Some(error);
            [0; 32]
        })
    }

    /// Writes down what the table has become since the journal had it last.
    fn clients(&mut self, table: &[u8]) {
        if !self.kept.options.journal || self.kept.table == table {
            return;
        }
        let known = &self.kept.table;
        let frames_can_say = [known.len(), table.len()].iter().all(|length| length % CLIENT_SIZE == 0)
            && table.len() <= table_bytes(TABLE_MOST);
        match table.strip_prefix(&known[..]) {
            Some(new) if frames_can_say => {
                new.chunks(CLIENT_SIZE).for_each(|record| self.note(frame::client(record), frame::DONE.to_string()))
            }
            _ => self.note(frame::table(table), frame::DONE.to_string()),
        }
        self.kept.table = table.to_vec();
    }

    fn note(&mut self, call: String, answer: String) {
        if self.kept.options.journal {
            self.calls += &format!("> {call}\n< {answer}\n");
        }
    }
}
