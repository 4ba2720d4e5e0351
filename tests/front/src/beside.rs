//! One request through the archive and through the second program.

use perdigolh::raw;
use second::desk;

use crate::lent::{Lent, Place};

#[derive(Clone, Copy, Debug, PartialEq, Eq)]
pub enum Kind {
    Start,
    Push,
    Decide,
    Token,
    Resource,
    Sweep,
    Pending,
    Introspect,
}

impl Kind {
    pub const ALL: [Kind; 8] = [
        Kind::Start,
        Kind::Push,
        Kind::Decide,
        Kind::Token,
        Kind::Resource,
        Kind::Sweep,
        Kind::Pending,
        Kind::Introspect,
    ];

    /// The numbers that the call can give, in the order of the documents.
    pub fn numbers(self) -> &'static [u8] {
        match self {
            Kind::Start => &[1, 0],
            Kind::Push => &[1, 2, 3, 4, 5, 6, 7, 8, 9, 0],
            Kind::Decide => &[1, 2, 20, 10, 11, 12, 7, 0],
            Kind::Token => &[1, 2, 3, 4, 13, 5, 14, 15, 11, 16, 7, 0],
            Kind::Resource => &[1, 2, 17, 11, 18, 6, 19, 0],
            Kind::Sweep => &[1, 2, 0],
            Kind::Pending => &[1, 2, 20, 10, 11, 0],
            Kind::Introspect => &[1, 2, 20, 0],
        }
    }
}

/// All that any call is handed; a call reads what is its own.
#[derive(Clone, Debug)]
pub struct Request {
    pub kind: Kind,
    pub ledger: Vec<u8>,
    pub table: Vec<u8>,
    pub output: Vec<u8>,
    pub time: u64,
    pub client: [u8; 16],
    pub key: [u8; 32],
    pub presented: [u8; 32],
    /// The reference, the code or the token.
    pub value: [u8; 32],
    pub fresh: [u8; 32],
    pub scope: u32,
    pub holder: u64,
    pub yes: u8,
    pub challenge: Vec<u8>,
    pub redirect: Vec<u8>,
    pub verifier: Vec<u8>,
}

/// What a call leaves: its answer, and every byte that it was lent to write. What a call does not answer is 0.
#[derive(Clone, Debug, Default, PartialEq, Eq)]
pub struct Outcome {
    pub number: u8,
    pub grant: u64,
    pub holder: u64,
    pub scope: u32,
    pub expiry: u64,
    pub length: usize,
    pub freed: [usize; 3],
    pub ledger: Vec<u8>,
    pub output: Vec<u8>,
}

/// Through the second program. Nothing but 1 is a yes (docs/DECISIONS.md).
pub fn second(r: &Request) -> Outcome {
    let (mut ledger, mut output) = (r.ledger.clone(), r.output.clone());
    let l = &mut ledger;
    let of = |a: desk::Answer| Outcome {
        number: a.number,
        grant: a.grant,
        holder: a.holder,
        scope: a.scope,
        expiry: a.expiry,
        ..Outcome::default()
    };
    let outcome = match r.kind {
        Kind::Start => Outcome { number: desk::start(l), ..Outcome::default() },
        Kind::Push => {
            of(desk::push(l, &r.table, r.time, &r.client, &r.key, r.scope, &r.challenge, &r.redirect, &r.fresh))
        }
        Kind::Decide => {
            let d = desk::decide(l, r.time, &r.client, &r.value, r.yes == 1, r.holder, &r.fresh, &mut output);
            Outcome { length: d.redirect_length.into(), ..of(d.answer) }
        }
        Kind::Token => {
            of(desk::token(l, &r.table, r.time, &r.client, &r.key, &r.presented, &r.value, &r.verifier, &r.fresh))
        }
        Kind::Resource => of(desk::resource(l, r.time, &r.value, &r.presented, r.scope, r.holder)),
        Kind::Sweep => {
            let s = desk::sweep(l, r.time);
            let freed = [s.pushed, s.consented, s.redeemed].map(usize::from);
            Outcome { number: s.number, freed, ..Outcome::default() }
        }
        Kind::Pending => {
            let d = desk::pending(l, r.time, &r.client, &r.value, &mut output);
            Outcome { length: d.redirect_length.into(), ..of(d.answer) }
        }
        Kind::Introspect => {
            let i = desk::introspect(l, r.time, &r.value, &mut output);
            Outcome { number: i.number, length: i.length, ..Outcome::default() }
        }
    };
    Outcome { ledger, output, ..outcome }
}

/// Fenced memory for all that one call is lent.
pub struct Archive {
    ledger: Lent,
    table: Lent,
    output: Lent,
    challenge: Lent,
    redirect: Lent,
    verifier: Lent,
    client: Lent,
    key: Lent,
    presented: Lent,
    value: Lent,
    fresh: Lent,
}

impl Archive {
    /// Room for ledgers and tables of up to this many bytes, and for texts and outputs of up to a page.
    pub fn with_room(ledger: usize, table: usize) -> Archive {
        let small = || Lent::with_room(1);
        Archive {
            ledger: Lent::with_room(ledger),
            table: Lent::with_room(table),
            output: small(),
            challenge: small(),
            redirect: small(),
            verifier: small(),
            client: small(),
            key: small(),
            presented: small(),
            value: small(),
            fresh: small(),
        }
    }

    /// Through the archive; what it must not do, in words.
    pub fn call(&mut self, r: &Request, place: Place) -> Result<Outcome, String> {
        for (lent, bytes) in self.lent_to_read(r) {
            lent.lay(bytes, place);
        }
        self.ledger.lay(&r.ledger, place);
        self.output.lay(&r.output, place);
        let outcome = self.made(r);
        for (lent, bytes) in self.lent_to_read(r) {
            if !lent.marks_stand() || lent.bytes() != bytes {
                return Err("wrote to what was lent to be read, or beside it".into());
            }
        }
        if !self.ledger.marks_stand() || !self.output.marks_stand() {
            return Err("wrote outside the ledger or the output".into());
        }
        Ok(Outcome { ledger: self.ledger.bytes().to_vec(), output: self.output.bytes().to_vec(), ..outcome })
    }

    fn lent_to_read<'a>(&'a mut self, r: &'a Request) -> [(&'a mut Lent, &'a [u8]); 9] {
        [
            (&mut self.table, &r.table[..]),
            (&mut self.challenge, &r.challenge),
            (&mut self.redirect, &r.redirect),
            (&mut self.verifier, &r.verifier),
            (&mut self.client, &r.client),
            (&mut self.key, &r.key),
            (&mut self.presented, &r.presented),
            (&mut self.value, &r.value),
            (&mut self.fresh, &r.fresh),
        ]
    }

    fn made(&self, r: &Request) -> Outcome {
        let (ledger, ledger_length) = (self.ledger.pointer(), self.ledger.length());
        let (client, key, presented) =
            (self.client.pointer().cast(), self.key.pointer().cast(), self.presented.pointer().cast());
        let (value, fresh) = (self.value.pointer().cast(), self.fresh.pointer().cast());
        let (output, output_length) = (self.output.pointer(), self.output.length());
        let of = |a: raw::Answer| Outcome {
            number: a.number,
            grant: a.grant,
            holder: a.holder,
            scope: a.scope,
            expiry: a.expiry,
            ..Outcome::default()
        };
        // SAFETY: each pointer has its bytes behind it, laid down apart from all others.
        unsafe {
            match r.kind {
                Kind::Start => Outcome { number: raw::perdigolh_start(ledger, ledger_length), ..Outcome::default() },
                Kind::Push => of(raw::perdigolh_push(
                    ledger,
                    ledger_length,
                    r.time,
                    self.table.pointer(),
                    self.table.length(),
                    client,
                    key,
                    r.scope,
                    self.challenge.pointer(),
                    self.challenge.length(),
                    self.redirect.pointer(),
                    self.redirect.length(),
                    fresh,
                )),
                Kind::Decide => {
                    let d = raw::perdigolh_decide(
                        ledger,
                        ledger_length,
                        r.time,
                        value,
                        client,
                        r.yes,
                        r.holder,
                        fresh,
                        output,
                        output_length,
                    );
                    Outcome { length: d.length.into(), ..of(d.answer) }
                }
                Kind::Token => of(raw::perdigolh_token(
                    ledger,
                    ledger_length,
                    r.time,
                    self.table.pointer(),
                    self.table.length(),
                    client,
                    key,
                    presented,
                    value,
                    self.verifier.pointer(),
                    self.verifier.length(),
                    fresh,
                )),
                Kind::Resource => {
                    of(raw::perdigolh_resource(ledger, ledger_length, r.time, value, presented, r.scope, r.holder))
                }
                Kind::Sweep => {
                    let s = raw::perdigolh_sweep(ledger, ledger_length, r.time);
                    let freed = [s.pushed, s.consented, s.redeemed];
                    Outcome { number: s.number, freed, ..Outcome::default() }
                }
                Kind::Pending => {
                    let d = raw::perdigolh_pending(ledger, ledger_length, r.time, value, client, output, output_length);
                    Outcome { length: d.length.into(), ..of(d.answer) }
                }
                Kind::Introspect => {
                    let i = raw::perdigolh_introspect(ledger, ledger_length, r.time, value, output, output_length);
                    Outcome { number: i.number, length: i.length, ..Outcome::default() }
                }
            }
        }
    }
}
