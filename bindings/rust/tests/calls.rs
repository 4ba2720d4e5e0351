//! Whole grants and every refusal through the safe calls; the numbers expected are the documents'.

use perdigolh::*;

const VERIFIER: &[u8] = b"dBjftJeZ4CVP-mB92K27uhbUJU1p1r_wW1gFWFOEjXk";
const CHALLENGE: &[u8] = b"E9Melhoa2OwvFrEMTJguCHaoeK1t8URWbuGJSstw-cM";
const BUYER: ClientId = ClientId([0xa1; 16]);
const OTHER: ClientId = ClientId([0xb1; 16]);
const KEY: Key = Key([0xa2; 32]);
const BOUND: Key = Key([0xee; 32]);
const REFERENCE: Reference = Reference([0x11; 32]);
const CODE: Code = Code([0x22; 32]);
const TOKEN: Token = Token([0x33; 32]);
const HOLDER: u64 = 7;

const PUSH: Push =
    Push { client: BUYER, key: KEY, scope: 4, challenge: CHALLENGE, redirect: b"https://a", fresh: REFERENCE };
const YES: Decide = Decide { reference: REFERENCE, client: BUYER, choice: Choice::Yes(CODE), holder: HOLDER };
const NO: Decide = Decide { choice: Choice::No, ..YES };
const REDEEM: Redeem =
    Redeem { client: BUYER, key: KEY, presented: BOUND, code: CODE, verifier: VERIFIER, fresh: TOKEN };
const PENDING: Pending = Pending { reference: REFERENCE, client: BUYER };
const READ: Read = Read { token: TOKEN, presented: BOUND, scope: 4, holder: HOLDER };

/// A started ledger of two records with a table of two clients, brought as far as asked.
struct World {
    bytes: Vec<u8>,
    table: Vec<u8>,
    output: Vec<u8>,
}

#[derive(PartialEq, PartialOrd)]
enum Far {
    Started,
    Pushed,
    Consented,
    Redeemed,
}

impl World {
    fn at(far: Far) -> World {
        let mut bytes = vec![0xff; ledger_bytes(2)];
        Ledger::start(&mut bytes).unwrap();
        let mut table = client_record(BUYER, KEY, 5, 599).to_vec();
        table.extend(client_record(OTHER, KEY, 5, 0));
        let mut world = World { bytes, table, output: vec![0xcc; OUTPUT_LEAST + 6] };
        if far >= Far::Pushed {
            world.push(1000, PUSH).unwrap();
        }
        if far >= Far::Consented {
            world.decide(1000, YES).unwrap();
        }
        if far >= Far::Redeemed {
            world.token(1059, REDEEM).unwrap();
        }
        world
    }

    /// Makes a call; a refusal must leave ledger and output as they were, all but 15.
    fn call<T>(
        &mut self,
        call: impl FnOnce(&mut Ledger, &[u8], &mut [u8]) -> Result<T, Refusal>,
    ) -> Result<T, Refusal> {
        let before = (self.bytes.clone(), self.output.clone());
        let result = call(&mut Ledger::lent(&mut self.bytes), &self.table, &mut self.output);
        if matches!(result, Err(refusal) if refusal != Refusal::CodeRedeemed) {
            assert!(before == (self.bytes.clone(), self.output.clone()), "a refusal changed something");
        }
        result
    }

    fn push(&mut self, time: u64, request: Push) -> Result<Answer, Refusal> {
        self.call(|ledger, table, _| ledger.push(time, table, &request))
    }

    fn decide(&mut self, time: u64, request: Decide) -> Result<Decided, Refusal> {
        self.call(|ledger, _, output| ledger.decide(time, &request, output))
    }

    fn token(&mut self, time: u64, request: Redeem) -> Result<Answer, Refusal> {
        self.call(|ledger, table, _| ledger.token(time, table, &request))
    }

    fn resource(&mut self, time: u64, request: Read) -> Result<Answer, Refusal> {
        self.call(|ledger, _, _| ledger.resource(time, &request))
    }

    fn sweep(&mut self, time: u64) -> Result<Swept, Refusal> {
        self.call(|ledger, _, _| ledger.sweep(time))
    }

    /// Makes a call that only reads: the ledger must be afterwards what it was.
    fn read<T>(&mut self, call: impl FnOnce(&Ledger, &mut [u8]) -> Result<T, Refusal>) -> Result<T, Refusal> {
        let before = self.bytes.clone();
        let result = self.call(|ledger, _, output| call(ledger, output));
        assert!(before == self.bytes, "a call that only reads wrote to the ledger");
        result
    }

    fn pending(&mut self, time: u64, request: Pending) -> Result<Shown, Refusal> {
        self.read(|ledger, output| ledger.pending(time, &request, output))
    }

    fn introspect(&mut self, time: u64, token: Token) -> Result<String, Refusal> {
        self.read(|ledger, output| ledger.introspect(time, &token, output).map(str::to_owned))
    }
}

#[test]
fn a_grant_from_push_to_reading() {
    let mut world = World::at(Far::Started);
    let pushed = world.push(1000, PUSH).unwrap();
    assert_eq!(pushed, Answer { grant: 1, holder: 0, scope: 4, expiry: 1599 });
    let decided = world.decide(1010, YES).unwrap();
    assert_eq!(decided.answer, Answer { grant: 1, holder: HOLDER, scope: 4, expiry: 1070 });
    assert_eq!(&world.output[..decided.redirect_length], b"https://a");
    assert!(world.output[decided.redirect_length..OUTPUT_LEAST].iter().all(|&byte| byte == 0));
    assert!(world.output[OUTPUT_LEAST..].iter().all(|&byte| byte == 0xcc));
    let redeemed = Answer { grant: 1, holder: HOLDER, scope: 4, expiry: 1320 };
    assert_eq!(world.token(1020, REDEEM), Ok(redeemed));
    assert_eq!(world.resource(1030, READ), Ok(redeemed));
    assert_eq!(world.sweep(1319), Ok(Swept { pushed: 0, consented: 0, redeemed: 0 }));
    assert_eq!(world.sweep(1320), Ok(Swept { pushed: 0, consented: 0, redeemed: 1 }));
    assert_eq!(world.resource(1320, READ), Err(Refusal::NoToken));
}

#[test]
fn a_no_frees_the_record() {
    let mut world = World::at(Far::Pushed);
    let decided = world.decide(1010, NO).unwrap();
    assert_eq!(decided.answer, Answer { grant: 1, holder: HOLDER, scope: 0, expiry: 0 });
    assert_eq!(&world.output[..decided.redirect_length], b"https://a");
    assert_eq!(world.decide(1010, YES), Err(Refusal::NoReference));
    assert_eq!(world.push(1010, PUSH).unwrap().grant, 2);
}

#[test]
fn start_by_its_length_alone() {
    for records in [LEDGER_LEAST, 2, LEDGER_MOST] {
        let mut bytes = vec![0xff; ledger_bytes(records)];
        Ledger::start(&mut bytes).unwrap();
        assert!(bytes.iter().enumerate().all(|(i, &byte)| byte == u8::from(i == 15)));
    }
    for length in [0, 1, 32, 287, 289, ledger_bytes(LEDGER_MOST) - 1, ledger_bytes(LEDGER_MOST + 1)] {
        let mut bytes = vec![0xff; length];
        assert_eq!(Ledger::start(&mut bytes).unwrap_err(), Refusal::LedgerUnsound);
        assert!(bytes.iter().all(|&byte| byte == 0xff));
    }
}

#[test]
fn push_is_refused_in_order() {
    use Refusal::*;
    let zero = Reference([0; 32]);
    let long = [b'a'; 65];
    let mut world = World::at(Far::Started);
    world.sweep(5).unwrap();
    assert_eq!(world.push(4, PUSH), Err(TimeWrong));
    assert_eq!(world.push(1 << 40, PUSH), Err(TimeWrong));
    assert_eq!(world.push(5, Push { client: ClientId([9; 16]), ..PUSH }), Err(ClientUnknown));
    assert_eq!(world.push(5, Push { key: Key([9; 32]), ..PUSH }), Err(ClientUnknown));
    for redirect in [&b"https://"[..], b"http://ab", b"", b"https://\x20", &long] {
        assert_eq!(world.push(5, Push { redirect, scope: 0, ..PUSH }), Err(IllFormed));
    }
    for challenge in [&CHALLENGE[1..], b"", &long[..44], b"E9Melhoa2OwvFrEMTJguCHaoeK1t8URWbuGJSstw.cM"] {
        assert_eq!(world.push(5, Push { challenge, scope: 0, ..PUSH }), Err(IllFormed));
    }
    assert_eq!(world.push(5, Push { scope: 0, fresh: zero, ..PUSH }), Err(ScopeRefused));
    assert_eq!(world.push(5, Push { scope: 2, fresh: zero, ..PUSH }), Err(ScopeRefused));
    assert_eq!(world.push(5, Push { fresh: zero, ..PUSH }), Err(FreshTaken));
    world.push(5, PUSH).unwrap();
    assert_eq!(world.push(5, PUSH), Err(FreshTaken));
    world.push(5, Push { fresh: Reference([0x12; 32]), ..PUSH }).unwrap();
    assert_eq!(world.push(5, Push { fresh: Reference([0x13; 32]), ..PUSH }), Err(LedgerFull));

    let mut world = World::at(Far::Started);
    world.bytes[8..16].fill(0xff);
    assert_eq!(world.push(5, PUSH), Err(NumbersSpent));
    world.bytes[15] = 0xfe;
    assert_eq!(world.push(5, PUSH).unwrap().grant, u64::MAX - 1);

    let mut world = World::at(Far::Started);
    world.table[63] = 1;
    assert_eq!(world.push(5, PUSH), Err(TableUnsound));
    world.table.clear();
    assert_eq!(world.push(5, PUSH), Err(TableUnsound));
    world.bytes[16] = 1;
    assert_eq!(world.push(1 << 40, PUSH), Err(LedgerUnsound));
}

#[test]
fn a_reference_lives_as_its_clients_record_says() {
    let table = |said| [client_record(OTHER, KEY, 5, 599), client_record(BUYER, KEY, 5, said)].concat();
    for (said, seconds) in [(0, REFERENCE_LIFETIME), (1, 1), (256, 256), (599, REFERENCE_MOST)] {
        for (time, result) in [(999 + seconds, Ok(1)), (1000 + seconds, Err(Refusal::RecordExpired))] {
            let mut world = World { table: table(said), ..World::at(Far::Started) };
            assert_eq!(world.push(1000, PUSH).unwrap().expiry, 1000 + seconds);
            assert_eq!(world.decide(time, YES).map(|decided| decided.answer.grant), result);
        }
    }
    let mut world = World { table: table(600), ..World::at(Far::Consented) };
    assert_eq!(world.push(1000, PUSH), Err(Refusal::TableUnsound));
    assert_eq!(world.token(1000, REDEEM), Err(Refusal::TableUnsound));
}

#[test]
fn decide_is_refused_in_order() {
    use Refusal::*;
    let mut world = World::at(Far::Pushed);
    let taken = Decide { choice: Choice::Yes(Code(REFERENCE.0)), ..YES };
    assert_eq!(world.decide(1000, Decide { reference: Reference([0x22; 32]), ..YES }), Err(NoReference));
    assert_eq!(world.decide(1000, Decide { client: OTHER, ..YES }), Err(NoReference));
    assert_eq!(world.decide(1599, Decide { holder: 0, ..YES }), Err(RecordExpired));
    assert_eq!(world.decide(1598, Decide { holder: 0, ..taken }), Err(NoHolder));
    assert_eq!(world.decide(1598, taken), Err(FreshTaken));
    assert_eq!(world.decide(1598, Decide { choice: Choice::Yes(Code([0; 32])), ..YES }), Err(FreshTaken));
    assert_eq!(world.decide(999, YES), Err(TimeWrong));
    world.output.truncate(OUTPUT_LEAST - 1);
    assert_eq!(world.decide(999, YES), Err(TimeWrong));
    assert_eq!(world.decide(1599, Decide { client: OTHER, ..YES }), Err(OutputShort));
    world.output.clear();
    assert_eq!(world.decide(1598, NO), Err(OutputShort));
    world.output.resize(OUTPUT_LEAST, 0xcc);
    world.bytes[0] = 1;
    assert_eq!(world.decide(1598, YES), Err(LedgerUnsound));
    world.bytes[0] = 0;
    world.decide(1598, YES).unwrap();
    assert_eq!(world.decide(1598, YES), Err(NoReference));
}

#[test]
fn token_is_refused_in_order() {
    use Refusal::*;
    let mut world = World::at(Far::Consented);
    let long = [b'a'; 129];
    assert_eq!(world.token(999, REDEEM), Err(TimeWrong));
    assert_eq!(world.token(1059, Redeem { client: ClientId([9; 16]), ..REDEEM }), Err(ClientUnknown));
    assert_eq!(world.token(1059, Redeem { key: BOUND, ..REDEEM }), Err(ClientUnknown));
    assert_eq!(world.token(1059, Redeem { presented: Key([0; 32]), verifier: b"", ..REDEEM }), Err(NoKey));
    for verifier in [&VERIFIER[1..], b"", &long, b"dBjftJeZ4CVP-mB92K27uhbUJU1p1r_wW1gFWFOEjX/"] {
        assert_eq!(world.token(1059, Redeem { verifier, ..REDEEM }), Err(IllFormed));
    }
    assert_eq!(world.token(1060, Redeem { code: Code([9; 32]), ..REDEEM }), Err(NoCode));
    assert_eq!(world.token(1060, Redeem { client: OTHER, ..REDEEM }), Err(NoCode));
    assert_eq!(world.token(1060, Redeem { verifier: &long[..128], ..REDEEM }), Err(RecordExpired));
    assert_eq!(
        world.token(1059, Redeem { verifier: &long[..43], fresh: Token([0; 32]), ..REDEEM }),
        Err(VerifierDiffers)
    );
    assert_eq!(world.token(1059, Redeem { fresh: Token([0; 32]), ..REDEEM }), Err(FreshTaken));
    assert_eq!(world.token(1059, Redeem { fresh: Token(CODE.0), ..REDEEM }), Err(FreshTaken));
    world.token(1059, REDEEM).unwrap();
    assert_eq!(world.token(9999, Redeem { client: OTHER, ..REDEEM }), Err(NoCode));
    assert_eq!(world.token(9999, Redeem { verifier: &long[..43], ..REDEEM }), Err(CodeRedeemed));
    assert!(world.bytes[32..].iter().all(|&byte| byte == 0), "the record is free");
    assert_eq!(world.bytes[..8], 9999u64.to_be_bytes());
    assert_eq!(world.token(9999, REDEEM), Err(NoCode));
    world.table[0..16].fill(0);
    assert_eq!(world.token(9999, REDEEM), Err(TableUnsound));
    world.bytes.push(0);
    assert_eq!(world.token(9999, REDEEM), Err(LedgerUnsound));
}

#[test]
fn resource_is_refused_in_order() {
    use Refusal::*;
    let mut world = World::at(Far::Redeemed);
    assert_eq!(world.resource(1058, READ), Err(TimeWrong));
    for value in [CODE.0, REFERENCE.0, [0; 32]] {
        assert_eq!(world.resource(1059, Read { token: Token(value), ..READ }), Err(NoToken));
    }
    assert_eq!(world.resource(1359, Read { presented: KEY, ..READ }), Err(RecordExpired));
    assert_eq!(world.resource(1358, Read { presented: KEY, scope: 0, ..READ }), Err(KeyDiffers));
    assert_eq!(world.resource(1358, Read { scope: 0, holder: 8, ..READ }), Err(ScopeRefused));
    assert_eq!(world.resource(1358, Read { scope: 1, holder: 8, ..READ }), Err(ScopeRefused));
    assert_eq!(world.resource(1358, Read { holder: 8, ..READ }), Err(HolderDiffers));
    world.table.clear();
    world.resource(1358, READ).unwrap();
    world.bytes[31] = 1;
    assert_eq!(world.resource(1358, READ), Err(LedgerUnsound));
}

#[test]
fn sweep_frees_by_state() {
    let mut world = World::at(Far::Redeemed);
    world.push(1059, PUSH).unwrap();
    assert_eq!(world.sweep(1058), Err(Refusal::TimeWrong));
    assert_eq!(world.sweep(1359), Ok(Swept { pushed: 0, consented: 0, redeemed: 1 }));
    world.decide(1400, YES).unwrap();
    assert_eq!(world.sweep(1460), Ok(Swept { pushed: 0, consented: 1, redeemed: 0 }));
    assert_eq!(world.sweep(1 << 40), Err(Refusal::TimeWrong));
    assert_eq!(world.sweep((1 << 40) - 1), Ok(Swept { pushed: 0, consented: 0, redeemed: 0 }));
    world.bytes[0] = 1;
    assert_eq!(world.sweep((1 << 40) - 1), Err(Refusal::LedgerUnsound));
}

#[test]
fn pending_shows_what_decide_then_allows() {
    let mut world = World::at(Far::Pushed);
    let shown = world.pending(1010, PENDING).unwrap();
    assert_eq!(shown.answer, Answer { grant: 1, holder: 0, scope: 4, expiry: 1599 });
    let output = std::mem::replace(&mut world.output, vec![0xcc; OUTPUT_LEAST + 6]);
    let decided = world.decide(1010, YES).unwrap();
    assert_eq!((decided.answer.grant, decided.answer.scope), (shown.answer.grant, shown.answer.scope));
    assert_eq!((decided.redirect_length, &world.output), (shown.redirect_length, &output));
}

#[test]
fn pending_is_refused_in_order() {
    use Refusal::*;
    let mut world = World::at(Far::Pushed);
    assert_eq!(world.pending(1599, Pending { client: OTHER, ..PENDING }), Err(NoReference));
    assert_eq!(world.pending(1599, Pending { reference: Reference(CODE.0), ..PENDING }), Err(NoReference));
    assert_eq!(world.pending(1599, PENDING), Err(RecordExpired));
    assert_eq!(world.pending(1598, PENDING).map(|shown| shown.answer.grant), Ok(1));
    world.output.truncate(OUTPUT_LEAST - 1);
    assert_eq!(world.pending(1599, Pending { client: OTHER, ..PENDING }), Err(OutputShort));
    assert_eq!(world.pending(999, PENDING), Err(TimeWrong));
    world.bytes[0] = 1;
    assert_eq!(world.pending(999, PENDING), Err(LedgerUnsound));
    assert_eq!(World::at(Far::Consented).pending(1010, PENDING), Err(NoReference));
}

/// The text of the grant that the tests make, as Python's json and base64 write it.
const LIVE: &str =
    "{\"active\":true,\"client_id\":\"a1a1a1a1a1a1a1a1a1a1a1a1a1a1a1a1\",\"sub\":\"7\",\"exp\":1359,\"scope\":\"s2\",\
                    \"cnf\":{\"x5t#S256\":\"7u7u7u7u7u7u7u7u7u7u7u7u7u7u7u7u7u7u7u7u7u4\"}}";
const INACTIVE: &str = "{\"active\":false}";

#[test]
fn introspect_tells_a_token() {
    let mut world = World::at(Far::Redeemed);
    world.output = vec![0xcc; TEXT_MOST];
    assert_eq!(world.introspect(1358, TOKEN).as_deref(), Ok(LIVE));
    assert!(world.output[LIVE.len()..].iter().all(|&byte| byte == 0xcc));
    for (time, value) in [(1359, TOKEN.0), (1059, CODE.0), (1059, [0; 32])] {
        assert_eq!(world.introspect(time, Token(value)).as_deref(), Ok(INACTIVE));
    }
}

#[test]
fn introspect_is_refused_in_order() {
    use Refusal::*;
    let mut world = World::at(Far::Redeemed);
    for (token, text) in [(TOKEN, LIVE), (Token(CODE.0), INACTIVE)] {
        world.output = vec![0xcc; text.len() - 1];
        assert_eq!(world.introspect(1358, token), Err(OutputShort));
        world.output = vec![0xcc; text.len()];
        assert_eq!(world.introspect(1358, token).as_deref(), Ok(text));
    }
    world.output.clear();
    assert_eq!(world.introspect(1059, TOKEN), Err(OutputShort));
    assert_eq!(world.introspect(1058, TOKEN), Err(TimeWrong));
    world.bytes[31] = 1;
    assert_eq!(world.introspect(1058, TOKEN), Err(LedgerUnsound));
}

#[test]
fn refusals_by_number() {
    assert_eq!(Refusal::ALL.len(), 20);
    for (place, &refusal) in Refusal::ALL.iter().enumerate() {
        assert_eq!(usize::from(refusal.number()), place + 1);
        assert_eq!(Refusal::of(refusal.number()), Some(refusal));
    }
    assert_eq!((Refusal::of(0), Refusal::of(21)), (None, None));
    assert_eq!(Refusal::CodeRedeemed.to_string(), "15: that record is in state 3, expired or not");
}

#[test]
fn the_archive_is_of_this_release() {
    assert_eq!(version(), VERSION_NUMBER);
    // SAFETY: it takes nothing and reads nothing.
    assert_eq!(unsafe { raw::perdigolh_interface_1() }, INTERFACE);
}
