//! Calls a second through the keeper: keeper_bench PLACE OPTIONS LEDGERS CLIENTS MILLISECONDS
//!
//! PLACE is bare (no keeper: the calls alone, on a copy), files:FOLDER or postgres:CONNECTION; OPTIONS is j for a journal, - for none.
//! A client is a thread with an engine of its own that makes whole grants: push, yes, token, reading.

use std::collections::HashMap;
use std::env;
use std::sync::atomic::{AtomicBool, AtomicU64, Ordering::Relaxed};
use std::sync::{Arc, Mutex};
use std::thread;
use std::time::{Duration, Instant};

use perdigolh::*;
use perdigolh_keeper as keeper;
use perdigolh_keeper::{Engine, Failure, Files, Keeper, Kept, Name, Options, Postgres, StepOn};

const VERIFIER: &[u8] = b"dBjftJeZ4CVP-mB92K27uhbUJU1p1r_wW1gFWFOEjXk";
const CHALLENGE: &[u8] = b"E9Melhoa2OwvFrEMTJguCHaoeK1t8URWbuGJSstw-cM";
const BUYER: ClientId = ClientId([0xa1; 16]);
const KEY: Key = Key([0xa2; 32]);
const RECORDS: usize = 200;
/// A clock that is as fast as the calls: so many of them to a second, so that a sweep finds some of the 200 records expired.
const CALLS_A_SECOND: u64 = 2;

/// Engine 0: what is kept in memory. It stores nothing.
struct Bare(Mutex<HashMap<Name, Kept>>);

impl Engine for Bare {
    fn exchange(&self, name: &Name, step: &mut StepOn<'_>) -> Result<(), Failure> {
        let mut stored = self.0.lock().expect("no panic");
        if let Some(kept) = step(stored.get(name), 0)?.kept {
            stored.insert(name.clone(), kept);
        }
        Ok(())
    }
}

fn main() {
    let words: Vec<String> = env::args().skip(1).collect();
    let number = |at: usize| words[at].parse::<u64>().expect("a number");
    let (ledgers, clients, length) = (number(2), number(3), Duration::from_millis(number(4)));
    let options = Options { journal: words[1].contains('j'), memo: false };
    let rate = match words[0].split_once(':') {
        Some(("files", folder)) => measure(|| Files::new(folder), options, ledgers, clients, length),
        Some(("postgres", address)) => measure(|| Postgres::new(address), options, ledgers, clients, length),
        _ => measure(|| Bare(Default::default()), options, ledgers, clients, length),
    };
    println!("{rate:.0}");
}

fn measure<E: Engine + Send + Sync>(
    engine: impl Fn() -> E,
    options: Options,
    ledgers: u64,
    clients: u64,
    length: Duration,
) -> f64 {
    let clocks: Vec<Arc<AtomicU64>> = (0..ledgers).map(|_| Arc::new(AtomicU64::new(1000 * CALLS_A_SECOND))).collect();
    // a client has one engine, and a keeper for each ledger
    let keepers = || -> Vec<Keeper<Arc<E>>> {
        let engine = Arc::new(engine());
        let timed = |(at, clock): (usize, &Arc<AtomicU64>)| {
            let clock = Arc::clone(clock);
            let keeper = Keeper::new(Arc::clone(&engine), &format!("bench-{at}")).expect("a good name");
            keeper.with_time(move || clock.fetch_add(1, Relaxed) / CALLS_A_SECOND)
        };
        clocks.iter().enumerate().map(timed).collect()
    };
    let theirs: Vec<Vec<Keeper<Arc<E>>>> = (0..clients).map(|_| keepers()).collect();
    theirs[0].iter().for_each(|keeper| keeper.start(RECORDS, options).expect("a new ledger"));
    let (calls, over) = (AtomicU64::new(0), AtomicBool::new(false));
    let began = Instant::now();
    thread::scope(|threads| {
        for (client, keepers) in theirs.iter().enumerate() {
            let (calls, over) = (&calls, &over);
            threads.spawn(move || {
                for keeper in keepers.iter().cycle().skip(client * 7) {
                    if over.load(Relaxed) {
                        break;
                    }
                    calls.fetch_add(grant(keeper), Relaxed);
                }
            });
        }
        thread::sleep(length);
        over.store(true, Relaxed);
    });
    calls.load(Relaxed) as f64 / began.elapsed().as_secs_f64()
}

/// How many calls were made.
fn grant<E: Engine>(at: &Keeper<E>) -> u64 {
    let table = client_record(BUYER, KEY, 5, 0);
    let push = keeper::Push {
        client: BUYER,
        key: KEY,
        scope: 4,
        challenge: CHALLENGE,
        redirect: b"https://buyer.example/back",
    };
    let reference = match at.call(|ledger| ledger.push(&table, &push)).expect("stored") {
        Ok(pushed) => pushed.reference,
        Err(_) => return 1,
    };
    let yes = keeper::Decide { reference, client: BUYER, yes: true, holder: 7 };
    let code = match at.call(|ledger| ledger.decide(&yes)).expect("stored") {
        Ok(decided) => decided.code.expect("a yes has a code"),
        Err(_) => return 2,
    };
    let redeem = keeper::Redeem { client: BUYER, key: KEY, presented: KEY, code, verifier: VERIFIER };
    let token = match at.call(|ledger| ledger.token(&table, &redeem)).expect("stored") {
        Ok(redeemed) => redeemed.token,
        Err(_) => return 3,
    };
    let read = Read { token, presented: KEY, scope: 4, holder: 7 };
    at.call(|ledger| ledger.resource(&read)).expect("stored").map_or(4, |_| 4)
}
