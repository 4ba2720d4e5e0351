//! A front's process for the fault tests: reads commands, a line each, and prints a line for each answer that was handed out.
//!
//!   worker files:FOLDER | postgres:CONNECTION
//!
//! KEEPER_TICK is the length of a second in milliseconds, so that records expire within a test.

mod buyer;

use std::env;
use std::io::{self, BufRead};
use std::thread::sleep;
use std::time::{Duration, SystemTime, UNIX_EPOCH};

use buyer::*;
use perdigolh::*;
use perdigolh_keeper::{Engine, Failure, Files, Keeper, Options, Step};

fn main() {
    let place = env::args().nth(1).expect("worker PLACE");
    if let Some(folder) = place.strip_prefix("files:") {
        return serve(|| Files::new(folder));
    }
    #[cfg(feature = "postgres")]
    if let Some(connection) = place.strip_prefix("postgres:") {
        return serve(|| perdigolh_keeper::Postgres::new(connection));
    }
    panic!("no such place: {place}");
}

fn serve<E: Engine>(engine: impl Fn() -> E) {
    let mut keepers: Vec<(String, Keeper<E>)> = Vec::new();
    for line in io::stdin().lock().lines() {
        let line = line.expect("a line");
        let words: Vec<&str> = line.split(' ').collect();
        if words[0] == "at" {
            sleep(Duration::from_millis(words[1].parse::<u64>().expect("milliseconds").saturating_sub(now())));
            continue;
        }
        let name = words[1];
        if !keepers.iter().any(|(known, _)| known == name) {
            keepers.push((name.to_string(), keeper(engine(), name)));
        }
        let (_, keeper) = keepers.iter().find(|(known, _)| known == name).expect("just added");
        Front { keeper, name }.run(words[0], &words[2..]);
    }
}

fn now() -> u64 {
    SystemTime::now().duration_since(UNIX_EPOCH).expect("after 1970").as_millis() as u64
}

fn keeper<E: Engine>(engine: E, name: &str) -> Keeper<E> {
    let tick = env::var("KEEPER_TICK").map_or(1000, |tick| tick.parse().expect("milliseconds"));
    Keeper::new(engine, name).expect("a good name").with_time(move || now() / tick)
}

struct Front<'a, E> {
    keeper: &'a Keeper<E>,
    name: &'a str,
}

impl<E: Engine> Front<'_, E> {
    fn run(&self, command: &str, words: &[&str]) {
        match (command, words) {
            ("start", [records, options]) => self.start(number(records) as usize, options),
            ("push", [client]) => {
                self.push(number(client));
            }
            ("yes", [client, holder, reference]) => {
                self.yes(number(client), number(holder), value(reference));
            }
            ("token", [client, codes @ ..]) => {
                for code in codes {
                    self.token(number(client), value(code));
                }
            }
            ("read", [holder, token]) => self.read(number(holder), value(token)),
            ("sweep", []) => {
                self.call("sweep", |ledger| ledger.sweep());
            }
            ("grants", [count, client, holder]) => {
                for _ in 0..number(count) {
                    self.grant(number(client), number(holder));
                }
            }
            _ => panic!("no such command: {command} {words:?}"),
        }
    }

    /// A whole grant; it ends at the first step without an answer, but a yes in doubt is given once more.
    fn grant(&self, client: u64, holder: u64) -> Option<()> {
        let reference = self.push(client)?;
        let code = self.yes(client, holder, reference).or_else(|| self.yes(client, holder, reference))?;
        let token = self.token(client, code)?;
        self.read(holder, token);
        Some(())
    }

    fn start(&self, records: usize, options: &str) {
        let options = Options { journal: options.contains('j'), memo: options.contains('m') };
        match self.keeper.start(records, options) {
            Ok(()) => println!("started {}", self.name),
            Err(failure) => self.failed("start", failure),
        }
    }

    fn push(&self, client: u64) -> Option<[u8; 32]> {
        let pushed = self.call("push", |ledger| ledger.push(&table(), &push(client)))?;
        println!("push {} {} {client} {}", self.name, pushed.answer.grant, hex(&pushed.reference.0));
        Some(pushed.reference.0)
    }

    fn yes(&self, client: u64, holder: u64, reference: [u8; 32]) -> Option<[u8; 32]> {
        let decided = self.call("yes", |ledger| ledger.decide(&yes(client, holder, reference)))?;
        let code = decided.code.expect("a yes has a code").0;
        let redirect = String::from_utf8_lossy(&decided.redirect).into_owned();
        println!("yes {} {} {client} {holder} {} {redirect}", self.name, decided.answer.grant, hex(&code));
        Some(code)
    }

    fn token(&self, client: u64, code: [u8; 32]) -> Option<[u8; 32]> {
        let redeemed = self.call("token", |ledger| ledger.token(&table(), &redeem(client, code)))?;
        let (answer, token) = (redeemed.answer, redeemed.token.0);
        println!("token {} {} {client} {} {}", self.name, answer.grant, answer.holder, hex(&token));
        Some(token)
    }

    fn read(&self, holder: u64, token: [u8; 32]) {
        let read = Read { token: Token(token), presented: BOUND, scope: 4, holder };
        if let Some(answer) = self.call("read", |ledger| ledger.resource(&read)) {
            println!("read {} {} {} {}", self.name, answer.grant, answer.holder, hex(&token));
        }
    }

    fn call<T>(&self, call: &str, run: impl FnOnce(&mut Step<'_>) -> Result<T, Refusal>) -> Option<T> {
        match self.keeper.call(run) {
            Ok(Ok(answer)) => return Some(answer),
            Ok(Err(refusal)) => println!("refused {} {call} {}", self.name, refusal.number()),
            Err(failure) => self.failed(call, failure),
        }
        None
    }

    fn failed(&self, call: &str, failure: Failure) {
        let kind = match failure {
            Failure::NotMade(_) => "not-made",
            Failure::InDoubt(_) => "in-doubt",
            Failure::OldCopy { .. } => "old-copy",
            Failure::Damaged(_) => "damaged",
            Failure::Started => "started",
            Failure::NoLedger => "no-ledger",
            Failure::BadName => "bad-name",
        };
        println!("failed {} {call} {kind} {failure}", self.name);
    }
}
