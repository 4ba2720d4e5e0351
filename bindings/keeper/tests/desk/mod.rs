//! A buyer, a manager, and a folder that goes when the test is over.

#![allow(dead_code)]

use std::path::{Path, PathBuf};
use std::sync::atomic::{AtomicU64, Ordering};
use std::sync::Arc;

use perdigolh::*;
use perdigolh_keeper::*;

/// The pair of RFC 7636, Appendix B.
pub const VERIFIER: &[u8] = b"dBjftJeZ4CVP-mB92K27uhbUJU1p1r_wW1gFWFOEjXk";
pub const CHALLENGE: &[u8] = b"E9Melhoa2OwvFrEMTJguCHaoeK1t8URWbuGJSstw-cM";
pub const BUYER: ClientId = ClientId([0xa1; 16]);
pub const KEY: Key = Key([0xa2; 32]);
pub const BOUND: Key = Key([0xee; 32]);
pub const MANAGER: u64 = 7;

pub const PUSH: perdigolh_keeper::Push<'static> = perdigolh_keeper::Push {
    client: BUYER,
    key: KEY,
    scope: 4,
    challenge: CHALLENGE,
    redirect: b"https://buyer.example/back",
};

/// The buyer's references live 599 seconds.
pub fn table() -> Vec<u8> {
    client_record(BUYER, KEY, 5, 599).to_vec()
}

pub fn yes(reference: Reference) -> perdigolh_keeper::Decide {
    perdigolh_keeper::Decide { reference, client: BUYER, yes: true, holder: MANAGER }
}

pub fn redeem(code: Code) -> perdigolh_keeper::Redeem<'static> {
    perdigolh_keeper::Redeem { client: BUYER, key: KEY, presented: BOUND, code, verifier: VERIFIER }
}

pub fn read(token: Token) -> Read {
    Read { token, presented: BOUND, scope: 4, holder: MANAGER }
}

pub struct Room(pub PathBuf);

impl Room {
    pub fn new(name: &str) -> Room {
        let path = std::env::temp_dir().join(format!("keeper-{name}-{}", std::process::id()));
        let _ = std::fs::remove_dir_all(&path);
        std::fs::create_dir(&path).unwrap();
        Room(path)
    }

    pub fn path(&self) -> &Path {
        &self.0
    }

    pub fn file(&self, end: &str) -> PathBuf {
        self.0.join(format!("north.{end}"))
    }

    pub fn keeper(&self) -> Keeper<Files> {
        Keeper::new(Files::new(&self.0), "north").unwrap()
    }

    /// A started ledger, and a clock to be set by hand.
    pub fn started(&self, records: usize, options: Options) -> (Keeper<Files>, Arc<AtomicU64>) {
        let clock = Arc::new(AtomicU64::new(1000));
        let keeper = self.timed(&clock);
        keeper.start(records, options).unwrap();
        (keeper, clock)
    }

    pub fn timed(&self, clock: &Arc<AtomicU64>) -> Keeper<Files> {
        let clock = Arc::clone(clock);
        self.keeper().with_time(move || clock.load(Ordering::SeqCst))
    }
}

impl Drop for Room {
    fn drop(&mut self) {
        let _ = std::fs::remove_dir_all(&self.0);
    }
}
