//! What a front asks through the keeper: the desk's calls without time and fresh value, which the keeper adds under the lock.

use perdigolh::{Answer, ClientId, Code, Key, Reference, Token};

/// A buyer's program leaves its request. The front has checked before that the program holds the private key of `key`.
#[derive(Clone, Copy, Debug)]
pub struct Push<'a> {
    pub client: ClientId,
    pub key: Key,
    pub scope: u32,
    pub challenge: &'a [u8],
    pub redirect: &'a [u8],
}

#[derive(Clone, Copy, Debug, PartialEq, Eq)]
pub struct Pushed {
    pub reference: Reference,
    pub answer: Answer,
}

/// The request that the holder is to see, as it waits: its holder is 0.
#[derive(Clone, Debug, PartialEq, Eq)]
pub struct Shown {
    pub redirect: Vec<u8>,
    pub answer: Answer,
}

/// The holder decides. The front has checked before that `holder` has logged in and that she chose, seeing this request.
#[derive(Clone, Copy, Debug)]
pub struct Decide {
    pub reference: Reference,
    pub client: ClientId,
    pub yes: bool,
    pub holder: u64,
}

#[derive(Clone, Debug, PartialEq, Eq)]
pub struct Decided {
    /// After a yes.
    pub code: Option<Code>,
    pub redirect: Vec<u8>,
    pub answer: Answer,
}

/// The program redeems its code. The front has checked before that it holds the private keys of `key` and of `presented`.
#[derive(Clone, Copy, Debug)]
pub struct Redeem<'a> {
    pub client: ClientId,
    pub key: Key,
    /// The key that the token is bound to.
    pub presented: Key,
    pub code: Code,
    pub verifier: &'a [u8],
}

#[derive(Clone, Copy, Debug, PartialEq, Eq)]
pub struct Redeemed {
    pub token: Token,
    pub answer: Answer,
}
