//! What each call is asked. Shown for a log they tell who asks for what, and no value, code, token, verifier or key.

use std::fmt;

use crate::{ClientId, Code, Key, Reference, Token};

/// A buyer's program leaves its request. The front has checked before that the program holds the private key of `key`.
#[derive(Clone, Copy)]
pub struct Push<'a> {
    pub client: ClientId,
    pub key: Key,
    pub scope: u32,
    pub challenge: &'a [u8],
    pub redirect: &'a [u8],
    /// The reference from then on: 32 bytes of the front's random source, drawn for this call.
    pub fresh: Reference,
}

/// The holder's choice.
#[derive(Clone, Copy, Debug)]
pub enum Choice {
    /// Allowed once. The value is the code from then on: 32 bytes of the front's random source, drawn for this call.
    Yes(Code),
    No,
}

/// The holder is to see a request before she decides on it.
#[derive(Clone, Copy, Debug)]
pub struct Pending {
    pub reference: Reference,
    pub client: ClientId,
}

/// The holder decides on a request. The front has checked before that `holder` is the person who has logged in, and that it is
/// she who chose, seeing this request.
#[derive(Clone, Copy, Debug)]
pub struct Decide {
    pub reference: Reference,
    pub client: ClientId,
    pub choice: Choice,
    pub holder: u64,
}

/// The program redeems its code. The front has checked before that it holds the private keys of `key` and of `presented`.
#[derive(Clone, Copy)]
pub struct Redeem<'a> {
    pub client: ClientId,
    pub key: Key,
    /// The key that the token is bound to.
    pub presented: Key,
    pub code: Code,
    pub verifier: &'a [u8],
    /// The token from then on: 32 bytes of the front's random source, drawn for this call.
    pub fresh: Token,
}

/// The program reads. The front has checked before that it holds the private key of `presented`.
#[derive(Clone, Copy, Debug)]
pub struct Read {
    pub token: Token,
    pub presented: Key,
    /// The bits that this reading needs, and the holder whose figures they are.
    pub scope: u32,
    pub holder: u64,
}

/// A text that is not shown, but for its length.
struct Unshown(usize);

impl fmt::Debug for Unshown {
    fn fmt(&self, to: &mut fmt::Formatter<'_>) -> fmt::Result {
        write!(to, "({} bytes)", self.0)
    }
}

impl fmt::Debug for Push<'_> {
    fn fmt(&self, to: &mut fmt::Formatter<'_>) -> fmt::Result {
        to.debug_struct("Push")
            .field("client", &self.client)
            .field("key", &self.key)
            .field("scope", &self.scope)
            .field("challenge", &Unshown(self.challenge.len()))
            .field("redirect", &Unshown(self.redirect.len())) // a program may put a secret of its own into it
            .field("fresh", &self.fresh)
            .finish()
    }
}

impl fmt::Debug for Redeem<'_> {
    fn fmt(&self, to: &mut fmt::Formatter<'_>) -> fmt::Result {
        to.debug_struct("Redeem")
            .field("client", &self.client)
            .field("key", &self.key)
            .field("presented", &self.presented)
            .field("code", &self.code)
            .field("verifier", &Unshown(self.verifier.len()))
            .field("fresh", &self.fresh)
            .finish()
    }
}
