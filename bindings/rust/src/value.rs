//! What the calls are handed as arrays of bytes, each with a name. Their bytes are not shown.

use std::fmt;

/// A client's id, as the table has it. No secret: it is shown as it travels.
#[derive(Clone, Copy, PartialEq, Eq, Hash)]
pub struct ClientId(pub [u8; 16]);

impl fmt::Debug for ClientId {
    fn fmt(&self, to: &mut fmt::Formatter<'_>) -> fmt::Result {
        write!(to, "ClientId({})", self.to_text())
    }
}

macro_rules! hidden {
    ($($(#[$words:meta])* $name:ident;)*) => {$(
        $(#[$words])*
        #[derive(Clone, Copy, PartialEq, Eq, Hash)]
        pub struct $name(pub [u8; 32]);

        impl fmt::Debug for $name {
            /// Its bytes are not shown.
            fn fmt(&self, to: &mut fmt::Formatter<'_>) -> fmt::Result {
                to.write_str(concat!(stringify!($name), "(..)"))
            }
        }
    )*};
}

hidden! {
    /// The thumbprint of a key that the front has verified: the SHA-256 of a certificate's DER form, or of a JWK (RFC 7638).
    Key;
    /// What a pushed request stands under until the holder decides. It opens nothing.
    Reference;
    /// What a consented request stands under until it is redeemed.
    Code;
    /// What opens a reading, together with the key that it is bound to.
    Token;
}
