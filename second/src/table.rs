//! The client table: 1 to 64 records of 64 bytes, lent and only read.

use crate::limits::table::{CLIENT_BYTES, MAX_CLIENTS};
use crate::limits::time::{MAX_REFERENCE_LIFETIME, REFERENCE_LIFETIME};

#[derive(Clone, Copy)]
pub struct Client<'a>(&'a [u8; CLIENT_BYTES]);

impl<'a> Client<'a> {
    pub fn id(self) -> &'a [u8; 16] {
        self.0[..16].try_into().unwrap()
    }

    pub fn auth_key(self) -> &'a [u8; 32] {
        self.0[16..48].try_into().unwrap()
    }

    pub fn permitted(self) -> u32 {
        u32::from_be_bytes(self.0[48..52].try_into().unwrap())
    }

    /// The seconds that its references live (document 02, Q-2).
    pub fn lifetime(self) -> u64 {
        match self.said_lifetime() {
            0 => REFERENCE_LIFETIME,
            seconds => seconds.into(),
        }
    }

    fn said_lifetime(self) -> u16 {
        u16::from_be_bytes(self.0[52..54].try_into().unwrap())
    }

    fn sound(self) -> bool {
        *self.id() != [0; 16]
            && *self.auth_key() != [0; 32]
            && self.said_lifetime() <= MAX_REFERENCE_LIFETIME
            && self.0[54..] == [0; 10]
    }
}

/// A client table found sound.
#[derive(Clone, Copy)]
pub struct Table<'a>(&'a [u8]);

impl<'a> Table<'a> {
    pub fn read(bytes: &'a [u8]) -> Option<Self> {
        let table = Table(bytes);
        let count = bytes.len() / CLIENT_BYTES;
        let length_ok = bytes.len() % CLIENT_BYTES == 0 && (1..=MAX_CLIENTS).contains(&count);
        (length_ok && table.clients().all(Client::sound) && table.ids_distinct()).then_some(table)
    }

    pub fn find(self, id: &[u8; 16]) -> Option<Client<'a>> {
        self.clients().find(|client| client.id() == id)
    }

    fn clients(self) -> impl Iterator<Item = Client<'a>> {
        self.0.chunks_exact(CLIENT_BYTES).map(|bytes| Client(bytes.try_into().unwrap()))
    }

    fn ids_distinct(self) -> bool {
        self.clients()
            .enumerate()
            .all(|(i, a)| self.clients().skip(i + 1).all(|b| a.id() != b.id()))
    }
}
