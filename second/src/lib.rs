//! The independent second program: the permissions desk of documents 01 and 02 in plain Rust.
//! Written from the documents alone and resting on the standard library alone; the proved desk is compared with it.

pub mod base64url;
pub mod description;
pub mod desk;
pub mod form;
pub mod ledger;
pub mod limits;
pub mod line;
pub mod sha256;
pub mod table;
