//! The archive's calls beside the second program's: the same request through both, every byte of what is lent compared.

pub mod beside;
pub mod chance;
pub mod lent;
pub mod readme;
pub mod world;
