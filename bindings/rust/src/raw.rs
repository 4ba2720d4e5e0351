//! The archive's functions as include/perdigolh.h declares them; tests/lint/header.py holds this file to their source.
//!
//! # Safety
//!
//! A slice is a pointer and its length, never null. What is lent as `*mut` is written and overlaps nothing else that is lent;
//! a pointer to an array has that many bytes behind it. Nothing else is owed: every content and every length is answered.

#[derive(Clone, Copy, Debug)]
#[repr(C)]
pub struct Answer {
    pub number: u8,
    pub grant: u64,
    pub holder: u64,
    pub scope: u32,
    pub expiry: u64,
}

#[derive(Clone, Copy, Debug)]
#[repr(C)]
pub struct Decided {
    pub answer: Answer,
    pub length: u8,
}

#[derive(Clone, Copy, Debug)]
#[repr(C)]
pub struct Swept {
    pub number: u8,
    pub pushed: usize,
    pub consented: usize,
    pub redeemed: usize,
}

#[derive(Clone, Copy, Debug)]
#[repr(C)]
pub struct Introspected {
    pub number: u8,
    pub length: usize,
}

extern "C" {
    pub fn perdigolh_version() -> u32;

    pub fn perdigolh_interface_1() -> u32;

    pub fn perdigolh_start(ledger: *mut u8, ledger_length: usize) -> u8;

    pub fn perdigolh_push(
        ledger: *mut u8,
        ledger_length: usize,
        time: u64,
        table: *const u8,
        table_length: usize,
        client: *const [u8; 16],
        key: *const [u8; 32],
        scope: u32,
        challenge: *const u8,
        challenge_length: usize,
        redirect: *const u8,
        redirect_length: usize,
        fresh: *const [u8; 32],
    ) -> Answer;

    pub fn perdigolh_decide(
        ledger: *mut u8,
        ledger_length: usize,
        time: u64,
        reference: *const [u8; 32],
        client: *const [u8; 16],
        yes: u8,
        holder: u64,
        fresh: *const [u8; 32],
        output: *mut u8,
        output_length: usize,
    ) -> Decided;

    pub fn perdigolh_token(
        ledger: *mut u8,
        ledger_length: usize,
        time: u64,
        table: *const u8,
        table_length: usize,
        client: *const [u8; 16],
        key: *const [u8; 32],
        presented: *const [u8; 32],
        code: *const [u8; 32],
        verifier: *const u8,
        verifier_length: usize,
        fresh: *const [u8; 32],
    ) -> Answer;

    pub fn perdigolh_resource(
        ledger: *mut u8,
        ledger_length: usize,
        time: u64,
        token: *const [u8; 32],
        presented: *const [u8; 32],
        scope: u32,
        holder: u64,
    ) -> Answer;

    pub fn perdigolh_sweep(ledger: *mut u8, ledger_length: usize, time: u64) -> Swept;

    pub fn perdigolh_pending(
        ledger: *const u8,
        ledger_length: usize,
        time: u64,
        reference: *const [u8; 32],
        client: *const [u8; 16],
        output: *mut u8,
        output_length: usize,
    ) -> Decided;

    pub fn perdigolh_introspect(
        ledger: *const u8,
        ledger_length: usize,
        time: u64,
        token: *const [u8; 32],
        output: *mut u8,
        output_length: usize,
    ) -> Introspected;
}
