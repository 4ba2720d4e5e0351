//! What is used of libpq, as libpq-fe.h declares it.

use std::os::raw::{c_char, c_int, c_void};

pub use std::os::raw::c_uint;

pub const CONNECTION_OK: c_int = 0;
pub const COMMAND_OK: c_int = 1;
pub const TUPLES_OK: c_int = 2;
pub const BINARY: c_int = 1;

#[repr(C)]
pub struct PGconn {
    _private: [u8; 0],
}

#[repr(C)]
pub struct PGresult {
    _private: [u8; 0],
}

pub type NoticeReceiver = extern "C" fn(*mut c_void, *const PGresult);

#[link(name = "pq")]
extern "C" {
    pub fn PQconnectdb(address: *const c_char) -> *mut PGconn;
    pub fn PQstatus(connection: *const PGconn) -> c_int;
    pub fn PQerrorMessage(connection: *const PGconn) -> *const c_char;
    pub fn PQfinish(connection: *mut PGconn);
    pub fn PQsetNoticeReceiver(
        connection: *mut PGconn,
        receiver: NoticeReceiver,
        place: *mut c_void,
    ) -> Option<NoticeReceiver>;
    pub fn PQexecParams(
        connection: *mut PGconn,
        statement: *const c_char,
        values: c_int,
        kinds: *const c_uint,
        starts: *const *const c_char,
        lengths: *const c_int,
        formats: *const c_int,
        result_format: c_int,
    ) -> *mut PGresult;
    pub fn PQresultStatus(result: *const PGresult) -> c_int;
    pub fn PQcmdStatus(result: *mut PGresult) -> *const c_char;
    pub fn PQcmdTuples(result: *mut PGresult) -> *const c_char;
    pub fn PQntuples(result: *const PGresult) -> c_int;
    pub fn PQnfields(result: *const PGresult) -> c_int;
    pub fn PQgetisnull(result: *const PGresult, row: c_int, column: c_int) -> c_int;
    pub fn PQgetvalue(result: *const PGresult, row: c_int, column: c_int) -> *const c_char;
    pub fn PQgetlength(result: *const PGresult, row: c_int, column: c_int) -> c_int;
    pub fn PQclear(result: *mut PGresult);
}
