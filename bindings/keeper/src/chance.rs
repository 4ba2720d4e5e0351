//! Fresh values, from the system's random source.

use std::io;
use std::os::raw::{c_uint, c_void};

extern "C" {
    fn getrandom(buffer: *mut c_void, length: usize, flags: c_uint) -> isize;
}

/// Thirty-two new bytes. A draw of up to 256 bytes comes whole once the source is ready, and waits until then.
pub fn fresh() -> io::Result<[u8; 32]> {
    let mut value = [0; 32];
    loop {
        // SAFETY: the pointer and the length are those of an array that nobody else holds.
        let drawn = unsafe { getrandom(value.as_mut_ptr().cast(), value.len(), 0) };
        if drawn == value.len() as isize {
            return Ok(value);
        }
        let error = io::Error::last_os_error();
        if drawn >= 0 || error.kind() != io::ErrorKind::Interrupted {
            return Err(error);
        }
    }
}
