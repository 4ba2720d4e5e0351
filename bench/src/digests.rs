//! SHA-256 three ways: the proved one, the second program's in plain Rust, and OpenSSL's where this machine has it.

use std::os::raw::{c_char, c_int, c_void};

#[repr(C)]
pub struct Digest {
    pub bytes: [u8; 32],
}

extern "C" {
    fn perdigolh_digest(message: *const u8, length: usize) -> Digest;
    fn dlopen(name: *const c_char, how: c_int) -> *mut c_void;
    fn dlsym(library: *mut c_void, name: *const c_char) -> *mut c_void;
}

const NOW: c_int = 2;
const LIBRARIES: [&[u8]; 2] = [b"libcrypto.so.3\0", b"libcrypto.so\0"];
type Sha256 = unsafe extern "C" fn(*const u8, usize, *mut u8) -> *mut u8;

pub fn proved(message: &[u8]) -> [u8; 32] {
    // SAFETY: the pointer and the length are a slice's.
    unsafe { perdigolh_digest(message.as_ptr(), message.len()) }.bytes
}

/// The same function under a name that can be counted.
#[no_mangle]
#[inline(never)]
pub fn second_digest(message: &[u8]) -> [u8; 32] {
    second::sha256::digest(message)
}

/// OpenSSL's SHA256, loaded when the bench runs.
pub fn openssl() -> Option<impl Fn(&[u8]) -> [u8; 32]> {
    // SAFETY: SHA256 of libcrypto has had this signature since it was first there.
    let function: Sha256 = unsafe {
        let library =
            LIBRARIES.iter().map(|name| dlopen(name.as_ptr().cast(), NOW)).find(|library| !library.is_null())?;
        let function = dlsym(library, b"SHA256\0".as_ptr().cast());
        if function.is_null() {
            return None;
        }
        std::mem::transmute::<*mut c_void, Sha256>(function)
    };
    Some(move |message: &[u8]| {
        let mut out = [0; 32];
        // SAFETY: out has the 32 bytes that it writes.
        unsafe { function(message.as_ptr(), message.len(), out.as_mut_ptr()) };
        out
    })
}
