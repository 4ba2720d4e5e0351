//! Memory to lend from, fenced: pages that nobody may touch stand before and behind it, and every byte that is not lent holds a mark.

use std::os::raw::{c_int, c_void};
use std::slice;

const PAGE: usize = 4096;
const NOTHING: c_int = 0;
const READ_WRITE: c_int = 3;
const PRIVATE_ANONYMOUS: c_int = 0x22;

extern "C" {
    fn mmap(at: *mut c_void, length: usize, may: c_int, kind: c_int, file: c_int, offset: i64) -> *mut c_void;
    fn mprotect(at: *mut c_void, length: usize, may: c_int) -> c_int;
}

/// Where in the fenced memory the lent bytes stand: against one of the fences, or between marks.
#[derive(Clone, Copy, Debug)]
pub enum Place {
    First,
    Last,
    Between(usize),
}

/// Fenced memory for one lent buffer after the other.
pub struct Lent {
    memory: *mut u8,
    size: usize,
    at: usize,
    length: usize,
    marks: Vec<u8>,
}

impl Lent {
    /// Room for buffers of up to this many bytes.
    pub fn with_room(most: usize) -> Lent {
        let size = ((most + PAGE - 1) / PAGE).max(1) * PAGE;
        // SAFETY: a new mapping; only its inner pages are used.
        let memory = unsafe {
            let start = mmap(std::ptr::null_mut(), size + 2 * PAGE, NOTHING, PRIVATE_ANONYMOUS, -1, 0) as *mut u8;
            assert!(start as isize != -1, "no memory");
            let inner = start.add(PAGE);
            assert_eq!(mprotect(inner.cast(), size, READ_WRITE), 0);
            inner
        };
        Lent { memory, size, at: 0, length: 0, marks: (0..size).map(|i| (i * 37 + 11) as u8).collect() }
    }

    /// Lays the bytes down to be lent, with marks around them.
    pub fn lay(&mut self, bytes: &[u8], place: Place) {
        let room = self.size.checked_sub(bytes.len()).expect("room for what is lent");
        self.at = match place {
            Place::First => 0,
            Place::Last => room,
            Place::Between(n) => n % (room + 1),
        };
        self.length = bytes.len();
        let (at, end) = (self.at, self.at + self.length);
        self.whole().copy_from_slice(&self.marks);
        self.whole()[at..end].copy_from_slice(bytes);
    }

    pub fn pointer(&self) -> *mut u8 {
        // SAFETY: within the mapping.
        unsafe { self.memory.add(self.at) }
    }

    pub fn length(&self) -> usize {
        self.length
    }

    pub fn bytes(&self) -> &[u8] {
        &self.whole()[self.at..self.at + self.length]
    }

    /// Whether every byte that was not lent holds its mark.
    pub fn marks_stand(&self) -> bool {
        let (at, end) = (self.at, self.at + self.length);
        self.whole()[..at] == self.marks[..at] && self.whole()[end..] == self.marks[end..]
    }

    #[allow(clippy::mut_from_ref)]
    fn whole(&self) -> &mut [u8] {
        // SAFETY: the inner pages are this value's own, and nobody keeps what this returns.
        unsafe { slice::from_raw_parts_mut(self.memory, self.size) }
    }
}
