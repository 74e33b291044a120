//! Memory that can only be read, of Linux: who writes there ends the program.

use std::ops::Deref;
use std::{ptr, slice};

const READ: i32 = 1;
const READ_AND_WRITE: i32 = 3;
const PRIVATE_AND_ANONYMOUS: i32 = 0x22;

extern "C" {
    fn mmap(
        near: *mut u8,
        length: usize,
        protection: i32,
        flags: i32,
        file: i32,
        offset: i64,
    ) -> *mut u8;
    fn mprotect(start: *mut u8, length: usize, protection: i32) -> i32;
    fn munmap(start: *mut u8, length: usize) -> i32;
}

/// A copy of some bytes, in pages of its own.
pub struct Sealed {
    start: *mut u8,
    length: usize,
}

// SAFETY: nothing writes the bytes, from whichever thread.
unsafe impl Sync for Sealed {}

impl Sealed {
    pub fn new(content: &[u8]) -> Sealed {
        let length = content.len();
        // SAFETY: the pages are new, so many bytes of them are written before they are sealed, and
        // nothing else has their address.
        let start = unsafe {
            let flags = PRIVATE_AND_ANONYMOUS;
            let start = mmap(ptr::null_mut(), length, READ_AND_WRITE, flags, -1, 0);
            assert!(start.addr() != usize::MAX, "no memory");
            start.copy_from_nonoverlapping(content.as_ptr(), length);
            assert_eq!(mprotect(start, length, READ), 0);
            start
        };
        Sealed { start, length }
    }
}

impl Deref for Sealed {
    type Target = [u8];

    fn deref(&self) -> &[u8] {
        // SAFETY: so many bytes stand there as long as `self` does.
        unsafe { slice::from_raw_parts(self.start, self.length) }
    }
}

impl Drop for Sealed {
    fn drop(&mut self) {
        // SAFETY: no slice of them is left.
        unsafe { munmap(self.start, self.length) };
    }
}

#[cfg(test)]
mod tests {
    use super::*;
    use std::fs::read_to_string;

    /// What the system says of the page that has an address.
    fn protection(address: usize) -> String {
        let maps = read_to_string("/proc/self/maps").expect("the pages");
        let line = maps.lines().find(|line| {
            let (range, _) = line.split_once(' ').expect("a range");
            let (start, end) = range.split_once('-').expect("two addresses");
            let [start, end] =
                [start, end].map(|end| usize::from_str_radix(end, 16).expect("an address"));
            (start..end).contains(&address)
        });
        let words = line.expect("a page").split(' ');
        words.skip(1).take(1).collect()
    }

    #[test]
    fn bytes_are_there_and_cannot_be_written() {
        let content: Vec<u8> = (0..=255).cycle().take(10_000).collect();
        let sealed = Sealed::new(&content);
        assert_eq!(*sealed, content);
        for byte in [&sealed[0], &sealed[9_999]] {
            assert_eq!(protection(ptr::from_ref(byte).addr()), "r--p");
        }
        assert_eq!(protection(content.as_ptr().addr()), "rw-p");
    }
}
