//! Memory of its own for each buffer that a call is lent, between pages that nobody may touch.
use normalize::Words;
use std::ffi::{c_int, c_void};

extern "C" {
    fn mmap(address: *mut c_void, length: usize, access: c_int, flags: c_int, file: c_int, offset: i64) -> *mut c_void;
    fn mprotect(address: *mut c_void, length: usize, access: c_int) -> c_int;
    fn munmap(address: *mut c_void, length: usize) -> c_int;
}

// as x86-64 Linux has them
const PAGE: usize = 4096;
const NONE: c_int = 0;
const READ: c_int = 1;
const READ_WRITE: c_int = 3;
/// Private, without a file, no memory set aside before it is touched.
const FLAGS: c_int = 0x02 | 0x20 | 0x4000;

/// What stands in the open pages beside the buffer.
const REST: u8 = 0xc5;

/// Which end of a buffer lies straight at a page without access.
#[derive(Clone, Copy, PartialEq, Eq)]
pub enum Edge {
    End,
    Front,
}

/// A mapping of which the last pages but one are open: as many as the buffer takes. All others have no access.
pub struct Pages {
    base: *mut u8,
    /// Pages between the first and the last, which are never open.
    most: usize,
    open: usize,
    /// The buffer's place and length.
    at: usize,
    length: usize,
}

// SAFETY: the mapping is this one's alone; no other thread reaches it by another way.
unsafe impl Send for Pages {}

impl Pages {
    /// For a buffer of so many bytes, which may grow.
    pub fn new(length: usize) -> Pages {
        let most = length.div_ceil(PAGE);
        // SAFETY: a new mapping anywhere touches no other memory.
        let base = unsafe { mmap(std::ptr::null_mut(), (most + 2) * PAGE, NONE, FLAGS, -1, 0) };
        assert_ne!(base as isize, -1, "no memory for {length} bytes");
        Pages { base: base.cast(), most, open: 0, at: (most + 1) * PAGE, length: 0 }
    }

    /// Where the open pages end.
    fn end(&self) -> usize {
        (self.most + 1) * PAGE
    }

    fn protect(&mut self, from: usize, to: usize, access: c_int) {
        // SAFETY: the range is whole pages of this mapping, and no slice of them lives on while `self` is borrowed here.
        let done = from == to || unsafe { mprotect(self.base.add(from).cast(), to - from, access) } == 0;
        assert!(done, "pages {from} to {to} can't be protected");
    }

    fn open(&mut self, pages: usize) {
        if pages > self.most {
            *self = Pages::new(2 * pages * PAGE);
        }
        let [old, new] = [self.open, pages].map(|count| self.end() - count * PAGE);
        if new < old {
            self.protect(new, old, READ_WRITE);
        } else {
            self.protect(old, new, NONE);
        }
        self.open = pages;
    }

    /// Holds these bytes from now on.
    pub fn lend(&mut self, bytes: &[u8], edge: Edge) {
        self.open(bytes.len().div_ceil(PAGE));
        self.length = bytes.len();
        self.at = self.end() - if edge == Edge::End { self.length } else { self.open * PAGE };
        self.opened().fill(REST);
        self.inside().copy_from_slice(bytes);
    }

    /// The open pages can be read only, until `unseal`.
    pub fn seal(&mut self) {
        self.protect(self.end() - self.open * PAGE, self.end(), READ);
    }

    pub fn unseal(&mut self) {
        self.protect(self.end() - self.open * PAGE, self.end(), READ_WRITE);
    }

    fn opened(&mut self) -> &mut [u8] {
        let length = self.open * PAGE;
        // SAFETY: these pages are open, and `self` is borrowed as long as the slice lives.
        unsafe { std::slice::from_raw_parts_mut(self.base.add(self.end() - length), length) }
    }

    /// The buffer to be read, sealed or not.
    pub fn bytes(&self) -> &[u8] {
        // SAFETY: the buffer lies in open pages, sealed or not; `self` is borrowed as long as the slice lives.
        unsafe { std::slice::from_raw_parts(self.base.add(self.at), self.length) }
    }

    /// The buffer.
    pub fn inside(&mut self) -> &mut [u8] {
        // SAFETY: the buffer lies in open pages; `self` is borrowed as long as the slice lives.
        unsafe { std::slice::from_raw_parts_mut(self.base.add(self.at), self.length) }
    }

    /// The buffer as an answer's words.
    pub fn words(&mut self) -> &mut Words {
        assert_eq!(self.length, size_of::<Words>());
        // SAFETY: it is as long as the words, lies at an end of a page, which is a multiple of 8, and any bytes are words.
        unsafe { &mut *self.base.add(self.at).cast() }
    }

    /// Whether the open pages beside the buffer are as they were.
    pub fn rest_is_whole(&mut self) -> bool {
        let from = self.at + self.open * PAGE - self.end();
        let to = from + self.length;
        let opened = self.opened();
        opened[..from].iter().chain(&opened[to..]).all(|&byte| byte == REST)
    }
}

impl Drop for Pages {
    fn drop(&mut self) {
        // SAFETY: the mapping is this one's alone, and nothing borrows from it any more.
        unsafe { munmap(self.base.cast(), (self.most + 2) * PAGE) };
    }
}

/// What a faulty call would do: reads or writes the byte so far from a buffer's first one. For tests of what watches for it.
pub fn touch(first: *const u8, offset: isize, is_write: bool) {
    let place = first.wrapping_offset(offset).cast_mut();
    // SAFETY: none; it is the fault that is planted.
    unsafe {
        let old = place.read_volatile();
        if is_write {
            place.write_volatile(!old);
        }
    }
}

#[cfg(test)]
mod tests {
    use super::*;

    #[test]
    fn a_buffer_grows_and_shrinks() {
        let mut pages = Pages::new(10);
        for length in [0, 1, 4095, 4096, 4097, 20_000, 3, 0, 70_000] {
            for edge in [Edge::End, Edge::Front] {
                let bytes: Vec<u8> = (0..length).map(|index| index as u8).collect();
                pages.lend(&bytes, edge);
                assert!(pages.bytes() == bytes && pages.rest_is_whole());
                let at_end = pages.at + pages.length == pages.end();
                assert!(if edge == Edge::End { at_end } else { pages.at == pages.end() - pages.open * PAGE });
            }
        }
    }

    #[test]
    fn a_changed_byte_beside_it_is_seen() {
        let mut pages = Pages::new(10);
        pages.lend(&[1; 10], Edge::End);
        touch(pages.bytes().as_ptr(), -1, false);
        assert!(pages.rest_is_whole());
        touch(pages.bytes().as_ptr(), -1, true);
        assert!(!pages.rest_is_whole());
        pages.lend(&[1; 10], Edge::Front);
        touch(pages.bytes().as_ptr(), 4095, true);
        assert!(!pages.rest_is_whole());
    }
}
