//! Memory between two pages that no one may touch: a read or write outside a lent run that lies at
//! one of them ends the test at once. The tests' only file with `unsafe`.
#![allow(unsafe_code)]

use std::ptr;

const PAGE: usize = 4096;
const MARK: u8 = 0xC5;
const MARKS: usize = 64;

/// Which guard page a run lies at.
#[derive(Debug, Clone, Copy, PartialEq, Eq)]
pub enum Side {
    Front,
    Back,
}

pub struct Guarded {
    base: *mut u8,
    len: usize,
    /// Marked bytes on the run's open side.
    marked: (usize, usize),
}

// SAFETY: the memory belongs to this value alone.
unsafe impl Send for Guarded {}

impl Guarded {
    /// Room for `bytes`, and for marks.
    pub fn new(bytes: usize) -> Self {
        let len = (bytes + MARKS).next_multiple_of(PAGE);
        // SAFETY: a new anonymous mapping; its first and last page are then closed.
        let base = unsafe {
            let whole = libc::mmap(
                ptr::null_mut(),
                len + 2 * PAGE,
                libc::PROT_NONE,
                libc::MAP_PRIVATE | libc::MAP_ANONYMOUS,
                -1,
                0,
            );
            assert_ne!(whole, libc::MAP_FAILED, "no memory to map");
            let base = whole.cast::<u8>().add(PAGE);
            let open = libc::mprotect(base.cast(), len, libc::PROT_READ | libc::PROT_WRITE);
            assert_eq!(open, 0, "mprotect");
            base
        };
        Self { base, len, marked: (0, 0) }
    }

    /// Lends a run of `count` elements at that guard page, its open side marked.
    fn lend<T>(&mut self, side: Side, count: usize) -> (*mut T, usize) {
        let bytes = count * size_of::<T>();
        assert!(bytes + MARKS <= self.len, "the guarded memory is too small");
        let (start, marks) = match side {
            Side::Front => (0, bytes),
            Side::Back => (self.len - bytes, self.len - bytes - MARKS),
        };
        self.marked = (marks, marks + MARKS);
        // SAFETY: both lie in the open pages, as asserted.
        unsafe {
            ptr::write_bytes(self.base.add(marks), MARK, MARKS);
            (self.base.add(start).cast(), count)
        }
    }

    pub fn bytes(&mut self, side: Side, count: usize) -> &mut [u8] {
        let (start, count) = self.lend(side, count);
        // SAFETY: mapped zeros or what was stored there, borrowed from `self`.
        unsafe { std::slice::from_raw_parts_mut(start, count) }
    }

    /// The bytes copied in.
    pub fn copy(&mut self, side: Side, bytes: &[u8]) -> &mut [u8] {
        let run = self.bytes(side, bytes.len());
        run.copy_from_slice(bytes);
        run
    }

    pub fn words(&mut self, side: Side, count: usize) -> &mut [u64] {
        let (start, count) = self.lend(side, count);
        // SAFETY: as for `bytes`; page borders and multiples of 8 from them are aligned.
        unsafe { std::slice::from_raw_parts_mut(start, count) }
    }

    /// Whether the marks beside the last lent run are whole.
    pub fn marks_whole(&self) -> bool {
        let (start, end) = self.marked;
        // SAFETY: `lend` wrote them, in the open pages.
        let marks = unsafe { std::slice::from_raw_parts(self.base.add(start), end - start) };
        marks.iter().all(|mark| *mark == MARK)
    }
}

impl Drop for Guarded {
    fn drop(&mut self) {
        // SAFETY: the whole mapping of `new`; no run outlives `self`.
        unsafe { libc::munmap(self.base.sub(PAGE).cast(), self.len + 2 * PAGE) };
    }
}

/// Zeros of any length that take no memory until they are touched.
pub struct Zeros {
    base: *mut u8,
    len: usize,
}

impl Zeros {
    pub fn new(len: usize) -> Self {
        let flags = libc::MAP_PRIVATE | libc::MAP_ANONYMOUS | libc::MAP_NORESERVE;
        let access = libc::PROT_READ | libc::PROT_WRITE;
        // SAFETY: a new anonymous mapping.
        let base = unsafe { libc::mmap(ptr::null_mut(), len, access, flags, -1, 0) };
        assert_ne!(base, libc::MAP_FAILED, "no room to map");
        Self { base: base.cast(), len }
    }

    pub fn bytes(&self) -> &[u8] {
        // SAFETY: mapped and readable for this length.
        unsafe { std::slice::from_raw_parts(self.base, self.len) }
    }

    pub fn bytes_mut(&mut self) -> &mut [u8] {
        // SAFETY: mapped and writable for this length, borrowed from `self`.
        unsafe { std::slice::from_raw_parts_mut(self.base, self.len) }
    }
}

impl Drop for Zeros {
    fn drop(&mut self) {
        // SAFETY: the whole mapping of `new`.
        unsafe { libc::munmap(self.base.cast(), self.len) };
    }
}
