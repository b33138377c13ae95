//! A table of up to 2^32 - 1 rows of 16 bytes that takes little memory: its bytes are the same few pages, mapped again and
//! again, one place behind the other. It ends right before a page that can't be read. The numbers here are Linux's on x86-64.

use std::fs::File;
use std::io::Write;
use std::os::fd::{AsRawFd, FromRawFd};
use std::ptr::null_mut;

/// The bytes of a row.
const ROW: usize = 16;

/// The bytes of the most rows, and of a row before them, so that they are whole pages.
const WHOLE: usize = ROW << 32;

/// The bytes that are mapped again and again.
const PART: usize = 4 << 20;

/// The bytes of a page.
const PAGE: usize = 4096;

unsafe extern "C" {
    /// Makes a file that is in memory alone.
    fn memfd_create(name: *const i8, flags: u32) -> i32;
    /// Makes new pages, or maps a file's.
    fn mmap(address: *mut u8, length: usize, protection: i32, flags: i32, file: i32, offset: i64) -> *mut u8;
    /// Gives pages back.
    fn munmap(address: *mut u8, length: usize) -> i32;
}

/// Rows that are all alike but for the last.
pub struct Repeated {
    first: *mut u8,
}

impl Repeated {
    /// The most rows, of these bytes and, the last, of those; none where they can't be mapped.
    pub fn new(row: [u8; ROW], last: [u8; ROW]) -> Option<Self> {
        let mut parts = [row.repeat(PART / ROW), row.repeat(PART / ROW)].concat();
        parts[2 * PART - ROW..].copy_from_slice(&last);
        // SAFETY: the name ends with a 0.
        let file = unsafe { memfd_create(c"rows".as_ptr(), 0) };
        if file < 0 {
            return None;
        }
        // SAFETY: the file was made just now, and nothing else has it.
        let mut file = unsafe { File::from_raw_fd(file) };
        file.write_all(&parts).ok()?;
        // SAFETY: a new private mapping of pages that can't be read and take no memory (flags 0x4022).
        let first = unsafe { mmap(null_mut(), WHOLE + PAGE, 0, 0x4022, -1, 0) };
        if first as isize == -1 {
            return None;
        }
        let repeated = Repeated { first };
        (0..WHOLE).step_by(PART).all(|at| repeated.map(at, &file)).then_some(repeated)
    }

    /// Maps a part of the file at a place: the second part at the last place, else the first.
    fn map(&self, at: usize, file: &File) -> bool {
        let offset = if at + PART == WHOLE { PART } else { 0 };
        // SAFETY: whole pages inside the mapping of `new`, in place of which (flags 0x4011) the file's are put, to be read (1).
        let there = unsafe { mmap(self.first.add(at), PART, 1, 0x4011, file.as_raw_fd(), offset as i64) };
        there as isize != -1
    }

    /// The bytes of the rows.
    pub fn rows(&self) -> &[u8] {
        // SAFETY: the bytes up to the page that can't be read, all of them mapped; nothing writes to the file.
        unsafe { std::slice::from_raw_parts(self.first.add(ROW), WHOLE - ROW) }
    }
}

impl Drop for Repeated {
    /// Gives the pages back.
    fn drop(&mut self) {
        // SAFETY: the whole mapping, which nothing borrows any more.
        unsafe { munmap(self.first, WHOLE + PAGE) };
    }
}
