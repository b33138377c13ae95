//! A file in memory whose last byte stands right before a page that cannot be read, so that a read past the file's
//! end stops the run. The library is for x86-64, and so are the numbers here (Linux).

use std::ptr::null_mut;

/// The bytes of a page.
const PAGE: usize = 4096;

unsafe extern "C" {
    /// Makes new pages.
    fn mmap(address: *mut u8, length: usize, protection: i32, flags: i32, file: i32, offset: i64) -> *mut u8;
    /// Changes what may be done with pages.
    fn mprotect(address: *mut u8, length: usize, protection: i32) -> i32;
    /// Gives pages back.
    fn munmap(address: *mut u8, length: usize) -> i32;
}

/// Pages that can be read and written, and one behind them that can't.
pub struct Guarded {
    first: *mut u8,
    bytes: usize,
}

impl Guarded {
    /// Room for files of up to this many bytes.
    pub fn new(bytes: usize) -> Self {
        let bytes = bytes.div_ceil(PAGE) * PAGE;
        // SAFETY: a new private mapping (flags 0x22) of whole pages, readable and writable (3) but for its last (0).
        let first = unsafe { mmap(null_mut(), bytes + PAGE, 3, 0x22, -1, 0) };
        assert!(first as isize != -1, "no memory for a file of {bytes} bytes");
        // SAFETY: the last page of that mapping.
        assert!(unsafe { mprotect(first.add(bytes), PAGE, 0) } == 0, "a page can't be guarded");
        Guarded { first, bytes }
    }

    /// A copy of the file that ends where reading ends; more room is made where it is needed.
    pub fn hold(&mut self, file: &[u8]) -> &[u8] {
        if file.len() > self.bytes {
            *self = Guarded::new(2 * file.len());
        }
        // SAFETY: the last bytes of the mapping that can be written, as many as the file has and not more than it has.
        let held = unsafe { std::slice::from_raw_parts_mut(self.first.add(self.bytes - file.len()), file.len()) };
        held.copy_from_slice(file);
        held
    }
}

impl Drop for Guarded {
    /// Gives the pages back.
    fn drop(&mut self) {
        // SAFETY: the whole mapping, which nothing borrows any more.
        unsafe { munmap(self.first, self.bytes + PAGE) };
    }
}
