//! The bytes of a file: numbers, noise, and the packed rows of the CPI.

use super::Maker;

/// The counts of a map header: 10 spare bits, 4 type, 16 coarse count, 18 fine count.
pub fn packed_counts(spare: u64, kind: u64, coarse: u64, fine: u64) -> u64 {
    spare << 38 | kind << 34 | coarse << 18 | fine
}

/// A coarse row: 18 bits first fine row, 14 time, 32 packet.
pub fn coarse_row(first: u64, time: u64, packet: u64) -> u64 {
    first << 46 | time << 32 | packet
}

/// A fine row: 1 angle bit, 3 I-end, 11 time, 17 packet.
pub fn fine_row(angle: u64, i_end: u64, time: u64, packet: u64) -> u64 {
    angle << 31 | i_end << 28 | time << 17 | packet
}

impl Maker {
    /// The file's length so far.
    pub fn at(&self) -> usize {
        self.file.len()
    }

    /// Appends a big-endian number.
    pub fn put(&mut self, width: usize, value: u64) {
        self.file.extend_from_slice(&value.to_be_bytes()[8 - width..]);
    }

    /// Puts a big-endian number over bytes that stand there; bytes past the end are dropped.
    pub fn set(&mut self, at: usize, width: usize, value: u64) {
        let bytes = value.to_be_bytes();
        for (place, &byte) in self.file.iter_mut().skip(at).zip(&bytes[8 - width..]) {
            *place = byte;
        }
    }

    /// The big-endian number that stands at a place, bytes past the end taken as 0.
    pub fn get(&self, at: usize, width: usize) -> u64 {
        (at..at + width).fold(0, |n, k| n << 8 | u64::from(self.file.get(k).copied().unwrap_or(0)))
    }

    /// Appends bytes of any value.
    pub fn noise(&mut self, count: usize) {
        let mut left = count;
        while left > 0 {
            let bytes = self.random.next().to_le_bytes();
            let some = left.min(8);
            self.file.extend_from_slice(&bytes[..some]);
            left -= some;
        }
    }

    /// A number of so many bytes, any value.
    pub fn any(&mut self, width: u32) -> u64 {
        self.random.next() >> (64 - 8 * width)
    }

    /// A length that is ignored: now the right one, now any.
    pub fn ignored_length(&mut self, right: u64) -> u64 {
        if self.random.one_in(3) { self.any(4) } else { right }
    }
}
