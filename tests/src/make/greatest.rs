//! Files at the limits: the longest one, and those with the most rows.

use super::Maker;
use super::parts::{coarse_row, fine_row, packed_counts};
use super::sections::{CPI, EXTENSIONS, PROGRAMS, SEQUENCES};
use crate::random::Random;
use crate::record::MOST_BYTES;

/// The most coarse and fine rows that a map header can count.
const MOST_COARSE: u64 = 65_535;
const MOST_FINE: u64 = 262_143;

impl Maker {
    /// A file of the greatest length: the CPI and the extensions at its front reach to its end, where the rest stands.
    pub fn longest(&mut self) -> &[u8] {
        self.file.clear();
        self.random = Random::new(1);
        self.front();
        self.cpi = self.begin(CPI);
        self.file.resize(self.at() + 8 + 12, 0);
        let block = self.begin(EXTENSIONS);
        self.file.resize(block + 12 + 3 * 12, 0);
        let front = self.at();
        self.far_sections(block);
        let rest = self.at() - front;
        let gap = MOST_BYTES - self.at();
        self.file.resize(MOST_BYTES, 0);
        self.file.copy_within(front..front + rest, front + gap);
        self.file[front..front + gap].fill(7);
        for start in [8, 12, 20] {
            let place = self.get(start, 4);
            self.set(start, 4, place + gap as u64);
        }
        self.far_addresses(block, front + gap);
        &self.file
    }

    /// What stands at the longest file's end: a map's body, a (2, 5) list, sequences, programs and marks.
    fn far_sections(&mut self, block: usize) {
        self.put(4, 12);
        self.put(8, coarse_row(0, 3, 0xFFFF_FFFF));
        for k in 0..3 {
            self.put(4, fine_row(1, 7, k, k));
        }
        let list = self.at();
        self.programs(3, 5);
        self.extension_row(block, 1, [2, 5], list, (self.at() - list) as u64);
        self.sequences(3, 5);
        self.program_section(3, 5);
        self.marks();
    }

    /// The longest file's CPI and extension rows, once the place of its last sections is known.
    fn far_addresses(&mut self, block: usize, body: usize) {
        let end = self.at();
        self.set(self.cpi, 4, (end - self.cpi - 4) as u64);
        self.set(self.cpi + 4, 4, 0x0001_0001);
        self.set(self.cpi + 8, 2, 0x1011);
        self.set(self.cpi + 10, 6, packed_counts(0, 1, 1, 3));
        self.set(self.cpi + 16, 4, (body - self.cpi - 6) as u64);
        self.set(block, 4, (end - block - 4) as u64);
        self.set(block + 8, 4, 3);
        self.extension_row(block, 0, [9, 9], block + 1, (end - block - 1) as u64);
        let moved = self.get(block + 28, 4) as usize + body - (block + 48);
        self.set(block + 28, 4, moved as u64);
        self.extension_row(block, 2, [9, 8], end, 0);
    }

    /// 255 maps that share the most coarse and fine rows: the most entries that a file can have.
    pub fn most_entries(&mut self) -> &[u8] {
        self.file.clear();
        self.random = Random::new(2);
        self.clip(b"spm");
        self.shared_maps(|m, _| m.random.below(0x4000), u64::MAX);
        &self.file
    }

    /// 255 maps over the same rows, with a coarse time for each coarse row and the bits that fine rows may have.
    fn shared_maps(&mut self, time: impl Fn(&mut Maker, u64) -> u64, fine: u64) {
        self.cpi = self.begin(CPI);
        self.put(4, 0);
        self.put(4, 0x0001_00FF);
        for k in 0..255 {
            self.put(2, 0x1000 + k);
            self.put(6, packed_counts(0, k & 15, MOST_COARSE, MOST_FINE));
            self.put(4, 2 + 12 * 255);
        }
        self.put(4, 4 + 8 * MOST_COARSE);
        for k in 0..MOST_COARSE {
            let (time, packet) = (time(self, k), self.any(4));
            self.put(8, coarse_row(4 * k, time, packet));
        }
        for _ in 0..MOST_FINE {
            let row = self.any(4) & fine;
            self.put(4, row);
        }
        self.end_cpi();
    }

    /// One map with so many runs: two under each coarse row, by the bit that coarse and fine times share.
    pub fn of_runs(&mut self, runs: u64) -> &[u8] {
        self.file.clear();
        self.random = Random::new(4);
        self.clip(b"spm");
        self.cpi = self.begin(CPI);
        let coarse = runs.div_ceil(2);
        self.put(4, 0);
        self.put(4, 0x0001_0001);
        self.put(2, 0x1011);
        self.put(6, packed_counts(0, 1, coarse, runs));
        self.put(4, 2 + 12);
        self.put(4, 4 + 8 * coarse);
        for k in 0..coarse {
            self.put(8, coarse_row(2 * k, 2 * k % 0x4000, 7));
        }
        for k in 0..runs {
            self.put(4, fine_row(0, 1, (k % 2) << 10, k % 0x2_0000));
        }
        self.end_cpi();
        &self.file
    }

    /// The file with the longest new file: 255 of everything that is counted in a byte, a language on each stream, and 255
    /// maps that share the most entries in the most runs that can be written.
    pub fn longest_new(&mut self) -> &[u8] {
        self.file.clear();
        self.random = Random::new(5);
        self.clip(b"m");
        self.most_sequences();
        self.begin(PROGRAMS);
        self.put(6, 255);
        for _ in 0..255 {
            self.noise(6);
            self.put(2, 0xFF00);
            for k in 0..255 {
                self.put(2, 0x1100 + k);
                self.put(3, 0x05_8161);
                self.file.extend_from_slice(b"Eng");
            }
        }
        self.shared_maps(|_, k| k % 0x2000, !(1 << 27));
        &self.file
    }

    /// 255 of everything that is counted in a byte: STCs, streams and the streams of a (2, 5) list.
    pub fn most_rows(&mut self) -> &[u8] {
        self.file.clear();
        self.random = Random::new(3);
        self.clip(b"m");
        self.most_sequences();
        self.begin(PROGRAMS);
        self.most_programs();
        self.cpi(255, 2, 2, 2);
        let block = self.extension_front(255);
        let list = self.at();
        self.most_programs();
        for row in 0..255 {
            self.extension_row(block, row, [2, row as u64], list, (self.at() - list) as u64);
        }
        self.end_extensions(block);
        &self.file
    }

    /// 255 ATCs of 255 STCs.
    fn most_sequences(&mut self) {
        self.begin(SEQUENCES);
        self.put(6, 255);
        for _ in 0..255 {
            self.noise(4);
            self.put(2, 0xFF00);
            self.noise(255 * 14);
        }
    }

    /// 255 programs of 255 streams.
    fn most_programs(&mut self) {
        self.put(6, 255);
        for _ in 0..255 {
            self.noise(6);
            self.put(2, 0xFF00);
            for _ in 0..255 {
                self.stream();
            }
        }
    }
}
