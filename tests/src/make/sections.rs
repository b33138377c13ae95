//! The sections of a file, each appended at its end and named by its start in the header.

use super::parts::{coarse_row, fine_row, packed_counts};
use super::{Maker, Map};

/// The starts' places in the header.
pub const SEQUENCES: usize = 8;
pub const PROGRAMS: usize = 12;
pub const CPI: usize = 16;
pub const MARKS: usize = 20;
pub const EXTENSIONS: usize = 24;

/// A coding type of each class, video first.
pub const CODING: [u64; 20] = [
    0x02, 0x1B, 0x20, 0x24, 0xEA, 0x80, 0x81, 0x82, 0x83, 0x84, 0x85, 0x86, 0xA1, 0xA2, 0x90, 0x91, 0x92, 0x00, 0x1A,
    0x21,
];

impl Maker {
    /// The header and a ClipInfo of 180 bytes, with all starts 0.
    pub fn front(&mut self) {
        let letters = self.random.pick(&[*b"HDMV", *b"HDMV", *b"CLPI"]);
        let version = match self.random.below(8) {
            0 => self.any(4) as u32,
            _ => u32::from_be_bytes(self.random.pick(&[*b"0100", *b"0200", *b"0300"])),
        };
        self.file.extend_from_slice(&letters);
        self.put(4, version.into());
        self.file.extend_from_slice(&[0; 20]);
        self.noise(12);
        self.put(4, 176);
        self.noise(176);
    }

    /// Names the place where the next section stands.
    pub fn begin(&mut self, start: usize) -> usize {
        let at = self.at();
        self.set(start, 4, at as u64);
        at
    }

    /// Sequences: ATCs with up to so many STCs each.
    pub fn sequences(&mut self, atcs: u64, most_stcs: u64) {
        let at = self.begin(SEQUENCES);
        self.noise(5);
        self.put(1, atcs);
        for _ in 0..atcs {
            let stcs = self.random.between(0, most_stcs);
            self.noise(4);
            self.put(1, stcs);
            self.noise(1 + 14 * stcs as usize);
        }
        let length = self.ignored_length((self.at() - at - 4) as u64);
        self.set(at, 4, length);
    }

    /// The programs section.
    pub fn program_section(&mut self, programs: u64, most_streams: u64) {
        self.begin(PROGRAMS);
        self.programs(programs, most_streams);
    }

    /// Programs with up to so many streams each, as a section or as a (2, 5) list.
    pub fn programs(&mut self, programs: u64, most_streams: u64) {
        let at = self.at();
        self.noise(5);
        self.put(1, programs);
        for _ in 0..programs {
            let streams = self.random.between(0, most_streams);
            self.noise(6);
            self.put(1, streams);
            self.noise(1);
            for _ in 0..streams {
                self.stream();
            }
        }
        let length = self.ignored_length((self.at() - at - 4) as u64);
        self.set(at, 4, length);
    }

    /// A stream of a usual body: coding type, format, and aspect or language.
    pub fn stream(&mut self) {
        let coding = self.random.pick(&CODING);
        self.noise(2);
        match coding {
            0x02 | 0x1B | 0x20 | 0x24 | 0xEA => {
                let length = self.random.between(3, 6);
                self.put(1, length);
                self.put(1, coding);
                self.noise(length as usize - 1);
            }
            _ => {
                let language = self.random.pick(&[*b"eng", *b"ENG", *b"Deu", [0; 3]]);
                self.put(1, 5);
                self.put(1, coding);
                self.noise(1);
                self.file.extend_from_slice(&language);
            }
        }
    }

    /// The CPI section: so many maps, each with up to so many coarse and fine rows.
    pub fn cpi(&mut self, maps: u64, least_coarse: u64, most_coarse: u64, most_fine: u64) {
        self.cpi = self.begin(CPI);
        self.maps.clear();
        let spare = self.any(4);
        self.put(4, 0);
        self.put(2, spare & 0xFFF0 | 1);
        self.put(1, spare >> 24);
        self.put(1, maps);
        for _ in 0..maps {
            let header = self.at();
            self.noise(12);
            let (coarse, fine) = (self.random.between(least_coarse, most_coarse), self.random.between(0, most_fine));
            self.maps.push(Map { header, body: 0, coarse, fine });
        }
        for k in 0..maps as usize {
            self.map(k);
        }
        self.end_cpi();
    }

    /// A map's body behind the others, with references that ascend from 0, and its header.
    fn map(&mut self, k: usize) {
        let Map { header, coarse, fine, .. } = self.maps[k];
        let body = self.at();
        self.maps[k].body = body;
        let (spare, kind) = (self.random.below(1024), self.random.below(16));
        self.set(header + 2, 6, packed_counts(spare, kind, coarse, fine));
        self.set(header + 8, 4, (body - self.cpi - 6) as u64);
        self.put(4, 4 + 8 * coarse);
        for row in 0..coarse {
            let (time, packet) = (self.random.below(0x4000), self.any(4));
            self.put(8, coarse_row(row * fine / coarse, time, packet));
        }
        for _ in 0..fine {
            let (angle, i_end) = (self.random.below(2), self.random.below(8));
            let (time, packet) = (self.random.below(2048), self.random.below(0x2_0000));
            self.put(4, fine_row(angle, i_end, time, packet));
        }
    }

    /// Sets the CPI's length to what stands behind its start.
    pub fn end_cpi(&mut self) {
        let length = self.at() - self.cpi - 4;
        self.set(self.cpi, 4, length as u64);
    }

    /// The CPI's end as its length tells it.
    pub fn cpi_end(&self) -> usize {
        self.cpi + 4 + self.get(self.cpi, 4) as usize
    }

    /// Marks: an ignored length and a count.
    pub fn marks(&mut self) {
        self.begin(MARKS);
        self.noise(6);
    }

    /// An extension block's front with so many rows to be set; its start.
    pub fn extension_front(&mut self, rows: u64) -> usize {
        let block = self.begin(EXTENSIONS);
        self.noise(11);
        self.put(1, rows);
        self.noise(12 * rows as usize);
        block
    }

    /// Sets a row of an extension block: its ids, and its data by place and length.
    pub fn extension_row(&mut self, block: usize, row: usize, ids: [u64; 2], place: usize, length: u64) {
        let at = block + 12 + 12 * row;
        self.set(at, 4, ids[0] << 16 | ids[1]);
        self.set(at + 4, 4, (place - block) as u64);
        self.set(at + 8, 4, length);
    }

    /// Sets an extension block's length to what stands behind its start.
    pub fn end_extensions(&mut self, block: usize) {
        let length = self.at() - block - 4;
        self.set(block, 4, length as u64);
    }
}
