//! Files whose sections stand where a careless reader doesn't look for them.

use super::Maker;
use super::sections::{CPI, EXTENSIONS, MARKS, PROGRAMS, SEQUENCES};

/// The starts' places in the header.
pub const STARTS: [usize; 5] = [SEQUENCES, PROGRAMS, CPI, MARKS, EXTENSIONS];

/// Sections inside the ClipInfo, inside the rows of the sequences, and one read as another.
pub fn overlapping(m: &mut Maker) {
    m.front();
    m.sequences(2, 9);
    let rows = m.at();
    for (letter, start) in [(b'p', PROGRAMS), (b'c', CPI), (b'm', MARKS), (b'e', EXTENSIONS)] {
        let from = m.at();
        m.section(letter);
        let inside = if m.random.one_in(2) { (60, 188) } else { (226, rows) };
        if m.get(start, 4) == from as u64 {
            m.move_back(start, from, inside);
        }
    }
    if m.random.one_in(6) {
        let start = m.get(SEQUENCES, 4) + m.random.below(3);
        m.set(PROGRAMS, 4, start);
    }
    let tail = m.random.below(40) as usize;
    m.noise(tail);
}

impl Maker {
    /// Moves the last section over bytes between two places, if it fits there.
    fn move_back(&mut self, start: usize, from: usize, (low, high): (usize, usize)) {
        let length = self.at() - from;
        if low + length > high || self.random.one_in(4) {
            return;
        }
        let to = self.random.between(low as u64, (high - length) as u64) as usize;
        self.file.copy_within(from.., to);
        self.file.truncate(from);
        self.set(start, 4, to as u64);
    }
}

/// Every start anywhere in a field of small numbers, mostly 0, so that many readings of it are accepted.
pub fn small_numbers(m: &mut Maker) {
    m.front();
    for _ in 0..240 {
        let byte = match m.random.below(20) {
            0 => m.any(1),
            1 => 2,
            2..=4 => 1,
            _ => 0,
        };
        m.put(1, byte);
    }
    for start in STARTS {
        let place = m.random.between(216, 460);
        m.set(start, 4, place);
    }
}

/// Starts of 0: sequences and programs are read from the header, the other sections are not there.
pub fn start_zero(m: &mut Maker) {
    m.clip(b"spcme");
    for at in 28..40 {
        let byte = m.random.below(3);
        m.set(at, 1, byte);
    }
    let few = m.random.below(5);
    m.set(5, 1, few);
    let which = m.random.between(1, 31);
    for (k, start) in STARTS.into_iter().enumerate() {
        if which >> k & 1 == 1 {
            m.set(start, 4, 0);
        }
    }
}

/// Starts anywhere in the file, and a little past its end.
pub fn small_starts(m: &mut Maker) {
    let order = m.order();
    m.clip(&order);
    for _ in 0..m.random.between(1, 3) {
        let start = m.random.pick(&STARTS);
        let place = match m.random.below(3) {
            0 => m.at() as u64 - 8 + m.random.below(12),
            1 => (m.get(start, 4) + m.random.below(9)).saturating_sub(4),
            _ => m.random.below(m.file.len() as u64 + 8),
        };
        m.set(start, 4, place);
    }
}

/// ClipInfo lengths about the file's end and about the fields' end, and files of about 194 bytes.
pub fn info_length(m: &mut Maker) {
    m.clip(b"spcme");
    if m.random.one_in(3) {
        m.about_194();
    }
    let to_end = m.at() as u64 - 44;
    let about_end = to_end - 2 + m.random.below(5);
    let other = m.random.pick(&[0, 1, 149, 150, 151, to_end + 5, 0xFFFF_FFFF, 0xFFFF_FFD4]);
    let length = m.random.pick(&[about_end, other]);
    m.set(40, 4, length);
}

impl Maker {
    /// Cuts the file to about 194 bytes, its sections empty ones inside the ClipInfo.
    fn about_194(&mut self) {
        let length = self.random.pick(&[192, 193, 193, 194, 194, 195, 198]);
        self.file.truncate(length);
        for start in STARTS {
            let place = self.random.pick(&[60, 62, 64, 66, 68]);
            self.set(start, 4, place);
        }
        for at in 60..80 {
            self.set(at, 1, 0);
        }
    }
}
