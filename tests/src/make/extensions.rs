//! Files about the marks, the extensions and the (2, 5) list.

use super::Maker;
use super::sections::{EXTENSIONS, MARKS};

/// Marks at the file's end, cut short there, past it, and with a start of 0.
pub fn marks(m: &mut Maker) {
    m.clip(b"spcem");
    let end = m.at() as u64;
    let about_end = end - 8 + m.random.below(12);
    let start = m.random.pick(&[about_end, about_end, 0, end - 6, end - 5, end, 0xFFFF_FFFF, 1, 38]);
    m.set(MARKS, 4, start);
}

/// Extensions with addresses of 0, inside the rows, about the end and far past it, and lengths to match.
pub fn addresses(m: &mut Maker) {
    m.clip(b"spcm");
    let rows = m.random.between(1, 5);
    let block = m.extension_front(rows);
    m.noise(24);
    m.end_extensions(block);
    let end = (m.at() - block) as u64;
    for row in 0..rows as usize {
        let anywhere = m.random.below(end + 2);
        let huge = m.random.between(0xFFFF_FFF0, 0xFFFF_FFFF);
        let address = m.random.pick(&[0, 0, 1, 12, anywhere, anywhere, anywhere, end, end + 1, huge]);
        let to_end = end.saturating_sub(address);
        let some = m.random.below(to_end + 1);
        let length = m.random.pick(&[to_end, to_end, to_end + 1, some, some, 0, huge, (1 << 32) - address.max(1)]);
        let ids = m.random.pick(&[[2, 5], [2, 5], [5, 2], [2, 0], [0x205, 0], [1, 1]]);
        m.extension_row(block, row, ids, block, length);
        m.set(block + 16 + 12 * row, 4, address);
    }
    m.noise_behind();
}

impl Maker {
    /// Bytes behind the extension block, in half of the files.
    fn noise_behind(&mut self) {
        let length = if self.random.one_in(2) { 0 } else { self.random.below(30) };
        self.noise(length as usize);
    }
}

/// Block lengths of 0, before the rows' end, before the data's end and past the file's; rows cut by the file's end.
pub fn block_lengths(m: &mut Maker) {
    m.clip(b"spcm");
    let rows = m.random.below(4);
    let block = m.extension_front(rows);
    for row in 0..rows as usize {
        let place = m.at();
        let list = m.random.one_in(2);
        if list {
            m.programs(1, 1)
        } else {
            m.noise(5)
        }
        let ids = if list { [2, 5] } else { [2, 6] };
        m.extension_row(block, row, ids, place, (m.at() - place) as u64);
        if m.random.one_in(2) {
            let (early, few) = (block + m.random.between(1, 14) as usize, m.random.below(6));
            m.extension_row(block, row, ids, early, few);
        }
    }
    let right = (m.at() - block - 4) as u64;
    let shorter = m.random.below(right + 1);
    let length = m.random.pick(&[0, 1, 7, 8, right, right, right - 1, right + 1, shorter, 0xFFFF_FFFF, 0xFFFF_FFFB]);
    m.set(block, 4, length);
    if m.random.one_in(3) {
        let cut = m.random.between(1, right + 3) as usize;
        m.file.truncate(m.at() - cut);
    } else {
        m.noise_behind();
    }
    if m.random.one_in(8) {
        let start = m.at() as u64 - 3 + m.random.below(5);
        m.set(EXTENSIONS, 4, start);
    }
}

/// A (2, 5) list that is read, beside other extensions.
pub fn list_good(m: &mut Maker) {
    m.clip(b"spcm");
    let rows = m.random.between(1, 3) as usize;
    let block = m.extension_front(rows as u64);
    let list = m.random.below(rows as u64) as usize;
    for row in 0..rows {
        let place = m.at();
        let programs = m.random.below(4);
        m.programs(programs, 4);
        let ids = if row == list { [2, 5] } else { [2, m.random.between(4, 6)] };
        m.extension_row(block, row, ids, place, (m.at() - place) as u64);
    }
    m.end_extensions(block);
    m.noise_behind();
}

/// (2, 5) lists that are cut, empty, left out or not the first.
pub fn list_bad(m: &mut Maker) {
    m.clip(b"spcm");
    let block = m.extension_front(2);
    for row in 0..2 {
        let place = m.at();
        let programs = m.random.pick(&[0, 1, 2]);
        m.programs(programs, 3);
        let whole = (m.at() - place) as u64;
        let cut = whole - m.random.between(1, whole);
        let length = m.random.pick(&[whole, whole, whole - 1, cut, 0, 5, 6, whole + 1]);
        let ids = if m.random.one_in(5) { [2, 4] } else { [2, 5] };
        m.extension_row(block, row, ids, place, length);
        if m.random.one_in(6) {
            m.set(block + 16 + 12 * row, 4, 0);
        }
    }
    m.end_extensions(block);
    m.noise_behind();
}
