//! Files about the entry points: ends, addresses, counts, references and times.

use super::Maker;
use super::parts::{coarse_row, packed_counts};

impl Maker {
    /// The front, sequences and programs, and marks now and then.
    pub fn before_cpi(&mut self) {
        let marks = self.random.one_in(2);
        self.clip(if marks { b"spm" } else { b"sp" });
    }

    /// A CPI behind the other sections.
    fn cpi_last(&mut self, maps: u64, least_coarse: u64, most_coarse: u64, most_fine: u64) {
        self.before_cpi();
        self.cpi(maps, least_coarse, most_coarse, most_fine);
    }

    /// Bytes behind the CPI, up to so many; in half of the files few or none.
    fn tail(&mut self, most: u64) {
        let length = if self.random.one_in(2) { self.random.below(5) } else { self.random.between(0, most) };
        self.noise(length as usize);
    }

    /// Sets a map header's counts, and keeps its spare bits and type.
    pub fn set_counts(&mut self, map: usize, coarse: u64, fine: u64) {
        let header = self.maps[map].header;
        let kept = self.get(header + 2, 6) >> 34;
        self.set(header + 2, 6, packed_counts(kept >> 4, kept & 15, coarse, fine));
    }

    /// One of the maps.
    fn any_map(&mut self) -> usize {
        self.random.below(self.maps.len() as u64) as usize
    }
}

/// Maps whose headers name one body, and bodies that name the same fine rows.
pub fn shared_rows(m: &mut Maker) {
    let maps = m.random.between(2, 4);
    m.cpi_last(maps, 1, 3, 6);
    for k in 0..m.maps.len() {
        let other = m.any_map();
        let (own, shared) = (m.maps[k], m.maps[other]);
        if m.random.one_in(2) {
            let address = (shared.body - m.cpi - 6) as u64;
            let (coarse, fine) = (m.random.between(0, shared.coarse), m.random.between(0, shared.fine));
            m.set(own.header + 8, 4, address);
            m.set_counts(k, coarse, fine);
        } else if shared.body >= own.body {
            let rows = shared.body - own.body + 4 + 8 * shared.coarse as usize;
            m.set(own.body, 4, rows as u64);
            m.set_counts(k, own.coarse, shared.fine);
        }
    }
    m.tail(20);
}

/// A CPI of 0 to 5 bytes, of type 1 and others, its map count and headers past its end or not there.
pub fn short_length(m: &mut Maker) {
    m.clip(b"spm");
    m.cpi(0, 0, 0, 0);
    let length = m.random.below(6);
    let word = m.random.pick(&[1, 1, 1, 0x11, 0, 2, 0x100]);
    let count = m.random.pick(&[0, 1, 2, 9]);
    m.set(m.cpi, 4, length);
    m.set(m.cpi + 4, 2, word);
    m.set(m.cpi + 7, 1, count);
    for _ in 0..count.min(2) {
        let (address, fine) = (m.random.below(4), m.random.below(3));
        m.put(4, 0);
        m.put(4, fine);
        m.put(4, address);
    }
    let least = m.cpi + 3 + length as usize;
    let end = match m.random.below(3) {
        0 => least + m.random.below(3) as usize,
        1 => m.at(),
        _ => m.at() - m.random.below(3) as usize,
    };
    m.file.truncate(end);
    if m.random.one_in(4) {
        m.tail(30);
    }
}

/// A CPI of another type, and of type 1 beside spare bits; now and then longer than the file.
pub fn other_type(m: &mut Maker) {
    let maps = m.random.below(3);
    m.cpi_last(maps, 0, 2, 3);
    let word = match m.random.below(3) {
        0 => m.any(2),
        1 => m.any(2) & 0xFFF0 | 1,
        _ => m.random.below(16),
    };
    m.set(m.cpi + 4, 2, word);
    let right = (m.at() - m.cpi - 4) as u64;
    let length = m.random.pick(&[right, right, right + 1, right + 3, 2, 3, 1, 0xFFFF_FFFF]);
    m.set(m.cpi, 4, length);
}

/// A fine address at the CPI end, one before it and one past it.
pub fn fine_at_end(m: &mut Maker) {
    let maps = m.random.between(1, 2);
    m.cpi_last(maps, 0, 2, 4);
    let map = m.any_map();
    let own = m.maps[map];
    let to_end = (m.cpi_end() - own.body) as u64;
    let address = m.random.pick(&[to_end, to_end, to_end - 1, to_end + 1]);
    m.set(own.body, 4, address);
    let rows = (4 * own.fine + address).saturating_sub(to_end);
    let tail = match m.random.below(3) {
        0 => (rows + m.random.below(3)).saturating_sub(1),
        _ => rows + m.random.below(9),
    };
    m.noise(tail as usize);
}

/// A CPI end before the rows' end, with the file going on or not.
pub fn rows_past_end(m: &mut Maker) {
    let maps = m.random.between(1, 3);
    m.cpi_last(maps, 0, 3, 6);
    let last = m.maps[maps as usize - 1];
    let fine = last.body + 4 + 8 * last.coarse as usize;
    let end = match m.random.below(4) {
        0 => m.random.between(last.body as u64 - 1, fine as u64),
        1 => fine as u64,
        _ => m.random.between(fine as u64, m.at() as u64),
    };
    m.set(m.cpi, 4, end - m.cpi as u64 - 4);
    if m.random.one_in(3) {
        let map = m.any_map();
        let coarse = m.random.below(6);
        m.set_counts(map, coarse, 3);
    }
    if m.random.one_in(3) {
        let cut = m.random.below(10) as usize;
        m.file.truncate(m.at() - cut);
    } else {
        m.tail(40);
    }
}

/// A CPI end within the map headers, the maps' bodies in the headers' own bytes.
pub fn headers_past_end(m: &mut Maker) {
    m.before_cpi();
    let maps = m.random.between(1, 4);
    m.cpi(maps, 0, 0, 0);
    m.file.truncate(m.cpi + 8 + 12 * maps as usize);
    let length = m.random.between(4, 4 + 12 * maps);
    m.set(m.cpi, 4, length);
    for k in 0..m.maps.len() {
        let header = m.maps[k].header;
        let (kind, coarse, fine) = (m.random.below(4), m.random.below(2), m.random.below(4));
        let last = (length - 3).min(2 + 12 * k as u64);
        let anywhere = m.random.below(length);
        let address = m.random.pick(&[2, 2, 2, last, anywhere]);
        m.set(header, 2, 0);
        m.set(header + 2, 6, packed_counts(0, kind, coarse, fine));
        m.set(header + 8, 4, address);
    }
    match m.random.below(3) {
        0 => m.file.truncate(m.at() - m.random.below(5) as usize),
        _ => m.tail(40),
    }
}

/// Map addresses in the headers, about the CPI end, and far past it, over words that are mostly 0.
pub fn addresses(m: &mut Maker) {
    let maps = m.random.between(1, 3);
    m.cpi_last(maps, 0, 1, 3);
    m.file.extend_from_slice(&[0; 8]);
    m.end_cpi();
    m.file.extend_from_slice(&[0; 12]);
    let map = m.any_map();
    let to_end = (m.cpi_end() - m.cpi - 6) as u64;
    let near = to_end - 6 + m.random.below(8);
    let high = m.random.between(0xFFFF_FFF0, 0xFFFF_FFFF);
    let anywhere = m.random.below(to_end + 2);
    let address = m.random.pick(&[near, near, near, to_end - 1, to_end, anywhere, high]);
    m.set(m.maps[map].header + 8, 4, address);
    match m.random.below(3) {
        0 => m.file.truncate(m.at() - m.random.below(20) as usize),
        _ => m.tail(20),
    }
}

/// Maps without coarse rows, their fine rows anywhere in the body.
pub fn no_coarse(m: &mut Maker) {
    let maps = m.random.between(1, 3);
    let most_coarse = m.random.below(2);
    m.cpi_last(maps, 0, most_coarse, 6);
    let map = m.any_map();
    let own = m.maps[map];
    if m.random.one_in(2) {
        let address = m.random.below((m.cpi_end() - own.body) as u64 + 1);
        m.set(own.body, 4, address);
    }
    m.tail(24);
}

/// Coarse rows whose first fine rows ascend, repeat, fall, start late, or pass the last fine row.
pub fn references(m: &mut Maker) {
    let maps = m.random.between(1, 2);
    m.cpi_last(maps, 1, 6, 12);
    for map in m.maps.clone() {
        for row in 0..map.coarse as usize {
            let first = match m.random.below(12) {
                0 => m.random.between(0x3_FFF0, 0x3_FFFF),
                _ => m.random.below(map.fine + 2),
            };
            let rest = m.get(map.body + 4 + 8 * row, 8) & ((1 << 46) - 1);
            m.set(map.body + 4 + 8 * row, 8, first << 46 | rest);
        }
    }
}

/// Coarse times that share their lowest bit with the fine time, and times of 8192 and more, whose highest bit is lost.
pub fn times(m: &mut Maker) {
    m.cpi_last(1, 1, 4, 8);
    let map = m.maps[0];
    for row in 0..map.coarse {
        let high = m.random.below(2) << 13;
        let time = high | m.random.pick(&[0, 1, 2, 3, 0x1FFE, 0x1FFF, 5]);
        let packet = m.random.pick(&[0, 0x1_FFFF, 0x2_0000, 0x3_FFFF, 0xFFFF_FFFF, 0xFFFE_0000]);
        m.set(map.body + 4 + 8 * row as usize, 8, coarse_row(row * map.fine / map.coarse, time, packet));
    }
    for row in 0..map.fine as usize {
        let at = map.body + 4 + 8 * map.coarse as usize + 4 * row;
        let time = m.random.pick(&[0, 1, 0x3FF, 0x400, 0x401, 0x7FF]);
        let packet = m.random.pick(&[0, 1, 0x1_0000, 0x1_FFFF]);
        let flags = m.get(at, 1) >> 4;
        m.set(at, 4, flags << 28 | time << 17 | packet);
    }
}

/// Coarse and fine counts with high bits set: mostly more rows than the file has, now and then as many.
pub fn high_counts(m: &mut Maker) {
    m.cpi_last(1, 1, 2, 4);
    let (few_coarse, few_fine) = (m.maps[0].coarse, m.maps[0].fine);
    let coarse = m.random.pick(&[few_coarse, 0x8000 | few_coarse, 0x4000 | few_coarse, 0xFFFF]);
    let fine = m.random.pick(&[few_fine, 0x1_0000 | few_fine, 0x2_0000 | few_fine, 0x3_FFFF, 0x8000]);
    m.set_counts(0, coarse, fine);
    let rows = 8 * coarse + 4 * fine;
    if rows < 0x8_0000 && m.random.one_in(100) {
        m.noise(rows as usize);
    }
}
