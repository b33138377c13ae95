//! Files with faults: cut, changed, spliced, of other letters, and with numbers too great.

use super::Maker;
use super::layouts::{self, STARTS};
use super::sections::{CPI, MARKS, PROGRAMS, SEQUENCES};
use super::{clips, extensions, maps, streams};
use crate::random::Random;

/// No small file is as long as this.
const SMALL: u64 = 700;

/// Every truncation of a small file, then of the next one.
pub fn truncated(m: &mut Maker) {
    m.random = Random::new(m.number / SMALL);
    let order = m.order();
    m.front();
    for section in order {
        match section {
            b's' => m.sequences(2, 2),
            b'p' => m.program_section(2, 2),
            b'c' => m.cpi(2, 1, 2, 3),
            _ => m.section(section),
        }
    }
    m.file.truncate((m.number % SMALL) as usize);
}

/// One to four bytes changed: anywhere, or in the header and at the sections' fronts, where they tell most.
pub fn flipped(m: &mut Maker) {
    let order = m.order();
    m.clip(&order);
    for _ in 0..m.random.between(1, 4) {
        let front =
            m.random.pick(&[8, 40, m.cpi, m.cpi + 8, m.get(SEQUENCES, 4) as usize, m.get(PROGRAMS, 4) as usize]);
        let at = match m.random.below(2) {
            0 => front + m.random.below(16) as usize,
            _ => m.random.below(m.file.len() as u64) as usize,
        };
        let old = m.get(at, 1);
        let new = match m.random.below(5) {
            0 => m.any(1),
            1 => 0,
            2 => old + 1,
            3 => old + 255,
            _ => old ^ 1 << m.random.below(8),
        };
        m.set(at, 1, new);
    }
}

/// Right and wrong letters on files of any short length.
pub fn letters(m: &mut Maker) {
    m.front();
    let letters = m.random.pick(&[*b"HDMV", *b"CLPI", *b"MPLS", *b"hdmv", *b"HDMW", *b"CLPV", *b"HDPI", [0; 4]]);
    m.set(0, 4, u32::from_be_bytes(letters).into());
    if m.random.one_in(2) {
        // no sequences and no programs, which are read from the header, and a short ClipInfo
        m.set(5, 1, 0);
        m.set(40, 4, 140);
    }
    let length = match m.random.below(4) {
        0 => m.random.below(10),
        1 => m.random.between(36, 44),
        2 => m.random.between(190, 200),
        _ => m.random.below(221),
    };
    m.file.truncate(length as usize);
}

/// Two or three faults in one file, so that the order of the tests shows.
pub fn several(m: &mut Maker) {
    let order = m.random.pick(&[*b"spcme", *b"spmec", *b"cpsem"]);
    m.front();
    for section in order {
        if section == b'c' { m.cpi(2, 1, 2, 3) } else { m.section(section) }
    }
    for _ in 0..m.random.between(2, 3) {
        one_fault(m);
    }
}

/// One fault of those that a refusal tells.
fn one_fault(m: &mut Maker) {
    let past = m.at() as u64 + m.random.below(3);
    let past_cpi = past.saturating_sub(m.cpi as u64 + 3);
    let map = m.maps[m.random.below(2) as usize];
    match m.random.below(11) {
        0 => m.set(SEQUENCES, 4, past),
        1 => m.set(PROGRAMS, 4, past),
        2 => m.set(m.cpi, 4, past_cpi),
        3 => m.set(map.header + 8, 4, past),
        4 => m.set(m.cpi + 7, 1, 255),
        5 => m.set(map.header + 5, 3, 0x03_FFFF),
        6 => m.set(MARKS, 4, past.saturating_sub(5)),
        7 => m.set(40, 4, past),
        8 => m.set(map.body, 4, past),
        9 => m.set(m.cpi + 4, 2, 2),
        _ => {
            let length = m.random.pick(&[7, 20, 39, 60, 193, m.file.len() - 1, m.file.len() - 3]);
            m.file.truncate(length);
        }
    }
}

/// Numbers near 2^32, 2^31 and the file's length in fields of four bytes.
pub fn huge_numbers(m: &mut Maker) {
    let order = m.order();
    m.clip(&order);
    let map = m.maps.first().map_or(m.cpi, |map| map.header + 8);
    let body = m.maps.last().map_or(m.cpi, |map| map.body);
    for _ in 0..m.random.between(1, 3) {
        let start = m.random.pick(&STARTS);
        let section = m.get(start, 4) as usize;
        let length = m.at() as u64;
        let at = m.random.pick(&[8, 12, 16, 20, 24, 24, 40, section, m.cpi, map, body, section + 16, section + 20]);
        let near = m.random.pick(&[1 << 32, 1 << 32, 1 << 31, 1 << 29, length, length - 220]);
        let value = near - 8 + m.random.below(if near > length { 8 } else { 12 });
        m.set(at, 4, value);
    }
}

/// The front of one file and the rest of another.
pub fn spliced(m: &mut Maker) {
    let makers = [
        clips::conventional,
        clips::backwards,
        clips::any_order,
        layouts::overlapping,
        layouts::small_numbers,
        maps::shared_rows,
        maps::references,
        streams::bodies,
        extensions::list_good,
    ];
    m.random.pick(&makers)(m);
    std::mem::swap(&mut m.file, &mut m.other);
    m.file.clear();
    m.random.pick(&makers)(m);
    let cut = m.random.below(m.other.len() as u64) as usize;
    let from = if m.random.one_in(3) { m.random.below(m.file.len() as u64) as usize } else { cut.min(m.file.len()) };
    m.other.truncate(cut);
    m.other.extend_from_slice(&m.file[from..]);
    std::mem::swap(&mut m.file, &mut m.other);
    if m.random.one_in(2) {
        let cpi = m.get(CPI, 4) as usize;
        let length = m.random.below(200);
        m.set(cpi, 4, length);
    }
}
