//! Files about streams and languages, and files with the greatest counts.

use super::Maker;
use super::sections::{CODING, PROGRAMS};

/// Bytes about the limits of A to Z, zero, and letters over 0x7F.
const LETTERS: [u64; 24] = [
    0x00, 0x00, 0x00, 0x40, 0x41, 0x42, 0x4D, 0x59, 0x5A, 0x5B, 0x60, 0x61, 0x7A, 0x7B, 0x7F, 0x80, 0xC0, 0xC4, 0xD7,
    0xDE, 0xDF, 0xE0, 0xFF, 0x20,
];

impl Maker {
    /// A programs section of few programs and streams, each stream made by a function.
    fn streams(&mut self, stream: fn(&mut Maker)) {
        let programs = self.random.between(1, 2);
        self.begin(PROGRAMS);
        self.noise(5);
        self.put(1, programs);
        for _ in 0..programs {
            let streams = self.random.between(1, 5);
            self.noise(6);
            self.put(1, streams);
            self.noise(1);
            for _ in 0..streams {
                stream(self);
            }
        }
    }
}

/// A stream of 0 to 8 body bytes and any coding type, its third byte now and then 0.
fn any_body(m: &mut Maker) {
    let length = m.random.below(9) as usize;
    let coding = if m.random.one_in(5) { m.any(1) } else { m.random.pick(&CODING) };
    m.noise(2);
    m.put(1, length as u64);
    let body = m.at();
    m.noise(length);
    m.file.truncate(body + length);
    if length > 0 {
        m.set(body, 1, coding);
    }
}

/// A stream with a language of bytes that tell most.
fn any_language(m: &mut Maker) {
    let coding = m.random.pick(&CODING);
    let length = m.random.pick(&[5, 5, 5, 6, 8, 4, 255]);
    m.noise(2);
    m.put(1, length);
    let body = m.at();
    m.noise(length as usize);
    m.set(body, 1, coding);
    for at in 2..length.min(5) as usize {
        let letter = m.random.pick(&LETTERS);
        m.set(body + at, 1, letter);
    }
}

/// Streams of every body length from 0 to 8; the file ends with them or goes on.
pub fn bodies(m: &mut Maker) {
    let last = m.random.one_in(2);
    m.clip(if last { b"scme" } else { b"s" });
    m.streams(any_body);
    if !last {
        m.section(b'c');
        m.section(b'm');
    } else if m.random.one_in(3) {
        let cut = m.random.below(6) as usize;
        m.file.truncate(m.at() - cut);
    }
}

/// Languages in capitals, of zeros, of bytes about the letters.
pub fn languages(m: &mut Maker) {
    m.clip(b"s");
    m.streams(any_language);
    m.section(b'm');
}

/// One count of 255, of each kind; now and then two of them together, for the most rows a table can have.
pub fn counts(m: &mut Maker) {
    let both = m.random.one_in(256);
    let most = if both { 255 } else { 0 };
    m.clip(b"m");
    match m.random.below(7) {
        0 => m.sequences(255, most),
        1 => m.sequences(1, 255),
        2 => m.program_section(255, most / 8),
        3 => m.program_section(1, 255),
        4 => m.cpi(255, 0, 1, most / 8),
        5 => extensions_of_255(m),
        _ => list_of_255(m, most / 8),
    }
    for (start, section) in [(8, b's'), (12, b'p'), (16, b'c'), (24, b'e')] {
        if m.get(start, 4) == 0 {
            m.section(section);
        }
    }
}

/// 255 extension rows over the bytes of the block itself.
fn extensions_of_255(m: &mut Maker) {
    let block = m.extension_front(255);
    for row in 0..255 {
        let place = block + m.random.between(0, 100) as usize;
        let length = m.random.below(40);
        let ids = m.random.pick(&[[2, 5], [2, 6], [3, 5]]);
        m.extension_row(block, row, ids, place, length);
    }
    m.end_extensions(block);
}

/// A (2, 5) list of 255 programs, or of one program with up to 255 streams.
fn list_of_255(m: &mut Maker, most_streams: u64) {
    let block = m.extension_front(1);
    let place = m.at();
    if m.random.one_in(2) {
        m.programs(255, most_streams)
    } else {
        m.programs(1, 255)
    }
    m.extension_row(block, 0, [2, 5], place, (m.at() - place) as u64);
    m.end_extensions(block);
}
