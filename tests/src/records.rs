//! Records made by hand, by seed: most can be written, the others have one thing wrong, or several. The library's answer is
//! the plain writer's, and the bytes are the Rust's too, behind the record's letters, and read back to the record.

use crate::compare::{Difference, must};
use crate::made::{Buffers, Made};
use crate::ours::Reader;
use crate::plain_writer::refusals;
use crate::random::Random;
use crate::record::{ATCS, CELLS, CLPI, ENTRIES, HDMV, MAPS, PROGRAMS, STCS, STREAMS, entry_cells, row_bytes};
use crate::writer::{Info, TABLES, Writer};
use crate::writing::{Counts, Writings};
use crate::wrong_writes::WrongWrite::Right;
use std::hint::black_box;

/// Records lent, and what was compared of them.
pub struct Records {
    buffers: Buffers,
    writings: Writings,
}

impl Records {
    /// Empty tables.
    pub fn new() -> Self {
        Records { buffers: Buffers::new(), writings: Writings::default() }
    }

    /// What was compared.
    pub fn counts(&self) -> Counts {
        self.writings.counts
    }

    /// Makes the record of a seed and compares writing it.
    pub fn compare(&mut self, seed: u64, reader: &mut impl Reader, writer: &mut impl Writer) -> Result<(), Difference> {
        let mut random = Random::new(seed.rotate_left(16));
        let made = any(&mut random);
        self.one(&made, &mut random, reader, writer).map_err(|why| format!("a record made by hand: {why}"))
    }

    /// Compares writing one record: refused as the plain writer refuses it, or written to the Rust's bytes.
    fn one(
        &mut self,
        made: &Made,
        random: &mut Random,
        reader: &mut impl Reader,
        writer: &mut impl Writer,
    ) -> Result<(), Difference> {
        let (input, clip) = self.buffers.hold(made);
        let refusal = refusals::refusal(&made.info, &input, || false, Right);
        if refusal != 0 {
            return self.writings.must_refuse(refusal, random, |output| writer.write(made.info, &input, output));
        }
        self.writings.made(made, &input, clip, random, reader, writer)?;
        for table in 0..TABLES {
            let cells = black_box(input.tables[table].bytes).chunks_exact(4).zip(&made.cells[table]);
            must(cells.clone().all(|(bytes, cell)| bytes == cell.to_le_bytes()), || {
                format!("table {} has changed", table + 1)
            })?;
        }
        Ok(())
    }
}

/// Any record: one that can be written, in one of three with up to three changes that may be wrong.
fn any(random: &mut Random) -> Made {
    let mut made = fitting(random);
    if random.one_in(3) {
        for _ in 0..random.between(1, 3) {
            change(&mut made, random);
        }
    }
    for table in 0..TABLES {
        let more = if random.one_in(2) { 0 } else { random.below(3 * row_bytes(table) as u64) };
        made.surplus[table].extend((0..more).map(|_| random.next() as u8));
    }
    made.null = random.one_in(2);
    made
}

/// A record with the letters HDMV or CLPI, whose cells fit their fields.
fn fitting(random: &mut Random) -> Made {
    let any = |random: &mut Random| random.next() as u32 >> random.below(32);
    let mut made = Made::default();
    made.info = Info {
        letters: random.pick(&[HDMV, CLPI]),
        version: any(random),
        clip_stream_type: any(random) & 0xFF,
        application_type: any(random) & 0xFF,
        ts_recording_rate: any(random),
        number_of_source_packets: any(random),
        validity_flags: any(random) & 0xFF,
        format_id: any(random),
    };
    let count = |random: &mut Random| if random.one_in(4) { 0 } else { random.below(5) as u32 };
    for _ in 0..random.below(4) {
        let own = count(random);
        made.cells[ATCS].extend([any(random), own, any(random) & 0xFF]);
        (0..own).for_each(|_| made.cells[STCS].extend([any(random) & 0xFFFF, any(random), any(random), any(random)]));
    }
    for _ in 0..random.below(4) {
        let own = count(random);
        made.cells[PROGRAMS].extend([any(random), any(random) & 0xFFFF, own]);
        (0..own).for_each(|_| made.cells[STREAMS].extend(stream(random)));
    }
    for _ in 0..random.below(4) {
        let (own, kind) = (3 * count(random), random.below(16) as u32);
        made.cells[MAPS].extend([any(random) & 0xFFFF, kind, own]);
        let near = [any(random), any(random)];
        (0..own).for_each(|_| made.cells[ENTRIES].extend(entry(near, kind, random)));
    }
    made
}

/// A stream: of video with an aspect, or of anything else with a language that is given or not.
fn stream(random: &mut Random) -> [u32; 5] {
    let kind = random.pick(&[0x02, 0x1B, 0x20, 0x24, 0xEA, 0x80, 0x86, 0x90, 0x91, 0x92, 0, 0xFF, 0x1A, 0x21]);
    let [pid, format] = [0xFFFF, 0xFF].map(|mask| random.next() as u32 & mask);
    match kind {
        0x02 | 0x1B | 0x20 | 0x24 | 0xEA => [pid, kind, format, random.below(16) as u32, 0],
        _ => {
            let letters = [*b"\0eng", *b"\0ENG", *b"\0\0\0\0", *b"\0\0\0a", *b"\0Z\0\0", *b"\0\xC4\xFF{"];
            [pid, kind, format, 0, u32::from_be_bytes(random.pick(&letters))]
        }
    }
}

/// An entry whose time and packet are near those given, so that some are in one run, or any.
fn entry(near: [u32; 2], kind: u32, random: &mut Random) -> [u32; 6] {
    let [time, packet] = match random.below(4) {
        0 => [random.next() as u32, random.next() as u32],
        1 => [near[0], near[1].wrapping_add(0x2_0000)],
        2 => [near[0].wrapping_add(0x8_0000), near[1]],
        _ => {
            [near[0].wrapping_add(random.below(0x10_0000) as u32), near[1].wrapping_add(random.below(0x4_0000) as u32)]
        }
    };
    entry_cells(random.below(2) as u32, random.below(8) as u32, u64::from(time & !511), packet, kind)
}

/// Letters that are wrong, by a little or by much.
fn other_letters(random: &mut Random) -> u32 {
    let near = random.pick(&[HDMV, CLPI]);
    match random.below(4) {
        0 => near.swap_bytes(),
        1 => near ^ 1 << random.below(32),
        2 => random.pick(&[0, 1, u32::MAX]),
        _ => u32::from_be_bytes(random.pick(&[*b"hdmv", *b"clpi", *b"HDMW", *b"CLPV", *b"HDPI", *b"CLMV", *b"MPLS"])),
    }
}

/// One change that may be wrong: a cell, a number beside the tables, the letters, the rows stated, or the bytes lent.
fn change(made: &mut Made, random: &mut Random) {
    let table = random.below(TABLES as u64) as usize;
    let wide = random.pick(&[1u32, 2, 8, 15, 16, 255, 256, 511, 512, 65_535, 65_536, 0xFF_FFFF, 0x100_0000, u32::MAX]);
    match random.below(7) {
        0 => made.stated[table] += random.pick(&[-1i64, 1, 2]).max(-(made.rows(table) as i64)),
        1 => made.cut[table] = (random.below(2 * row_bytes(table) as u64) as usize).min(4 * made.cells[table].len()),
        2 => {
            let number = random.pick(&[0, 1, 2]);
            let info = &mut made.info;
            *[&mut info.clip_stream_type, &mut info.application_type, &mut info.validity_flags][number] = wide;
        }
        3 => made.info.letters = other_letters(random),
        _ if made.rows(table) > 0 => {
            let row = random.below(made.rows(table) as u64) as usize;
            made.set(table, row, random.below(CELLS[table] as u64) as usize, wide);
        }
        _ => {}
    }
}
