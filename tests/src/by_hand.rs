//! Tables made by hand, with cells that no file gives. Where they fit the Rust's fields it is asked too, on a record with
//! these rows; elsewhere the plain answers alone stand beside the library's.

use crate::answers::{Answerer, Input, Table};
use crate::compare::{Difference, must};
use crate::guarded::Guarded;
use crate::make::Maker;
use crate::questions::Questions;
use crate::random::Random;
use crate::record::{entry_cells, row_bytes};
use crate::rust_answers;
use oracle::bdmv::clpi::ClipInformation;
use std::hint::black_box;

/// How many tables questions look at: the first seven.
const TABLES: usize = 7;

/// Tables, each of which ends right before a page that can't be read.
pub struct ByHand {
    made: [Vec<u8>; TABLES],
    rows: [u32; TABLES],
    guarded: [Guarded; TABLES],
    /// A record of the Rust, into which the rows are put.
    clip: ClipInformation,
    pub questions: Questions,
}

/// What the cells of one set are made of.
struct Cells {
    /// The most rows of a table, or of a row of a table of counts.
    most: u64,
    times: [u32; 6],
    packets: [u32; 6],
    pids: [u32; 4],
    /// Offset ids, an extension's ids, and the bits of a type.
    offsets: [u32; 4],
    ids: [u32; 3],
    kinds: u32,
    /// Whether entries may have times of 64 bits, which the Rust's have not.
    long_times: bool,
}

impl ByHand {
    /// Empty tables.
    pub fn new() -> Self {
        ByHand {
            made: Default::default(),
            rows: [0; TABLES],
            guarded: std::array::from_fn(|_| Guarded::new(4096)),
            clip: ClipInformation::parse(Maker::new().make(0)).expect("a conventional file is accepted"),
            questions: Questions::default(),
        }
    }

    /// Makes the tables of a seed, asks every question of them, and looks whether they are as they were.
    pub fn compare(&mut self, seed: u64, answerer: &mut impl Answerer) -> Result<(), Difference> {
        let mut random = Random::new(seed.rotate_left(32));
        let narrow = random.one_in(2);
        self.make(narrow, &mut random);
        let mut tables = [Table::default(); 9];
        for (table, guarded) in self.guarded.iter_mut().enumerate() {
            tables[table] = Table { bytes: guarded.hold(&self.made[table]), rows: self.rows[table] };
        }
        let [rate, packets] = [(); 2].map(|()| cell(&mut random));
        let input = Input { rate, packets, tables, null: random.one_in(2) };
        if narrow {
            rust_answers::hold(&input, &mut self.clip);
        }
        let clip = narrow.then_some(&self.clip);
        self.questions.compare(&input, clip, &mut random, answerer).map_err(|why| format!("made by hand: {why}"))?;
        for (table, made) in self.made.iter().enumerate() {
            must(black_box(input.tables[table].bytes) == &made[..], || {
                format!("made by hand: table {} has changed", table + 1)
            })?;
        }
        Ok(())
    }

    /// Rows of each table, up to two rows and a part of one beyond those stated; narrow ones fit the Rust's fields.
    fn make(&mut self, narrow: bool, random: &mut Random) {
        self.made.iter_mut().for_each(Vec::clear);
        let cells = Cells::new(narrow, random);
        self.sequences(&cells, random);
        self.programs(&cells, random);
        self.maps(&cells, random);
        for _ in 0..random.below(cells.most) {
            let [id1, id2] = [(); 2].map(|()| random.pick(&cells.ids));
            put(&mut self.made[6], &[id1, id2, cell(random), cell(random)]);
        }
        for (table, bytes) in self.made.iter_mut().enumerate() {
            self.rows[table] = (bytes.len() / row_bytes(table)) as u32;
            let more = if random.one_in(2) { 0 } else { random.below(3 * row_bytes(table) as u64) };
            bytes.extend((0..more).map(|_| random.next() as u8));
        }
    }

    /// ATCs and their STCs.
    fn sequences(&mut self, cells: &Cells, random: &mut Random) {
        let [atcs, stcs, ..] = &mut self.made;
        for _ in 0..random.below(cells.most.min(9)) {
            let count = cells.count(random);
            put(atcs, &[cell(random), count, random.pick(&cells.offsets)]);
            for _ in 0..count {
                let [start, end] = [(); 2].map(|()| random.pick(&cells.times));
                put(stcs, &[cell(random), random.pick(&cells.packets), start, end]);
            }
        }
    }

    /// Programs and their streams.
    fn programs(&mut self, cells: &Cells, random: &mut Random) {
        let [_, _, programs, streams, ..] = &mut self.made;
        for _ in 0..random.below(cells.most.min(9)) {
            let count = cells.count(random);
            put(programs, &[random.pick(&cells.packets), random.pick(&cells.pids), count]);
            for _ in 0..count {
                let kind = coding_type(random) & cells.kinds;
                put(streams, &[random.pick(&cells.pids), kind, cell(random), cell(random), cell(random)]);
            }
        }
    }

    /// Maps and their entries.
    fn maps(&mut self, cells: &Cells, random: &mut Random) {
        let [.., maps, entries, _] = &mut self.made;
        for _ in 0..random.below(cells.most) {
            let times = cells.times_of_map(random);
            put(maps, &[random.pick(&cells.pids), map_type(random) & cells.kinds, times.len() as u32]);
            for time in times {
                put(entries, &entry_cells(cell(random), cell(random), time, cell(random), cell(random)));
            }
        }
    }
}

impl Cells {
    /// The cells of a set; narrow ones fit the Rust's fields.
    fn new(narrow: bool, random: &mut Random) -> Self {
        let most = if random.one_in(64) { 70 } else { random.pick(&[2, 5, 9]) };
        let wide = if narrow { 0xFFFF } else { random.pick(&[0xFFFF, 0x1_FFFF, u32::MAX]) };
        let kinds = if narrow { 0xFF } else { u32::MAX };
        let few = random.pick(&[7, 0xFF]);
        Cells {
            most,
            times: std::array::from_fn(|_| cell(random)),
            packets: std::array::from_fn(|_| cell(random)),
            pids: std::array::from_fn(|_| cell(random) & wide),
            offsets: std::array::from_fn(|_| cell(random) & random.pick(&[few, kinds])),
            ids: std::array::from_fn(|_| cell(random) & random.pick(&[few, wide])),
            kinds,
            long_times: !narrow && random.one_in(2),
        }
    }

    /// How many rows a row of a table of counts has.
    fn count(&self, random: &mut Random) -> u32 {
        if random.one_in(4) { 0 } else { random.below(self.most) as u32 }
    }

    /// The times of a map: none, any, many that are equal, or ascending strictly; some over 32 bits where they may be.
    fn times_of_map(&self, random: &mut Random) -> Vec<u64> {
        let count = if random.one_in(3) { 0 } else { random.below(self.most.max(7)) };
        let any = random.pick(&[1, 4, 8]);
        let low = |random: &mut Random| if random.one_in(any) { cell(random) } else { random.pick(&self.times) };
        let high = |random: &mut Random| if self.long_times && random.one_in(2) { cell(random) } else { 0 };
        let mut times: Vec<u64> = (0..count).map(|_| u64::from(high(random)) << 32 | u64::from(low(random))).collect();
        if random.one_in(3) {
            times.sort_unstable();
            times.dedup();
        }
        times
    }
}

/// Puts a row's cells behind the others.
fn put(bytes: &mut Vec<u8>, cells: &[u32]) {
    bytes.extend(cells.iter().flat_map(|cell| cell.to_le_bytes()));
}

/// Any cell: small, near a power of 2, near 2^32, or random.
fn cell(random: &mut Random) -> u32 {
    let near = random.below(5) as u32;
    match random.below(5) {
        0 => near,
        1 => near.wrapping_sub(2),
        2 => (1u32 << random.below(32)).wrapping_add(near).wrapping_sub(2),
        3 => random.next() as u32 >> random.below(32),
        _ => random.next() as u32,
    }
}

/// Coding types of video, of audio, and of neither.
const CODING: [u32; 24] = [
    0x02, 0x1B, 0x20, 0x24, 0xEA, 0x80, 0x81, 0x82, 0x83, 0x84, 0x85, 0x86, 0xA1, 0xA2, 0x01, 0x03, 0x7F, 0x87, 0x88,
    0x8F, 0x90, 0xA0, 0xA3, 0xEB,
];

/// A coding type: one of these, or one that is so but for bits over the lowest 8, or any.
fn coding_type(random: &mut Random) -> u32 {
    let kind = random.pick(&CODING);
    match random.below(4) {
        0 => kind,
        1 => kind | 0x100 << random.below(24),
        2 => random.below(256) as u32,
        _ => cell(random),
    }
}

/// A map's type: of four bits, or with bits over them, which don't count.
fn map_type(random: &mut Random) -> u32 {
    let kind = random.pick(&[0, 1, 5, 6, 8, 2, 9, 15]);
    match random.below(3) {
        0 => kind,
        1 => kind | 0x10 << random.below(28),
        _ => cell(random),
    }
}
