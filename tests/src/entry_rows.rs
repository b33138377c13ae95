//! The command `rows`: entry lookups over a row of records, beside the table calls, the plain definitions and the Rust.

use crate::answers::{Answer, Answerer, Input, Question, Question::*, Table};
use crate::compare::{Difference, must};
use crate::guarded::Guarded;
use crate::ours::Library;
use crate::plain_answers::{self, Plain};
use crate::random::Random;
use crate::record::{ENTRIES, MAPS, entry_cells, row_bytes};
use crate::rust_answers;
use crate::wrong_answers::WrongAnswer;
use oracle::bdmv::clpi::{EpEntry, EpMap};
use std::hint::black_box;

/// A record of the library: the Rust's `EpEntry`, laid out as C does.
#[repr(C)]
#[derive(Clone, Copy)]
pub struct Entry {
    is_angle_change_point: bool,
    i_end_position_offset: u8,
    pts_ep_start: u32,
    spn_ep_start: u32,
    ep_stream_type: u8,
}

/// The bytes of a record.
const BYTES: usize = 16;

unsafe extern "C" {
    fn entry_point_at_or_before(first: *const Entry, rows: usize, at: u32) -> Answer;
    fn entry_point_after(first: *const Entry, rows: usize, at: u32) -> Answer;
    fn seek_spn(first: *const Entry, rows: usize, at: u32) -> Answer;
    fn next_seek_spn(first: *const Entry, rows: usize, at: u32) -> Answer;
    fn indexed_span_90k(first: *const Entry, rows: usize) -> Answer;
}

/// Something that answers as the library does about a row of records, which are the entries of one map of the tables.
pub trait RowAnswerer {
    /// The answer to a question about that map, asked of the records.
    fn ask_rows(&mut self, question: Question, rows: &[Entry], input: &Input) -> Answer;
}

impl RowAnswerer for Library {
    /// Makes the question's call; the tables aren't looked at.
    fn ask_rows(&mut self, question: Question, rows: &[Entry], _: &Input) -> Answer {
        let (first, count) = (rows.as_ptr(), rows.len());
        // SAFETY: the pointer has as many records behind it as the count says; the calls only read.
        unsafe {
            match question {
                EntryAtOrBefore(_, at) => entry_point_at_or_before(first, count, at),
                EntryAfter(_, at) => entry_point_after(first, count, at),
                SeekSpn(_, at) => seek_spn(first, count, at),
                NextSeekSpn(_, at) => next_seek_spn(first, count, at),
                IndexedSpan(_) => indexed_span_90k(first, count),
                _ => unreachable!("{question:?} isn't asked of records"),
            }
        }
    }
}

impl RowAnswerer for Plain {
    /// The plain answer about the map of the tables, with this answerer's wrong rule.
    fn ask_rows(&mut self, question: Question, _: &[Entry], input: &Input) -> Answer {
        self.ask(question, input)
    }
}

/// The library on records that are taken for others in one way.
pub struct Misread(pub fn(&mut Vec<Entry>));

impl RowAnswerer for Misread {
    /// The library's answer about the other records.
    fn ask_rows(&mut self, question: Question, rows: &[Entry], input: &Input) -> Answer {
        let mut others = rows.to_vec();
        (self.0)(&mut others);
        Library.ask_rows(question, &others, input)
    }
}

/// Ways to take records for others, in words.
pub const MISREAD: &[(&str, fn(&mut Vec<Entry>))] = &[
    ("an entry's packet for its time", |rows| rows.iter_mut().for_each(|e| e.pts_ep_start = e.spn_ep_start)),
    ("an entry's time for its packet", |rows| rows.iter_mut().for_each(|e| e.spn_ep_start = e.pts_ep_start)),
    ("an entry's type for its time", |rows| rows.iter_mut().for_each(|e| e.pts_ep_start = e.ep_stream_type.into())),
    ("the first entry left out", |rows| drop(rows.drain(..rows.len().min(1)))),
    ("the last entry left out", |rows| rows.truncate(rows.len().saturating_sub(1))),
    ("the entries backwards", |rows| rows.reverse()),
    ("angle change points left out", |rows| rows.retain(|e| !e.is_angle_change_point)),
    ("times of 31 bits", |rows| rows.iter_mut().for_each(|e| e.pts_ep_start &= 0x7FFF_FFFF)),
    ("packets of 16 bits", |rows| rows.iter_mut().for_each(|e| e.spn_ep_start &= 0xFFFF)),
];

/// How many questions were asked of records, of these beside the Rust, and the records of the longest row.
#[derive(Clone, Copy, Default)]
pub struct Counts {
    pub asked: u64,
    pub of_the_rust: u64,
    pub longest: usize,
}

/// Rows of records and tables of the same entries, each of which ends right before a page that can't be read.
pub struct EntryRows {
    records: Guarded,
    tables: [Guarded; 2],
    pub counts: Counts,
}

impl EntryRows {
    /// Empty rows.
    pub fn new() -> Self {
        let guarded = || Guarded::new(4096);
        EntryRows { records: guarded(), tables: [guarded(), guarded()], counts: Counts::default() }
    }

    /// Makes the entries of a seed, as records and as those of a map among others in tables, and asks every question.
    pub fn compare(&mut self, seed: u64, answerer: &mut impl RowAnswerer) -> Result<(), Difference> {
        let random = &mut Random::new(seed.rotate_left(16));
        let made = entries(random);
        self.counts.longest = self.counts.longest.max(made.len());
        let (map, cells) = tables(&made, random);
        let [maps, entries] = &mut self.tables;
        let mut tables = [Table::default(); 9];
        tables[MAPS] = Table { bytes: maps.hold(&cells[0]), rows: (cells[0].len() / 12) as u32 };
        tables[ENTRIES] = Table { bytes: entries.hold(&cells[1]), rows: (cells[1].len() / row_bytes(ENTRIES)) as u32 };
        let input = Input { rate: 0, packets: 0, tables, null: random.one_in(2) };
        let bytes = record_bytes(&made);
        let held = self.records.hold(&bytes);
        // SAFETY: the bytes of whole records, each laid out by `record_bytes`; their end is that of a page, so they are aligned.
        let rows = unsafe { std::slice::from_raw_parts(held.as_ptr().cast::<Entry>(), made.len()) };
        let rust = EpMap { stream_pid: 0, ep_stream_type: 0, entries: made.clone() };
        for question in questions(map, &made, random) {
            self.counts.asked += 1;
            let wanted = plain_answers::answer(question, &input, WrongAnswer::Right);
            let table = Library.ask(question, &input);
            must(table == wanted, || format!("{question:?}: of tables {table:?}, not {wanted:?}, of {}", told(&made)))?;
            if let Some(rust) = rust_answers::of_map(question, &rust) {
                self.counts.of_the_rust += 1;
                must(rust == wanted, || {
                    format!("{question:?}: the Rust's {rust:?}, not {wanted:?}, of {}", told(&made))
                })?;
            }
            let given = answerer.ask_rows(question, rows, &input);
            must(given == wanted, || {
                format!("{question:?}: of records {given:?}, not {wanted:?}, of {}", told(&made))
            })?;
        }
        must(black_box(held) == &bytes[..], || format!("the records have changed: {}", told(&made)))
    }
}

/// A number: small, near the greatest, or any.
fn number(random: &mut Random) -> u32 {
    let near = random.below(4) as u32;
    match random.below(4) {
        0 => near,
        1 => u32::MAX - near,
        2 => (1 << 31) + near,
        _ => random.next() as u32,
    }
}

/// Entries: none, any, many of equal times, or strictly ascending; seldom more than 16 bits can count.
fn entries(random: &mut Random) -> Vec<EpEntry> {
    let few: [u32; 4] = std::array::from_fn(|_| number(random));
    let most = match random.below(1 << 16) {
        0 => 1 << 18,
        n if n < 1 << 10 => 300,
        _ => 9,
    };
    let any = random.pick(&[1, 3, 8]);
    let count = if random.one_in(8) { 0 } else { random.below(most) };
    let mut times: Vec<u32> =
        (0..count).map(|_| if random.one_in(any) { number(random) } else { random.pick(&few) }).collect();
    if random.one_in(3) {
        times.sort_unstable();
        times.dedup();
    }
    let entry = |time: u32| EpEntry {
        is_angle_change_point: random.one_in(2),
        i_end_position_offset: random.next() as u8,
        pts_ep_start: time,
        spn_ep_start: number(random),
        ep_stream_type: random.next() as u8,
    };
    times.into_iter().map(entry).collect()
}

/// Tables 5 and 6 with up to two maps before that of the entries and one behind it, and its row.
fn tables(made: &[EpEntry], random: &mut Random) -> (u32, [Vec<u8>; 2]) {
    let row = random.below(3) as u32;
    let mut cells: [Vec<u32>; 2] = Default::default();
    for map in 0..=row + random.below(2) as u32 {
        let others = entries(random);
        let own = if map == row { made } else { &others };
        cells[0].extend([number(random), number(random), own.len() as u32]);
        cells[1].extend(own.iter().flat_map(|e| {
            let angle = u32::from(e.is_angle_change_point);
            entry_cells(
                angle,
                e.i_end_position_offset.into(),
                e.pts_ep_start.into(),
                e.spn_ep_start,
                e.ep_stream_type.into(),
            )
        }));
    }
    (row, cells.map(|cells| cells.into_iter().flat_map(u32::to_le_bytes).collect()))
}

/// Records as C lays them out, with anything between the fields.
fn record_bytes(made: &[EpEntry]) -> Vec<u8> {
    let mut bytes = vec![0xA5; BYTES * made.len()];
    for (record, entry) in bytes.chunks_exact_mut(BYTES).zip(made) {
        record[0] = entry.is_angle_change_point.into();
        record[1] = entry.i_end_position_offset;
        record[4..8].copy_from_slice(&entry.pts_ep_start.to_le_bytes());
        record[8..12].copy_from_slice(&entry.spn_ep_start.to_le_bytes());
        record[12] = entry.ep_stream_type;
    }
    bytes
}

/// The span, and the lookups by each of some times, one less, one more, 0, any, and the greatest.
fn questions(map: u32, made: &[EpEntry], random: &mut Random) -> Vec<Question> {
    let mut times = vec![0, random.next() as u32, u32::MAX];
    for _ in 0..made.len().min(4) {
        let time = made[random.below(made.len() as u64) as usize].pts_ep_start;
        times.extend([time, time.wrapping_sub(1), time.wrapping_add(1)]);
    }
    let by_time = |at| [EntryAtOrBefore(map, at), EntryAfter(map, at), SeekSpn(map, at), NextSeekSpn(map, at)];
    times.into_iter().flat_map(by_time).chain([IndexedSpan(map)]).collect()
}

/// Entries in words; of many only how many.
fn told(made: &[EpEntry]) -> String {
    if made.len() <= 20 { format!("{made:?}") } else { format!("{} entries", made.len()) }
}

/// Compares the rows of `count` seeds; tells the questions and the differences.
pub fn rows(first: u64, count: u64) -> bool {
    let mut rows = EntryRows::new();
    let differences: Vec<String> = (first..first + count)
        .filter_map(|seed| rows.compare(seed, &mut Library).err().map(|why| format!("seed {seed}: {why}")))
        .collect();
    differences.iter().take(20).for_each(|difference| println!("{difference}"));
    let Counts { asked, of_the_rust, longest } = rows.counts;
    println!("questions on rows of records: {asked} answered, the Rust's answers beside them: {of_the_rust}");
    println!("{count} rows of up to {longest} records compared, {} differences", differences.len());
    differences.is_empty()
}
