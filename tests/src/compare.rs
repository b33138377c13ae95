//! The comparison of one file: a reader, an answerer and a writer against the Rust, refusals against the plain reader of the
//! rules.

use crate::answers::{Answerer, Input, Table};
use crate::expected;
use crate::model;
use crate::mutation::Mutation;
use crate::ours::{Part, Reader, Reading};
use crate::questions::Questions;
use crate::random::Random;
use crate::record::{CELLS, EXTENSIONS, LIST_STREAMS, MOST_BYTES, Record, row_bytes};
use crate::tables::Tables;
use crate::writer::{Info, Writer};
use crate::writing::{Counts, Writings, lower_languages};
use oracle::bdmv::clpi::ClipInformation;
use oracle::bdmv::extension::ExtensionDataEntry;
use std::panic::{AssertUnwindSafe, catch_unwind};

/// A difference, in words.
pub type Difference = String;

/// The buffers of the comparison, used again for every file.
pub struct Comparison {
    tables: Tables,
    expected: Record,
    model: Record,
    questions: Questions,
    writings: Writings,
    random: Random,
}

/// What the Rust makes of a file: its record, or its words where it refuses; a panic is a difference.
fn by_the_rust(file: &[u8]) -> Result<Result<ClipInformation, String>, Difference> {
    match catch_unwind(AssertUnwindSafe(|| ClipInformation::parse(file))) {
        Ok(answer) => Ok(answer.map_err(|why| why.to_string())),
        Err(_) => Err("the Rust panics".into()),
    }
}

/// The Rust's words for a map's fault tell its address from its fine address, and both from a read past the file's end: by
/// these it must have come to the same fault as the plain reader.
fn same_fault(refusal: u32, words: &str) -> Result<(), Difference> {
    let same = (refusal == 7) == words.contains("EP_map")
        && (refusal == 41) == words.contains("EP_fine")
        && (refusal != 42 || words.contains("slice"));
    must(same, || format!("the plain reader refuses by {refusal}, the Rust by the words: {words}"))
}

/// Nothing where the condition holds, else a difference.
pub fn must(holds: bool, difference: impl FnOnce() -> Difference) -> Result<(), Difference> {
    if holds { Ok(()) } else { Err(difference()) }
}

/// The tables as a reader has filled them, of these lengths in bytes, with the rows of the record stated.
fn filled<'a>(tables: &'a Tables, record: &Record, lengths: [usize; 9], null: bool) -> Input<'a> {
    Input {
        rate: record.scalars.ts_recording_rate,
        packets: record.scalars.number_of_source_packets,
        tables: std::array::from_fn(|table| Table {
            bytes: tables.written(table, lengths[table]),
            rows: record.rows(table) as u32,
        }),
        null,
    }
}

impl Comparison {
    /// A comparison with empty buffers.
    pub fn new() -> Self {
        Comparison {
            tables: Tables::default(),
            expected: Record::default(),
            model: Record::default(),
            questions: Questions::default(),
            writings: Writings::default(),
            random: Random::new(0),
        }
    }

    /// The record of the last file that was accepted.
    pub fn record(&self) -> &Record {
        &self.expected
    }

    /// How many questions were asked.
    pub fn questions(&self) -> Questions {
        self.questions
    }

    /// What was compared of writing.
    pub fn writings(&self) -> Counts {
        self.writings.counts
    }

    /// The length of the new file of the last file that was accepted; 0 where it can't be written.
    pub fn new_bytes(&self) -> usize {
        self.writings.new.len()
    }

    /// Compares a reader on one file, an answerer on its tables, and a writer on both; the refusal's number, or 0, where
    /// there is no difference.
    pub fn compare(
        &mut self,
        file: &[u8],
        seed: u64,
        reader: &mut impl Reader,
        answerer: &mut impl Answerer,
        writer: &mut impl Writer,
    ) -> Result<u32, Difference> {
        self.random = Random::new(!seed);
        let refusal = model::read(file, Mutation::Right, &mut self.model);
        let rust = if file.len() > MOST_BYTES { Err(String::new()) } else { by_the_rust(file)? };
        match rust {
            Ok(_) if refusal != 0 => Err(format!("the Rust accepts, the plain reader refuses by {refusal}")),
            Ok(clip) => self.accepted(file, clip, reader, answerer, writer).map(|()| 0),
            Err(_) if refusal == 0 => Err("the Rust refuses, the plain reader accepts".into()),
            Err(words) => {
                same_fault(refusal, &words)?;
                self.refused(file, refusal, reader, writer).map(|()| refusal)
            }
        }
    }

    /// A file that is refused: the number alone is told, with long tables and with none, and nothing changes.
    fn refused(
        &mut self,
        file: &[u8],
        refusal: u32,
        reader: &mut impl Reader,
        writer: &mut impl Writer,
    ) -> Result<(), Difference> {
        let long = self.longer([3; 9], 0);
        for lengths in [long, [0; 9]] {
            self.must_refuse(file, lengths, Reading::refused(refusal), reader)?;
        }
        self.writings.refused(file, refusal, &mut self.random, writer)
    }

    /// A file that is accepted: every number and cell, the questions, the new file, the rows of each table too few, and
    /// the extensions' data.
    fn accepted(
        &mut self,
        file: &[u8],
        mut clip: ClipInformation,
        reader: &mut impl Reader,
        answerer: &mut impl Answerer,
        writer: &mut impl Writer,
    ) -> Result<(), Difference> {
        expected::record_of(&clip, file, &mut self.expected);
        self.join_starts(file, &clip.extension.entries)?;
        for table in 0..9 {
            must(self.model.tables[table] == self.expected.tables[table], || {
                format!("table {}: the plain reader and the Rust differ", table + 1)
            })?;
        }
        must(self.model.scalars == self.expected.scalars, || {
            "the plain reader's numbers and the Rust's differ".into()
        })?;
        let surplus = self.longer(self.expected.all_rows(), 3);
        self.must_read(file, surplus, reader)?;
        self.ask(&clip, surplus, answerer)?;
        lower_languages(&mut clip);
        self.write(file, &clip, surplus, writer)?;
        self.extension_data(file, &clip.extension.entries, reader)?;
        self.each_short(file, reader)?;
        self.some_short(file, reader)?;
        if self.writings.new.is_empty() { Ok(()) } else { self.read_back(&clip, reader, answerer, writer) }
    }

    /// Takes the starts of table 7 from the plain reader, once the file has the Rust's data there.
    fn join_starts(&mut self, file: &[u8], entries: &[ExtensionDataEntry]) -> Result<(), Difference> {
        let wanted = self.expected.tables[EXTENSIONS].chunks_exact_mut(4);
        let given = self.model.tables[EXTENSIONS].chunks_exact(4);
        for ((wanted, given), entry) in wanted.zip(given).zip(entries) {
            let start = given[2] as usize;
            let there = file.get(start..start + entry.data.len());
            must(there == Some(&entry.data[..]), || format!("the Rust's data isn't at {start}"))?;
            wanted[2] = given[2];
        }
        Ok(())
    }

    /// Lengths in bytes that hold these rows, up to `most` rows more, and a part of a row.
    fn longer(&mut self, rows: [usize; 9], most: u64) -> [usize; 9] {
        std::array::from_fn(|table| {
            let more = self.random.below(most + 1) as usize;
            (rows[table] + more) * row_bytes(table) + self.random.below(row_bytes(table) as u64) as usize
        })
    }

    /// Lends tables that suffice: the answer and every cell must be the Rust's, and nothing else may change.
    fn must_read(&mut self, file: &[u8], lengths: [usize; 9], reader: &mut impl Reader) -> Result<(), Difference> {
        self.tables.reset(lengths, &mut self.random);
        let reading = reader.read(file, self.tables.slices());
        let wanted = Reading::accepted(&self.expected);
        must(reading == wanted, || format!("answered {reading:?}\nnot {wanted:?}"))?;
        self.must_be_filled()
    }

    /// Every cell of the tables must be the Rust's, and every byte that is no cell as it was lent.
    fn must_be_filled(&self) -> Result<(), Difference> {
        let written = std::array::from_fn(|table| 4 * self.expected.tables[table].len());
        for (table, &bytes) in written.iter().enumerate() {
            self.same_cells(table, self.tables.written(table, bytes))?;
        }
        let changed = self.tables.changed_beyond(written);
        must(changed.is_none(), || format!("table {:?}: a byte beyond its rows has changed", changed.map(|t| t + 1)))
    }

    /// Asks the questions of the tables as they were filled, which must not change them.
    fn ask(
        &mut self,
        clip: &ClipInformation,
        lengths: [usize; 9],
        answerer: &mut impl Answerer,
    ) -> Result<(), Difference> {
        let input = filled(&self.tables, &self.expected, lengths, self.random.one_in(2));
        self.questions.compare(&input, Some(clip), &mut self.random, answerer)?;
        self.must_be_filled().map_err(|why| format!("after the questions: {why}"))
    }

    /// Writes the record of the tables as they were filled, which must not change them, and rewrites the file.
    fn write(
        &mut self,
        file: &[u8],
        clip: &ClipInformation,
        lengths: [usize; 9],
        writer: &mut impl Writer,
    ) -> Result<(), Difference> {
        let input = filled(&self.tables, &self.expected, lengths, self.random.one_in(2));
        let info = Info::of(&self.expected.scalars);
        self.writings.accepted(file, clip, info, &input, &mut self.random, writer)?;
        self.must_be_filled().map_err(|why| format!("after writing: {why}"))
    }

    /// The new file must read to the same record, without marks and extensions, by the Rust and by the reader; the
    /// questions are asked of each eighth; and rewriting it must change no byte.
    fn read_back(
        &mut self,
        clip: &ClipInformation,
        reader: &mut impl Reader,
        answerer: &mut impl Answerer,
        writer: &mut impl Writer,
    ) -> Result<(), Difference> {
        let again = self.writings.same_for_the_rust(clip)?;
        let new = std::mem::take(&mut self.writings.new);
        let scalars = self.expected.scalars;
        let kept: [Vec<u32>; 3] = std::array::from_fn(|k| std::mem::take(&mut self.expected.tables[EXTENSIONS + k]));
        (self.expected.scalars.marks, self.expected.scalars.has_list) = (0, false);
        let lengths = self.longer(self.expected.all_rows(), 1);
        let mut read = self.must_read(&new, lengths, reader);
        if self.random.one_in(8) {
            read = read.and_then(|()| self.ask(&again, lengths, answerer));
        }
        self.expected.scalars = scalars;
        for (table, cells) in (EXTENSIONS..=LIST_STREAMS).zip(kept) {
            self.expected.tables[table] = cells;
        }
        read.map_err(|why| format!("the new file: {why}"))?;
        self.writings.new.clone_from(&new);
        self.writings.must_rewrite(&new, &mut self.random, writer).map_err(|why| format!("the new file: {why}"))
    }

    /// Compares the cells of a table with the Rust's.
    fn same_cells(&self, table: usize, bytes: &[u8]) -> Result<(), Difference> {
        let wanted = &self.expected.tables[table];
        let differs = bytes.chunks_exact(4).zip(wanted).position(|(bytes, cell)| bytes != cell.to_le_bytes());
        let Some(at) = differs else { return Ok(()) };
        let (row, column) = (at / CELLS[table], at % CELLS[table]);
        let given = &bytes[4 * at..4 * at + 4];
        Err(format!("table {} row {row} cell {column}: bytes {given:02x?}, not of {}", table + 1, wanted[at]))
    }

    /// Lends tables of these lengths: the answer must be the refusal given, and no byte may change.
    fn must_refuse(
        &mut self,
        file: &[u8],
        lengths: [usize; 9],
        wanted: Reading,
        reader: &mut impl Reader,
    ) -> Result<(), Difference> {
        self.tables.reset(lengths, &mut self.random);
        let reading = reader.read(file, self.tables.slices());
        must(reading == wanted, || format!("lent {lengths:?} bytes, answered {reading:?}\nnot {wanted:?}"))?;
        let changed = self.tables.changed_beyond([0; 9]);
        must(changed.is_none(), || {
            format!("table {:?}: a byte has changed beside refusal {}", changed.map(|t| t + 1), wanted.refusal)
        })
    }

    /// Each table with rows is lent one row short, a part of that row with it, while the others are exact.
    fn each_short(&mut self, file: &[u8], reader: &mut impl Reader) -> Result<(), Difference> {
        let rows = self.expected.all_rows();
        let exact: [usize; 9] = std::array::from_fn(|table| rows[table] * row_bytes(table));
        for table in (0..9).filter(|&table| rows[table] > 0) {
            let mut lengths = exact;
            lengths[table] -= self.random.between(1, row_bytes(table) as u64) as usize;
            self.must_refuse(file, lengths, Reading::too_short(table, rows[table]), reader)?;
        }
        Ok(())
    }

    /// Any number of tables are too short, then all are lent with no byte: the lowest one with rows is told.
    fn some_short(&mut self, file: &[u8], reader: &mut impl Reader) -> Result<(), Difference> {
        let rows = self.expected.all_rows();
        let any = std::array::from_fn(|table| rows[table] - self.random.below(1 + rows[table].min(2) as u64) as usize);
        for input in [any, [0; 9]] {
            let lengths = std::array::from_fn(|table| input[table] * row_bytes(table));
            match (0..9).find(|&table| input[table] < rows[table]) {
                Some(table) => self.must_refuse(file, lengths, Reading::too_short(table, rows[table]), reader)?,
                None => self.must_read(file, lengths, reader)?,
            }
        }
        Ok(())
    }

    /// The data of each extension, and the row numbers, stated rows and files with which there is none.
    fn extension_data(
        &mut self,
        file: &[u8],
        entries: &[ExtensionDataEntry],
        reader: &mut impl Reader,
    ) -> Result<(), Difference> {
        let rows = entries.len() as u32;
        let part_of_row = self.random.below(row_bytes(EXTENSIONS) as u64) as usize;
        let table = self.tables.written(EXTENSIONS, entries.len() * row_bytes(EXTENSIONS) + part_of_row);
        let refused =
            |part: Part, what: &str| must(part == Part::REFUSED, || format!("extension data: {what}: {part:?}"));
        for row in [rows, rows + 1, u32::MAX] {
            refused(reader.extension_data(file, table, rows, row), "a row that isn't there")?;
        }
        refused(reader.extension_data(file, table, rows + 1, 0), "one more row stated than lent")?;
        refused(reader.extension_data(file, table, u32::MAX, rows), "far more rows stated than lent")?;
        for (row, entry) in (0..rows).zip(entries) {
            let part = reader.extension_data(file, table, rows, row);
            let there = part.offset.checked_add(part.length).and_then(|end| file.get(part.offset..end));
            let start = self.expected.tables[EXTENSIONS][4 * row as usize + 2] as usize;
            must(part.refusal == 0 && part.offset == start && there == Some(&entry.data[..]), || {
                format!("extension data: row {row}: {part:?}")
            })?;
            let cut = &file[..part.offset + part.length - 1];
            refused(reader.extension_data(cut, table, rows, row), "data past the end of a shorter file")?;
            refused(reader.extension_data(file, table, row, row), "fewer rows stated")?;
            must(reader.extension_data(file, table, row + 1, row) == part, || {
                format!("extension data: row {row} stated last")
            })?;
        }
        Ok(())
    }
}
