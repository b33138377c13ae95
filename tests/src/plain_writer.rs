//! A plain writer of the rules of the scope document and of the requests that have landed, with a switch for one wrong
//! rule: first every refusal, then the bytes as one list. It is slow and short.

pub mod bytes;
pub mod refusals;

use crate::answers::{Input, Table};
use crate::model;
use crate::mutation::Mutation;
use crate::record::{CLPI, Record};
use crate::writer::{Info, Length, TABLES, Writer, Writing};
use crate::wrong_writes::WrongWrite::{self, *};

/// A writer that has one rule wrong, or none.
pub struct Plain {
    wrong: WrongWrite,
    record: Record,
    tables: [Vec<u8>; TABLES],
}

impl Plain {
    /// The writer with this rule wrong.
    pub fn new(wrong: WrongWrite) -> Self {
        Plain { wrong, record: Record::default(), tables: Default::default() }
    }

    /// Puts the bytes into the output, or tells the length needed.
    fn put(&self, new: &[u8], output: &mut [u8]) -> Writing {
        let needed = new.len() + usize::from(self.wrong == ExactRefused);
        let fits = output.len().min(new.len());
        if needed > output.len() {
            if self.wrong == TouchedBefore23 {
                output[..fits].copy_from_slice(&new[..fits]);
            }
            if self.wrong != OutputCut {
                return self.short(new.len(), output.len());
            }
        }
        if self.wrong != Untouched {
            output[..fits].copy_from_slice(&new[..fits]);
        }
        if self.wrong == RestCleared {
            output[fits..].fill(0);
        }
        let told = if self.wrong == RoomTold { output.len() } else { fits };
        let needed = if self.wrong == NeededBesideSuccess { needed as u32 } else { 0 };
        Writing { bytes_needed: needed, ..Writing::written(told) }
    }

    /// The answer where the output is too short.
    fn short(&self, needed: usize, room: usize) -> Writing {
        let told = if self.wrong == MissingTold { needed - room } else { needed };
        let written = if self.wrong == WrittenBesideRefusal { room as u32 } else { 0 };
        Writing { bytes_written: written, ..Writing::too_short(told) }
    }

    /// Reads a file into tables; its refusal, or 0.
    fn read(&mut self, file: &[u8]) -> u32 {
        let refusal = model::read(file, Mutation::Right, &mut self.record);
        for (bytes, cells) in self.tables.iter_mut().zip(&self.record.tables) {
            bytes.clear();
            bytes.extend(cells.iter().flat_map(|cell| cell.to_le_bytes()));
        }
        if self.wrong == RewriteOf4096 && self.record.all_rows().iter().any(|rows| *rows > 4096) {
            return 21;
        }
        refusal
    }

    /// The tables that were read, as they are lent to writing.
    fn input(&self) -> Input<'_> {
        let mut tables = [Table::default(); 9];
        for (k, bytes) in self.tables.iter().enumerate() {
            tables[k] = Table { bytes, rows: self.record.rows(k) as u32 };
        }
        Input { rate: 0, packets: 0, tables, null: false }
    }
}

/// A file's refusal as it is told: of a map's faults 7 for all, where that is asked for.
fn told(refusal: u32, seven: bool) -> u32 {
    if seven && matches!(refusal, 41 | 42) { 7 } else { refusal }
}

impl Writer for Plain {
    /// Every refusal in its order, then the bytes.
    fn write(&mut self, info: Info, input: &Input, output: &mut [u8]) -> Writing {
        if self.wrong == AllRefused {
            return Writing::refused(31);
        }
        let short = || bytes::encode(&info, input, self.wrong).len() > output.len();
        let refusal = refusals::refusal(&info, input, short, self.wrong);
        if refusal != 0 && refusal != 23 {
            let touched = [(TouchedBefore22, 22), (TouchedBefore40, 40), (TouchedBefore30, 30), (TouchedBefore31, 31)];
            if touched.contains(&(self.wrong, refusal)) && !output.is_empty() {
                output[0] ^= 1;
            }
            return Writing::refused(refusal);
        }
        self.put(&bytes::encode(&info, input, self.wrong), output)
    }

    /// Reads, then writes.
    fn rewrite(&mut self, file: &[u8], output: &mut [u8]) -> Writing {
        let refusal = self.read(file);
        if self.wrong == OutputBeforeRows && output.is_empty() {
            return Writing::too_short(242);
        }
        if refusal != 0 {
            if self.wrong == TouchedBeforeReading && !output.is_empty() {
                output[0] ^= 1;
            }
            return Writing::refused(told(refusal, self.wrong == RewriteTells7));
        }
        if self.wrong == OldFile {
            return self.put(file, output);
        }
        let mut info = Info::of(&self.record.scalars);
        match self.wrong {
            RewrittenClpi => info.letters = CLPI,
            RewriteGives40 => info.letters = info.letters.swap_bytes(),
            _ => {}
        }
        let tables = std::mem::take(&mut self.tables);
        let rows: [u32; TABLES] = std::array::from_fn(|k| self.record.rows(k) as u32);
        let mut input = Input { rate: 0, packets: 0, tables: [Table::default(); 9], null: false };
        for k in 0..TABLES {
            input.tables[k] = Table { bytes: &tables[k], rows: rows[k] };
        }
        let answer = self.write(info, &input, output);
        self.tables = tables;
        answer
    }

    /// Reads, tests the runs, and measures.
    fn rewritten_length(&mut self, file: &[u8]) -> Length {
        let refusal = self.read(file);
        let bytes = if self.wrong == LengthBesideRefusal { file.len() as u32 } else { 0 };
        if refusal != 0 {
            return Length { refusal: told(refusal, self.wrong == LengthTells7), bytes };
        }
        if self.wrong == LengthOfOldFile {
            return Length { refusal: 0, bytes: file.len() as u32 };
        }
        let (mut info, input) = (Info::of(&self.record.scalars), self.input());
        if self.wrong == LengthGives40 {
            info.letters = info.letters.swap_bytes();
        }
        let refusal = refusals::refusal(&info, &input, || false, self.wrong);
        if refusal != 0 && self.wrong != LengthWithoutRuns {
            return Length { refusal, bytes };
        }
        Length { refusal: 0, bytes: bytes::encode(&info, &input, self.wrong).len() as u32 }
    }
}
