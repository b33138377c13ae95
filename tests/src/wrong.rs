//! Readers with one wrong rule, as the comparison is handed the library: it must find each of them out.

use crate::model;
use crate::mutation::Mutation::{self, *};
use crate::ours::{Part, Reader, Reading};
use crate::record::{CELLS, Record, row_bytes};

/// A reader that has one rule wrong, or none.
pub struct Wrong {
    mutation: Mutation,
    record: Record,
}

impl Wrong {
    /// The reader with this rule wrong.
    pub fn new(mutation: Mutation) -> Self {
        Wrong { mutation, record: Record::default() }
    }

    /// The first table that is too short, or with one wrong rule the last.
    fn short(&self, tables: &[&mut [u8]; 9]) -> Option<usize> {
        let spare = |table: usize| if self.mutation == PartialRowCounts { row_bytes(table) - 1 } else { 0 };
        let mut short = (0..9).filter(|&t| (tables[t].len() + spare(t)) / row_bytes(t) < self.record.rows(t));
        if self.mutation == HighestTable { short.next_back() } else { short.next() }
    }

    /// Puts the rows at the front of each table, as far as there is room.
    fn fill(&self, tables: &mut [&mut [u8]; 9]) {
        for (table, cells) in self.record.tables.iter().enumerate() {
            for (place, cell) in tables[table].chunks_exact_mut(4).zip(cells) {
                place.copy_from_slice(&cell.to_le_bytes());
            }
            let rows = self.record.rows(table) * row_bytes(table);
            if self.mutation == SurplusCleared && rows < tables[table].len() {
                tables[table][rows..].fill(0);
            }
        }
    }

    /// The answer of a refusal.
    fn refusal(&self, number: u32) -> Reading {
        let scalars = &self.record.scalars;
        let version = if self.mutation == NumbersBesideRefusal { scalars.version } else { 0 };
        let letters = if self.mutation == LettersBesideRefusal { scalars.letters } else { 0 };
        Reading { version, letters, ..Reading::refused(number) }
    }

    /// The numbers of the record, or counts that are made up.
    fn answer(&self, tables: &[&mut [u8]; 9]) -> Reading {
        let mut reading = Reading::accepted(&self.record);
        if self.mutation == MadeUpCounts {
            reading.atcs = (tables[0].len() / row_bytes(0)) as u32;
            reading.entries = (tables[5].len() / row_bytes(5)) as u32;
        }
        reading
    }
}

impl Reader for Wrong {
    /// Reads by the model, then tests the tables, then fills them.
    fn read(&mut self, file: &[u8], mut tables: [&mut [u8]; 9]) -> Reading {
        let number = model::read(file, self.mutation, &mut self.record);
        let short = self.short(&tables);
        let of_map = matches!(number, 7 | 41 | 42);
        if self.mutation == TouchedBeforeRefusal && number == 8 || self.mutation == TouchedBeforeMaps && of_map {
            self.fill(&mut tables);
        }
        match (number, short) {
            (8, Some(table)) if self.mutation == ShortBeforeMarks => Reading::too_short(table, self.record.rows(table)),
            (_, Some(table)) if self.mutation == ShortBeforeMaps && of_map => {
                Reading::too_short(table, self.record.rows(table))
            }
            (0, Some(table)) => {
                let there = if self.mutation == RowsMissing { tables[table].len() / row_bytes(table) } else { 0 };
                Reading::too_short(table, self.record.rows(table) - there)
            }
            (0, None) => {
                if self.mutation != TablesUntouched {
                    self.fill(&mut tables);
                }
                self.answer(&tables)
            }
            (number, _) => self.refusal(number),
        }
    }

    /// Looks a row up, and tests that it is there and that its data is inside the file.
    fn extension_data(&mut self, file: &[u8], extensions: &[u8], rows: u32, row: u32) -> Part {
        let whole = extensions.chunks_exact(4 * CELLS[6]);
        let at_end = self.mutation == RowAtTheEnd && row == rows;
        if rows as usize > whole.len() && self.mutation != MoreStatedThanThere || row >= rows && !at_end {
            return Part::REFUSED;
        }
        let Some(cells) = whole.clone().nth(row as usize) else {
            return Part::REFUSED;
        };
        let cell = |k: usize| {
            u32::from_le_bytes([cells[4 * k], cells[4 * k + 1], cells[4 * k + 2], cells[4 * k + 3]]) as usize
        };
        let (offset, length) = (cell(2), cell(3));
        if offset + length > file.len() && self.mutation != DataOutsideFile {
            return Part::REFUSED;
        }
        Part { refusal: 0, offset, length }
    }
}
