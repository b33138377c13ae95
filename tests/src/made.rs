//! A record made by hand, as it is lent to writing: its cells, the rows stated, and what is lent beyond them or cut off.

use crate::answers::{Input, Table};
use crate::compare::{Difference, must};
use crate::guarded::Guarded;
use crate::make::Maker;
use crate::ours::{Reader, Reading};
use crate::record::{
    ATCS, CELLS, CLPI, ENTRIES, HDMV, MAPS, PROGRAMS, Record, STCS, STREAMS, Scalars, TIME, TIME_HIGH, entry_cells,
};
use crate::rust_answers;
use crate::writer::{Info, TABLES};
use oracle::bdmv::clpi::ClipInformation;

/// A record, with what is lent of it.
#[derive(Clone, Default)]
pub struct Made {
    pub info: Info,
    pub cells: [Vec<u32>; TABLES],
    /// Rows stated beside those that the cells have; a negative number states fewer.
    pub stated: [i64; TABLES],
    /// Bytes lent behind the cells.
    pub surplus: [Vec<u8>; TABLES],
    /// Bytes of the cells that aren't lent.
    pub cut: [usize; TABLES],
    /// Whether a table of no bytes is lent as NULL.
    pub null: bool,
}

/// The empty record, with the letters CLPI.
pub fn empty() -> Made {
    Made { info: Info { letters: CLPI, ..Info::default() }, ..Made::default() }
}

/// A small record that can be written, with a row of each kind, and the letters HDMV.
pub fn small() -> Made {
    let info = Info {
        letters: HDMV,
        version: u32::from_be_bytes(*b"0200"),
        clip_stream_type: 1,
        application_type: 1,
        ts_recording_rate: 6_000_000,
        number_of_source_packets: 1_000_000,
        validity_flags: 128,
        format_id: u32::from_be_bytes(*b"HDMV"),
    };
    let language = |letters: &[u8; 3]| u32::from_be_bytes([0, letters[0], letters[1], letters[2]]);
    let mut made = Made { info, ..Made::default() };
    made.cells[ATCS] = [[0, 1, 0], [500, 0, 3], [700_000, 2, 1]].concat();
    let first = [0x1001, 0, 900, 90_000];
    made.cells[STCS] = [first, [0x1001, 700_000, 0, 45], [0x1002, 800_000, 45, 450_000]].concat();
    made.cells[PROGRAMS] = [[0, 0x0100, 2], [9, 0x0101, 0], [700_000, 0x0102, 3]].concat();
    let video = [[0x1011, 0x1B, 0x62, 3, 0], [0x1012, 0x24, 0x81, 3, 0]];
    let audio = [[0x1100, 0x81, 0x61, 0, language(b"eng")], [0x1101, 0x83, 0x31, 0, 0]];
    made.cells[STREAMS] = [video[0], audio[0], [0x1200, 0x90, 0, 0, language(b"deu")], audio[1], video[1]].concat();
    made.cells[MAPS] = [[0x1011, 1, 3], [0x1012, 6, 0], [0x1013, 8, 2]].concat();
    let three_runs = [(0, 1, 512, 7, 1), (1, 2, 524_288, 7, 1), (0, 3, 524_800, 131_079, 1)];
    let entries = three_runs.into_iter().chain([(1, 4, 1024, 0, 8), (0, 5, 2048, 99, 8)]);
    made.cells[ENTRIES] =
        entries.flat_map(|(a, i, time, packet, kind)| entry_cells(a, i, time, packet, kind)).collect();
    made
}

impl Made {
    /// The rows that the cells of a table have.
    pub fn rows(&self, table: usize) -> usize {
        self.cells[table].len() / CELLS[table]
    }

    /// Sets a cell.
    pub fn set(&mut self, table: usize, row: usize, column: usize, cell: u32) {
        self.cells[table][row * CELLS[table] + column] = cell;
    }

    /// Sets an entry's time.
    pub fn set_time(&mut self, row: usize, time: u64) {
        self.set(ENTRIES, row, TIME, time as u32);
        self.set(ENTRIES, row, TIME_HIGH, (time >> 32) as u32);
    }

    /// Gives a table of counts so many rows: the first has every row that is counted, the others none.
    pub fn heads(&mut self, heads: usize, column: usize, rows: usize, counted: usize) {
        let mut first = self.cells[heads][..CELLS[heads]].to_vec();
        first[column] = self.rows(counted) as u32;
        let mut other = first.clone();
        other[column] = 0;
        self.cells[heads] = first;
        (1..rows).for_each(|_| self.cells[heads].extend(&other));
    }

    /// Gives the last head of a table of counts so many rows, each like its first row of that table.
    pub fn own(&mut self, heads: usize, column: usize, rows: usize, counted: usize) {
        let row = self.cells[counted][..CELLS[counted]].to_vec();
        self.cells[counted] = row.repeat(rows);
        self.heads(heads, column, 1, counted);
    }

    /// The entries of one map by times and packets, all of its type.
    pub fn entries(&mut self, of_maps: &[Vec<(u32, u32)>]) {
        self.cells[MAPS].clear();
        self.cells[ENTRIES].clear();
        for (map, entries) in of_maps.iter().enumerate() {
            self.cells[MAPS].extend([0x1011 + map as u32, 1, entries.len() as u32]);
            entries
                .iter()
                .for_each(|(time, packet)| self.cells[ENTRIES].extend(entry_cells(0, 1, (*time).into(), *packet, 1)));
        }
    }
}

/// Where records made by hand are lent from: each table ends right before a page that can't be read.
pub struct Buffers {
    guarded: [Guarded; TABLES],
    clip: ClipInformation,
}

impl Buffers {
    /// Buffers with little room, and a record of the Rust to put rows into.
    pub fn new() -> Self {
        let clip = ClipInformation::parse(Maker::new().make(0)).expect("a conventional file is accepted");
        Buffers { guarded: std::array::from_fn(|_| Guarded::new(4096)), clip }
    }

    /// A record as a call is given it, and the Rust's record to fill.
    pub fn hold<'a>(&'a mut self, made: &Made) -> (Input<'a>, &'a mut ClipInformation) {
        let mut tables = [Table::default(); 9];
        for (k, guarded) in self.guarded.iter_mut().enumerate() {
            let mut bytes: Vec<u8> = made.cells[k].iter().flat_map(|cell| cell.to_le_bytes()).collect();
            bytes.extend(&made.surplus[k]);
            bytes.truncate(bytes.len() - made.cut[k]);
            let rows = (made.cells[k].len() / CELLS[k]) as i64 + made.stated[k];
            tables[k] = Table { bytes: guarded.hold(&bytes), rows: rows as u32 };
        }
        let Info { ts_recording_rate: rate, number_of_source_packets: packets, .. } = made.info;
        (Input { rate, packets, tables, null: made.null }, &mut self.clip)
    }
}

/// A reader must read the new file of a record to the same record, its languages lowered, with no marks and no extensions.
pub fn read_back(new: &[u8], info: &Info, input: &Input, reader: &mut impl Reader) -> Result<(), Difference> {
    let mut record = Record::default();
    record.scalars = Scalars {
        letters: info.letters,
        version: info.version,
        clip_stream_type: info.clip_stream_type,
        application_type: info.application_type,
        ts_recording_rate: info.ts_recording_rate,
        number_of_source_packets: info.number_of_source_packets,
        validity_flags: info.validity_flags,
        format_id: info.format_id,
        ..Scalars::default()
    };
    for (table, cells) in record.tables[..TABLES].iter_mut().enumerate() {
        let rows = 0..input.tables[table].rows as usize;
        cells.extend(rows.flat_map(|row| (0..CELLS[table]).map(move |column| input.cell(table, row, column))));
    }
    for stream in record.tables[STREAMS].chunks_exact_mut(CELLS[STREAMS]) {
        stream[4] = u32::from_be_bytes(stream[4].to_be_bytes().map(|byte| byte.to_ascii_lowercase()));
    }
    let mut tables: [Vec<u8>; 9] = std::array::from_fn(|k| vec![0; 4 * record.tables[k].len()]);
    let (reading, wanted) =
        (reader.read(new, tables.each_mut().map(|table| &mut table[..])), Reading::accepted(&record));
    must(reading == wanted, || format!("the new file: answered {reading:?}\nnot {wanted:?}"))?;
    for (table, (bytes, cells)) in tables.iter().zip(&record.tables).enumerate() {
        must(bytes.chunks_exact(4).zip(cells).all(|(bytes, cell)| bytes == cell.to_le_bytes()), || {
            format!("the new file: table {} has other cells", table + 1)
        })?;
    }
    Ok(())
}

/// The record as the Rust has it, without letters; the cells must fit its fields.
pub fn of_the_rust(info: &Info, input: &Input, clip: &mut ClipInformation) {
    rust_answers::hold(input, clip);
    clip.version = info.version.to_be_bytes();
    clip.clip_info.clip_stream_type = info.clip_stream_type as u8;
    clip.clip_info.application_type = info.application_type as u8;
    clip.clip_info.ts_type_info_block.validity_flags = info.validity_flags as u8;
    clip.clip_info.ts_type_info_block.format_id = info.format_id.to_be_bytes();
}
