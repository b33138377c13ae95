//! A clip record as the comparison holds it: nine tables of 32-bit cells and the numbers beside them.

/// The tables, 1 to 9 in the scope document, 0 to 8 here.
pub const ATCS: usize = 0;
pub const STCS: usize = 1;
pub const PROGRAMS: usize = 2;
pub const STREAMS: usize = 3;
pub const MAPS: usize = 4;
pub const ENTRIES: usize = 5;
pub const EXTENSIONS: usize = 6;
pub const LIST_PROGRAMS: usize = 7;
pub const LIST_STREAMS: usize = 8;

/// The cells of a row, table by table.
pub const CELLS: [usize; 9] = [3, 4, 3, 5, 3, 6, 4, 3, 5];

/// The columns of an entry behind its angle and I-end: its time has two cells, the low 32 bits in the first.
pub const TIME: usize = 2;
pub const TIME_HIGH: usize = 3;
pub const PACKET: usize = 4;
pub const KIND: usize = 5;

/// The cells of an entry.
pub fn entry_cells(angle: u32, i_end: u32, time: u64, packet: u32, kind: u32) -> [u32; 6] {
    [angle, i_end, time as u32, (time >> 32) as u32, packet, kind]
}

/// The letters that a file may begin with, four bytes as one number, the first one highest.
pub const HDMV: u32 = u32::from_be_bytes(*b"HDMV");
pub const CLPI: u32 = u32::from_be_bytes(*b"CLPI");

/// The longest file that is read.
pub const MOST_BYTES: usize = 536_870_912;

/// The bytes of a row of a table.
pub fn row_bytes(table: usize) -> usize {
    4 * CELLS[table]
}

/// The numbers of a record that stand in no table.
#[derive(Clone, Copy, Default, PartialEq, Eq, Debug)]
pub struct Scalars {
    pub letters: u32,
    pub version: u32,
    pub clip_stream_type: u32,
    pub application_type: u32,
    pub ts_recording_rate: u32,
    pub number_of_source_packets: u32,
    pub validity_flags: u32,
    pub format_id: u32,
    pub marks: u32,
    pub has_list: bool,
}

/// A record; its buffers are used again for the next file.
#[derive(Default)]
pub struct Record {
    pub scalars: Scalars,
    pub tables: [Vec<u32>; 9],
}

impl Record {
    /// Takes every row out and sets every number to 0.
    pub fn clear(&mut self) {
        self.scalars = Scalars::default();
        for table in &mut self.tables {
            table.clear();
        }
    }

    /// The rows of a table.
    pub fn rows(&self, table: usize) -> usize {
        self.tables[table].len() / CELLS[table]
    }

    /// The rows of every table.
    pub fn all_rows(&self) -> [usize; 9] {
        std::array::from_fn(|table| self.rows(table))
    }
}
