//! The questions of include/clpi.h, the tables they are asked of, and what an answerer is to the comparison.

use crate::record::{
    ATCS, CELLS, ENTRIES, EXTENSIONS, LIST_PROGRAMS, LIST_STREAMS, MAPS, PROGRAMS, STCS, STREAMS, TIME, TIME_HIGH,
    row_bytes,
};

/// What a question is answered with: the three numbers of `struct clpi_answer`. Those of `struct clpi_rows` are held
/// as the refusal, the count and the first row, those of `struct clpi_seconds` with the seconds' bits for the value, and
/// a length in bytes as a value that there is.
#[repr(C)]
#[derive(Clone, Copy, Default, PartialEq, Eq, Debug)]
pub struct Answer {
    pub refusal: u32,
    pub found: u32,
    pub value: u64,
}

impl Answer {
    /// The answer where rows are stated or named that aren't there, or counts don't add up.
    pub const REFUSED: Answer = Answer { refusal: 22, found: 0, value: 0 };

    /// The answer that there is none.
    pub const NONE: Answer = Answer { refusal: 0, found: 0, value: 0 };

    /// The answer of a value.
    pub fn of(value: u64) -> Self {
        Answer { refusal: 0, found: 1, value }
    }

    /// The answer of a value that there may be.
    pub fn of_option(value: Option<u64>) -> Self {
        value.map_or(Answer::NONE, Answer::of)
    }

    /// The answer of so many rows from one on.
    pub fn of_rows(first: usize, count: usize) -> Self {
        Answer { refusal: 0, found: count as u32, value: first as u64 }
    }
}

/// A question with its arguments, but for the tables, the packet count and the rate.
#[derive(Clone, Copy, PartialEq, Eq, Debug)]
pub enum Question {
    /// The row of table 7 with two ids.
    ExtensionEntry(u16, u16),
    /// The minutes that remain at a place: an STC's row and a 90 kHz time on its clock.
    MinutesRemaining(u32, u64),
    PresentationSpan,
    /// The durations of an STC's row.
    Duration45k(u32),
    Duration90k(u32),
    FirstStc,
    /// The STCs of an ATC's row.
    StcsOfAtc(u32),
    /// An STC's id.
    StcById(u8),
    /// An ATC's row and a packet.
    StcForSpn(u32, u32),
    /// The PID of a program's map table.
    ProgramByPmtPid(u16),
    /// The streams of a program's row.
    StreamsOfProgram(u32),
    StreamByPid(u16),
    PrimaryVideoPid,
    /// The row from which on a stream is wanted.
    NextVideoStream(u32),
    NextAudioStream(u32),
    /// A map's row and a 90 kHz time.
    EntryAtOrBefore(u32, u32),
    EntryAfter(u32, u32),
    SeekSpn(u32, u32),
    NextSeekSpn(u32, u32),
    /// A 90 kHz time in the primary map.
    PrimarySeekSpn(u32),
    PrimaryNextSeekSpn(u32),
    /// The times, the span and the entries of a map's row.
    FirstPts(u32),
    LastPts(u32),
    IndexedSpan(u32),
    EntriesOfMap(u32),
    PrimaryMap,
    /// A map's type.
    MapByKind(u8),
    /// The row from which on a map is wanted.
    NextVideoMap(u32),
    ClipByteLen,
    /// The byte of a packet number, the packet of a byte number.
    SpnToByte(u32),
    ByteToSpn(u64),
    TransferDuration,
}

use Question::*;

/// Every question once, with arguments of 0.
pub const EACH: [Question; 32] = [
    ExtensionEntry(0, 0),
    MinutesRemaining(0, 0),
    PresentationSpan,
    Duration45k(0),
    Duration90k(0),
    FirstStc,
    StcsOfAtc(0),
    StcById(0),
    StcForSpn(0, 0),
    ProgramByPmtPid(0),
    StreamsOfProgram(0),
    StreamByPid(0),
    PrimaryVideoPid,
    NextVideoStream(0),
    NextAudioStream(0),
    EntryAtOrBefore(0, 0),
    EntryAfter(0, 0),
    SeekSpn(0, 0),
    NextSeekSpn(0, 0),
    PrimarySeekSpn(0),
    PrimaryNextSeekSpn(0),
    FirstPts(0),
    LastPts(0),
    IndexedSpan(0),
    EntriesOfMap(0),
    PrimaryMap,
    MapByKind(0),
    NextVideoMap(0),
    ClipByteLen,
    SpnToByte(0),
    ByteToSpn(0),
    TransferDuration,
];

/// A table of counts, the column with the counts, and the table that is counted.
#[derive(Clone, Copy, PartialEq, Eq)]
pub struct Counted {
    pub heads: usize,
    pub column: usize,
    pub rows: usize,
}

/// The three pairs of such tables.
pub const OF_ATCS: Counted = Counted { heads: ATCS, column: 1, rows: STCS };
pub const OF_PROGRAMS: Counted = Counted { heads: PROGRAMS, column: 2, rows: STREAMS };
pub const OF_MAPS: Counted = Counted { heads: MAPS, column: 2, rows: ENTRIES };

impl Question {
    /// The tables that are lent to the question.
    pub fn tables(self) -> &'static [usize] {
        match self {
            ExtensionEntry(..) => &[EXTENSIONS],
            MinutesRemaining(..) | PresentationSpan | Duration45k(_) | Duration90k(_) | FirstStc => &[STCS],
            StcsOfAtc(_) | StcById(_) | StcForSpn(..) => &[ATCS, STCS],
            ProgramByPmtPid(_) => &[PROGRAMS],
            StreamsOfProgram(_) => &[PROGRAMS, STREAMS],
            StreamByPid(_) | PrimaryVideoPid | NextVideoStream(_) | NextAudioStream(_) => &[STREAMS],
            EntryAtOrBefore(..) | EntryAfter(..) | SeekSpn(..) | NextSeekSpn(..) => &[MAPS, ENTRIES],
            PrimarySeekSpn(_) | PrimaryNextSeekSpn(_) => &[MAPS, ENTRIES],
            FirstPts(_) | LastPts(_) | IndexedSpan(_) | EntriesOfMap(_) => &[MAPS, ENTRIES],
            PrimaryMap | MapByKind(_) | NextVideoMap(_) => &[MAPS],
            ClipByteLen | SpnToByte(_) | ByteToSpn(_) | TransferDuration => &[],
        }
    }

    /// The table of counts and the table counted, where both are lent.
    pub fn counted(self) -> Option<Counted> {
        match *self.tables() {
            [ATCS, _] => Some(OF_ATCS),
            [PROGRAMS, _] => Some(OF_PROGRAMS),
            [MAPS, _] => Some(OF_MAPS),
            _ => None,
        }
    }

    /// The same question about another row, where it names one that must be there.
    pub fn about_row(self, row: u32) -> Option<Self> {
        Some(match self {
            MinutesRemaining(_, at) => MinutesRemaining(row, at),
            Duration45k(_) => Duration45k(row),
            Duration90k(_) => Duration90k(row),
            StcsOfAtc(_) => StcsOfAtc(row),
            StcForSpn(_, spn) => StcForSpn(row, spn),
            StreamsOfProgram(_) => StreamsOfProgram(row),
            EntryAtOrBefore(_, at) => EntryAtOrBefore(row, at),
            EntryAfter(_, at) => EntryAfter(row, at),
            SeekSpn(_, at) => SeekSpn(row, at),
            NextSeekSpn(_, at) => NextSeekSpn(row, at),
            FirstPts(_) => FirstPts(row),
            LastPts(_) => LastPts(row),
            IndexedSpan(_) => IndexedSpan(row),
            EntriesOfMap(_) => EntriesOfMap(row),
            _ => return None,
        })
    }

    /// Whether the question looks entries up by a time.
    pub fn is_lookup(self) -> bool {
        matches!(self, EntryAtOrBefore(..) | EntryAfter(..) | SeekSpn(..) | NextSeekSpn(..))
            || matches!(self, PrimarySeekSpn(_) | PrimaryNextSeekSpn(_))
    }

    /// Whether the question is answered with rows.
    pub fn is_of_rows(self) -> bool {
        matches!(self, StcsOfAtc(_) | StreamsOfProgram(_) | EntriesOfMap(_))
    }
}

/// A lent table: its bytes and the rows stated to be in it.
#[derive(Clone, Copy, Default)]
pub struct Table<'a> {
    pub bytes: &'a [u8],
    pub rows: u32,
}

/// What the questions are asked of: the rate, the packet count, and tables by their numbers.
#[derive(Clone, Copy)]
pub struct Input<'a> {
    pub rate: u32,
    pub packets: u32,
    pub tables: [Table<'a>; 9],
    /// Whether a table of no bytes is lent as NULL, which the header allows.
    pub null: bool,
}

/// The number of four bytes, the first one lowest.
#[inline]
fn number(bytes: &[u8]) -> u32 {
    u32::from_le_bytes(bytes.try_into().expect("four bytes"))
}

impl<'a> Input<'a> {
    /// The whole rows that a table's bytes hold.
    pub fn room(&self, table: usize) -> usize {
        self.tables[table].bytes.len() / row_bytes(table)
    }

    /// A cell of a table's row, which is lent.
    #[inline]
    pub fn cell(&self, table: usize, row: usize, column: usize) -> u32 {
        let at = 4 * (row * CELLS[table] + column);
        number(&self.tables[table].bytes[at..at + 4])
    }

    /// The time of a row of table 6.
    #[inline]
    pub fn time(&self, row: usize) -> u64 {
        u64::from(self.cell(ENTRIES, row, TIME)) | u64::from(self.cell(ENTRIES, row, TIME_HIGH)) << 32
    }

    /// The counts of the first rows of a table of counts, added up.
    pub fn sum(&self, counted: Counted, heads: usize) -> u64 {
        let rows = self.tables[counted.heads].bytes.chunks_exact(row_bytes(counted.heads)).take(heads);
        rows.map(|row| u64::from(number(&row[4 * counted.column..4 * counted.column + 4]))).sum()
    }

    /// The same tables but for the bytes and stated rows of one.
    pub fn with(&self, table: usize, bytes: &'a [u8], rows: u32) -> Self {
        let mut other = *self;
        other.tables[table] = Table { bytes, rows };
        other
    }

    /// The same tables, with the streams of one program alone as the streams.
    pub fn streams_of(&self, program: usize) -> Self {
        let [first, end] = [program, program + 1].map(|heads| self.sum(OF_PROGRAMS, heads) as usize);
        let bytes = row_bytes(STREAMS);
        self.with(STREAMS, &self.tables[STREAMS].bytes[first * bytes..end * bytes], (end - first) as u32)
    }

    /// The same tables, with the (2, 5) list's as the programs and the streams.
    pub fn of_the_list(&self) -> Self {
        let mut other = *self;
        other.tables[PROGRAMS] = self.tables[LIST_PROGRAMS];
        other.tables[STREAMS] = self.tables[LIST_STREAMS];
        other
    }
}

/// Something that answers as the library does: the library itself, or a wrong answerer that must be caught.
pub trait Answerer {
    /// The answer to a question asked of the tables.
    fn ask(&mut self, question: Question, input: &Input) -> Answer;
}
