//! The library's calls as include/clpi.h declares them, and what a reader is to the comparison.

use crate::record::{ATCS, ENTRIES, EXTENSIONS, LIST_PROGRAMS, LIST_STREAMS, MAPS, PROGRAMS, Record, STCS, STREAMS};

/// What reading answers: `struct clpi_reading`.
#[repr(C)]
#[derive(Clone, Copy, Default, PartialEq, Eq, Debug)]
pub struct Reading {
    pub refusal: u32,
    pub table: u32,
    pub rows_needed: u32,
    pub letters: u32,
    pub version: u32,
    pub clip_stream_type: u32,
    pub application_type: u32,
    pub ts_recording_rate: u32,
    pub number_of_source_packets: u32,
    pub validity_flags: u32,
    pub format_id: u32,
    pub marks: u32,
    pub atcs: u32,
    pub stcs: u32,
    pub programs: u32,
    pub streams: u32,
    pub maps: u32,
    pub entries: u32,
    pub extensions: u32,
    pub list_programs: u32,
    pub list_streams: u32,
    pub has_list: u32,
}

impl Reading {
    /// The answer of a refusal: 0 but for the number.
    pub fn refused(refusal: u32) -> Self {
        Reading { refusal, ..Reading::default() }
    }

    /// The answer where a table, counted from 0 here and from 1 there, is too short.
    pub fn too_short(table: usize, rows: usize) -> Self {
        Reading { refusal: 21, table: table as u32 + 1, rows_needed: rows as u32, ..Reading::default() }
    }

    /// The answer where a record is read.
    pub fn accepted(record: &Record) -> Self {
        let scalars = record.scalars;
        let rows = |table: usize| record.rows(table) as u32;
        Reading {
            refusal: 0,
            table: 0,
            rows_needed: 0,
            letters: scalars.letters,
            version: scalars.version,
            clip_stream_type: scalars.clip_stream_type,
            application_type: scalars.application_type,
            ts_recording_rate: scalars.ts_recording_rate,
            number_of_source_packets: scalars.number_of_source_packets,
            validity_flags: scalars.validity_flags,
            format_id: scalars.format_id,
            marks: scalars.marks,
            atcs: rows(ATCS),
            stcs: rows(STCS),
            programs: rows(PROGRAMS),
            streams: rows(STREAMS),
            maps: rows(MAPS),
            entries: rows(ENTRIES),
            extensions: rows(EXTENSIONS),
            list_programs: rows(LIST_PROGRAMS),
            list_streams: rows(LIST_STREAMS),
            has_list: u32::from(scalars.has_list),
        }
    }
}

/// The place of an extension's data: `struct clpi_part`.
#[repr(C)]
#[derive(Clone, Copy, Default, PartialEq, Eq, Debug)]
pub struct Part {
    pub refusal: u32,
    pub offset: usize,
    pub length: usize,
}

impl Part {
    /// The answer where the row, the stated rows or the data aren't there.
    pub const REFUSED: Part = Part { refusal: 22, offset: 0, length: 0 };
}

/// Something that reads clip files as the library does: the library itself, or a wrong reader that must be caught.
pub trait Reader {
    /// Reads a file into nine lent tables.
    fn read(&mut self, file: &[u8], tables: [&mut [u8]; 9]) -> Reading;

    /// Where the data of a row of table 7 stands, with `rows` rows stated to be in it.
    fn extension_data(&mut self, file: &[u8], extensions: &[u8], rows: u32, row: u32) -> Part;
}

unsafe extern "C" {
    /// Reads a file; each table is given by its first byte and its length in bytes.
    fn clpi_read(
        file: *const u8,
        file_bytes: usize,
        atcs: *mut u8,
        atcs_bytes: usize,
        stcs: *mut u8,
        stcs_bytes: usize,
        programs: *mut u8,
        programs_bytes: usize,
        streams: *mut u8,
        streams_bytes: usize,
        maps: *mut u8,
        maps_bytes: usize,
        entries: *mut u8,
        entries_bytes: usize,
        extensions: *mut u8,
        extensions_bytes: usize,
        list_programs: *mut u8,
        list_programs_bytes: usize,
        list_streams: *mut u8,
        list_streams_bytes: usize,
    ) -> Reading;

    /// The place of the data of a row of table 7.
    fn clpi_extension_data(
        file: *const u8,
        file_bytes: usize,
        extensions: *const u8,
        extensions_bytes: usize,
        rows: u32,
        row: u32,
    ) -> Part;
}

/// The library.
pub struct Library;

/// A lent table's first byte; NULL for a table of length 0 beside a file of odd length, which the header allows.
fn first_byte(table: &mut [u8], file: &[u8]) -> *mut u8 {
    if table.is_empty() && file.len() % 2 == 1 { std::ptr::null_mut() } else { table.as_mut_ptr() }
}

impl Reader for Library {
    /// Calls `clpi_read`.
    fn read(&mut self, file: &[u8], tables: [&mut [u8]; 9]) -> Reading {
        let [a, b, c, d, e, f, g, h, i] = tables.map(|table| (first_byte(table, file), table.len()));
        // SAFETY: each pointer has as many bytes behind it as its length says, and no two of the slices overlap.
        unsafe {
            clpi_read(
                file.as_ptr(),
                file.len(),
                a.0,
                a.1,
                b.0,
                b.1,
                c.0,
                c.1,
                d.0,
                d.1,
                e.0,
                e.1,
                f.0,
                f.1,
                g.0,
                g.1,
                h.0,
                h.1,
                i.0,
                i.1,
            )
        }
    }

    /// Calls `clpi_extension_data`.
    fn extension_data(&mut self, file: &[u8], extensions: &[u8], rows: u32, row: u32) -> Part {
        // SAFETY: both pointers have as many bytes behind them as their lengths say; the call only reads.
        unsafe { clpi_extension_data(file.as_ptr(), file.len(), extensions.as_ptr(), extensions.len(), rows, row) }
    }
}
