//! The library's calls that write, as include/clpi.h declares them, and what a writer is to the comparison.

use crate::answers::{Input, Table};
use crate::ours::Library;
use crate::record::Scalars;
use std::ptr::{null, null_mut};

/// How many tables writing looks at: the first six.
pub const TABLES: usize = 6;

/// The numbers of a record that stand in no table: `struct clpi_clip_info`.
#[repr(C)]
#[derive(Clone, Copy, Default, PartialEq, Eq, Debug)]
pub struct Info {
    pub letters: u32,
    pub version: u32,
    pub clip_stream_type: u32,
    pub application_type: u32,
    pub ts_recording_rate: u32,
    pub number_of_source_packets: u32,
    pub validity_flags: u32,
    pub format_id: u32,
}

impl Info {
    /// The numbers as a reading has them.
    pub fn of(scalars: &Scalars) -> Self {
        Info {
            letters: scalars.letters,
            version: scalars.version,
            clip_stream_type: scalars.clip_stream_type,
            application_type: scalars.application_type,
            ts_recording_rate: scalars.ts_recording_rate,
            number_of_source_packets: scalars.number_of_source_packets,
            validity_flags: scalars.validity_flags,
            format_id: scalars.format_id,
        }
    }
}

/// What writing and rewriting answer: `struct clpi_writing`.
#[repr(C)]
#[derive(Clone, Copy, Default, PartialEq, Eq, Debug)]
pub struct Writing {
    pub refusal: u32,
    pub bytes_needed: u32,
    pub bytes_written: u32,
}

impl Writing {
    /// The answer of a refusal: 0 but for the number.
    pub fn refused(refusal: u32) -> Self {
        Writing { refusal, ..Writing::default() }
    }

    /// The answer where the output is too short.
    pub fn too_short(needed: usize) -> Self {
        Writing { refusal: 23, bytes_needed: needed as u32, bytes_written: 0 }
    }

    /// The answer where so many bytes were written.
    pub fn written(bytes: usize) -> Self {
        Writing { refusal: 0, bytes_needed: 0, bytes_written: bytes as u32 }
    }
}

/// The length of the new file: `struct clpi_length`.
#[repr(C)]
#[derive(Clone, Copy, Default, PartialEq, Eq, Debug)]
pub struct Length {
    pub refusal: u32,
    pub bytes: u32,
}

/// Something that writes as the library does: the library itself, or a wrong writer that must be caught.
pub trait Writer {
    /// Writes the record of the first six lent tables into a lent output.
    fn write(&mut self, info: Info, input: &Input, output: &mut [u8]) -> Writing;

    /// Rewrites a file into a lent output.
    fn rewrite(&mut self, file: &[u8], output: &mut [u8]) -> Writing;

    /// The length of the new file.
    fn rewritten_length(&mut self, file: &[u8]) -> Length;
}

unsafe extern "C" {
    /// Writes a record; each table is given by its first byte, its length in bytes, and the rows stated to be in it.
    fn clpi_write(
        info: Info,
        atcs: *const u8,
        atcs_bytes: usize,
        atc_rows: u32,
        stcs: *const u8,
        stcs_bytes: usize,
        stc_rows: u32,
        programs: *const u8,
        programs_bytes: usize,
        program_rows: u32,
        streams: *const u8,
        streams_bytes: usize,
        stream_rows: u32,
        maps: *const u8,
        maps_bytes: usize,
        map_rows: u32,
        entries: *const u8,
        entries_bytes: usize,
        entry_rows: u32,
        output: *mut u8,
        output_bytes: usize,
    ) -> Writing;

    /// Rewrites a file.
    fn clpi_rewrite(file: *const u8, file_bytes: usize, output: *mut u8, output_bytes: usize) -> Writing;

    /// The length of the new file.
    fn clpi_rewritten_length(file: *const u8, file_bytes: usize) -> Length;
}

/// An output's first byte; NULL for one of length 0 where that is asked for, which the header allows.
fn output_byte(output: &mut [u8], null: bool) -> *mut u8 {
    if output.is_empty() && null { null_mut() } else { output.as_mut_ptr() }
}

impl Writer for Library {
    /// Calls `clpi_write`.
    fn write(&mut self, info: Info, input: &Input, output: &mut [u8]) -> Writing {
        let first_byte = |t: &Table| if t.bytes.is_empty() && input.null { null() } else { t.bytes.as_ptr() };
        let tables: [_; TABLES] = std::array::from_fn(|k| {
            let table = &input.tables[k];
            (first_byte(table), table.bytes.len(), table.rows)
        });
        let [a, b, c, d, e, f] = tables;
        let (out, bytes) = (output_byte(output, input.null), output.len());
        // SAFETY: each pointer has as many bytes behind it as its length says; the output is borrowed by nothing else.
        unsafe {
            clpi_write(
                info, a.0, a.1, a.2, b.0, b.1, b.2, c.0, c.1, c.2, d.0, d.1, d.2, e.0, e.1, e.2, f.0, f.1, f.2, out,
                bytes,
            )
        }
    }

    /// Calls `clpi_rewrite`.
    fn rewrite(&mut self, file: &[u8], output: &mut [u8]) -> Writing {
        let (out, bytes) = (output_byte(output, file.len() % 2 == 1), output.len());
        // SAFETY: both pointers have as many bytes behind them as their lengths say; the output is borrowed by nothing else.
        unsafe { clpi_rewrite(file.as_ptr(), file.len(), out, bytes) }
    }

    /// Calls `clpi_rewritten_length`.
    fn rewritten_length(&mut self, file: &[u8]) -> Length {
        // SAFETY: the pointer has as many bytes behind it as its length says; the call only reads.
        unsafe { clpi_rewritten_length(file.as_ptr(), file.len()) }
    }
}
