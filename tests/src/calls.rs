//! The library's questions as include/clpi.h declares them.

use crate::answers::{Answer, Answerer, Input, Question, Question::*, Table};
use crate::ours::Library;
use crate::record::{ATCS, ENTRIES, EXTENSIONS, MAPS, PROGRAMS, STCS, STREAMS};

/// `struct clpi_rows`.
#[repr(C)]
struct Rows {
    refusal: u32,
    count: u32,
    first: u64,
}

/// `struct clpi_seconds`.
#[repr(C)]
struct Seconds {
    refusal: u32,
    found: u32,
    seconds: f64,
}

/// A call on one table: its first byte, its length in bytes, the rows stated; with one argument; with two.
type One = unsafe extern "C" fn(*const u8, usize, u32) -> Answer;
type OneWith<A> = unsafe extern "C" fn(*const u8, usize, u32, A) -> Answer;
type OneWithTwo<A, B> = unsafe extern "C" fn(*const u8, usize, u32, A, B) -> Answer;

/// A call on a table of counts and a table counted, with one argument, and with two.
type Two<A, R> = unsafe extern "C" fn(*const u8, usize, u32, *const u8, usize, u32, A) -> R;
type TwoWith = unsafe extern "C" fn(*const u8, usize, u32, *const u8, usize, u32, u32, u32) -> Answer;

/// Declares calls that have the arguments of one of these kinds.
macro_rules! calls {
    ($( fn $name:ident( $( $argument:ty ),* ) -> $answer:ty; )*) => {
        unsafe extern "C" { $( fn $name( $( _: $argument ),* ) -> $answer; )* }
    };
}

calls! {
    fn clpi_extension_entry(*const u8, usize, u32, u16, u16) -> Answer;
    fn clpi_minutes_remaining(*const u8, usize, u32, u32, u64) -> Answer;
    fn clpi_presentation_span_90k(*const u8, usize, u32) -> Answer;
    fn clpi_duration_45k(*const u8, usize, u32, u32) -> Answer;
    fn clpi_duration_90k(*const u8, usize, u32, u32) -> Answer;
    fn clpi_first_stc_sequence(*const u8, usize, u32) -> Answer;
    fn clpi_stcs_of_atc(*const u8, usize, u32, *const u8, usize, u32, u32) -> Rows;
    fn clpi_stc_sequence_by_id(*const u8, usize, u32, *const u8, usize, u32, u8) -> Answer;
    fn clpi_stc_sequence_for_spn(*const u8, usize, u32, *const u8, usize, u32, u32, u32) -> Answer;
    fn clpi_program_by_pmt_pid(*const u8, usize, u32, u16) -> Answer;
    fn clpi_streams_of_program(*const u8, usize, u32, *const u8, usize, u32, u32) -> Rows;
    fn clpi_stream_by_pid(*const u8, usize, u32, u16) -> Answer;
    fn clpi_primary_video_pid(*const u8, usize, u32) -> Answer;
    fn clpi_next_video_stream(*const u8, usize, u32, u32) -> Answer;
    fn clpi_next_audio_stream(*const u8, usize, u32, u32) -> Answer;
    fn clpi_entry_point_at_or_before(*const u8, usize, u32, *const u8, usize, u32, u32, u32) -> Answer;
    fn clpi_entry_point_after(*const u8, usize, u32, *const u8, usize, u32, u32, u32) -> Answer;
    fn clpi_seek_spn(*const u8, usize, u32, *const u8, usize, u32, u32, u32) -> Answer;
    fn clpi_next_seek_spn(*const u8, usize, u32, *const u8, usize, u32, u32, u32) -> Answer;
    fn clpi_primary_seek_spn(*const u8, usize, u32, *const u8, usize, u32, u32) -> Answer;
    fn clpi_primary_next_seek_spn(*const u8, usize, u32, *const u8, usize, u32, u32) -> Answer;
    fn clpi_first_pts(*const u8, usize, u32, *const u8, usize, u32, u32) -> Answer;
    fn clpi_last_pts(*const u8, usize, u32, *const u8, usize, u32, u32) -> Answer;
    fn clpi_indexed_span_90k(*const u8, usize, u32, *const u8, usize, u32, u32) -> Answer;
    fn clpi_entries_of_map(*const u8, usize, u32, *const u8, usize, u32, u32) -> Rows;
    fn clpi_primary_video_ep_map(*const u8, usize, u32) -> Answer;
    fn clpi_ep_map_by_kind(*const u8, usize, u32, u8) -> Answer;
    fn clpi_next_video_ep_map(*const u8, usize, u32, u32) -> Answer;
    fn clpi_clip_byte_len(u32) -> u64;
    fn clpi_spn_to_byte(u32, u32) -> Answer;
    fn clpi_byte_to_spn(u32, u64) -> Answer;
    fn clpi_transfer_duration_secs(u32, u32) -> Seconds;
}

/// Tables as the library takes them.
struct Calls<'a>(&'a Input<'a>);

impl Calls<'_> {
    /// A table's first byte, its length and its stated rows.
    fn table(&self, table: usize) -> (*const u8, usize, u32) {
        let Table { bytes, rows } = self.0.tables[table];
        let first = if bytes.is_empty() && self.0.null { std::ptr::null() } else { bytes.as_ptr() };
        (first, bytes.len(), rows)
    }

    /// A call on one table.
    fn one(&self, table: usize, call: One) -> Answer {
        let (first, bytes, rows) = self.table(table);
        // SAFETY: the pointer has as many bytes behind it as its length says; the call only reads.
        unsafe { call(first, bytes, rows) }
    }

    /// A call on one table with an argument.
    fn one_with<A>(&self, table: usize, call: OneWith<A>, argument: A) -> Answer {
        let (first, bytes, rows) = self.table(table);
        // SAFETY: as in `one`.
        unsafe { call(first, bytes, rows, argument) }
    }

    /// A call on one table with two arguments.
    fn one_with_two<A, B>(&self, table: usize, call: OneWithTwo<A, B>, one: A, other: B) -> Answer {
        let (first, bytes, rows) = self.table(table);
        // SAFETY: as in `one`.
        unsafe { call(first, bytes, rows, one, other) }
    }

    /// A call on two tables with an argument.
    fn two<A, R>(&self, tables: [usize; 2], call: Two<A, R>, argument: A) -> R {
        let [(heads, heads_bytes, head_rows), (rows, rows_bytes, stated)] = tables.map(|table| self.table(table));
        // SAFETY: as in `one`, for both pointers.
        unsafe { call(heads, heads_bytes, head_rows, rows, rows_bytes, stated, argument) }
    }

    /// A call on the maps and the entries with a map's row and a time, or on the ATCs and STCs with a row and a packet.
    fn two_with(&self, tables: [usize; 2], call: TwoWith, row: u32, at: u32) -> Answer {
        let [(heads, heads_bytes, head_rows), (rows, rows_bytes, stated)] = tables.map(|table| self.table(table));
        // SAFETY: as in `one`, for both pointers.
        unsafe { call(heads, heads_bytes, head_rows, rows, rows_bytes, stated, row, at) }
    }
}

/// Rows as three numbers.
fn rows(rows: Rows) -> Answer {
    Answer { refusal: rows.refusal, found: rows.count, value: rows.first }
}

/// Seconds as three numbers.
fn seconds(seconds: Seconds) -> Answer {
    Answer { refusal: seconds.refusal, found: seconds.found, value: seconds.seconds.to_bits() }
}

impl Answerer for Library {
    /// Makes the question's call.
    fn ask(&mut self, question: Question, input: &Input) -> Answer {
        let calls = Calls(input);
        let (atcs, programs, maps) = ([ATCS, STCS], [PROGRAMS, STREAMS], [MAPS, ENTRIES]);
        match question {
            ExtensionEntry(id1, id2) => calls.one_with_two(EXTENSIONS, clpi_extension_entry, id1, id2),
            MinutesRemaining(stc, at) => calls.one_with_two(STCS, clpi_minutes_remaining, stc, at),
            PresentationSpan => calls.one(STCS, clpi_presentation_span_90k),
            Duration45k(stc) => calls.one_with(STCS, clpi_duration_45k, stc),
            Duration90k(stc) => calls.one_with(STCS, clpi_duration_90k, stc),
            FirstStc => calls.one(STCS, clpi_first_stc_sequence),
            StcsOfAtc(atc) => rows(calls.two(atcs, clpi_stcs_of_atc, atc)),
            StcById(id) => calls.two(atcs, clpi_stc_sequence_by_id, id),
            StcForSpn(atc, spn) => calls.two_with(atcs, clpi_stc_sequence_for_spn, atc, spn),
            ProgramByPmtPid(pid) => calls.one_with(PROGRAMS, clpi_program_by_pmt_pid, pid),
            StreamsOfProgram(program) => rows(calls.two(programs, clpi_streams_of_program, program)),
            StreamByPid(pid) => calls.one_with(STREAMS, clpi_stream_by_pid, pid),
            PrimaryVideoPid => calls.one(STREAMS, clpi_primary_video_pid),
            NextVideoStream(from) => calls.one_with(STREAMS, clpi_next_video_stream, from),
            NextAudioStream(from) => calls.one_with(STREAMS, clpi_next_audio_stream, from),
            EntryAtOrBefore(map, at) => calls.two_with(maps, clpi_entry_point_at_or_before, map, at),
            EntryAfter(map, at) => calls.two_with(maps, clpi_entry_point_after, map, at),
            SeekSpn(map, at) => calls.two_with(maps, clpi_seek_spn, map, at),
            NextSeekSpn(map, at) => calls.two_with(maps, clpi_next_seek_spn, map, at),
            PrimarySeekSpn(at) => calls.two(maps, clpi_primary_seek_spn, at),
            PrimaryNextSeekSpn(at) => calls.two(maps, clpi_primary_next_seek_spn, at),
            FirstPts(map) => calls.two(maps, clpi_first_pts, map),
            LastPts(map) => calls.two(maps, clpi_last_pts, map),
            IndexedSpan(map) => calls.two(maps, clpi_indexed_span_90k, map),
            EntriesOfMap(map) => rows(calls.two(maps, clpi_entries_of_map, map)),
            PrimaryMap => calls.one(MAPS, clpi_primary_video_ep_map),
            MapByKind(kind) => calls.one_with(MAPS, clpi_ep_map_by_kind, kind),
            NextVideoMap(from) => calls.one_with(MAPS, clpi_next_video_ep_map, from),
            // SAFETY: these take numbers alone.
            ClipByteLen => Answer::of(unsafe { clpi_clip_byte_len(input.packets) }),
            SpnToByte(spn) => unsafe { clpi_spn_to_byte(input.packets, spn) },
            ByteToSpn(byte) => unsafe { clpi_byte_to_spn(input.packets, byte) },
            TransferDuration => seconds(unsafe { clpi_transfer_duration_secs(input.rate, input.packets) }),
        }
    }
}
