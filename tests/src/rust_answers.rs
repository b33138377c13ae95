//! The Rust's answers, for the questions that it has and where the scope document compares it.

use crate::answers::{Answer, Counted, Input, OF_ATCS, OF_MAPS, OF_PROGRAMS, Question, Question::*};
use crate::record::{ATCS, ENTRIES, EXTENSIONS, KIND, MAPS, PACKET, PROGRAMS, STCS, STREAMS, TIME};
use oracle::bdmv::clpi::{AtcSequence, ClipExtension, ClipInfo, ClipInformation, Cpi, EpEntry, EpMap, EpStreamType};
use oracle::bdmv::clpi::{ProgramEntry, ProgramInfo, SequenceInfo, StcSequence, StreamCodingInfo};
use oracle::bdmv::extension::ExtensionDataEntry;

/// The Rust's answer to a question about its record, or none where the two aren't compared.
pub fn answer(question: Question, clip: &ClipInformation) -> Option<Answer> {
    match *question.tables() {
        [] => of_info(question, &clip.clip_info),
        [ATCS | STCS, ..] => of_sequences(question, &clip.sequence_info),
        [PROGRAMS | STREAMS, ..] => of_programs(question, &clip.program_info),
        [MAPS, ..] => of_maps(question, &clip.cpi),
        _ => of_extensions(question, &clip.extension),
    }
}

/// The answer about the packet count and the rate.
pub fn of_info(question: Question, info: &ClipInfo) -> Option<Answer> {
    match question {
        ClipByteLen => Some(Answer::of(info.clip_byte_len())),
        SpnToByte(spn) => Some(Answer::of_option(info.spn_to_byte(spn))),
        ByteToSpn(byte) => Some(Answer::of_option(info.byte_to_spn(byte).map(u64::from))),
        TransferDuration => Some(Answer::of_option(info.transfer_duration_secs().map(f64::to_bits))),
        _ => None,
    }
}

/// The answer about ATCs and STCs.
fn of_sequences(question: Question, info: &SequenceInfo) -> Option<Answer> {
    let stc = |row: u32| info.stc_sequences().nth(row as usize);
    let row_of_stc = |found: Option<&StcSequence>| Some(row_of(info.stc_sequences(), found));
    match question {
        PresentationSpan => Some(Answer::of(info.presentation_span_90k())),
        Duration45k(row) => Some(Answer::of(stc(row)?.duration_45k().into())),
        Duration90k(row) => Some(Answer::of(stc(row)?.duration_90k())),
        FirstStc => row_of_stc(info.first_stc_sequence()),
        StcsOfAtc(atc) => own_rows(info.atc_sequences.iter().map(|atc| atc.stc_sequences.len()), atc),
        StcById(id) => row_of_stc(info.stc_sequence_by_id(id)),
        StcForSpn(atc, spn) => row_of_stc(info.atc_sequences.get(atc as usize)?.stc_sequence_for_spn(spn)),
        _ => None,
    }
}

/// The answer about programs and their streams.
pub fn of_programs(question: Question, info: &ProgramInfo) -> Option<Answer> {
    match question {
        ProgramByPmtPid(pid) => Some(row_of(info.programs.iter(), info.program_by_pmt_pid(pid))),
        StreamsOfProgram(program) => own_rows(info.programs.iter().map(|program| program.streams.len()), program),
        StreamByPid(pid) => Some(row_of(info.streams(), info.stream_by_pid(pid))),
        PrimaryVideoPid => Some(Answer::of_option(info.primary_video_pid().map(u64::from))),
        NextVideoStream(from) => {
            let video = info.programs.iter().flat_map(|program| program.video_streams());
            Some(next_of(info.streams(), video, from))
        }
        NextAudioStream(from) => {
            let audio = info.programs.iter().flat_map(|program| program.audio_streams());
            Some(next_of(info.streams(), audio, from))
        }
        _ => None,
    }
}

/// The answer about one program, whose streams alone are lent.
pub fn of_program(question: Question, program: &ProgramEntry) -> Option<Answer> {
    match question {
        StreamByPid(pid) => Some(row_of(program.streams.iter(), program.stream_by_pid(pid))),
        NextVideoStream(from) => Some(next_of(program.streams.iter(), program.video_streams(), from)),
        NextAudioStream(from) => Some(next_of(program.streams.iter(), program.audio_streams(), from)),
        _ => None,
    }
}

/// The answer about maps and their entries.
fn of_maps(question: Question, cpi: &Cpi) -> Option<Answer> {
    let map = |row: u32| cpi.ep_map.get(row as usize);
    let row_of_map = |found: Option<&EpMap>| Some(row_of(cpi.ep_map.iter(), found));
    let time = |time: Option<u32>| Some(Answer::of_option(time.map(u64::from)));
    match question {
        EntryAtOrBefore(row, _) | EntryAfter(row, _) | SeekSpn(row, _) | NextSeekSpn(row, _) | IndexedSpan(row) => {
            of_map(question, map(row)?)
        }
        PrimarySeekSpn(at) => packet_in_primary(cpi, cpi.seek_spn(at)),
        PrimaryNextSeekSpn(at) => {
            packet_in_primary(cpi, cpi.primary_video_ep_map().and_then(|map| map.next_seek_spn(at)))
        }
        FirstPts(row) => time(map(row)?.first_pts()),
        LastPts(row) => time(map(row)?.last_pts()),
        EntriesOfMap(row) => own_rows(cpi.ep_map.iter().map(|map| map.entry_point_count()), row),
        PrimaryMap => row_of_map(cpi.primary_video_ep_map()),
        MapByKind(kind) => row_of_map(cpi.ep_map_by_kind(EpStreamType::from_raw(kind))),
        NextVideoMap(from) => Some(next_of(cpi.ep_map.iter(), cpi.video_ep_maps(), from)),
        _ => None,
    }
}

/// The answer about the entries of one map, whatever its row.
pub fn of_map(question: Question, map: &EpMap) -> Option<Answer> {
    match question {
        EntryAtOrBefore(_, at) => in_map(map, |map| map.entry_point_at_or_before(at)),
        EntryAfter(_, at) => in_map(map, |map| map.entry_point_after(at)),
        SeekSpn(_, at) => packet_in(map, |map| map.seek_spn(at)),
        NextSeekSpn(_, at) => packet_in(map, |map| map.next_seek_spn(at)),
        IndexedSpan(_) => Some(Answer::of(map.indexed_span_90k().into())),
        _ => None,
    }
}

/// The answer about extensions.
fn of_extensions(question: Question, extension: &ClipExtension) -> Option<Answer> {
    let ExtensionEntry(id1, id2) = question else { return None };
    Some(row_of(extension.entries.iter(), extension.entry(id1, id2)))
}

/// Whether a map's times strictly ascend, which the Rust's lookups need.
fn ascends(map: &EpMap) -> bool {
    map.entries.windows(2).all(|two| two[0].pts_ep_start < two[1].pts_ep_start)
}

/// The row of an entry that the Rust finds, or nothing to compare where the map's times don't strictly ascend.
fn in_map<'a>(map: &'a EpMap, found: impl Fn(&'a EpMap) -> Option<&'a EpEntry>) -> Option<Answer> {
    ascends(map).then(|| row_of(map.entries.iter(), found(map)))
}

/// The packet that the Rust finds in a map, on the same terms.
fn packet_in(map: &EpMap, found: impl Fn(&EpMap) -> Option<u32>) -> Option<Answer> {
    ascends(map).then(|| Answer::of_option(found(map).map(u64::from)))
}

/// The packet that the Rust finds in its primary map, on the same terms; without maps none.
fn packet_in_primary(cpi: &Cpi, found: Option<u32>) -> Option<Answer> {
    cpi.primary_video_ep_map().is_none_or(ascends).then(|| Answer::of_option(found.map(u64::from)))
}

/// The row at which the very thing that was found stands.
fn row_of<'a, T: 'a>(mut rows: impl Iterator<Item = &'a T>, found: Option<&T>) -> Answer {
    Answer::of_option(
        found.map(|found| {
            rows.position(|row| std::ptr::eq(row, found)).expect("what is found stands in its list") as u64
        }),
    )
}

/// The first row, from one on, at which one of the things that were found stands; they are found in their order.
fn next_of<'a, T: 'a>(rows: impl Iterator<Item = &'a T>, found: impl Iterator<Item = &'a T>, from: u32) -> Answer {
    let mut found = found.peekable();
    for (row, thing) in rows.enumerate() {
        if found.next_if(|found| std::ptr::eq(*found, thing)).is_some() && row >= from as usize {
            return Answer::of(row as u64);
        }
    }
    assert!(found.next().is_none(), "what is found stands in its list");
    Answer::NONE
}

/// How many rows stand before those of a header row, and how many are its own; none where there is no such row.
fn own_rows(mut counts: impl Iterator<Item = usize>, head: u32) -> Option<Answer> {
    let first = counts.by_ref().take(head as usize).sum();
    counts.next().map(|count| Answer::of_rows(first, count))
}

/// Puts the rows of tables made by hand into the Rust's record. The cells that are looked at must fit the Rust's fields.
pub fn hold(input: &Input, clip: &mut ClipInformation) {
    clip.clip_info.ts_recording_rate = input.rate;
    clip.clip_info.number_of_source_packets = input.packets;
    clip.sequence_info.atc_sequences = heads(input, OF_ATCS, |row, own| AtcSequence {
        spn_atc_start: input.cell(ATCS, row, 0),
        stc_sequences: own.map(|row| stc(input, row)).collect(),
        offset_stc_id: input.cell(ATCS, row, 2) as u8,
    });
    clip.program_info.programs = heads(input, OF_PROGRAMS, |row, own| {
        let [packet, pid] = [0, 1].map(|column| input.cell(PROGRAMS, row, column));
        ProgramEntry::new(packet, pid as u16, own.map(|row| stream(input, row)).collect())
    });
    clip.cpi.ep_map = heads(input, OF_MAPS, |row, own| EpMap {
        stream_pid: input.cell(MAPS, row, 0) as u16,
        ep_stream_type: input.cell(MAPS, row, 1) as u8,
        entries: own.map(|row| entry(input, row)).collect(),
    });
    let ids = |row: usize| [0, 1].map(|column| input.cell(EXTENSIONS, row, column) as u16);
    let rows = 0..input.tables[EXTENSIONS].rows as usize;
    clip.extension.entries = rows.map(ids).map(|[id1, id2]| ExtensionDataEntry::new(id1, id2, Vec::new())).collect();
    clip.extension.program_info_ss = None;
}

/// A thing of the Rust for each row of a table of counts, made of the row and its own rows.
fn heads<T>(input: &Input, counted: Counted, make: impl Fn(usize, std::ops::Range<usize>) -> T) -> Vec<T> {
    let mut first = 0;
    let rows = 0..input.tables[counted.heads].rows as usize;
    rows.map(|row| {
        let end = first + input.cell(counted.heads, row, counted.column) as usize;
        make(row, std::mem::replace(&mut first, end)..end)
    })
    .collect()
}

/// An STC of the Rust.
fn stc(input: &Input, row: usize) -> StcSequence {
    let [pid, packet, start, end] = [0, 1, 2, 3].map(|column| input.cell(STCS, row, column));
    StcSequence {
        pcr_pid: pid as u16,
        spn_stc_start: packet,
        presentation_start_time: start,
        presentation_end_time: end,
    }
}

/// A stream of the Rust.
fn stream(input: &Input, row: usize) -> StreamCodingInfo {
    let [pid, kind, format, aspect, language] = [0, 1, 2, 3, 4].map(|column| input.cell(STREAMS, row, column));
    let [_, letters @ ..] = language.to_be_bytes();
    StreamCodingInfo::new(pid as u16, kind as u8)
        .with_format_info_byte(format as u8)
        .with_aspect_ratio_nibble(aspect as u8)
        .with_language_code(letters)
}

/// An entry of the Rust.
fn entry(input: &Input, row: usize) -> EpEntry {
    let [angle, i_end, time, packet, kind] = [0, 1, TIME, PACKET, KIND].map(|column| input.cell(ENTRIES, row, column));
    EpEntry {
        is_angle_change_point: angle % 2 == 1,
        i_end_position_offset: i_end as u8,
        pts_ep_start: time,
        spn_ep_start: packet,
        ep_stream_type: kind as u8,
    }
}
