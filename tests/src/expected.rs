//! What the Rust's record is as nine tables of cells.

use crate::record::{ATCS, ENTRIES, EXTENSIONS, MAPS, Record, STCS, Scalars, entry_cells};
use oracle::bdmv::clpi::{ClipInformation, Cpi, ProgramInfo, SequenceInfo, StreamCodingInfo};
use oracle::bdmv::common::BdmvHeader;
use oracle::bdmv::extension::ExtensionDataEntry;

/// Puts the Rust's record of a file into `out`. The starts of table 7 are 0: the Rust keeps the data, not its place.
pub fn record_of(clip: &ClipInformation, file: &[u8], out: &mut Record) {
    out.clear();
    out.scalars = scalars_of(clip, letters_of(file));
    sequences(&clip.sequence_info, out);
    let [_, _, program_rows, stream_rows, ..] = &mut out.tables;
    programs(&clip.program_info, program_rows, stream_rows);
    maps(&clip.cpi, out);
    extensions(&clip.extension.entries, out);
    if let Some(list) = &clip.extension.program_info_ss {
        let [.., program_rows, stream_rows] = &mut out.tables;
        programs(list, program_rows, stream_rows);
    }
}

/// The letters of an accepted file: the Rust's record doesn't keep them, its header of the file has them.
fn letters_of(file: &[u8]) -> u32 {
    u32::from_be_bytes(*BdmvHeader::parse(file).expect("an accepted file has a header").type_indicator)
}

/// The numbers beside the tables.
fn scalars_of(clip: &ClipInformation, letters: u32) -> Scalars {
    let info = &clip.clip_info;
    Scalars {
        letters,
        version: u32::from_be_bytes(clip.version),
        clip_stream_type: info.clip_stream_type.into(),
        application_type: info.application_type.into(),
        ts_recording_rate: info.ts_recording_rate,
        number_of_source_packets: info.number_of_source_packets,
        validity_flags: info.ts_type_info_block.validity_flags.into(),
        format_id: u32::from_be_bytes(info.ts_type_info_block.format_id),
        marks: clip.clip_mark.num_marks.into(),
        has_list: clip.extension.program_info_ss.is_some(),
    }
}

/// Tables 1 and 2.
fn sequences(info: &SequenceInfo, out: &mut Record) {
    for atc in &info.atc_sequences {
        out.tables[ATCS].extend([atc.spn_atc_start, atc.stc_sequences.len() as u32, atc.offset_stc_id.into()]);
        for stc in &atc.stc_sequences {
            let times = [stc.presentation_start_time, stc.presentation_end_time];
            out.tables[STCS].extend([stc.pcr_pid.into(), stc.spn_stc_start, times[0], times[1]]);
        }
    }
}

/// Tables 3 and 4, or 8 and 9.
fn programs(info: &ProgramInfo, program_rows: &mut Vec<u32>, stream_rows: &mut Vec<u32>) {
    for program in &info.programs {
        let streams = program.streams.len() as u32;
        program_rows.extend([program.spn_program_sequence_start, program.program_map_pid.into(), streams]);
        for stream in &program.streams {
            stream_rows.extend([
                stream.pid.into(),
                stream.stream_coding_type.into(),
                stream.format_info_byte.into(),
                stream.aspect_ratio_nibble.into(),
                language(stream),
            ]);
        }
    }
}

/// A language as one number, by the code points of the Rust's, the first one highest; none is 0.
fn language(stream: &StreamCodingInfo) -> u32 {
    let text = stream.language().unwrap_or_default();
    text.chars().fold(0, |number, letter| number << 8 | u32::from(letter))
}

/// Tables 5 and 6.
fn maps(cpi: &Cpi, out: &mut Record) {
    for map in &cpi.ep_map {
        out.tables[MAPS].extend([map.stream_pid.into(), map.ep_stream_type.into(), map.entries.len() as u32]);
        for entry in &map.entries {
            out.tables[ENTRIES].extend(entry_cells(
                entry.is_angle_change_point.into(),
                entry.i_end_position_offset.into(),
                entry.pts_ep_start.into(),
                entry.spn_ep_start,
                entry.ep_stream_type.into(),
            ));
        }
    }
}

/// Table 7, but for the starts.
fn extensions(entries: &[ExtensionDataEntry], out: &mut Record) {
    for entry in entries {
        out.tables[EXTENSIONS].extend([entry.id1.into(), entry.id2.into(), 0, entry.data.len() as u32]);
    }
}
