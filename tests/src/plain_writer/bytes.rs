//! The bytes of a record that can be written: clip, sequences, programs, CPI, empty marks.

use super::refusals::is_video;
use crate::answers::{Counted, Input, OF_ATCS, OF_MAPS, OF_PROGRAMS};
use crate::record::{ATCS, CLPI, ENTRIES, MAPS, PACKET, PROGRAMS, STCS, STREAMS};
use crate::writer::Info;
use crate::wrong_writes::WrongWrite::{self, *};
use std::ops::Range;

/// Appends a big-endian number.
fn put(out: &mut Vec<u8>, width: usize, value: u64) {
    out.extend_from_slice(&value.to_be_bytes()[8 - width..]);
}

/// The rows of a table: those stated, as far as they are lent.
pub fn rows(input: &Input, table: usize, wrong: WrongWrite) -> usize {
    let there = input.room(table);
    if wrong == RoomForStated(table) { there } else { there.min(input.tables[table].rows as usize) }
}

/// Each head's own rows, as far as they are there.
fn own_rows(input: &Input, counted: Counted, wrong: WrongWrite) -> Vec<Range<usize>> {
    let all = rows(input, counted.rows, wrong);
    let mut first = 0;
    let own = |row: usize| {
        let end = all.min(first + input.cell(counted.heads, row, counted.column) as usize);
        std::mem::replace(&mut first, end)..end
    };
    let heads = (0..rows(input, counted.heads, wrong)).map(own).collect();
    if wrong == FixedFile { Vec::new() } else { heads }
}

/// The whole file.
pub fn encode(info: &Info, input: &Input, wrong: WrongWrite) -> Vec<u8> {
    let parts = [sequences(input, wrong), programs(input, wrong), cpi(input, wrong)];
    let mut starts = [220; 4];
    for (k, part) in parts.iter().enumerate() {
        starts[k + 1] = starts[k] + part.len() as u64;
    }
    let mut out = head(info, starts, wrong);
    parts.iter().for_each(|part| out.extend_from_slice(part));
    if wrong != MarksLeftOut {
        put(&mut out, 4, 2);
        put(&mut out, 2, 0);
    }
    out
}

/// The header and the ClipInfo, with the starts of sequences, programs, CPI and marks.
fn head(info: &Info, starts: [u64; 4], wrong: WrongWrite) -> Vec<u8> {
    let info = if wrong == FixedFile { &Info { letters: CLPI, ..Info::default() } } else { info };
    let mut out = match wrong {
        ClpiAlways => b"CLPI".to_vec(),
        HdmvAlways => b"HDMV".to_vec(),
        LettersLowestFirst => info.letters.to_le_bytes().to_vec(),
        _ => info.letters.to_be_bytes().to_vec(),
    };
    let [mut sequences, mut programs, cpi, mut marks] = starts;
    match wrong {
        StartsSwapped => (sequences, programs) = (programs, sequences),
        MarksStartZero => marks = 0,
        _ => {}
    }
    let extensions = if wrong == ExtensionsAtEnd { marks + 6 } else { 0 };
    put(&mut out, 4, info.version.into());
    [sequences, programs, cpi, marks, extensions].into_iter().for_each(|start| put(&mut out, 4, start));
    out.resize(40, 0);
    put(&mut out, 4, if wrong == InfoLengthOf150 { 150 } else { 176 });
    out.resize(220, 0);
    let (mut rate, mut packets) = (info.ts_recording_rate, info.number_of_source_packets);
    if wrong == RateAndPacketsSwapped {
        (rate, packets) = (packets, rate);
    }
    out[46] = info.clip_stream_type as u8;
    out[47] = info.application_type as u8;
    out[52..56].copy_from_slice(&rate.to_be_bytes());
    out[56..60].copy_from_slice(&packets.to_be_bytes());
    let id = if wrong == FormatIdEarly { 189 } else { 190 };
    out[id..id + 4].copy_from_slice(&info.format_id.to_be_bytes());
    out[if wrong == FlagsLate { 189 } else { 188 }] = info.validity_flags as u8;
    out
}

/// A section: the length of what follows, a spare byte, the count, the items.
fn section(count: usize, items: &[u8], wrong: WrongWrite) -> Vec<u8> {
    let mut out = Vec::new();
    put(&mut out, 4, items.len() as u64 + if wrong == LengthWithItself { 6 } else { 2 });
    put(&mut out, 1, 0);
    put(&mut out, 1, count as u64 & 0xFF);
    out.extend_from_slice(items);
    out
}

/// A count, or one more where that is wrong.
fn counted(count: usize, off: bool) -> u64 {
    count as u64 + u64::from(off)
}

/// Tables 1 and 2.
fn sequences(input: &Input, wrong: WrongWrite) -> Vec<u8> {
    let mut items = Vec::new();
    let heads = own_rows(input, OF_ATCS, wrong);
    for (row, own) in heads.iter().enumerate() {
        put(&mut items, 4, input.cell(ATCS, row, 0).into());
        put(&mut items, 1, counted(own.len(), wrong == OwnRowsOff(ATCS)));
        put(&mut items, 1, if wrong == OffsetIdDropped { 0 } else { input.cell(ATCS, row, 2).into() });
        for stc in own.clone() {
            let start = if wrong == EndForStart { 3 } else { 2 };
            put(&mut items, 2, input.cell(STCS, stc, 0).into());
            [1, start, 3].into_iter().for_each(|column| put(&mut items, 4, input.cell(STCS, stc, column).into()));
        }
    }
    section(heads.len() + usize::from(wrong == RowsOff(ATCS)), &items, wrong)
}

/// Tables 3 and 4.
fn programs(input: &Input, wrong: WrongWrite) -> Vec<u8> {
    let mut items = Vec::new();
    let heads = own_rows(input, OF_PROGRAMS, wrong);
    for (row, own) in heads.iter().enumerate() {
        put(&mut items, 4, input.cell(PROGRAMS, row, 0).into());
        put(&mut items, 2, input.cell(PROGRAMS, row, 1).into());
        put(&mut items, 1, counted(own.len(), wrong == OwnRowsOff(PROGRAMS)));
        put(&mut items, 1, 0);
        own.clone().for_each(|row| stream(input, row, wrong, &mut items));
    }
    section(heads.len() + usize::from(wrong == RowsOff(PROGRAMS)), &items, wrong)
}

/// A stream: PID, body length, coding type, format, and the aspect of video or a language that is given.
fn stream(input: &Input, row: usize, wrong: WrongWrite, out: &mut Vec<u8>) {
    let [pid, coding, format, aspect, language] = [0, 1, 2, 3, 4].map(|k| u64::from(input.cell(STREAMS, row, k)));
    let mut body = Vec::new();
    put(&mut body, 1, coding);
    put(&mut body, 1, if wrong == FormatDropped { 0 } else { format });
    let given = language != 0 && wrong != LanguageDropped || wrong == LanguageAlways;
    if is_video(coding as u32) || wrong == AspectOfAudio && !given {
        let aspect = if wrong == AspectDropped { 0 } else { aspect };
        put(&mut body, 1, if wrong == AspectLowBits { aspect } else { aspect << 4 });
    } else if given {
        let [.., a, b, c] = language.to_be_bytes();
        body.extend([a, b, c].map(|byte| if wrong == LanguageLowered { byte.to_ascii_lowercase() } else { byte }));
    }
    put(out, 2, pid);
    put(out, 1, body.len() as u64);
    out.extend_from_slice(&body);
}

/// The first entries of a map's runs, counted within the map.
pub fn runs(input: &Input, own: Range<usize>, wrong: WrongWrite) -> Vec<usize> {
    let key = |row: usize| {
        let (time, packet) = (input.time(row) >> 19, input.cell(ENTRIES, row, PACKET) >> 17);
        match wrong {
            RunByTime => (time, 0),
            RunByPacket => (0, packet),
            _ => (time, packet),
        }
    };
    let first = own.start;
    own.filter(|&row| row == first || key(row) != key(row - 1) || wrong == RunNotLongest)
        .map(|row| row - first)
        .collect()
}

/// A map's body: the fine address, the coarse rows, the fine rows.
fn body(input: &Input, own: Range<usize>, runs: &[usize], wrong: WrongWrite, out: &mut Vec<u8>) {
    put(out, 4, 8 * runs.len() as u64 + if wrong == FineAddressFromRows { 0 } else { 4 });
    for run in runs {
        let row = own.start + run;
        let (time, packet) = (input.time(row), u64::from(input.cell(ENTRIES, row, PACKET)));
        let first = *run as u64 + u64::from(wrong == FirstFineFromOne);
        let time = if wrong == CoarseTimeOf12Bits { time >> 19 & 0xFFF } else { time >> 19 };
        let packet = if wrong == LowPacketCleared { packet & !0x1_FFFF } else { packet };
        put(out, 8, first << 46 | time << 32 | packet);
    }
    for row in own {
        let [angle, i_end, packet] = [0, 1, PACKET].map(|column| u64::from(input.cell(ENTRIES, row, column)));
        let time = input.time(row);
        let angle = if wrong == AngleDropped { 0 } else { angle & 1 };
        let i_end = if wrong == IEndDropped { 0 } else { i_end & 7 };
        let time = time >> 9 & if wrong == FineTimeOf10Bits { 1023 } else { 2047 };
        let packet = packet & if wrong == FinePacketOf16Bits { 0xFFFF } else { 0x1_FFFF };
        put(out, 4, angle << 31 | i_end << 28 | time << 17 | packet);
    }
}

/// Tables 5 and 6; with no maps, a length of 0 alone.
fn cpi(input: &Input, wrong: WrongWrite) -> Vec<u8> {
    let mut maps = own_rows(input, OF_MAPS, wrong);
    if wrong == FirstMapOnly {
        maps.truncate(1);
    }
    let (mut out, mut bodies, base) = (Vec::new(), Vec::new(), 2 + 12 * maps.len());
    if maps.is_empty() {
        put(&mut out, 4, 0);
        if wrong == CountOfNoMaps {
            put(&mut out, 4, 1 << 16);
        }
        return out;
    }
    put(&mut out, 4, 0);
    put(&mut out, 3, 1 << 8);
    put(&mut out, 1, counted(maps.len(), wrong == RowsOff(MAPS)) & 0xFF);
    for (row, own) in maps.iter().enumerate() {
        let runs = runs(input, own.clone(), wrong);
        let kind = if wrong == MapTypeDropped { 0 } else { u64::from(input.cell(MAPS, row, 1)) & 15 };
        let coarse = counted(runs.len(), wrong == CoarseCountOff) & 0xFFFF;
        let fine = counted(own.len(), wrong == FineCountOff) & 0x3_FFFF;
        let address = match wrong {
            AddressFromCpiStart => base + bodies.len() + 6,
            AddressOfFirst => base,
            _ => base + bodies.len(),
        };
        put(&mut out, 2, input.cell(MAPS, row, 0).into());
        put(&mut out, 6, kind << 34 | coarse << 18 | fine);
        put(&mut out, 4, address as u64);
        body(input, own.clone(), &runs, wrong, &mut bodies);
    }
    out.append(&mut bodies);
    let length = out.len() as u32 - if wrong == LengthWithItself { 0 } else { 4 };
    out[..4].copy_from_slice(&length.to_be_bytes());
    out
}
