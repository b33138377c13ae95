//! A plain reader of the rules of the scope document and of the requests that have landed, with a switch for one wrong
//! rule. It is slow and short: each section is read where its number says, every read may fail, and a failed read is the
//! section's refusal.

mod entries;
mod extensions;
mod programs;

use crate::mutation::Mutation::{self, *};
use crate::record::{ATCS, CLPI, HDMV, MOST_BYTES, Record, STCS};

/// A big-endian number of the file, or none where it passes the file's end.
fn number(file: &[u8], at: u64, width: u64) -> Option<u64> {
    let end = at + width;
    if end > file.len() as u64 {
        return None;
    }
    Some(file[at as usize..end as usize].iter().fold(0, |n, &byte| n << 8 | u64::from(byte)))
}

/// Reads a file into a record; the refusal's number, or 0. Where it refuses, the record holds what came before.
pub fn read(file: &[u8], wrong: Mutation, out: &mut Record) -> u32 {
    out.clear();
    match whole(file, wrong, out) {
        Ok(()) => 0,
        Err(refusal) => refusal,
    }
}

/// The sections in the order of their refusals.
fn whole(file: &[u8], wrong: Mutation, out: &mut Record) -> Result<(), u32> {
    header(file, wrong, out)?;
    clip_info(file, wrong, out)?;
    let start = |at: u64| number(file, at, 4).unwrap_or(0);
    sequences(file, start(8), wrong, out).ok_or(4u32)?;
    let [_, _, rows, streams, ..] = &mut out.tables;
    if !(wrong == ZeroProgramsNone && start(12) == 0) {
        programs::read(file, start(12), wrong, rows, streams).ok_or(5u32)?;
    }
    let maps = entries::read(file, start(16), wrong, out);
    if wrong == MarksBeforeMaps && maps != Err(6) {
        marks(file, start(20), wrong, out)?;
    }
    maps?;
    marks(file, start(20), wrong, out)?;
    extensions::read(file, start(24), wrong, out)
}

/// The length, the letters, and the 40 bytes of the header.
fn header(file: &[u8], wrong: Mutation, out: &mut Record) -> Result<(), u32> {
    let least = if wrong == Least39 { 39 } else { 40 };
    if file.len() > MOST_BYTES {
        return Err(20);
    }
    if file.len() < 8 || wrong == LettersAfterLength && file.len() < least {
        return Err(1);
    }
    let right = &file[..4] == b"HDMV" || &file[..4] == b"CLPI" && wrong != ClpiLettersRefused;
    if !right {
        return Err(2);
    }
    out.scalars.letters = letters(file, wrong);
    if file.len() < least { Err(1) } else { Ok(()) }
}

/// The letters as one number, the first byte highest.
fn letters(file: &[u8], wrong: Mutation) -> u32 {
    match (wrong, number(file, 0, 4).unwrap_or(0) as u32) {
        (ClpiForHdmv, HDMV) => CLPI,
        (HdmvForClpi, CLPI) => HDMV,
        (LettersLowestFirst, letters) => letters.swap_bytes(),
        (LettersNotKept, _) => 0,
        (_, letters) => letters,
    }
}

/// Version and ClipInfo: 194 bytes, and 44 + L within the file.
fn clip_info(file: &[u8], wrong: Mutation, out: &mut Record) -> Result<(), u32> {
    let least = if wrong == Least193 { 193 } else { 194 };
    if file.len() < least {
        return Err(3);
    }
    let at = |at: u64, width: u64| number(file, at, width).unwrap_or(0) as u32;
    let length = u64::from(at(40, 4));
    let front = if wrong == InfoLengthFrom40 { 40 } else { 44 };
    if front + length > file.len() as u64 && wrong != InfoLengthNotTested || wrong == ShortInfoRefused && length < 150 {
        return Err(3);
    }
    out.scalars.version = at(4, 4);
    out.scalars.clip_stream_type = at(46, 1);
    out.scalars.application_type = at(47, 1);
    out.scalars.ts_recording_rate = at(52, 4);
    out.scalars.number_of_source_packets = at(56, 4);
    out.scalars.validity_flags = at(188, 1);
    out.scalars.format_id = at(if wrong == FormatIdEarly { 189 } else { 190 }, 4);
    Ok(())
}

/// Tables 1 and 2; none where a read passes the file's end.
fn sequences(file: &[u8], start: u64, wrong: Mutation, out: &mut Record) -> Option<()> {
    if wrong == ZeroSequencesRefused && start == 0 {
        return None;
    }
    let length = number(file, start, 4)?;
    if wrong == SequencesLengthTested && start + 4 + length > file.len() as u64 {
        return None;
    }
    let atcs = number(file, start + 5, 1)?;
    let mut at = start + 6;
    for _ in 0..atcs {
        let packet = number(file, at, 4)?;
        let (mut stcs, mut offset) = (number(file, at + 4, 1)?, number(file, at + 5, 1)?);
        if wrong == OffsetIdFirst {
            (stcs, offset) = (offset, stcs);
        }
        out.tables[ATCS].extend([packet as u32, stcs as u32, offset as u32]);
        at += 6;
        for _ in 0..stcs {
            let times = [number(file, at + 6, 4)?, number(file, at + 10, 4)?];
            let times = if wrong == TimesIn90kHz { times.map(|time| 2 * time) } else { times };
            let row = [number(file, at, 2)?, number(file, at + 2, 4)?, times[0], times[1]];
            out.tables[STCS].extend(row.map(|cell| cell as u32));
            at += 14;
        }
    }
    Some(())
}

/// The mark count: 0 where the start is 0 or at or past the end.
fn marks(file: &[u8], start: u64, wrong: Mutation, out: &mut Record) -> Result<(), u32> {
    if start >= file.len() as u64 {
        return if wrong == MarksPastEndRefused { Err(8) } else { Ok(()) };
    }
    if start == 0 && wrong != MarksAtZero {
        return Ok(());
    }
    let count = number(file, start + 4, 2).ok_or(8u32)? as u32;
    out.scalars.marks = if wrong == MarkCountOf8Bits { count & 0xFF } else { count };
    Ok(())
}
