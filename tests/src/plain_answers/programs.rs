//! Answers about programs and streams.

use super::rows::{first_row, next_row, stated};
use crate::answers::{Answer, Input};
use crate::record::{PROGRAMS, STREAMS};
use crate::wrong_answers::WrongAnswer::{self, *};

/// The coding types that are video.
const VIDEO: [u32; 5] = [0x02, 0x1B, 0x20, 0x24, 0xEA];

/// Whether a coding type is video.
pub fn is_video(kind: u32, wrong: WrongAnswer) -> bool {
    match wrong {
        CodingOf8Bits => VIDEO.contains(&(kind & 0xFF)),
        Type20NotVideo => VIDEO.contains(&kind) && kind != 0x20,
        AnyStream => true,
        _ => VIDEO.contains(&kind),
    }
}

/// Whether a coding type is audio: 0x80 to 0x86, and two for secondary audio.
pub fn is_audio(kind: u32, wrong: WrongAnswer) -> bool {
    let secondary = [0xA1, 0xA2].contains(&kind) && wrong != SecondaryNotAudio;
    let first = match wrong {
        CodingOf8Bits => return is_audio(kind & 0xFF, Right),
        AnyStream => return true,
        AllButVideoAudio => return !is_video(kind, Right),
        Type86NotAudio => (0x80..0x86).contains(&kind),
        AudioToTheEight => (0x80..0x90).contains(&kind),
        _ => (0x80..=0x86).contains(&kind),
    };
    first || secondary
}

/// The first row of the programs with a PID.
pub fn program_by_pmt_pid(input: &Input, pid: u16, wrong: WrongAnswer) -> Option<Answer> {
    let rows = stated(input, PROGRAMS, wrong)?;
    let mask = if wrong == PidOf16Bits { 0xFFFF } else { u32::MAX };
    let column = if wrong == PacketForPid { 0 } else { 1 };
    let has = |row: usize| input.cell(PROGRAMS, row, column) & mask == u32::from(pid);
    Some(first_row(rows, wrong == LastWithPid, has))
}

/// The first row of the streams with a PID.
pub fn stream_by_pid(input: &Input, pid: u16, wrong: WrongAnswer) -> Option<Answer> {
    let rows = stated(input, STREAMS, wrong)?;
    let mask = if wrong == PidOf16Bits { 0xFFFF } else { u32::MAX };
    Some(first_row(rows, wrong == LastWithPid, |row| input.cell(STREAMS, row, 0) & mask == u32::from(pid)))
}

/// The PID of the first row that is video.
pub fn primary_video_pid(input: &Input, wrong: WrongAnswer) -> Option<Answer> {
    let rows = stated(input, STREAMS, wrong)?;
    let mut video = (0..rows).filter(|&row| is_video(input.cell(STREAMS, row, 1), wrong));
    let row = if wrong == LastVideo { video.next_back() } else { video.next() };
    Some(Answer::of_option(row.map(|row| input.cell(STREAMS, row, 0).into())))
}

/// The first row of the streams, from one on, of a kind.
pub fn next_stream(
    input: &Input,
    from: u32,
    wrong: WrongAnswer,
    is_of_kind: fn(u32, WrongAnswer) -> bool,
) -> Option<Answer> {
    let rows = stated(input, STREAMS, wrong)?;
    next_row(rows, from, wrong, |row| is_of_kind(input.cell(STREAMS, row, 1), wrong))
}
