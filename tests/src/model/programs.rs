//! Programs and their streams: tables 3 and 4, and 8 and 9 of the (2, 5) list.

use super::number;
use crate::mutation::Mutation::{self, *};

/// Reads programs from a place; none where a read passes the file's end.
pub fn read(file: &[u8], start: u64, wrong: Mutation, programs: &mut Vec<u32>, streams: &mut Vec<u32>) -> Option<()> {
    let length = number(file, start, 4)?;
    if wrong == ProgramsLengthTested && start + 4 + length > file.len() as u64 {
        return None;
    }
    let count = number(file, start + 5, 1)?;
    let mut at = start + 6;
    for _ in 0..count {
        let packet = number(file, at, 4)?;
        let pid = number(file, at + 4, 2)?;
        let own = number(file, at + 6, 1)?;
        if wrong != SpareByteNotNeeded {
            number(file, at + 7, 1)?;
        }
        programs.extend([packet as u32, pid as u32, own as u32]);
        at += 8;
        for _ in 0..own {
            at = stream(file, at, wrong, streams)?;
        }
    }
    Some(())
}

/// Reads one stream, and gives the place of the next.
fn stream(file: &[u8], at: u64, wrong: Mutation, streams: &mut Vec<u32>) -> Option<u64> {
    let pid = number(file, at, 2)?;
    let length = number(file, at + 2, 1)?;
    let first = at + 3;
    let cut = length.min(file.len() as u64 - first);
    if cut < length && wrong != CutBodyAccepted {
        return None;
    }
    let body = &file[first as usize..(first + cut) as usize];
    let coding = byte(body, 0);
    let format = byte(body, if wrong == FormatFromBody2 { 2 } else { 1 });
    let video = matches!(coding, 0x02 | 0x1B | 0x24 | 0xEA) || coding == 0x20 && wrong != Type20NotVideo;
    let aspect = match (video, wrong) {
        (true, AspectLowBits) => byte(body, 2) & 15,
        (true, _) | (false, AspectForAudio) => byte(body, 2) >> 4,
        (false, _) => 0,
    };
    let shown = if video && wrong != LanguageOfVideo { 0 } else { language(body, wrong) };
    streams.extend([pid as u32, coding, format, aspect, shown]);
    let fields = length.min(if video { 3 } else { 5 });
    Some(first + if wrong == NextStreamByFields { fields } else { length })
}

/// A byte of a stream's body, 0 where it is absent.
fn byte(body: &[u8], at: usize) -> u32 {
    body.get(at).copied().unwrap_or(0).into()
}

/// The language of a body: bytes 2 to 4 where there are five bytes, A to Z lowered; 0 for none.
fn language(body: &[u8], wrong: Mutation) -> u32 {
    let least = if wrong == LanguageOfFour { 4 } else { 5 };
    let given = [byte(body, 2), byte(body, 3), byte(body, 4)];
    if body.len() < least || wrong == LanguageZeroByteNone && given.contains(&0) {
        return 0;
    }
    given.iter().fold(0, |code, &letter| code << 8 | lowered(letter, wrong))
}

/// A letter from A to Z in lower case; any other byte as it is.
fn lowered(letter: u32, wrong: Mutation) -> u32 {
    let latin = wrong == LanguageLatin && (0xC0..=0xDE).contains(&letter);
    if (65..=90).contains(&letter) && wrong != LanguageNotLowered || latin { letter + 32 } else { letter }
}
