//! Answers about maps, and about extensions.

use super::rows::{first_row, next_row, stated};
use crate::answers::{Answer, Input};
use crate::record::{EXTENSIONS, MAPS};
use crate::wrong_answers::WrongAnswer::{self, *};

/// The types that are video.
const VIDEO: [u32; 4] = [1, 5, 6, 8];

/// A map's type, of which four bits count.
fn kind(input: &Input, row: usize, wrong: WrongAnswer) -> u32 {
    input.cell(MAPS, row, 1) & if wrong == TypeNotMasked { u32::MAX } else { 15 }
}

/// The first map of type 8, else the first of a video type, else the one with the least PID; of so many maps.
pub fn primary_of(input: &Input, rows: usize, wrong: WrongAnswer) -> Option<usize> {
    let pid = |row: usize| input.cell(MAPS, row, 0);
    let first_of = |kinds: &[u32]| (0..rows).find(|&row| kinds.contains(&kind(input, row, wrong)));
    let least = (0..rows).map(pid).min();
    let mut of_least = (0..rows).filter(|&row| Some(pid(row)) == least);
    let by_pid = if wrong == LatestOfEqualPids { of_least.next_back() } else { of_least.next() };
    let by_kind = match wrong {
        Type8NotFirst => first_of(&VIDEO),
        PrimaryByPidFirst => None,
        _ => first_of(&[8]).or(first_of(&VIDEO)),
    };
    by_kind.or(by_pid)
}

/// The row of the primary map.
pub fn primary_map(input: &Input, wrong: WrongAnswer) -> Option<Answer> {
    let rows = stated(input, MAPS, wrong)?;
    Some(Answer::of_option(primary_of(input, rows, wrong).map(|row| row as u64)))
}

/// The first map of a type, by the low four bits of both.
pub fn map_by_kind(input: &Input, wanted: u8, wrong: WrongAnswer) -> Option<Answer> {
    let rows = stated(input, MAPS, wrong)?;
    let wanted = u32::from(wanted) & if wrong == KindNotMasked { 0xFF } else { 15 };
    let alike = |row: usize| match wrong {
        OtherKindsAlike if !VIDEO.contains(&wanted) => !VIDEO.contains(&kind(input, row, wrong)),
        _ => kind(input, row, wrong) == wanted,
    };
    Some(first_row(rows, wrong == LastOfKind, alike))
}

/// The first map, from one on, of a video type.
pub fn next_video_map(input: &Input, from: u32, wrong: WrongAnswer) -> Option<Answer> {
    let rows = stated(input, MAPS, wrong)?;
    let is_video = |row: usize| match wrong {
        Type8NotVideo => [1, 5, 6].contains(&kind(input, row, wrong)),
        AnyMap => true,
        _ => VIDEO.contains(&kind(input, row, wrong)),
    };
    next_row(rows, from, wrong, is_video)
}

/// The first extension with two ids.
pub fn extension_entry(input: &Input, id1: u16, id2: u16, wrong: WrongAnswer) -> Option<Answer> {
    let rows = stated(input, EXTENSIONS, wrong)?;
    let mask = if wrong == IdsOf16Bits { 0xFFFF } else { u32::MAX };
    let wanted = [id1, id2].map(u32::from);
    let has = |row: usize| {
        let [first, second] = [0, 1].map(|column| input.cell(EXTENSIONS, row, column) & mask);
        match wrong {
            FirstIdAlone => first == wanted[0],
            SecondIdAlone => second == wanted[1],
            IdsSwapped => [second, first] == wanted,
            _ => [first, second] == wanted,
        }
    };
    Some(first_row(rows, wrong == LastWithIds, has))
}
