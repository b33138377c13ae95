//! Extensions: table 7, and the (2, 5) list of tables 8 and 9.

use super::{number, programs};
use crate::mutation::Mutation::{self, *};
use crate::record::{EXTENSIONS, LIST_PROGRAMS, Record};

/// Reads the extensions and the list. By the rules this never refuses.
pub fn read(file: &[u8], start: u64, wrong: Mutation, out: &mut Record) -> Result<(), u32> {
    if start == 0 && wrong != ExtensionsAtZero || start >= file.len() as u64 {
        return Ok(());
    }
    if entries(file, start, wrong, &mut out.tables[EXTENSIONS]).is_none() && wrong != CutEntriesKept {
        out.tables[EXTENSIONS].clear();
    }
    list(file, wrong, out)
}

/// The extensions kept; none where a read fails.
fn entries(file: &[u8], start: u64, wrong: Mutation, out: &mut Vec<u32>) -> Option<()> {
    let bytes = file.len() as u64;
    let length = number(file, start, 4)?;
    if length == 0 && wrong != EmptyBlockRead {
        return Some(());
    }
    let block_end = start + if wrong == BlockEndWithoutFour { length } else { 4 + length };
    let end = if wrong == PastBlockEndKept { bytes } else { bytes.min(block_end) };
    let count = number(file, start + 11, 1)?;
    for row in 0..count {
        let at = start + 12 + 12 * row;
        let ids = [number(file, at, 2)?, number(file, at + 2, 2)?];
        let address = number(file, at + 4, 4)?;
        let data = number(file, at + 8, 4)?;
        if wrong == EntriesStopAtBlockEnd && at + 12 > block_end {
            return None;
        }
        let place = if wrong == DataFromFileStart { address } else { start + address };
        let left_out = address == 0 && wrong != AddressZeroKept || data == 0 && wrong == EmptyDataLeftOut;
        if left_out || place + data > end {
            continue;
        }
        out.extend([ids[0] as u32, ids[1] as u32, place as u32, data as u32]);
    }
    Some(())
}

/// Reads the first extension with ids (2, 5) as programs of a file of its own.
fn list(file: &[u8], wrong: Mutation, out: &mut Record) -> Result<(), u32> {
    let [.., rows, list_programs, list_streams] = &mut out.tables;
    let lists = || rows.chunks_exact(4).filter(|row| row[0] == 2 && row[1] == 5);
    let chosen = if wrong == LastList { lists().next_back() } else { lists().next() };
    let tried = chosen.into_iter().chain(lists().skip(1).take(if wrong == NextListIfBad { 255 } else { 0 }));
    for row in tried {
        let place = row[2] as usize;
        let data = if wrong == ListPastItsData { &file[place..] } else { &file[place..place + row[3] as usize] };
        if programs::read(data, 0, wrong, list_programs, list_streams).is_some() {
            out.scalars.has_list = !(wrong == EmptyListAbsent && out.tables[LIST_PROGRAMS].is_empty());
            return Ok(());
        }
        if wrong != BadListRows {
            list_programs.clear();
            list_streams.clear();
        }
        if wrong == BadListRefused {
            return Err(5);
        }
    }
    Ok(())
}
