//! The command `sample`: files with the Rust's answers, stored for `crates/replay`, which needs no Rust.

use crate::expected::record_of;
use crate::make::{CLASSES, Maker};
use crate::record::{EXTENSIONS, Record};
use oracle::bdmv::clpi::ClipInformation;
use std::path::Path;

/// The longest file of the sample, and the most rows that `crates/replay` has room for.
const MOST_BYTES: usize = 1200;
const MOST_ROWS: usize = 256;

/// Writes so many cases of each class into `folder/data`, and the classes' names into `folder/args`.
pub fn sample(folder: &str, each: u64) -> bool {
    let data = Path::new(folder).join("data");
    std::fs::create_dir_all(&data).expect("the folder can be made");
    let mut names = String::new();
    for (class, (name, _)) in CLASSES.iter().enumerate() {
        let name = file_name(name);
        std::fs::write(data.join(&name), cases(class as u64, each)).expect("the sample can be written");
        names += &name;
        names.push('\n');
    }
    std::fs::write(data.join("altered"), altered(&cases_of_all(each))).expect("the sample can be written");
    names += "altered\n";
    std::fs::write(Path::new(folder).join("args"), names).expect("the names can be written");
    true
}

/// The cases of every class, one behind the other.
fn cases_of_all(each: u64) -> Vec<u8> {
    (0..CLASSES.len() as u64).flat_map(|class| cases(class, each)).collect()
}

/// Every seventh case with one byte of its answer altered, each at another place: none of them is what the Rust answered.
fn altered(cases: &[u8]) -> Vec<u8> {
    let number = |at: usize| u32::from_le_bytes(cases[at..at + 4].try_into().expect("four bytes")) as usize;
    let (mut out, mut at, mut turn) = (Vec::new(), 0, 0);
    while at < cases.len() {
        let end = at + 8 + number(at) + number(at + 4);
        if turn % 7 == 0 {
            out.extend(&cases[at..end]);
            let answer = out.len() - number(at + 4);
            let place = answer + turn * 13 % number(at + 4);
            out[place] ^= 1 << (turn % 8);
        }
        turn += 1;
        at = end;
    }
    out
}

/// A class's name as a file's: letters and digits, all else an underscore.
fn file_name(class: &str) -> String {
    let plain: String =
        class.chars().map(|c| if c.is_ascii_alphanumeric() { c.to_ascii_lowercase() } else { ' ' }).collect();
    plain.split_whitespace().collect::<Vec<_>>().join("_")
}

/// The first `each` cases of a class whose file and tables are short.
fn cases(class: u64, each: u64) -> Vec<u8> {
    let (mut maker, mut record, mut out) = (Maker::new(), Record::default(), Vec::new());
    let mut seed = class;
    let mut left = each;
    while left > 0 {
        let file = maker.make(seed);
        seed += CLASSES.len() as u64;
        if file.len() > MOST_BYTES {
            continue;
        }
        let Some(answer) = answer(file, &mut record) else { continue };
        out.extend((file.len() as u32).to_le_bytes());
        out.extend((answer.len() as u32).to_le_bytes());
        out.extend(file);
        out.extend(answer);
        left -= 1;
    }
    out
}

/// The Rust's answer as cells, each with its lowest byte first: 1 where it refuses; else the 22 numbers of reading, the rows of tables
/// 1 to 6, 8 and 9, and of each extension its ids, its length and its data. None where a table is too long for the replay.
fn answer(file: &[u8], record: &mut Record) -> Option<Vec<u8>> {
    let Ok(clip) = ClipInformation::parse(file) else { return Some(1u32.to_le_bytes().to_vec()) };
    record_of(&clip, file, record);
    if record.all_rows().iter().any(|rows| *rows > MOST_ROWS) {
        return None;
    }
    let s = record.scalars;
    let mut cells = vec![0, 0, 0, s.letters, s.version, s.clip_stream_type, s.application_type, s.ts_recording_rate];
    cells.extend([s.number_of_source_packets, s.validity_flags, s.format_id, s.marks]);
    cells.extend(record.all_rows().map(|rows| rows as u32));
    cells.push(s.has_list.into());
    for (table, rows) in record.tables.iter().enumerate() {
        if table != EXTENSIONS {
            cells.extend(rows);
        }
    }
    let mut out: Vec<u8> = cells.iter().flat_map(|cell| cell.to_le_bytes()).collect();
    for entry in &clip.extension.entries {
        let numbers = [u32::from(entry.id1), u32::from(entry.id2), entry.data.len() as u32];
        out.extend(numbers.iter().flat_map(|cell| cell.to_le_bytes()));
        out.extend(&entry.data);
    }
    Some(out)
}
