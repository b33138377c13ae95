//! The command `large`: the longest file and one byte more, the tables with the most rows, and the longest new file.

use crate::compare::Comparison;
use crate::guarded::Guarded;
use crate::make::Maker;
use crate::ours::Library;
use crate::record::{MOST_BYTES, Record, row_bytes};

/// The bytes of the longest file that rewriting can make.
const LONGEST_NEW: usize = 402_515_706;

/// Compares one file, which must be answered with this refusal or, for 0, accepted, with a new file of so many bytes, or
/// of any number where that is 0; tells what was found.
fn one(what: &str, file: &[u8], wanted: u32, new: usize) -> bool {
    let (mut guarded, mut comparison) = (Guarded::new(file.len()), Comparison::new());
    let found = comparison.compare(guarded.hold(file), file.len() as u64, &mut Library, &mut Library, &mut Library);
    let alike = found == Ok(wanted) && (new == 0 || comparison.new_bytes() == new);
    match &found {
        Ok(0) => {
            let new = comparison.new_bytes();
            println!("{what}: {} bytes, accepted, {}, new file of {new} bytes", file.len(), rows(comparison.record()));
        }
        Ok(refusal) => println!("{what}: {} bytes, refused by {refusal}", file.len()),
        Err(difference) => println!("{what}: {} bytes, DIFFERS: {difference}", file.len()),
    }
    if !alike && found.is_ok() {
        println!("{what}: DIFFERS: {wanted} was wanted, and a new file of {new} bytes");
    }
    alike
}

/// How many rows the tables have, and their bytes.
fn rows(record: &Record) -> String {
    let rows = record.all_rows();
    let bytes: usize = (0..9).map(|table| rows[table] * row_bytes(table)).sum();
    format!("rows {rows:?}, {bytes} bytes of tables alike")
}

/// Runs the files at the limits.
pub fn large() -> bool {
    let mut maker = Maker::new();
    let mut file = maker.longest().to_vec();
    let longest = file.len() == MOST_BYTES && one("the longest file", &file, 0, 0);
    file.push(0);
    let longer = one("one byte more", &file, 20, 0);
    drop(file);
    let rows = one("255 of everything counted in a byte", maker.most_rows(), 0, 0);
    let entries = one("255 maps over the same 262,143 fine rows, of too many runs", maker.most_entries(), 0, 0);
    let new = one("the longest new file", maker.longest_new(), 0, LONGEST_NEW);
    let alike = [longest, longer, rows, entries, new];
    let differences = alike.iter().filter(|alike| !**alike).count();
    println!("{} large files compared, {differences} differences", alike.len());
    differences == 0
}
