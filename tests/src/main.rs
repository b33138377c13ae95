//! Compares libclpi.a and libep_entry_queries.a with the Rust they are ports of, on files made by seed. See README.md.

mod answers;
mod by_hand;
mod calls;
mod canary;
mod compare;
mod entry_rows;
mod expected;
mod great_minutes;
mod guarded;
mod large;
mod libbluray;
mod limits;
mod long_minutes;
mod long_times;
mod made;
mod make;
mod map_faults;
mod model;
mod mutants;
mod mutation;
mod named;
mod ours;
mod plain_answers;
mod plain_writer;
mod questions;
mod random;
mod record;
mod records;
mod repeated;
mod run;
mod rust_answers;
mod sample;
mod tables;
mod writer;
mod writing;
mod wrong;
mod wrong_answers;
mod wrong_writes;

use std::process::ExitCode;

const USAGE: &str = "usage: compare compare FIRST COUNT   the files and tables of COUNT seeds from FIRST on
       compare mutants COUNT         wrong readers, answerers and writers must be caught by one of the first COUNT seeds
       compare rows FIRST COUNT      lookups over rows of records of COUNT seeds from FIRST on
       compare limits                lookups at the limits of times, minutes and writing at theirs, faults of maps, each by its name
       compare large                 the longest file, tables and new file (needs 8 GB)
       compare libbluray COUNT       libbluray, where it is installed, reads the new files of the first COUNT seeds
       compare sample FOLDER COUNT   COUNT files of each class with the Rust's answers, for crates/replay
       compare show SEED             one file's bytes and what each reader says of it";

/// Runs the command of the arguments; the exit status tells whether there was no difference.
fn main() -> ExitCode {
    let words: Vec<String> = std::env::args().skip(1).collect();
    let number = |k: usize| words.get(k).and_then(|word| word.parse::<u64>().ok());
    let alike = match (words.first().map(String::as_str), words.len(), number(1), number(2)) {
        (Some("compare"), 3, Some(first), Some(count)) => run::compare(first, count),
        (Some("mutants"), 2, Some(count), None) => mutants::mutants(count),
        (Some("rows"), 3, Some(first), Some(count)) => entry_rows::rows(first, count),
        (Some("limits"), 1, None, None) => {
            let questions = long_times::lookups() & long_minutes::places() & great_minutes::places();
            questions & map_faults::files() & limits::limits()
        }
        (Some("large"), 1, None, None) => large::large(),
        (Some("libbluray"), 2, Some(count), None) => libbluray::libbluray(count),
        (Some("sample"), 3, None, Some(count)) => sample::sample(&words[1], count),
        (Some("show"), 2, Some(seed), None) => run::show(seed),
        _ => {
            eprintln!("{USAGE}");
            return ExitCode::from(2);
        }
    };
    if alike { ExitCode::SUCCESS } else { ExitCode::FAILURE }
}
