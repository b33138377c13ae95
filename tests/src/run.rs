//! The commands `compare` and `show`.

use crate::by_hand::ByHand;
use crate::compare::Comparison;
use crate::guarded::Guarded;
use crate::make::{CLASSES, Maker};
use crate::model;
use crate::mutation::Mutation;
use crate::ours::{Library, Reader};
use crate::questions::Questions;
use crate::record::Record;
use crate::records::Records;
use crate::writing::Counts;
use oracle::bdmv::clpi::ClipInformation;
use std::ops::Range;
use std::thread;

/// Every refusal's number is below this.
const REFUSALS: usize = 64;

/// How many differences are told in full; all are counted.
const TOLD: u64 = 20;

/// What the comparison of some seeds counts, and the differences it tells.
struct Tally {
    /// Of each class the files made and the files accepted.
    files: [[u64; 2]; CLASSES.len()],
    refusals: [u64; REFUSALS],
    of_files: Questions,
    by_hand: Questions,
    /// New files of files, and of records made by hand.
    new_files: Counts,
    new_records: Counts,
    differences: u64,
    told: Vec<String>,
}

impl Tally {
    /// Nothing counted.
    fn new() -> Self {
        let questions = Questions::default();
        let (of_files, by_hand) = (questions, questions);
        let (new_files, new_records) = (Counts::default(), Counts::default());
        let (files, refusals) = ([[0; 2]; CLASSES.len()], [0; REFUSALS]);
        Tally { files, refusals, of_files, by_hand, new_files, new_records, differences: 0, told: Vec::new() }
    }

    /// Compares the files, the tables and the records made by hand of some seeds.
    fn of(seeds: Range<u64>) -> Self {
        let (mut maker, mut guarded, mut comparison) = (Maker::new(), Guarded::new(1 << 16), Comparison::new());
        let (mut by_hand, mut records, mut tally) = (ByHand::new(), Records::new(), Tally::new());
        for seed in seeds {
            let class = (seed % CLASSES.len() as u64) as usize;
            tally.files[class][0] += 1;
            let file = guarded.hold(maker.make(seed));
            let file = comparison.compare(file, seed, &mut Library, &mut Library, &mut Library);
            let by_hand =
                by_hand.compare(seed, &mut Library).and_then(|()| records.compare(seed, &mut Library, &mut Library));
            match file.and_then(|refusal| by_hand.map(|()| refusal)) {
                Ok(0) => tally.files[class][1] += 1,
                Ok(refusal) => tally.refusals[refusal as usize] += 1,
                Err(difference) => {
                    tally.differences += 1;
                    if tally.differences <= TOLD {
                        tally.told.push(format!("seed {seed} ({}): {difference}", CLASSES[class].0));
                    }
                }
            }
        }
        tally.of_files = comparison.questions();
        tally.by_hand = by_hand.questions;
        (tally.new_files, tally.new_records) = (comparison.writings(), records.counts());
        tally
    }

    /// Counts what another tally has counted too.
    fn add(&mut self, other: Tally) {
        let counts = other.files.as_flattened().iter().chain(&other.refusals);
        let sums = self.files.as_flattened_mut().iter_mut().chain(&mut self.refusals);
        sums.zip(counts).for_each(|(sum, count)| *sum += count);
        self.of_files += other.of_files;
        self.by_hand += other.by_hand;
        self.new_files += other.new_files;
        self.new_records += other.new_records;
        self.differences += other.differences;
        self.told.extend(other.told);
    }
}

/// Compares the files, the tables and the records made by hand of `count` seeds, a part of them on each processor; tells
/// the files of each class, the refusals, the questions, the new files, and the differences.
pub fn compare(first: u64, count: u64) -> bool {
    let parts = thread::available_parallelism().map_or(1, |parts| parts.get() as u64);
    let border = |part: u64| first + count * part / parts;
    let mut tally = Tally::new();
    thread::scope(|scope| {
        let run = |part: u64| scope.spawn(move || Tally::of(border(part)..border(part + 1)));
        for part in (0..parts).map(run).collect::<Vec<_>>() {
            tally.add(part.join().expect("a comparison ends"));
        }
    });
    tally.told.iter().take(TOLD as usize).for_each(|difference| println!("{difference}"));
    for (class, [made, accepted]) in CLASSES.iter().zip(tally.files) {
        println!("{:<40} {made:>8} files {accepted:>8} accepted", class.0);
    }
    for (refusal, times) in tally.refusals.iter().enumerate().filter(|(_, times)| **times > 0) {
        println!("refused by {refusal} {times:>37} files");
    }
    tell("the files' tables", tally.of_files);
    tell("tables made by hand", tally.by_hand);
    tell_writings("files written and rewritten", tally.new_files);
    tell_writings("records made by hand written", tally.new_records);
    println!(
        "{count} files, {count} sets of tables and {count} records made by hand compared, {} differences",
        tally.differences
    );
    tally.differences == 0
}

/// Tells how many questions were asked.
fn tell(what: &str, questions: Questions) {
    let Questions { asked, of_the_rust, lookups_of_the_rust, refused } = questions;
    println!("questions on {what}: {asked} answered, {refused} refused");
    if of_the_rust > 0 {
        println!("  the Rust's answers beside them: {of_the_rust}, of entry lookups {lookups_of_the_rust}");
    }
}

/// Tells how many new files were compared.
fn tell_writings(what: &str, counts: Counts) {
    let Counts { files, bytes, refused } = counts;
    println!("{what}: {files} times, {bytes} bytes as the Rust's, {refused} refused");
}

/// Prints a file's bytes, and what the Rust, the plain reader and the library say of it.
pub fn show(seed: u64) -> bool {
    let mut maker = Maker::new();
    let file = maker.make(seed);
    println!("seed {seed} ({}), {} bytes", CLASSES[(seed % CLASSES.len() as u64) as usize].0, file.len());
    for (k, line) in file.chunks(32).enumerate() {
        let hex: Vec<String> = line.iter().map(|byte| format!("{byte:02x}")).collect();
        println!("{:6}  {}", 32 * k, hex.join(" "));
    }
    match std::panic::catch_unwind(|| ClipInformation::parse(file)) {
        Ok(Ok(clip)) => println!("the Rust: {clip:?}"),
        Ok(Err(why)) => println!("the Rust refuses: {why}"),
        Err(_) => println!("the Rust panics"),
    }
    let mut record = Record::default();
    let refusal = model::read(file, Mutation::Right, &mut record);
    println!("the plain reader: refusal {refusal}, rows {:?}, {:?}", record.all_rows(), record.scalars);
    let mut buffers: [Vec<u8>; 9] = std::array::from_fn(|_| vec![0; 2 << 20]);
    let reading = Library.read(file, buffers.each_mut().map(|buffer| &mut buffer[..]));
    println!("the library: {reading:?}");
    let file = Comparison::new().compare(file, seed, &mut Library, &mut Library, &mut Library).map(|_| ());
    let by_hand = ByHand::new().compare(seed, &mut Library);
    let record = Records::new().compare(seed, &mut Library, &mut Library);
    let differences: Vec<String> = [file, by_hand, record].into_iter().filter_map(Result::err).collect();
    differences.iter().for_each(|difference| println!("{difference}"));
    differences.is_empty()
}
