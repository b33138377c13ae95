//! The command `limits`: records made by hand and files at each limit of writing and one over it, each by its name.

use crate::answers::Answerer;
use crate::compare::{Comparison, Difference, must};
use crate::made::{Buffers, Made, empty, of_the_rust, small};
use crate::make::Maker;
use crate::ours::{Library, Reader};
use crate::random::Random;
use crate::record::{ATCS, CLPI, ENTRIES, HDMV, KIND, MAPS, PACKET, PROGRAMS, STCS, STREAMS, row_bytes};
use crate::writer::{TABLES, Writer, Writing};
use crate::writing::Writings;

/// A change to the small record.
type Change = Box<dyn Fn(&mut Made)>;

/// A record at a limit: its name, what makes it of the small record, the refusal or 0, and whether the output has no byte.
struct Case {
    name: String,
    change: Change,
    wanted: u32,
    no_output: bool,
}

/// Cases being listed.
#[derive(Default)]
struct Cases(Vec<Case>);

impl Cases {
    /// A case with an output that suffices.
    fn add(&mut self, name: impl Into<String>, wanted: u32, change: impl Fn(&mut Made) + 'static) {
        self.0.push(Case { name: name.into(), change: Box::new(change), wanted, no_output: false });
    }

    /// A case with an output of no byte.
    fn add_without_output(&mut self, name: &str, wanted: u32, change: impl Fn(&mut Made) + 'static) {
        self.0.push(Case { name: name.into(), change: Box::new(change), wanted, no_output: true });
    }

    /// A cell of a row at its greatest value and one over it.
    fn cell(&mut self, name: &str, table: usize, row: usize, column: usize, greatest: u32) {
        self.add(format!("{name} {greatest}"), 0, move |made| made.set(table, row, column, greatest));
        let over = greatest + 1;
        self.add(format!("{name} {over}"), 30, move |made| made.set(table, row, column, over));
    }

    /// A cell of 32 bits at its greatest value.
    fn whole_cell(&mut self, name: &str, table: usize, row: usize, column: usize) {
        self.add(format!("{name} 4294967295"), 0, move |made| made.set(table, row, column, u32::MAX));
    }
}

/// Every case, small ones first.
fn cases() -> Vec<Case> {
    let mut cases = Cases::default();
    whole_records(&mut cases);
    letters(&mut cases);
    numbers(&mut cases);
    sequence_cells(&mut cases);
    program_cells(&mut cases);
    map_cells(&mut cases);
    rows_stated(&mut cases);
    counts_that_do_not_add_up(&mut cases);
    counts(&mut cases);
    runs(&mut cases);
    order(&mut cases);
    cases.0
}

/// Records that can be written.
fn whole_records(cases: &mut Cases) {
    cases.add("the small record", 0, |_| {});
    cases.add("the empty record", 0, |made| *made = empty());
    cases.add("rows of any bytes beyond those stated", 0, |made| {
        (0..TABLES).for_each(|table| made.surplus[table] = vec![0xFF; 2 * row_bytes(table) + 3]);
    });
    cases.add("a language in capitals is written as it is", 0, |made| {
        made.set(STREAMS, 1, 4, u32::from_be_bytes(*b"\0ENG"));
    });
}

/// Four letters as a record has them, the first one highest.
fn number_of(letters: &str) -> u32 {
    letters.bytes().fold(0, |number, letter| number << 8 | u32::from(letter))
}

/// 40: the letters that are written, and others.
fn letters(cases: &mut Cases) {
    for name in ["HDMV", "CLPI"] {
        let right = number_of(name);
        cases.add(format!("the letters {name}"), 0, move |made| made.info.letters = right);
        cases.add(format!("letters one less than {name}"), 40, move |made| made.info.letters = right - 1);
        cases.add(format!("letters one more than {name}"), 40, move |made| made.info.letters = right + 1);
        cases.add(format!("the letters {name}, the first one lowest"), 40, move |made| {
            made.info.letters = right.swap_bytes();
        });
    }
    for name in ["hdmv", "clpi", "HDMW", "CLPV", "HDPI", "CLMV", "MPLS"] {
        let wrong = number_of(name);
        cases.add(format!("the letters {name}"), 40, move |made| made.info.letters = wrong);
    }
    for number in [0, 1, u32::MAX] {
        cases.add(format!("letters {number}"), 40, move |made| made.info.letters = number);
    }
    cases.add("letters 0 of the empty record", 40, |made| *made = Made::default());
}

/// The numbers beside the tables.
fn numbers(cases: &mut Cases) {
    cases.add("version, rate, packets and format id 4294967295", 0, |made| {
        made.info.version = u32::MAX;
        made.info.ts_recording_rate = u32::MAX;
        made.info.number_of_source_packets = u32::MAX;
        made.info.format_id = u32::MAX;
    });
    for (number, wanted) in [(255, 0), (256, 30), (u32::MAX, 30)] {
        cases.add(format!("stream type {number}"), wanted, move |made| made.info.clip_stream_type = number);
        cases.add(format!("application type {number}"), wanted, move |made| made.info.application_type = number);
        cases.add(format!("validity flags {number}"), wanted, move |made| made.info.validity_flags = number);
    }
}

/// ATCs and STCs, in their last rows.
fn sequence_cells(cases: &mut Cases) {
    cases.whole_cell("ATC packet", ATCS, 2, 0);
    cases.cell("offset id", ATCS, 2, 2, 255);
    cases.cell("STC PID", STCS, 2, 0, 65_535);
    cases.whole_cell("STC packet", STCS, 2, 1);
    cases.whole_cell("STC start", STCS, 2, 2);
    cases.whole_cell("STC end", STCS, 2, 3);
}

/// Programs and streams, in their last rows or the last of their kind.
fn program_cells(cases: &mut Cases) {
    cases.whole_cell("program packet", PROGRAMS, 2, 0);
    cases.cell("program PID", PROGRAMS, 2, 1, 65_535);
    cases.cell("stream PID", STREAMS, 4, 0, 65_535);
    cases.cell("coding type", STREAMS, 3, 1, 255);
    cases.add("coding type 283, which is video in 8 bits", 30, |made| made.set(STREAMS, 0, 1, 0x11B));
    cases.cell("format", STREAMS, 4, 2, 255);
    cases.cell("aspect", STREAMS, 4, 3, 15);
    cases.cell("language", STREAMS, 3, 4, 0xFF_FFFF);
    for kind in [0x02, 0x1B, 0x20, 0x24, 0xEA] {
        cases.add(format!("an aspect on video of type {kind}"), 0, move |made| made.set(STREAMS, 4, 1, kind));
        cases.add(format!("a language on video of type {kind}"), 30, move |made| {
            made.set(STREAMS, 4, 1, kind);
            made.set(STREAMS, 4, 4, 1);
        });
    }
    for kind in [0x01, 0x03, 0x1A, 0x80, 0x90, 0x92] {
        cases.add(format!("an aspect on coding type {kind}"), 30, move |made| {
            made.set(STREAMS, 3, 1, kind);
            made.set(STREAMS, 3, 3, 1);
        });
    }
    cases.add("a language of one byte that isn't 0", 0, |made| made.set(STREAMS, 3, 4, 1));
}

/// Maps and entries, in their last rows.
fn map_cells(cases: &mut Cases) {
    cases.cell("map PID", MAPS, 2, 0, 65_535);
    for (kind, wanted) in [(15, 0), (16, 30), (u32::MAX, 30)] {
        cases.add(format!("map type {kind}"), wanted, move |made| {
            made.set(MAPS, 2, 1, kind);
            [3, 4].into_iter().for_each(|row| made.set(ENTRIES, row, KIND, kind));
        });
    }
    cases.add("map type 16 of an empty map", 30, |made| made.set(MAPS, 1, 1, 16));
    for kind in [0, 1, 9, 24, u32::MAX] {
        cases.add(format!("entry type {kind} in a map of type 8"), 30, move |made| made.set(ENTRIES, 4, KIND, kind));
    }
    cases.add("the entry types of two maps swapped", 30, |made| {
        (0..5).for_each(|row| made.set(ENTRIES, row, KIND, if row < 3 { 8 } else { 1 }));
    });
    cases.cell("angle", ENTRIES, 4, 0, 1);
    cases.cell("I-end", ENTRIES, 4, 1, 7);
    for (time, wanted) in [(0xFFFF_FE00, 0), (1, 30), (256, 30), (511, 30), (512, 0), (513, 30), (0xFFFF_FFFF, 30)] {
        cases.add(format!("time {time}"), wanted, move |made| made.set_time(4, time));
    }
    for time in [1 << 32, (1 << 32) + 512, 1 << 33, 1 << 63, u64::MAX - 511, u64::MAX] {
        cases.add(format!("time {time}"), 30, move |made| made.set_time(4, time));
    }
    cases.whole_cell("entry packet", ENTRIES, 4, PACKET);
}

/// 22: more rows stated than lent, of each table. The counts add up to the rows stated.
fn rows_stated(cases: &mut Cases) {
    const NAMES: [&str; TABLES] = ["ATC", "STC", "program", "stream", "map", "entry"];
    for (table, name) in NAMES.into_iter().enumerate() {
        cases.add(format!("a row of table {name} stated and not lent"), 22, move |made| {
            made.cut[table] = row_bytes(table);
        });
        cases.add(format!("a row of table {name} stated of which a byte isn't lent"), 22, move |made| {
            made.cut[table] = 1
        });
        cases.add(format!("table {name} stated and of no bytes"), 22, move |made| {
            made.cut[table] = 4 * made.cells[table].len();
            made.null = true;
        });
    }
    for (heads, name) in [(ATCS, "ATC"), (PROGRAMS, "program"), (MAPS, "map")] {
        cases.add(format!("one more {name} stated than lent"), 22, move |made| made.stated[heads] = 1);
        cases.add(format!("4294967295 rows of table {name} stated"), 22, move |made| {
            made.stated[heads] = i64::from(u32::MAX) - made.rows(heads) as i64;
        });
    }
}

/// 22: counts that add up to more, to less, or past 32 bits.
fn counts_that_do_not_add_up(cases: &mut Cases) {
    let pairs = [("STC", ATCS, 1, STCS), ("stream", PROGRAMS, 2, STREAMS), ("entry", MAPS, 2, ENTRIES)];
    for (name, heads, column, counted) in pairs {
        cases.add(format!("one {name} less stated than counted"), 22, move |made| made.stated[counted] = -1);
        cases.add(format!("one {name} more stated than counted"), 22, move |made| {
            made.stated[counted] = 1;
            made.surplus[counted] = vec![0; row_bytes(counted)];
        });
        cases.add(format!("no {name} stated"), 22, move |made| made.stated[counted] = -(made.rows(counted) as i64));
        let rows_of = move |made: &Made| made.rows(counted) as u32;
        cases.add(format!("{name} counts that are 2^32 too many"), 22, move |made| {
            let rows = rows_of(made);
            made.set(heads, 0, column, u32::MAX);
            made.set(heads, 1, column, rows);
            made.set(heads, 2, column, 1);
        });
        cases.add(format!("{name} count of 4294967295"), 22, move |made| made.set(heads, 2, column, u32::MAX));
    }
    cases.add("rows counted by no head", 22, |made| made.cells[ATCS].clear());
}

/// 30: rows that are counted in a byte or in 18 bits.
fn counts(cases: &mut Cases) {
    let heads = [("ATCs", ATCS, 1, STCS), ("programs", PROGRAMS, 2, STREAMS), ("maps", MAPS, 2, ENTRIES)];
    for (name, table, column, counted) in heads {
        for (rows, wanted) in [(255, 0), (256, 30), (257, 30)] {
            cases.add(format!("{rows} {name}"), wanted, move |made| {
                if table == MAPS {
                    made.entries(&[vec![(512, 1)]]);
                }
                made.heads(table, column, rows, counted);
            });
        }
    }
    for (rows, wanted) in [(255, 0), (256, 30)] {
        cases.add(format!("{rows} STCs in an ATC"), wanted, move |made| made.own(ATCS, 1, rows, STCS));
        cases.add(format!("{rows} streams in a program"), wanted, move |made| made.own(PROGRAMS, 2, rows, STREAMS));
    }
    for (rows, wanted) in [(262_143, 0), (262_144, 30)] {
        cases.add(format!("{rows} entries in a map"), wanted, move |made| made.own(MAPS, 2, rows, ENTRIES));
    }
}

/// So many entries, each a run of its own, by its time alone.
fn by_time(runs: u32) -> Vec<(u32, u32)> {
    (0..runs).map(|k| ((k % 2) << 19, 7)).collect()
}

/// So many entries, each a run of its own, by its packet alone.
fn by_packet(runs: u32) -> Vec<(u32, u32)> {
    (0..runs).map(|k| (512, (k % 2) << 17)).collect()
}

/// 31: maps with the most runs and one more.
fn runs(cases: &mut Cases) {
    for (runs, wanted) in [(65_535, 0), (65_536, 31), (65_537, 31)] {
        cases.add(format!("{runs} runs by their times"), wanted, move |made| {
            made.info.letters = CLPI;
            made.entries(&[by_time(runs)]);
        });
        cases.add(format!("{runs} runs by their packets"), wanted, move |made| made.entries(&[by_packet(runs)]));
    }
    cases.add("65,535 runs of two entries", 0, |made| {
        made.entries(&[(0..131_070).map(|k| ((k / 2 % 2) << 19, 7)).collect()]);
    });
    cases.add("two maps of 65,535 runs", 0, |made| made.entries(&[by_time(65_535), by_packet(65_535)]));
    cases.add("65,536 runs in the last map", 31, |made| made.entries(&[by_time(3), Vec::new(), by_packet(65_536)]));
}

/// The order of the refusals: 22, 40, 30, 31, 23.
fn order(cases: &mut Cases) {
    order_of_rows(cases);
    order_of_letters(cases);
    order_of_output(cases);
}

/// 22, 30 and 31, with letters that are right.
fn order_of_rows(cases: &mut Cases) {
    cases.add("22 before 30", 22, |made| [counts_off, cell_too_wide].iter().for_each(|change| change(made)));
    cases.add("22 of the last tables before 30 of the first", 22, |made| {
        made.set(ATCS, 0, 2, 256);
        made.stated[ENTRIES] = -1;
    });
    cases.add("22 before 31", 22, |made| [too_many_runs, counts_off].iter().for_each(|change| change(made)));
    cases.add("30 before 31", 30, |made| [too_many_runs, cell_too_wide].iter().for_each(|change| change(made)));
    cases.add("30 of the last map before 31 of the first", 30, |made| made.entries(&[by_time(65_536), vec![(513, 7)]]));
    cases.add("30 of the last entry of a run", 30, |made| made.entries(&[vec![(512, 7), (1_024, 7), (1_025, 7)]]));
    cases.add("22 before 30 and 31", 22, |made| {
        [too_many_runs, counts_off, cell_too_wide].iter().for_each(|change| change(made));
    });
}

/// 40 behind each part of 22, and before 30 and 31.
fn order_of_letters(cases: &mut Cases) {
    cases.add("22 of counts that don't add up before 40", 22, |made| {
        [other_letters, counts_off].iter().for_each(|change| change(made));
    });
    cases.add("22 of a row stated and not lent before 40", 22, |made| {
        [other_letters, row_not_lent].iter().for_each(|change| change(made));
    });
    cases.add("40 before 30", 40, |made| [other_letters, cell_too_wide].iter().for_each(|change| change(made)));
    cases.add("40 before 30 of the rows of a table", 40, |made| {
        made.heads(ATCS, 1, 256, STCS);
        other_letters(made);
    });
    cases.add("40 before 31", 40, |made| [other_letters, too_many_runs].iter().for_each(|change| change(made)));
    cases.add("40 before 30 and 31", 40, |made| {
        [other_letters, too_many_runs, cell_too_wide].iter().for_each(|change| change(made));
    });
    cases.add("22 before 40, 30 and 31", 22, |made| {
        [other_letters, too_many_runs, cell_too_wide, counts_off].iter().for_each(|change| change(made));
    });
}

/// Each refusal before 23.
fn order_of_output(cases: &mut Cases) {
    cases.add_without_output("22 before 23", 22, counts_off);
    cases.add_without_output("40 before 23", 40, other_letters);
    cases.add_without_output("30 before 23", 30, cell_too_wide);
    cases.add_without_output("31 before 23", 31, too_many_runs);
    cases.add_without_output("40 before 30, 31 and 23", 40, |made| {
        [other_letters, too_many_runs, cell_too_wide].iter().for_each(|change| change(made));
    });
    cases.add_without_output("23 of the small record", 23, |_| {});
    cases.add_without_output("23 of the empty record", 23, |made| *made = empty());
}

/// Counts that don't add up: 22.
fn counts_off(made: &mut Made) {
    made.stated[STCS] = -1;
}

/// More rows stated than lent, and counts that add up: 22.
fn row_not_lent(made: &mut Made) {
    made.cut[ENTRIES] = 1;
}

/// Letters that are neither of the two: 40.
fn other_letters(made: &mut Made) {
    made.info.letters = number_of("MPLS");
}

/// A number that its field can't hold: 30.
fn cell_too_wide(made: &mut Made) {
    made.info.application_type = 256;
}

/// A map with one run more than can be written: 31.
fn too_many_runs(made: &mut Made) {
    made.entries(&[by_time(65_536)]);
}

/// The name of the files of known bytes.
const STORED: &str = "the file of 274 bytes, and that of the empty record";

/// The runs of the files of one map.
const RUNS: [u64; 2] = [65_535, 65_536];

/// The name of such a file.
fn of_runs(runs: u64) -> String {
    format!("a file of {runs} runs")
}

/// What writes and reads the cases.
pub struct Limits<R, A, W> {
    pub reader: R,
    pub answerer: A,
    pub writer: W,
}

impl<R: Reader, A: Answerer, W: Writer> Limits<R, A, W> {
    /// Compares one record.
    fn record(&mut self, case: &Case) -> Result<(), Difference> {
        let (mut buffers, mut writings, mut random) = (Buffers::new(), Writings::default(), Random::new(7));
        let mut made = small();
        (case.change)(&mut made);
        let (input, clip) = buffers.hold(&made);
        let writer = &mut self.writer;
        match (case.wanted, case.no_output) {
            (0, _) => writings.made(&made, &input, clip, &mut random, &mut self.reader, writer),
            (23, _) => {
                of_the_rust(&made.info, &input, clip);
                let wanted = Writing::too_short(clip.encode().len());
                writings.must_answer(0, wanted, &mut random, |output| writer.write(made.info, &input, output))
            }
            (refusal, true) => writings.must_answer(0, Writing::refused(refusal), &mut random, |output| {
                writer.write(made.info, &input, output)
            }),
            (refusal, false) => writings.must_answer(4096, Writing::refused(refusal), &mut random, |output| {
                writer.write(made.info, &input, output)
            }),
        }
    }

    /// Compares a file of one map with so many runs.
    fn file(&mut self, runs: u64) -> Result<(), Difference> {
        let (mut maker, mut comparison) = (Maker::new(), Comparison::new());
        let file = maker.of_runs(runs);
        comparison.compare(file, runs, &mut self.reader, &mut self.answerer, &mut self.writer)?;
        let refused = comparison.new_bytes() == 0;
        must(refused == (runs > 65_535), || "a file of so many runs is refused, or not, by the wrong number".into())
    }

    /// The files of known bytes, with either letters.
    fn stored(&mut self) -> Result<(), Difference> {
        [CLPI, HDMV].into_iter().try_for_each(|letters| {
            self.stored_example(letters)?;
            self.stored_empty(letters)
        })
    }

    /// The 274 bytes of the scope document's example, which are their own rewriting.
    fn stored_example(&mut self, letters: u32) -> Result<(), Difference> {
        let mut example = *include_bytes!("../../samples/one_map.clpi");
        example[..4].copy_from_slice(&letters.to_be_bytes());
        let mut output = [0; 300];
        let answer = self.writer.rewrite(&example, &mut output);
        must(answer == Writing::written(274) && output[..274] == example, || format!("one_map.clpi: {answer:?}"))
    }

    /// The 242 bytes of the empty record, by its letters and its starts.
    fn stored_empty(&mut self, letters: u32) -> Result<(), Difference> {
        let (mut buffers, mut made, mut output) = (Buffers::new(), empty(), [0; 300]);
        made.info.letters = letters;
        let (input, _) = buffers.hold(&made);
        let answer = self.writer.write(made.info, &input, &mut output);
        let number = |at: usize| u32::from_be_bytes(output[at..at + 4].try_into().expect("four bytes"));
        let numbers = [0, 8, 12, 16, 20, 24].map(number);
        must(answer == Writing::written(242) && numbers == [letters, 220, 226, 232, 236, 0], || {
            format!("the empty record: {answer:?}, letters and starts {numbers:?}")
        })
    }

    /// The name of the first case with a difference, and the difference.
    pub fn first(&mut self) -> Option<(String, Difference)> {
        self.all(true).into_iter().next()
    }

    /// The cases with a difference, by name; the first one alone where that is asked for.
    fn all(&mut self, first: bool) -> Vec<(String, Difference)> {
        let mut differences = Vec::new();
        let mut note = |name: String, found: Result<(), Difference>| {
            differences.extend(found.err().map(|why| (name, why)));
            first && !differences.is_empty()
        };
        if note(STORED.into(), self.stored()) {
            return differences;
        }
        for case in cases() {
            if note(case.name.clone(), self.record(&case)) {
                return differences;
            }
        }
        for runs in RUNS {
            if note(of_runs(runs), self.file(runs)) {
                return differences;
            }
        }
        differences
    }
}

/// Runs every case with the library.
pub fn limits() -> bool {
    let files = RUNS.map(of_runs).into_iter().chain([STORED.into()]);
    let names: Vec<String> = cases().into_iter().map(|case| case.name).chain(files).collect();
    let differences = Limits { reader: Library, answerer: Library, writer: Library }.all(false);
    for name in names.iter().filter(|name| differences.iter().all(|(other, _)| other != *name)) {
        println!("as wanted: {name}");
    }
    differences.iter().for_each(|(name, why)| println!("DIFFERS: {name}: {why}"));
    println!("{} limits of writing compared, {} differences", names.len(), differences.len());
    differences.is_empty()
}
