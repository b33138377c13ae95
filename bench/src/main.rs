//! Reading measured side by side in one process: this library, the Rust, libbluray, and copies of the bytes that are read and stored.
//! Then writing and rewriting, lookups of entries by their times, and the minutes remaining.
mod file;
mod lookups;
mod minutes;
mod writing;

use oracle::bdmv::clpi::ClipInformation;
use std::ffi::{c_char, c_void, CString};
use std::time::Instant;

/// Where the number of entries stands behind the refusal.
const ENTRIES: usize = 16;

/// The bytes of an entry's row, and where its packet stands in it.
const ENTRY: usize = 24;
const PACKET: usize = 16;

/// The answer of reading: the refusal and the numbers behind it.
#[repr(C)]
struct Reading {
    refusal: u32,
    rest: [u32; 21],
}

unsafe extern "C" {
    #[rustfmt::skip]
    fn clpi_read(
        file: *const u8, n: usize,
        t1: *mut u8, n1: usize, t2: *mut u8, n2: usize, t3: *mut u8, n3: usize, t4: *mut u8, n4: usize, t5: *mut u8, n5: usize,
        t6: *mut u8, n6: usize, t7: *mut u8, n7: usize, t8: *mut u8, n8: usize, t9: *mut u8, n9: usize,
    ) -> Reading;
    fn bd_read_clpi(path: *const c_char) -> *mut c_void;
    fn bd_free_clpi(clip: *mut c_void);
}

/// Reads into a table of maps and a table of entries; the other tables have no rows.
fn ours(file: &[u8], maps: &mut [u8], entries: &mut [u8]) -> Reading {
    let none = (std::ptr::null_mut(), 0);
    unsafe {
        clpi_read(
            file.as_ptr(), file.len(),
            none.0, none.1, none.0, none.1, none.0, none.1, none.0, none.1,
            maps.as_mut_ptr(), maps.len(), entries.as_mut_ptr(), entries.len(),
            none.0, none.1, none.0, none.1, none.0, none.1,
        )
    }
}

/// Nanoseconds of one call, as the mean over `turns`. What a call answers is looked at and given back between two calls, with the clock stopped.
fn time<T>(turns: usize, mut call: impl FnMut() -> T, mut done: impl FnMut(T)) -> f64 {
    let mut spent = 0;
    for _ in 0..turns {
        let start = Instant::now();
        let answer = call();
        spent += start.elapsed().as_nanos();
        done(answer);
    }
    spent as f64 / turns as f64
}

/// The middle one of the times.
fn median(mut times: Vec<f64>) -> f64 {
    times.sort_by(f64::total_cmp);
    times[times.len() / 2]
}

/// Measures all of them in turn, round after round, and prints the medians.
fn measure(name: &str, maps: usize, rows: usize, rounds: usize, turns: usize) {
    let clip = file::clip(maps, rows, file::SECONDS);
    let path = format!("/dev/shm/clip_bench_{}.clpi", std::process::id());
    std::fs::write(&path, &clip).expect("memory-backed storage");
    let c_path = CString::new(path.as_str()).unwrap();
    let total = maps * rows;
    let mut map_table = vec![0u8; maps * 12];
    let mut entry_table = vec![0u8; total * ENTRY];
    let mut copy = vec![0u8; clip.len()];
    let mut table_copy = entry_table.clone();
    let mut times = [const { Vec::new() }; 5];
    for _ in 0..rounds {
        times[0].push(time(
            turns * 8,
            || ours(&clip, &mut map_table, &mut entry_table),
            |r| assert!(r.refusal == 0 && r.rest[ENTRIES] as usize == total),
        ));
        times[1].push(time(
            turns,
            || ClipInformation::parse(&clip).expect("accepted"),
            |r| assert!(r.cpi.ep_map.iter().map(|m| m.entries.len()).sum::<usize>() == total),
        ));
        times[2].push(time(turns, || unsafe { bd_read_clpi(c_path.as_ptr()) }, |r| {
            assert!(!r.is_null());
            unsafe { bd_free_clpi(r) }
        }));
        times[3].push(time(turns * 8, || copy.copy_from_slice(std::hint::black_box(&clip)), |()| {}));
        times[4].push(time(turns * 8, || table_copy.copy_from_slice(std::hint::black_box(&entry_table)), |()| {}));
    }
    let _ = std::fs::remove_file(&path);
    let [a, b, c, d, e] = times.map(|t| median(t) / total as f64);
    println!("{name}: {total} entries, {} bytes, median of {rounds} rounds", clip.len());
    println!("  this library {a:8.2} ns an entry");
    println!("  the Rust     {b:8.2} ns an entry  {:6.1} times as long", b / a);
    println!("  libbluray    {c:8.2} ns an entry  {:6.1} times as long", c / a);
    println!("  memcpy       {d:8.2} ns an entry for the file's bytes, {e:.2} for the table's");
}

/// A map with as many entries as two hours have seconds, and the largest maps that a file can have; each read, then written and rewritten,
/// then one map of each asked for times; last, the most STCs that a file can have.
fn main() {
    measure("film", 1, 7_200, 15, 50);
    measure("large file", 4, 262_143, 9, 2);
    writing::measure("film", 1, 7_200, file::SECONDS, 15, 50);
    writing::measure("large file", 4, 262_143, file::SECONDS, 9, 2);
    lookups::measure("film", 7_200, file::SECONDS);
    lookups::measure("largest map", 262_143, file::CLOSE);
    minutes::measure(65_025);
}
