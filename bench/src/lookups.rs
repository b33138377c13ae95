//! Lookups by time measured side by side on one ascending map: this library's scan, the Rust's binary search, and libbluray's walk.
//!
//! libbluray's search (`clpi_lookup_spn`) isn't in its headers, and its shared library hides it. It is called in the static library of the
//! same package, on what the public `bd_read_clpi` hands out. It walks the coarse rows and then the fine rows of one of them.
use crate::file::{self, Layout};
use crate::{ENTRY, PACKET, median, ours as read};
use oracle::bdmv::clpi::{ClipInformation, EpMap};
use std::ffi::{CString, c_char, c_int, c_void};
use std::hint::black_box;
use std::time::Instant;

/// How many times are asked for.
const ASKED: usize = 4096;
/// How many of them a scan is timed with: it looks at every row whatever the time is.
const SCANNED: usize = 256;
/// How often all of them are timed.
const ROUNDS: usize = 15;

/// The answer of a question.
#[repr(C)]
pub struct Answer {
    pub refusal: u32,
    pub found: u32,
    pub value: u64,
}

/// A question of this library on the entries of a map.
type Question = unsafe extern "C" fn(*const u8, usize, u32, *const u8, usize, u32, u32, u32) -> Answer;

unsafe extern "C" {
    #[rustfmt::skip]
    fn clpi_entry_point_at_or_before(
        maps: *const u8, n: usize, map_rows: u32, entries: *const u8, m: usize, entry_rows: u32, map: u32, at: u32,
    ) -> Answer;
    #[rustfmt::skip]
    fn clpi_entry_point_after(
        maps: *const u8, n: usize, map_rows: u32, entries: *const u8, m: usize, entry_rows: u32, map: u32, at: u32,
    ) -> Answer;
    fn bd_read_clpi(path: *const c_char) -> *mut c_void;
    fn bd_free_clpi(clip: *mut c_void);
    fn clpi_lookup_spn(clip: *const c_void, at_45k: u32, before: c_int, stc_id: u8) -> u32;
}

/// One map of one file as each of the three holds it.
struct Held {
    maps: Vec<u8>,
    entries: Vec<u8>,
    rust: EpMap,
    bluray: *mut c_void,
}

impl Held {
    /// Reads a file with one map, whose times must ascend, by each of the three.
    fn new(rows: usize, layout: Layout) -> Held {
        let clip = file::clip(1, rows, layout);
        let (mut maps, mut entries) = (vec![0u8; 12], vec![0u8; rows * ENTRY]);
        assert!(read(&clip, &mut maps, &mut entries).refusal == 0);
        let rust = ClipInformation::parse(&clip).expect("accepted").cpi.ep_map.remove(0);
        assert!(rust.entries.is_sorted_by(|a, b| a.pts_ep_start < b.pts_ep_start));
        let path = format!("/dev/shm/clip_bench_{}.clpi", std::process::id());
        std::fs::write(&path, &clip).expect("memory-backed storage");
        let c_path = CString::new(path.as_str()).unwrap();
        let bluray = unsafe { bd_read_clpi(c_path.as_ptr()) };
        let _ = std::fs::remove_file(&path);
        assert!(!bluray.is_null());
        Held { maps, entries, rust, bluray }
    }

    /// The row that this library answers.
    fn ours(&self, question: Question, at: u32) -> Option<u64> {
        let rows = (self.entries.len() / ENTRY) as u32;
        let (maps, entries) = (&self.maps, &self.entries);
        let r = unsafe { question(maps.as_ptr(), maps.len(), 1, entries.as_ptr(), entries.len(), rows, 0, at) };
        assert!(r.refusal == 0);
        (r.found == 1).then_some(r.value)
    }

    /// The packet that libbluray answers, whose times are in 45 kHz ticks; the packet count where there is no later entry.
    fn bluray(&self, is_after: bool, at: u32) -> u32 {
        unsafe { clpi_lookup_spn(self.bluray, at / 2, !is_after as c_int, 0) }
    }

    /// The packet of a row of this library's table.
    fn packet(&self, row: u64) -> u32 {
        let cell = row as usize * ENTRY + PACKET;
        u32::from_le_bytes(self.entries[cell..cell + 4].try_into().unwrap())
    }
}

impl Drop for Held {
    fn drop(&mut self) {
        unsafe { bd_free_clpi(self.bluray) }
    }
}

/// Times spread over a map and the second behind its last entry, the same in every run.
fn asked(map: &EpMap) -> Vec<u32> {
    let end = map.entries.last().map_or(0, |e| e.pts_ep_start) as u64 + 90_000;
    let mut state = 1u64;
    let mut next = || {
        state = state.wrapping_mul(6_364_136_223_846_793_005).wrapping_add(1_442_695_040_888_963_407);
        (((state >> 32) * end) >> 32).min(u32::MAX as u64) as u32
    };
    (0..ASKED).map(|_| next()).collect()
}

/// Nanoseconds of one lookup, as the mean over so many at once. The clock is read often, so that the median leaves out the stretches in
/// which another process had the processor, for long lookups as for short ones.
fn time<T>(times: &[u32], at_once: usize, call: impl Fn(u32) -> T) -> impl Iterator<Item = f64> {
    times.chunks_exact(at_once).map(move |part| {
        let start = Instant::now();
        for &at in part {
            black_box(call(black_box(at)));
        }
        start.elapsed().as_nanos() as f64 / at_once as f64
    })
}

/// Measures one question: the answers are held to be equal, then all three are timed in turn, round after round.
fn ask<'a>(held: &'a Held, times: &[u32], is_after: bool, rust: impl Fn(&'a EpMap, u32) -> Option<u32>) {
    let (name, question): (_, Question) = match is_after {
        true => ("after", clpi_entry_point_after),
        false => ("at or before", clpi_entry_point_at_or_before),
    };
    for &at in times {
        let packet = held.ours(question, at).map(|row| held.packet(row));
        assert_eq!(packet, rust(&held.rust, at));
        assert_eq!(packet.unwrap_or(file::PACKETS), held.bluray(is_after, at));
    }
    let mut spent = [const { Vec::new() }; 3];
    for _ in 0..ROUNDS {
        spent[0].extend(time(&times[..SCANNED], 1, |at| held.ours(question, at)));
        spent[1].extend(time(times, 256, |at| rust(&held.rust, at)));
        spent[2].extend(time(times, 16, |at| held.bluray(is_after, at)));
    }
    let [a, b, c] = spent.map(median);
    println!("  {name}");
    println!("    this library {a:10.1} ns a lookup  {:8.3} ns an entry", a / held.rust.entries.len() as f64);
    println!("    the Rust     {b:10.1} ns a lookup  {:8.1} times as fast", a / b);
    println!("    libbluray    {c:10.1} ns a lookup  {:8.1} times as fast", a / c);
}

/// Measures both questions on a map of so many rows.
pub fn measure(name: &str, rows: usize, layout: Layout) {
    let held = Held::new(rows, layout);
    let times = asked(&held.rust);
    let runs = rows.div_ceil(layout.run);
    println!("lookups, {name}: a map of {rows} entries in {runs} runs, median over {ROUNDS} rounds");
    ask(&held, &times, false, |map, at| map.entry_point_at_or_before(at).map(|e| e.spn_ep_start));
    ask(&held, &times, true, |map, at| map.entry_point_after(at).map(|e| e.spn_ep_start));
}
