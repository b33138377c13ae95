//! Minutes remaining measured beside a copy of the table, on as many STCs as a file can have. Neither the Rust nor libbluray has the figure.
use crate::lookups::Answer;
use crate::{median, time};
use std::hint::black_box;

/// How often both are timed, and how many calls at once.
const ROUNDS: usize = 15;
const TURNS: usize = 50;

unsafe extern "C" {
    fn clpi_minutes_remaining(stcs: *const u8, n: usize, rows: u32, stc: u32, at: u64) -> Answer;
}

/// A table of so many STCs, of 10 to 70 minutes each by a clock of its own, and the minutes that they last together.
fn stcs(rows: u32) -> (Vec<u8>, u64) {
    let (mut table, mut ticks) = (Vec::new(), 0);
    for k in 0..rows {
        let (start, length) = (k % 977 * 45_000, (600 + k % 3_600) * 45_000 + k % 45_000);
        for cell in [0x1001, k, start, start + length] {
            table.extend(cell.to_le_bytes());
        }
        ticks += 2 * length as u64;
    }
    (table, ticks / 5_400_000)
}

/// Asks at the start of the first of so many STCs, so that all of them are added up.
pub fn measure(rows: u32) {
    let (table, minutes) = stcs(rows);
    let mut copy = table.clone();
    let mut times = [const { Vec::new() }; 2];
    for _ in 0..ROUNDS {
        let ask = || unsafe { clpi_minutes_remaining(black_box(table.as_ptr()), table.len(), rows, 0, 0) };
        times[0].push(time(TURNS, ask, |r| assert!(r.refusal == 0 && r.value == minutes)));
        times[1].push(time(TURNS, || copy.copy_from_slice(black_box(&table)), |()| {}));
    }
    let [a, b] = times.map(|t| median(t) / rows as f64);
    println!("minutes remaining: {rows} STCs, {} bytes, median of {ROUNDS} rounds", table.len());
    println!("  this library {a:8.2} ns an STC  {:8.1} µs in all", a * rows as f64 / 1000.0);
    println!("  memcpy       {b:8.2} ns an STC  {:8.2} times as fast", a / b);
}
