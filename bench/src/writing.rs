//! Writing and rewriting measured side by side: this library and the Rust, and a copy of the new file's bytes. libbluray doesn't write.
use crate::file::{self, Layout};
use crate::{ENTRY, median, ours as read, time};
use oracle::bdmv::clpi::ClipInformation;

/// The numbers of a record that stand in no table.
#[repr(C)]
#[derive(Clone, Copy)]
struct Info([u32; 8]);

/// The answer of writing and of rewriting.
#[repr(C)]
struct Writing {
    refusal: u32,
    needed: u32,
    written: u32,
}

unsafe extern "C" {
    #[rustfmt::skip]
    fn clpi_write(
        info: Info,
        t1: *const u8, n1: usize, r1: u32, t2: *const u8, n2: usize, r2: u32, t3: *const u8, n3: usize, r3: u32,
        t4: *const u8, n4: usize, r4: u32, t5: *const u8, n5: usize, r5: u32, t6: *const u8, n6: usize, r6: u32,
        output: *mut u8, n: usize,
    ) -> Writing;
    fn clpi_rewrite(file: *const u8, n: usize, output: *mut u8, m: usize) -> Writing;
}

/// Writes a table of maps and a table of entries; the other tables have no rows.
fn write(info: Info, maps: &[u8], entries: &[u8], output: &mut [u8]) -> Writing {
    let none = std::ptr::null();
    let rows = |table: &[u8], bytes: usize| (table.len() / bytes) as u32;
    unsafe {
        clpi_write(
            info, none, 0, 0, none, 0, 0, none, 0, 0, none, 0, 0,
            maps.as_ptr(), maps.len(), rows(maps, 12), entries.as_ptr(), entries.len(), rows(entries, ENTRY),
            output.as_mut_ptr(), output.len(),
        )
    }
}

/// Rewrites a file.
fn rewrite(clip: &[u8], output: &mut [u8]) -> Writing {
    unsafe { clpi_rewrite(clip.as_ptr(), clip.len(), output.as_mut_ptr(), output.len()) }
}

/// Measures writing and rewriting of a file in turn, round after round, and prints the medians. The bytes are held to be equal first,
/// but for the letters: the Rust writes CLPI, this library those of the file.
pub fn measure(name: &str, maps: usize, rows: usize, layout: Layout, rounds: usize, turns: usize) {
    let clip = file::clip(maps, rows, layout);
    let total = maps * rows;
    let (mut map_table, mut entry_table) = (vec![0u8; maps * 12], vec![0u8; total * ENTRY]);
    let reading = read(&clip, &mut map_table, &mut entry_table);
    assert!(reading.refusal == 0);
    let info = Info(std::array::from_fn(|k| reading.rest[k + 2]));
    let record = ClipInformation::parse(&clip).expect("accepted");
    let mut new = record.encode();
    new[..4].copy_from_slice(&clip[..4]);
    let mut output = vec![0u8; new.len()];
    assert!(write(info, &map_table, &entry_table, &mut output).refusal == 0 && output == new);
    output.fill(0);
    assert!(rewrite(&clip, &mut output).refusal == 0 && output == new);
    let whole = |w: Writing| assert!(w.refusal == 0 && w.needed == 0 && w.written as usize == new.len());
    let mut times = [const { Vec::new() }; 5];
    for _ in 0..rounds {
        times[0].push(time(turns * 8, || write(info, &map_table, &entry_table, &mut output), whole));
        times[1].push(time(turns, || record.encode(), |bytes| assert!(bytes.len() == new.len())));
        times[2].push(time(turns * 8, || rewrite(&clip, &mut output), whole));
        times[3].push(time(
            turns,
            || ClipInformation::parse(&clip).expect("accepted").encode(),
            |bytes| assert!(bytes.len() == new.len()),
        ));
        times[4].push(time(turns * 8, || output.copy_from_slice(std::hint::black_box(&new)), |()| {}));
    }
    let [a, b, c, d, e] = times.map(|t| median(t) / total as f64);
    println!("writing, {name}: {total} entries, new file of {} bytes, median of {rounds} rounds", new.len());
    println!("  write");
    println!("    this library {a:8.2} ns an entry");
    println!("    the Rust     {b:8.2} ns an entry  {:6.1} times as long", b / a);
    println!("  rewrite, no table at hand");
    println!("    this library {c:8.2} ns an entry");
    println!("    the Rust     {d:8.2} ns an entry  {:6.1} times as long", d / c);
    println!("  memcpy         {e:8.2} ns an entry for the new file's bytes");
}
