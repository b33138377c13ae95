//! Clip files to measure on: one or more entry maps of a given length, every other section empty.

/// The packet count of every file.
pub const PACKETS: u32 = 0x00ff_ffff;

/// How many entries stand under one coarse row, and how far apart their times are, in 512 ticks of 90 kHz. From one coarse row to the next
/// it is 2048 of these.
#[derive(Clone, Copy)]
pub struct Layout {
    pub run: usize,
    pub step: u64,
}

/// Six entries a second apart under each coarse row. The times of the first 24,576 entries ascend; then they start again at 0.
pub const SECONDS: Layout = Layout { run: 6, step: 176 };

/// Entries so close that the times of 262,143 of them ascend within 32 bits.
pub const CLOSE: Layout = Layout { run: 64, step: 32 };

fn be(out: &mut Vec<u8>, width: usize, value: u64) {
    out.extend_from_slice(&value.to_be_bytes()[8 - width..]);
}

/// The body of a map: the fine address, its coarse rows and its fine rows.
fn body(rows: usize, layout: Layout) -> Vec<u8> {
    let runs = rows.div_ceil(layout.run);
    let mut out = Vec::new();
    be(&mut out, 4, 4 + 8 * runs as u64);
    for i in 0..runs as u64 {
        let first = i * layout.run as u64;
        let time = (2 * i) % 16384;
        let packet = (i << 17) & 0xffff_ffff;
        be(&mut out, 8, first << 46 | time << 32 | packet);
    }
    for k in 0..rows as u64 {
        let time = (k % layout.run as u64) * layout.step;
        let packet = (k * 4099) % 131072;
        be(&mut out, 4, 1 << 28 | time << 17 | packet);
    }
    out
}

/// A CPI of so many maps, each with a body of its own.
fn cpi(maps: usize, rows: usize, layout: Layout) -> Vec<u8> {
    let body = body(rows, layout);
    let runs = rows.div_ceil(layout.run) as u64;
    let mut inner = Vec::new();
    be(&mut inner, 2, 1);
    be(&mut inner, 2, maps as u64);
    for i in 0..maps {
        be(&mut inner, 2, 0x1011 + i as u64);
        be(&mut inner, 6, 1 << 34 | runs << 18 | rows as u64);
        be(&mut inner, 4, (2 + 12 * maps + i * body.len()) as u64);
    }
    for _ in 0..maps {
        inner.extend_from_slice(&body);
    }
    let mut out = Vec::new();
    be(&mut out, 4, inner.len() as u64);
    out.extend_from_slice(&inner);
    out
}

/// A file with its sections one behind the other.
pub fn clip(maps: usize, rows: usize, layout: Layout) -> Vec<u8> {
    let cpi = cpi(maps, rows, layout);
    let mut out = b"HDMV0200".to_vec();
    for start in [220, 226, 232, 232 + cpi.len() as u64, 0] {
        be(&mut out, 4, start);
    }
    out.resize(40, 0);
    be(&mut out, 4, 176);
    be(&mut out, 4, 0x0000_0101);
    be(&mut out, 4, 0);
    be(&mut out, 4, 6_000_000);
    be(&mut out, 4, PACKETS as u64);
    out.resize(188, 0);
    out.extend_from_slice(&[0, 30, 0x80, 0]);
    out.resize(220, 0);
    for _ in 0..2 {
        be(&mut out, 4, 2);
        be(&mut out, 2, 0);
    }
    out.extend_from_slice(&cpi);
    be(&mut out, 4, 2);
    be(&mut out, 2, 0);
    out
}
