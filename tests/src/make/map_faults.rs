//! Files with two faults in their maps, so that the order of the tests shows.

use super::Maker;
use super::sections::MARKS;
use crate::mutation::Test::{self, *};

/// What is tested of a map.
const TESTS: [Test; 5] = [Address, FourBytes, CoarseRows, FineAddress, FineRows];

/// The pairs of faults that one map can have: without its four bytes it has no fine address.
const OF_ONE_MAP: [[Test; 2]; 9] = [
    [Address, FourBytes],
    [Address, CoarseRows],
    [Address, FineAddress],
    [Address, FineRows],
    [FourBytes, CoarseRows],
    [FourBytes, FineRows],
    [CoarseRows, FineAddress],
    [CoarseRows, FineRows],
    [FineAddress, FineRows],
];

/// Each pair of faults in turn, in one map or in two, then in either order, with maps of no fault before, between and behind
/// them; now and then a refusal of the marks or of the CPI beside them.
pub fn two_faults(m: &mut Maker) {
    let turn = (m.number % (OF_ONE_MAP.len() + TESTS.len().pow(2)) as u64) as usize;
    let in_one = OF_ONE_MAP.get(turn);
    let of_two = turn.saturating_sub(OF_ONE_MAP.len());
    let of_two = [TESTS[of_two / TESTS.len()], TESTS[of_two % TESTS.len()]];
    let (before, between, behind) = (m.random.below(3), m.random.below(3), m.random.below(2));
    m.before_cpi();
    m.cpi(before + between + behind + 2, 0, 2, 3);
    // the bytes behind the CPI end: four for what is read at an address there, at most two where four bytes pass the file's end
    let [least, most] = match in_one.unwrap_or(&of_two) {
        [Address, _] if in_one.is_some() => [4, 40],
        faults if faults.contains(&FourBytes) => [0, 2],
        _ => [0, m.random.pick(&[0, 5, 40])],
    };
    let tail = m.random.between(least, most);
    m.noise(tail as usize);
    match in_one {
        Some(faults) => m.faults(before as usize, faults),
        None => {
            m.faults(before as usize, &of_two[..1]);
            m.faults((before + 1 + between) as usize, &of_two[1..]);
        }
    }
    beside_maps(m);
}

/// Of eight files two with marks cut short and one whose map headers or CPI length pass the file's end.
fn beside_maps(m: &mut Maker) {
    let bytes = m.at() as u64;
    match m.random.below(16) {
        0..4 => {
            let start = bytes - m.random.between(1, 5);
            m.set(MARKS, 4, start);
        }
        4 => m.set(m.cpi + 7, 1, 255),
        5 => {
            let length = bytes - m.cpi as u64 - 3 + m.random.below(3);
            m.set(m.cpi, 4, length);
        }
        _ => {}
    }
}

impl Maker {
    /// Gives a map these faults; the CPI's end and the file's are known.
    fn faults(&mut self, map: usize, faults: &[Test]) {
        let own = self.maps[map];
        let body = self.faulty_body(own.body as u64, faults);
        let moved = body != own.body as u64;
        if moved {
            self.set(own.header + 8, 4, body - self.cpi as u64 - 6);
            self.set(body as usize, 4, 0);
        }
        if faults.contains(&FineAddress) {
            let address = self.past_cpi_end(body) - body;
            self.set(body as usize, 4, address);
        }
        let fine_at = body + self.get(body as usize, 4);
        let less = (moved || faults.contains(&FineAddress)) && self.random.one_in(2);
        let [coarse, fine] = if less { [0, 0] } else { [own.coarse, own.fine] };
        let coarse = if faults.contains(&CoarseRows) { self.too_many(body + 4, 8, 0xFFFF) } else { coarse };
        let fine = if faults.contains(&FineRows) { self.too_many(fine_at, 4, 0x3_FFFF) } else { fine };
        self.set_counts(map, coarse, fine);
    }

    /// Where a body stands whose address, four bytes or both are faulty, or else its own place.
    fn faulty_body(&mut self, own: u64, faults: &[Test]) -> u64 {
        let [end, bytes] = [self.cpi_end() as u64, self.at() as u64];
        match (faults.contains(&Address), faults.contains(&FourBytes)) {
            (true, true) => end.max(bytes - 3) + self.random.below(5),
            (true, false) if faults.len() > 1 => self.random.between(end, bytes - 4),
            (true, false) => {
                let near = self.random.between(end, bytes + 4);
                let far = self.cpi as u64 + 6 + self.random.between(0xFFFF_FF00, 0xFFFF_FFFF);
                self.random.pick(&[end, end, near, far])
            }
            (false, true) => self.random.between(bytes - 3, end - 1),
            (false, false) => own,
        }
    }

    /// A place past the CPI end that a fine address can lead to: one past it, in the file, about the file's end, or far past.
    fn past_cpi_end(&mut self, body: u64) -> u64 {
        let [end, bytes] = [self.cpi_end() as u64, self.at() as u64];
        let (near, about) = (self.random.between(end, bytes), self.random.between(bytes, bytes + 2));
        let far = body + self.random.between(0xFFFF_FF00, 0xFFFF_FFFF);
        self.random.pick(&[end + 1, end + 1, near, about, far]).max(end + 1).max(body)
    }

    /// More rows of so many bytes than the file has from a place on: one too many, a few, or the most.
    fn too_many(&mut self, at: u64, row: u64, most: u64) -> u64 {
        let least = (self.at() as u64).saturating_sub(at) / row + 1;
        let few = least + self.random.below(9);
        self.random.pick(&[least, least, few, most])
    }
}
