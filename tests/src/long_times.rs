//! Lookups at the limits of times of 64 bits, on maps made by hand: each by its name, with the answer wanted as a number.

use crate::answers::{Answer, Answerer, Question, Question::*};
use crate::made::{Buffers, Made};
use crate::named::{self, Named};
use crate::ours::Library;
use crate::record::{ENTRIES, MAPS, entry_cells};

/// A map at a limit: its times in words and as numbers, its first time, its last and its span, and of each time that is
/// asked for the row at or before it, the row after it, and the packets of the two.
struct Map {
    name: &'static str,
    times: &'static [u64],
    first_last_span: [u64; 3],
    asked: [(u32, [u64; 4]); 3],
}

/// The packets of a map's rows.
const PACKETS: [u32; 3] = [70, 80, 90];

/// The maps, those of several times in both orders.
const CASES: [Map; 7] = [
    Map {
        name: "2^32, 2^63, 2^64 - 1",
        times: &[1 << 32, 1 << 63, u64::MAX],
        first_last_span: [4_294_967_296, 18_446_744_073_709_551_615, 18_446_744_069_414_584_319],
        asked: [(0, [0, 0, 70, 70]), (1, [0, 0, 70, 70]), (u32::MAX, [0, 0, 70, 70])],
    },
    Map {
        name: "2^64 - 1, 2^63, 2^32",
        times: &[u64::MAX, 1 << 63, 1 << 32],
        first_last_span: [18_446_744_073_709_551_615, 4_294_967_296, 0],
        asked: [(0, [0, 2, 70, 90]), (1, [0, 2, 70, 90]), (u32::MAX, [0, 2, 70, 90])],
    },
    Map {
        name: "0, 2^32",
        times: &[0, 1 << 32],
        first_last_span: [0, 4_294_967_296, 4_294_967_296],
        asked: [(0, [0, 1, 70, 80]), (1, [0, 1, 70, 80]), (u32::MAX, [0, 1, 70, 80])],
    },
    Map {
        name: "2^32, 0",
        times: &[1 << 32, 0],
        first_last_span: [4_294_967_296, 0, 0],
        asked: [(0, [1, 0, 80, 70]), (1, [1, 0, 80, 70]), (u32::MAX, [1, 0, 80, 70])],
    },
    Map {
        name: "2^32 - 1, 2^32",
        times: &[(1 << 32) - 1, 1 << 32],
        first_last_span: [4_294_967_295, 4_294_967_296, 1],
        asked: [(0, [0, 0, 70, 70]), (1, [0, 0, 70, 70]), (u32::MAX, [0, 1, 70, 80])],
    },
    Map {
        name: "2^32, 2^32 - 1",
        times: &[1 << 32, (1 << 32) - 1],
        first_last_span: [4_294_967_296, 4_294_967_295, 0],
        asked: [(0, [0, 1, 70, 80]), (1, [0, 1, 70, 80]), (u32::MAX, [1, 0, 80, 70])],
    },
    Map {
        name: "2^64 - 1, 2^64 - 1, 2^64 - 1",
        times: &[u64::MAX; 3],
        first_last_span: [18_446_744_073_709_551_615, 18_446_744_073_709_551_615, 0],
        asked: [(0, [0, 0, 70, 70]), (1, [0, 0, 70, 70]), (u32::MAX, [0, 0, 70, 70])],
    },
];

impl Map {
    /// Tables 5 and 6 with this map alone, which so is the primary one.
    fn tables(&self) -> Made {
        let mut made = Made::default();
        made.cells[MAPS] = vec![0x1011, 1, self.times.len() as u32];
        let rows = self.times.iter().zip(PACKETS);
        made.cells[ENTRIES] = rows.flat_map(|(time, packet)| entry_cells(0, 1, *time, packet, 1)).collect();
        made
    }

    /// What is asked of it, in words, and the answers wanted.
    fn lookups(&self) -> Vec<(String, Question, u64)> {
        let [first, last, span] = self.first_last_span;
        let mut lookups = vec![
            ("first time".to_string(), FirstPts(0), first),
            ("last time".to_string(), LastPts(0), last),
            ("span".to_string(), IndexedSpan(0), span),
        ];
        for (at, [before, after, packet_before, packet_after]) in self.asked {
            lookups.extend([
                (format!("at or before {at}"), EntryAtOrBefore(0, at), before),
                (format!("after {at}"), EntryAfter(0, at), after),
                (format!("packet at or before {at}"), SeekSpn(0, at), packet_before),
                (format!("packet after {at}"), NextSeekSpn(0, at), packet_after),
                (format!("packet of the primary map at or before {at}"), PrimarySeekSpn(at), packet_before),
                (format!("packet of the primary map after {at}"), PrimaryNextSeekSpn(at), packet_after),
            ]);
        }
        lookups
    }
}

/// Every lookup by its name, with what an answerer makes of it.
fn all(answerer: &mut impl Answerer) -> Vec<Named> {
    let (mut buffers, mut told) = (Buffers::new(), Vec::new());
    for map in &CASES {
        let made = map.tables();
        let (input, _) = buffers.hold(&made);
        for (words, question, wanted) in map.lookups() {
            let found = named::ask(question, &input, Answer::of(wanted), answerer);
            told.push((format!("times {}: {words}", map.name), found));
        }
    }
    told
}

/// The name of the first lookup that an answerer answers otherwise.
pub fn first(answerer: &mut impl Answerer) -> Option<String> {
    named::first(all(answerer))
}

/// Asks the library for every lookup.
pub fn lookups() -> bool {
    named::tell(all(&mut Library), "lookups at the limits of times")
}
