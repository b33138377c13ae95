//! Minutes remaining on tables of so many STCs that what remains passes 2^64 ticks: each place by its name, with the minutes
//! wanted as a number.

use crate::answers::{Answerer, Input, Table};
use crate::long_minutes::{Asked, Wanted::*};
use crate::named::{self, Named};
use crate::ours::Library;
use crate::record::{STCS, row_bytes};
use crate::repeated::Repeated;
use std::thread;

/// The cells of the rows: they end at 2^32 - 1, which is 8,589,934,590 ticks of 90 kHz, the last of them 4,000,000 sooner.
const ROW: [u32; 4] = [0x1011, 7, 0, 4_294_967_295];
const LAST: [u32; 4] = [0x1011, 7, 0, 4_292_967_295];

/// How many rows are stated and lent, and what is asked of them.
type Case = (u32, &'static [Asked]);

/// The fewest rows of which more than 2^64 ticks remain, 18,446,744,078,000,518,910.
const ABOVE: Case = (2_147_483_649, &[(0, 0, Minutes(3_416_063_718_148))]);

/// One row less: 18,446,744,069,410,584,320 ticks.
const BELOW: Case = (2_147_483_648, &[(0, 0, Minutes(3_416_063_716_557))]);

/// The most rows: 36,893,488,130,235,234,050 ticks.
const MOST: Case = (
    4_294_967_295,
    &[
        (0, 0, Minutes(6_832_127_431_525)),
        (4_294_967_293, 0, Minutes(3180)),
        (4_294_967_293, 3_869_180, Minutes(3180)),
        (4_294_967_293, 3_869_181, Minutes(3179)),
        (4_294_967_293, 18_446_744_073_709_551_615, Minutes(1589)),
        (4_294_967_294, 0, Minutes(1589)),
        (4_294_967_294, 5_334_590, Minutes(1589)),
        (4_294_967_294, 5_334_591, Minutes(1588)),
        (4_294_967_294, 8_585_934_590, Minutes(0)),
        (4_294_967_294, 18_446_744_073_709_551_615, Minutes(0)),
        (4_294_967_295, 0, Refused),
    ],
);

/// The rows, or none where they can't be mapped.
fn rows() -> Option<Repeated> {
    let [row, last] = [ROW, LAST].map(|cells| std::array::from_fn(|k| cells[k / 4].to_le_bytes()[k % 4]));
    Repeated::new(row, last)
}

/// Every place of some cases by its name, with what an answerer makes of it.
fn all(rows: &[u8], cases: &[Case], answerer: &mut impl Answerer) -> Vec<Named> {
    let mut told = Vec::new();
    for &(count, asked) in cases {
        let mut tables = [Table::default(); 9];
        let bytes = &rows[rows.len() - row_bytes(STCS) * count as usize..];
        tables[STCS] = Table { bytes, rows: count };
        let input = Input { rate: 0, packets: 0, tables, null: false };
        for &(stc, at, wanted) in asked {
            told.push((format!("{count} STCs: row {stc} at {at}"), wanted.of(stc, at, &input, answerer)));
        }
    }
    told
}

/// The name of the first place, on the fewest rows that pass 2^64 ticks, that an answerer answers otherwise: `None` where the
/// rows can't be mapped, `Some(None)` where it answers every place as wanted.
pub fn first(answerer: &mut impl Answerer) -> Option<Option<String>> {
    rows().map(|rows| named::first(all(rows.rows(), &[ABOVE], answerer)))
}

/// Asks the library at every place, on two processors.
pub fn places() -> bool {
    let Some(rows) = rows() else {
        println!("left out: minutes on tables of up to 2^32 - 1 STCs: so many rows can't be mapped");
        return true;
    };
    let rows = rows.rows();
    let told = thread::scope(|scope| {
        let half = scope.spawn(|| all(rows, &[BELOW, ABOVE], &mut Library));
        let most = all(rows, &[MOST], &mut Library);
        half.join().expect("the library answers").into_iter().chain(most).collect()
    });
    named::tell(told, "places on great tables of STCs")
}
