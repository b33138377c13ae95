//! Minutes remaining at their limits, on tables of STCs made by hand: each by its name, with the minutes wanted as a number.

use crate::answers::{Answer, Answerer, Input, Question::MinutesRemaining};
use crate::compare::Difference;
use crate::made::{Buffers, Made};
use crate::named::{self, Named};
use crate::ours::Library;
use crate::record::STCS;

/// A row and a time, and the minutes wanted, or 22.
pub type Asked = (u32, u64, Wanted);

/// What is wanted: minutes, or 22.
#[derive(Clone, Copy)]
pub enum Wanted {
    Minutes(u64),
    Refused,
}

use Wanted::{Minutes, Refused};

/// STCs at a limit: in words, their starts and ends in 45 kHz ticks, the rows stated beside these, the bytes of them that
/// aren't lent, and what is asked.
struct Case {
    name: &'static str,
    stcs: &'static [[u32; 2]],
    stated: i64,
    cut: usize,
    asked: &'static [Asked],
}

impl Case {
    /// STCs that are all stated and lent.
    const fn new(name: &'static str, stcs: &'static [[u32; 2]], asked: &'static [Asked]) -> Self {
        Case { name, stcs, stated: 0, cut: 0, asked }
    }
}

/// The greatest cell.
const MOST: u32 = u32::MAX;

/// The cases. A minute has 2,700,000 ticks of a row and 5,400,000 of a time.
const CASES: &[Case] = &[
    Case::new(
        "the greatest row",
        &[[0, MOST]],
        &[
            (0, 0, Minutes(1590)),
            (0, 3_934_590, Minutes(1590)),
            (0, 3_934_591, Minutes(1589)),
            (0, 4_294_967_295, Minutes(795)),
            (0, 4_294_967_296, Minutes(795)),
            (0, 8_584_534_590, Minutes(1)),
            (0, 8_584_534_591, Minutes(0)),
            (0, 8_589_934_589, Minutes(0)),
            (0, 8_589_934_590, Minutes(0)),
            (0, 8_589_934_591, Minutes(0)),
            (0, 9_223_372_036_854_775_808, Minutes(0)),
            (0, 18_446_744_073_709_551_615, Minutes(0)),
        ],
    ),
    Case::new(
        "three greatest rows",
        &[[0, MOST]; 3],
        &[
            (0, 0, Minutes(4772)),
            (0, 1_003_770, Minutes(4772)),
            (0, 1_003_771, Minutes(4771)),
            (0, 8_589_934_590, Minutes(3181)),
            (0, 18_446_744_073_709_551_615, Minutes(3181)),
            (1, 0, Minutes(3181)),
            (2, 0, Minutes(1590)),
        ],
    ),
    Case::new(
        "start and end 2^32 - 1",
        &[[MOST, MOST]],
        &[
            (0, 0, Minutes(0)),
            (0, 8_589_934_589, Minutes(0)),
            (0, 8_589_934_590, Minutes(0)),
            (0, 8_589_934_591, Minutes(0)),
            (0, 18_446_744_073_709_551_615, Minutes(0)),
        ],
    ),
    Case::new(
        "start and end 2^32 - 1, then the greatest row",
        &[[MOST, MOST], [0, MOST]],
        &[
            (0, 0, Minutes(1590)),
            (0, 8_589_934_590, Minutes(1590)),
            (0, 18_446_744_073_709_551_615, Minutes(1590)),
            (1, 0, Minutes(1590)),
        ],
    ),
    Case::new(
        "start 2^32 - 2 and end 2^32 - 1, then a minute less these two ticks",
        &[[MOST - 1, MOST], [0, 2_699_999]],
        &[
            (0, 0, Minutes(1)),
            (0, 8_589_934_588, Minutes(1)),
            (0, 8_589_934_589, Minutes(0)),
            (0, 8_589_934_590, Minutes(0)),
            (1, 0, Minutes(0)),
        ],
    ),
    Case::new(
        "start 100 minutes and end 50",
        &[[270_000_000, 135_000_000]],
        &[
            (0, 0, Minutes(0)),
            (0, 269_999_999, Minutes(0)),
            (0, 270_000_000, Minutes(0)),
            (0, 400_000_000, Minutes(0)),
            (0, 540_000_000, Minutes(0)),
            (0, 540_000_001, Minutes(0)),
            (0, 18_446_744_073_709_551_615, Minutes(0)),
        ],
    ),
    Case::new(
        "start 2^32 - 1 and end 0, then 10 minutes",
        &[[MOST, 0], [0, 27_000_000]],
        &[
            (0, 0, Minutes(10)),
            (0, 8_589_934_590, Minutes(10)),
            (0, 18_446_744_073_709_551_615, Minutes(10)),
            (1, 0, Minutes(10)),
            (1, 1, Minutes(9)),
        ],
    ),
    Case::new(
        "10 minutes, then start 100 minutes and end 50, then 5 minutes",
        &[[0, 27_000_000], [270_000_000, 135_000_000], [0, 13_500_000]],
        &[
            (0, 0, Minutes(15)),
            (0, 1, Minutes(14)),
            (0, 54_000_000, Minutes(5)),
            (1, 0, Minutes(5)),
            (2, 0, Minutes(5)),
        ],
    ),
    Case::new(
        "10 minutes, then start 2^32 - 1 and end 0, then 5 minutes",
        &[[0, 27_000_000], [MOST, 0], [0, 13_500_000]],
        &[(0, 0, Minutes(15)), (0, 2, Minutes(14)), (1, 0, Minutes(5)), (2, 0, Minutes(5))],
    ),
    Case::new(
        "three rows of 40 seconds from 0 on",
        &[[0, 1_800_000]; 3],
        &[
            (0, 0, Minutes(2)),
            (0, 1, Minutes(1)),
            (0, 3_600_000, Minutes(1)),
            (1, 0, Minutes(1)),
            (1, 1_800_000, Minutes(1)),
            (1, 1_800_001, Minutes(0)),
            (2, 0, Minutes(0)),
        ],
    ),
    Case::new(
        "three rows of 40 seconds from 7, 9 and 11 minutes on",
        &[[18_900_000, 20_700_000], [24_300_000, 26_100_000], [29_700_000, 31_500_000]],
        &[
            (0, 0, Minutes(2)),
            (0, 37_799_999, Minutes(2)),
            (0, 37_800_000, Minutes(2)),
            (0, 37_800_001, Minutes(1)),
            (1, 0, Minutes(1)),
            (1, 48_600_000, Minutes(1)),
            (1, 50_400_000, Minutes(1)),
            (1, 50_400_001, Minutes(0)),
            (2, 0, Minutes(0)),
        ],
    ),
    Case::new(
        "40 minutes 30 seconds from 54 seconds on, then 10 minutes 40 seconds from 15 seconds on",
        &[[2_430_000, 111_780_000], [675_000, 29_475_000]],
        &[
            (0, 0, Minutes(51)),
            (0, 4_859_999, Minutes(51)),
            (0, 4_860_000, Minutes(51)),
            (0, 5_760_000, Minutes(51)),
            (0, 5_760_001, Minutes(50)),
            (0, 223_559_999, Minutes(10)),
            (0, 223_560_000, Minutes(10)),
            (0, 223_560_001, Minutes(10)),
            (0, 18_446_744_073_709_551_615, Minutes(10)),
            (1, 0, Minutes(10)),
            (1, 1_350_000, Minutes(10)),
            (1, 4_950_000, Minutes(10)),
            (1, 4_950_001, Minutes(9)),
            (1, 53_550_000, Minutes(1)),
            (1, 53_550_001, Minutes(0)),
            (1, 58_950_000, Minutes(0)),
            (1, 18_446_744_073_709_551_615, Minutes(0)),
            (2, 0, Refused),
            (MOST, 0, Refused),
        ],
    ),
    Case::new(
        "30, 7 and 4 minutes",
        &[[0, 81_000_000], [0, 18_900_000], [0, 10_800_000]],
        &[
            (0, 0, Minutes(41)),
            (1, 0, Minutes(11)),
            (1, 37_800_000, Minutes(4)),
            (2, 0, Minutes(4)),
            (3, 0, Refused),
            (3, 18_446_744_073_709_551_615, Refused),
            (65_536, 0, Refused),
            (2_147_483_648, 0, Refused),
            (MOST, 0, Refused),
            (MOST, 18_446_744_073_709_551_615, Refused),
        ],
    ),
    Case::new(
        "no row",
        &[],
        &[(0, 0, Refused), (0, 18_446_744_073_709_551_615, Refused), (1, 0, Refused), (MOST, 0, Refused)],
    ),
    Case {
        name: "30, 7 and 4 minutes, one more row stated than lent",
        stcs: &[[0, 81_000_000], [0, 18_900_000], [0, 10_800_000]],
        stated: 1,
        cut: 0,
        asked: &[(0, 0, Refused), (2, 0, Refused), (3, 0, Refused)],
    },
    Case {
        name: "30, 7 and 4 minutes, the last byte not lent",
        stcs: &[[0, 81_000_000], [0, 18_900_000], [0, 10_800_000]],
        stated: 0,
        cut: 1,
        asked: &[(0, 0, Refused), (2, 0, Refused)],
    },
    Case {
        name: "30, 7 and 4 minutes, one row fewer stated than lent",
        stcs: &[[0, 81_000_000], [0, 18_900_000], [0, 10_800_000]],
        stated: -1,
        cut: 0,
        asked: &[(0, 0, Minutes(37)), (1, 0, Minutes(7)), (2, 0, Refused)],
    },
    Case { name: "30 minutes, no row stated", stcs: &[[0, 81_000_000]], stated: -1, cut: 0, asked: &[(0, 0, Refused)] },
];

impl Wanted {
    /// Asks for the minutes at a place, which must be those wanted.
    pub fn of(self, stc: u32, at: u64, input: &Input, answerer: &mut impl Answerer) -> Result<(), Difference> {
        let wanted = match self {
            Minutes(minutes) => Answer::of(minutes),
            Refused => Answer::REFUSED,
        };
        named::ask(MinutesRemaining(stc, at), input, wanted, answerer)
    }
}

/// Every place by its name, with what an answerer makes of it.
fn all(answerer: &mut impl Answerer) -> Vec<Named> {
    let (mut buffers, mut told) = (Buffers::new(), Vec::new());
    for case in CASES {
        let mut made = Made::default();
        made.cells[STCS] = case.stcs.iter().flat_map(|[start, end]| [0x1011, 7, *start, *end]).collect();
        (made.stated[STCS], made.cut[STCS]) = (case.stated, case.cut);
        let (input, _) = buffers.hold(&made);
        for &(stc, at, wanted) in case.asked {
            let name = format!("STCs {}: row {stc} at {at}", case.name);
            told.push((name, wanted.of(stc, at, &input, answerer)));
        }
    }
    told
}

/// The name of the first place that an answerer answers otherwise.
pub fn first(answerer: &mut impl Answerer) -> Option<String> {
    named::first(all(answerer))
}

/// Asks the library at every place.
pub fn places() -> bool {
    named::tell(all(&mut Library), "places at the limits of minutes")
}
