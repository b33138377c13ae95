//! Faults of maps: files made by hand, each by its name, with the refusal wanted as a number, or 0. The numbers are worked out
//! by the rule: map by map 7 for the address, 42 for the four bytes and the coarse rows, 41 for the fine address, 42 for the
//! fine rows; 6 before every map, and 8 behind them.

use crate::compare::{Comparison, Difference, must};
use crate::guarded::Guarded;
use crate::mutation::Test::{self, *};
use crate::named::{self, Named};
use crate::ours::{Library, Reader};
use crate::plain_answers::Plain;
use crate::writer::Writer;

/// The starts of the sequences (one ATC), of the programs (none) and of the CPI, which is the last section.
const SEQUENCES: usize = 194;
const PROGRAMS: usize = 206;
const CPI: usize = 212;

/// Where a map's body or its fine rows stand.
#[derive(Clone, Copy)]
enum Place {
    /// The body behind the other bodies, the fine rows 12 bytes behind the body.
    Own,
    /// So many bytes behind the CPI end; before it where the number is negative.
    End(i64),
    /// Where this number leads, which stands in the file as it is.
    Number(u32),
}

use Place::{End, Number, Own};

/// A map: its body, its coarse rows, and its fine rows.
#[derive(Clone, Copy)]
struct Map {
    body: Place,
    coarse: u64,
    rows: Place,
    fine: u64,
}

/// A map with its body at a place, and so many coarse rows, and with its fine rows at a place, and so many.
const fn map(body: Place, coarse: u64, rows: Place, fine: u64) -> Map {
    Map { body, coarse, rows, fine }
}

/// A map with no fault: four bytes, a coarse row and a fine row, which are 16 bytes.
const SOUND: Map = map(Own, 1, Own, 1);

/// The room of a body with no fault.
const ROOM: usize = 16;

/// A file: its maps, the room of each body, the bytes of the file behind the CPI end (one is missing before it where that is -1),
/// the map headers stated beyond the maps, whether the marks are short by a byte, and the refusal wanted.
struct Case {
    name: String,
    maps: Vec<Map>,
    room: usize,
    behind: i64,
    more: usize,
    marks_cut: bool,
    wanted: u32,
}

/// One map at a limit, or one over it: its name, the refusal wanted, the room of the body, the bytes of the file behind the CPI
/// end, and the map. A body of its own is at 232, and the CPI end is behind the room.
type Limit = (&'static str, u32, usize, i64, Map);

/// The address, against the CPI end.
const ADDRESSES: &[Limit] = &[
    ("an address one before the CPI end", 0, ROOM, 3, map(End(-1), 0, End(-1), 0)),
    ("an address at the CPI end", 7, ROOM, 20, map(End(0), 0, End(0), 0)),
    ("an address at the CPI end, which is the file's", 7, ROOM, 0, map(End(0), 0, End(0), 0)),
    ("an address one past the CPI end", 7, ROOM, 20, map(End(1), 0, End(1), 0)),
    ("an address at the file's end, past the CPI end", 7, ROOM, 20, map(End(20), 0, End(20), 0)),
    ("an address one past the file's end", 7, ROOM, 20, map(End(21), 0, End(21), 0)),
    ("the greatest address", 7, ROOM, 20, map(Number(0xFFFF_FFFF), 0, Number(0), 0)),
    (
        "an address that 32 bits would take to the file's start",
        7,
        ROOM,
        20,
        map(Number(4_294_967_078), 0, Number(0), 0),
    ),
];

/// The four bytes of the fine address, against the file's end.
const FOUR: &[Limit] = &[
    ("four bytes up to the file's end", 0, ROOM, 0, map(End(-4), 0, End(-4), 0)),
    ("four bytes of which one isn't there", 42, ROOM, 0, map(End(-3), 0, End(-3), 0)),
    ("four bytes of which two aren't there", 42, ROOM, 0, map(End(-2), 0, End(-2), 0)),
    ("four bytes of which three aren't there", 42, ROOM, 0, map(End(-1), 0, End(-1), 0)),
    ("four bytes past the CPI end up to the file's", 0, ROOM, 3, map(End(-1), 0, End(-1), 0)),
    ("four bytes past the CPI end of which one isn't there", 42, ROOM, 2, map(End(-1), 0, End(-1), 0)),
    ("four bytes past the CPI end of which two aren't there", 42, ROOM, 1, map(End(-1), 0, End(-1), 0)),
    ("three bytes of the greatest fine address", 42, ROOM, 0, map(End(-3), 0, Number(0xFFFF_FFFF), 0)),
];

/// The coarse rows, against the file's end.
const COARSE: &[Limit] = &[
    ("a coarse row up to the file's end, which is the CPI's", 0, 12, 0, map(Own, 1, End(0), 0)),
    ("a coarse row short by a byte at the CPI end, which is the file's", 42, 11, 0, map(Own, 1, End(0), 0)),
    ("coarse rows past the CPI end up to the file's", 0, ROOM, 4, map(Own, 2, Own, 0)),
    ("coarse rows past the CPI end, the last one short by a byte", 42, ROOM, 3, map(Own, 2, Own, 0)),
    ("coarse rows past the CPI end, the last one not there", 42, ROOM, 4, map(Own, 3, Own, 0)),
    ("a coarse row of which no byte is there", 42, 4, 0, map(Own, 1, Number(4), 0)),
    ("the most coarse rows", 42, ROOM, 20, map(Own, 65_535, Own, 0)),
];

/// The fine address, against the CPI end.
const FINE: &[Limit] = &[
    ("a fine address one before the CPI end", 0, ROOM, 20, map(Own, 0, End(-1), 0)),
    ("a fine address at the CPI end", 0, ROOM, 20, map(Own, 0, End(0), 0)),
    ("a fine address at the CPI end, which is the file's", 0, ROOM, 0, map(Own, 0, End(0), 0)),
    ("a fine address one past the CPI end, inside the file", 41, ROOM, 20, map(Own, 0, End(1), 0)),
    ("a fine address one past the CPI end, at the file's", 41, ROOM, 1, map(Own, 0, End(1), 0)),
    ("a fine address one past the CPI end, which is the file's", 41, ROOM, 0, map(Own, 0, End(1), 0)),
    ("a fine address at the file's end, past the CPI end", 41, ROOM, 20, map(Own, 0, End(20), 0)),
    ("a fine address one past the file's end", 41, ROOM, 20, map(Own, 0, End(21), 0)),
    ("the greatest fine address", 41, ROOM, 20, map(Own, 0, Number(0xFFFF_FFFF), 0)),
    ("a fine address that 32 bits would take to the file's start", 41, ROOM, 20, map(Own, 0, Number(4_294_967_064), 0)),
];

/// The fine rows, against the file's end.
const ROWS: &[Limit] = &[
    ("a fine row up to the file's end, which is the CPI's", 0, ROOM, 0, map(Own, 1, Own, 1)),
    ("a fine row short by a byte at the CPI end, which is the file's", 42, 15, 0, map(Own, 1, Own, 1)),
    ("a fine row past the CPI end up to the file's", 0, ROOM, 4, map(Own, 1, End(0), 1)),
    ("a fine row past the CPI end, short by a byte", 42, ROOM, 3, map(Own, 1, End(0), 1)),
    ("a fine row at the CPI end of which no byte is there", 42, ROOM, 0, map(Own, 1, End(0), 1)),
    ("fine rows past the CPI end, the last one not there", 42, ROOM, 20, map(Own, 1, End(0), 6)),
    ("the most fine rows", 42, ROOM, 20, map(Own, 1, Own, 262_143)),
];

/// One map with two faults or more.
const ONE_MAP: &[Limit] = &[
    ("address and four bytes", 7, ROOM, 3, map(End(0), 0, End(0), 0)),
    ("address and coarse rows", 7, ROOM, 20, map(End(0), 3, End(0), 0)),
    ("address and fine address", 7, ROOM, 20, map(End(0), 0, End(1), 0)),
    ("address and fine rows", 7, ROOM, 20, map(End(0), 0, End(0), 6)),
    ("four bytes and coarse rows", 42, ROOM, 0, map(End(-1), 1, End(-1), 0)),
    ("four bytes and fine rows", 42, ROOM, 0, map(End(-1), 0, End(-1), 1)),
    ("coarse rows and fine address inside the file", 42, ROOM, 20, map(Own, 5, End(1), 0)),
    ("coarse rows and fine address at the file's end", 42, ROOM, 20, map(Own, 5, End(20), 0)),
    ("coarse rows and fine address past the file's end", 42, ROOM, 20, map(Own, 5, End(21), 0)),
    ("coarse rows short by a byte and fine address one past the CPI end", 42, ROOM, 3, map(Own, 2, End(1), 0)),
    ("coarse rows and fine rows", 42, ROOM, 20, map(Own, 5, End(0), 6)),
    ("fine address inside the file and fine rows", 41, ROOM, 20, map(Own, 1, End(1), 5)),
    ("fine address at the file's end and fine rows", 41, ROOM, 20, map(Own, 1, End(20), 1)),
    ("fine address past the file's end and fine rows", 41, ROOM, 20, map(Own, 1, End(21), 1)),
    ("coarse rows, fine address and fine rows", 42, ROOM, 20, map(Own, 5, End(1), 5)),
    ("address, coarse rows, fine address and fine rows", 7, ROOM, 20, map(End(0), 3, End(1), 5)),
];

/// A fault of one map and one of a later map, and the refusal wanted.
const TWO_MAPS: [(Test, Test, u32); 25] = [
    (Address, Address, 7),
    (Address, FourBytes, 7),
    (Address, CoarseRows, 7),
    (Address, FineAddress, 7),
    (Address, FineRows, 7),
    (FourBytes, Address, 42),
    (FourBytes, FourBytes, 42),
    (FourBytes, CoarseRows, 42),
    (FourBytes, FineAddress, 42),
    (FourBytes, FineRows, 42),
    (CoarseRows, Address, 42),
    (CoarseRows, FourBytes, 42),
    (CoarseRows, CoarseRows, 42),
    (CoarseRows, FineAddress, 42),
    (CoarseRows, FineRows, 42),
    (FineAddress, Address, 41),
    (FineAddress, FourBytes, 41),
    (FineAddress, CoarseRows, 41),
    (FineAddress, FineAddress, 41),
    (FineAddress, FineRows, 41),
    (FineRows, Address, 42),
    (FineRows, FourBytes, 42),
    (FineRows, CoarseRows, 42),
    (FineRows, FineAddress, 42),
    (FineRows, FineRows, 42),
];

/// One fault of a file, and the refusal wanted where no other fault comes before it.
const ONE_FAULT: [(Test, u32); 5] =
    [(Address, 7), (FourBytes, 42), (CoarseRows, 42), (FineAddress, 41), (FineRows, 42)];

/// A map with this fault alone, in a body of `ROOM` bytes. Four bytes are missing only where the file ends at most two bytes
/// behind the CPI end; an address at the CPI end has no four bytes there either.
fn with(fault: Test) -> Map {
    match fault {
        Address => map(End(0), 0, End(0), 0),
        FourBytes => map(End(-1), 0, End(-1), 0),
        CoarseRows => map(Own, 65_535, Own, 1),
        FineAddress => map(Own, 1, End(1), 0),
        FineRows => map(Own, 1, Own, 262_143),
    }
}

/// A fault in words.
fn words(fault: Test) -> &'static str {
    match fault {
        Address => "address",
        FourBytes => "four bytes",
        CoarseRows => "coarse rows",
        FineAddress => "fine address",
        FineRows => "fine rows",
    }
}

impl Case {
    /// A file of these maps that has nothing wrong beside them.
    fn new(name: String, wanted: u32, behind: i64, maps: Vec<Map>) -> Self {
        Case { name, maps, room: ROOM, behind, more: 0, marks_cut: false, wanted }
    }

    /// The file.
    fn file(&self) -> Vec<u8> {
        let bodies = CPI + 8 + 12 * self.maps.len();
        let end = bodies + self.room * self.maps.len();
        let mut file = b"HDMV0200".to_vec();
        file.resize((end as i64 + self.behind) as usize, 0);
        let marks = if self.marks_cut { file.len() - 5 } else { 0 };
        for (at, start) in [(8, SEQUENCES), (12, PROGRAMS), (16, CPI), (20, marks), (40, SEQUENCES - 44)] {
            put(&mut file, at, 4, start as u64);
        }
        put(&mut file, SEQUENCES + 5, 5, 0x01_0000_0007);
        put(&mut file, CPI, 4, (end - CPI - 4) as u64);
        put(&mut file, CPI + 4, 4, 1 << 16 | (self.maps.len() + self.more) as u64);
        for (k, map) in self.maps.iter().enumerate() {
            map.put(&mut file, CPI + 8 + 12 * k, bodies + self.room * k, end);
        }
        file
    }

    /// What a reader and a writer make of the file, beside the plain reader and the Rust.
    fn compare(&self, reader: &mut impl Reader, writer: &mut impl Writer) -> Result<(), Difference> {
        let (file, mut guarded) = (self.file(), Guarded::new(1 << 13));
        let refusal = Comparison::new().compare(guarded.hold(&file), 7, reader, &mut Plain::right(), writer)?;
        must(refusal == self.wanted, || format!("refused by {refusal}, not {}", self.wanted))
    }
}

impl Map {
    /// Puts the header at its place, and the fine address at the body, as far as the file has room for it.
    fn put(&self, file: &mut [u8], header: usize, own: usize, end: usize) {
        let address = match self.body {
            Own => (own - CPI - 6) as u64,
            End(behind) => (end as i64 + behind) as u64 - CPI as u64 - 6,
            Number(number) => number.into(),
        };
        let body = CPI as u64 + 6 + address;
        let fine_address = match self.rows {
            Own => 12,
            End(behind) => (end as i64 + behind) as u64 - body,
            Number(number) => number.into(),
        };
        put(file, header, 2, 0x1011);
        put(file, header + 2, 6, 1 << 34 | self.coarse << 18 | self.fine);
        put(file, header + 8, 4, address);
        put(file, body as usize, 4, fine_address);
    }
}

/// Puts a big-endian number into a file; bytes past its end are dropped.
fn put(file: &mut [u8], at: usize, width: usize, value: u64) {
    file.iter_mut().skip(at).zip(&value.to_be_bytes()[8 - width..]).for_each(|(place, byte)| *place = *byte);
}

/// Every case.
fn cases() -> Vec<Case> {
    let mut cases = vec![Case::new("a map with no fault".into(), 0, 0, vec![SOUND])];
    for limits in [ADDRESSES, FOUR, COARSE, FINE, ROWS] {
        cases.extend(limits.iter().map(|limit| one_map(limit, "")));
    }
    cases.extend(ONE_MAP.iter().map(|limit| one_map(limit, "in one map: ")));
    TWO_MAPS.iter().for_each(|two| two_maps(two, &mut cases));
    ONE_FAULT.iter().for_each(|one| beside_others(one, &mut cases));
    let marks = Case::new("marks short by a byte".into(), 8, 20, vec![SOUND]);
    cases.push(Case { marks_cut: true, ..marks });
    many_maps(&mut cases);
    cases
}

/// A file of one map.
fn one_map(&(name, wanted, room, behind, map): &Limit, before: &str) -> Case {
    Case { room, ..Case::new(format!("{before}{name}"), wanted, behind, vec![map]) }
}

/// A fault in each of two maps, next to each other, and with sound maps before, between and behind them; the CPI end at the file's
/// and before it.
fn two_maps(&(first, second, wanted): &(Test, Test, u32), cases: &mut Vec<Case>) {
    let before_end = if [first, second].contains(&FourBytes) { 2 } else { 20 };
    for behind in [0, before_end] {
        let name =
            format!("{}, in a later map {}, the file's end {behind} behind the CPI's", words(first), words(second));
        let [one, two] = [first, second].map(with);
        cases.push(Case::new(name.clone(), wanted, behind, vec![one, two]));
        cases.push(Case::new(format!("{name}, of five maps"), wanted, behind, vec![SOUND, one, SOUND, two, SOUND]));
    }
}

/// A map's fault behind each kind of 6, where a header that 6 needs is there, and before 8.
fn beside_others(&(fault, wanted): &(Test, u32), cases: &mut Vec<Case>) {
    let new = |what: &str, wanted: u32, behind: i64| {
        Case::new(format!("{} {what}", words(fault)), wanted, behind, vec![with(fault)])
    };
    cases.push(new("behind a CPI end one past the file's", 6, -1));
    cases.push(Case { more: 1, room: 11, ..new("behind a map header short by a byte", 6, 0) });
    cases.push(Case { more: 1, room: 12, ..new("behind two whole map headers", wanted, 0) });
    cases.push(Case { more: 254, ..new("behind 254 map headers too many", 6, 0) });
    cases.push(Case { marks_cut: true, ..new("before marks short by a byte", wanted, 2) });
}

/// 255 maps: none, the last one or the last two of them faulty, or the first and the last.
fn many_maps(cases: &mut Vec<Case>) {
    let new = |what: &str, wanted: u32, faults: &[(usize, Test)]| {
        let mut maps = vec![SOUND; 255];
        faults.iter().for_each(|&(row, fault)| maps[row] = with(fault));
        Case::new(format!("255 maps, {what}"), wanted, 0, maps)
    };
    cases.push(new("no fault", 0, &[]));
    for (fault, wanted) in ONE_FAULT {
        cases.push(new(&format!("the last one: {}", words(fault)), wanted, &[(254, fault)]));
    }
    for (first, second, wanted) in TWO_MAPS.into_iter().filter(|(first, second, _)| first != second) {
        let [one, two] = [first, second].map(words);
        cases.push(new(&format!("the last two: {one}, {two}"), wanted, &[(253, first), (254, second)]));
    }
    cases.push(new("the first and the last: fine rows, address", 42, &[(0, FineRows), (254, Address)]));
    cases.push(new("the first and the last: fine address, address", 41, &[(0, FineAddress), (254, Address)]));
}

/// The name of the first file that is answered otherwise.
pub fn first(reader: &mut impl Reader, writer: &mut impl Writer) -> Option<String> {
    cases().into_iter().find(|case| case.compare(reader, writer).is_err()).map(|case| case.name)
}

/// Reads and rewrites every file with the library.
pub fn files() -> bool {
    let compared = |case: Case| -> Named { (case.name.clone(), case.compare(&mut Library, &mut Library)) };
    named::tell(cases().into_iter().map(compared).collect(), "faults of maps")
}
