//! Entry points: tables 5 and 6.

use super::number;
use crate::mutation::Mutation::{self, *};
use crate::mutation::Test::{self, *};
use crate::record::{CELLS, ENTRIES, MAPS, Record, entry_cells};

/// The CPI section of a file.
struct Cpi<'a> {
    file: &'a [u8],
    start: u64,
    end: u64,
    wrong: Mutation,
}

/// A map's header.
struct Header {
    pid: u64,
    kind: u64,
    coarse: u64,
    fine: u64,
    address: u64,
}

/// Where a map's body and its rows stand.
struct Rows {
    body: u64,
    coarse_at: u64,
    coarse: u64,
    fine_at: u64,
    fine: u64,
}

/// Reads the maps; a refusal is 6 or, once all headers are read, a map's.
pub fn read(file: &[u8], start: u64, wrong: Mutation, out: &mut Record) -> Result<(), u32> {
    let bytes = file.len() as u64;
    if start >= bytes {
        return if wrong == CpiPastEndRefused { Err(6) } else { Ok(()) };
    }
    if start == 0 && wrong != CpiAtZero {
        return Ok(());
    }
    let length = number(file, start, 4).ok_or(6u32)?;
    let end = start + if wrong == CpiEndWithoutFour { length } else { 4 + length };
    let word = number(file, start + 4, 2).unwrap_or(0);
    let kind = if wrong == TypeOfWholeWord { word } else { word & 15 };
    let no_maps = length < 2 || kind != 1 || length < 4 && wrong != MapsOfShortCpi;
    let not_yet = wrong == LengthOfOtherType && kind != 1 || wrong == LengthAfterMaps && !no_maps;
    if end > bytes && !not_yet {
        return Err(6);
    }
    if no_maps {
        return Ok(());
    }
    let cpi = Cpi { file, start, end, wrong };
    let mut headers = Vec::new();
    for row in 0..number(file, start + 7, 1).ok_or(6u32)? {
        headers.push(cpi.header(row).ok_or(6u32)?);
        if wrong == SevenBeforeSix {
            cpi.test(&headers[row as usize..])?;
        }
    }
    cpi.test(&headers)?;
    headers.iter().enumerate().for_each(|(row, header)| cpi.map(row, header, out));
    if wrong == LengthAfterMaps && end > bytes { Err(6) } else { Ok(()) }
}

impl Cpi<'_> {
    /// The header of a map; none where it passes the file's end.
    fn header(&self, row: u64) -> Option<Header> {
        let at = self.start + 8 + 12 * row;
        let counts = number(self.file, at + 2, 6)?;
        let address = number(self.file, at + 8, 4)?;
        if self.wrong == HeadersStopAtCpiEnd && at + 12 > self.end {
            return None;
        }
        let most_fine = if self.wrong == FineCountOf16Bits { 0xFFFF } else { 0x3_FFFF };
        Some(Header {
            pid: number(self.file, at, 2)?,
            kind: counts >> 34 & if self.wrong == MapTypeWithSpare { 0xFF } else { 0xF },
            coarse: counts >> 18 & 0xFFFF,
            fine: counts & most_fine,
            address,
        })
    }

    /// The places of a map's rows; a fine address that isn't there is taken as 0.
    fn rows(&self, header: &Header) -> Rows {
        let base = if self.wrong == AddressFromCpiStart { 0 } else { 6 };
        let sum = |place: u64| if self.wrong == AddressesOf32Bits { place & 0xFFFF_FFFF } else { place };
        let body = sum(self.start + base + header.address);
        let fine_at = sum(body + self.word(body));
        Rows { body, coarse_at: body + 4, coarse: header.coarse, fine_at, fine: header.fine }
    }

    /// Tests map by map; the first faulty map is refused.
    fn test(&self, headers: &[Header]) -> Result<(), u32> {
        let tested = match self.wrong {
            OnlyFirstMapTested => headers.len().min(1),
            LastMapNotTested => headers.len().saturating_sub(1),
            _ => headers.len(),
        };
        for tests in self.tests() {
            let mut numbers = headers[..tested].iter().filter_map(|header| self.refusal(tests, &self.rows(header)));
            let first = match self.wrong {
                LastFaultyMap => numbers.next_back(),
                LowestNumber => numbers.min(),
                _ => numbers.next(),
            };
            first.map_or(Ok(()), Err)?;
        }
        Ok(())
    }

    /// The tests of a map in their order. Only wrong rules have several lists of them, each for all maps before the next.
    fn tests(&self) -> &'static [&'static [Test]] {
        match self.wrong {
            FourBytesBeforeAddress => &[&[FourBytes, Address, CoarseRows, FineAddress, FineRows]],
            AddressLast => &[&[FourBytes, CoarseRows, FineAddress, FineRows, Address]],
            FineAddressBeforeCoarseRows => &[&[Address, FourBytes, FineAddress, CoarseRows, FineRows]],
            FineRowsBeforeFineAddress => &[&[Address, FourBytes, CoarseRows, FineRows, FineAddress]],
            AddressesOfAllMapsFirst => &[&[Address], &[FourBytes, CoarseRows, FineAddress, FineRows]],
            BothAddressesOfAllMapsFirst => &[&[Address, FourBytes, FineAddress], &[CoarseRows, FineRows]],
            CoarseRowsOfAllMapsFirst => &[&[Address, FourBytes, CoarseRows], &[FineAddress, FineRows]],
            TestByTest => &[&[Address], &[FourBytes], &[CoarseRows], &[FineAddress], &[FineRows]],
            _ => &[&[Address, FourBytes, CoarseRows, FineAddress, FineRows]],
        }
    }

    /// The refusal of a map's first fault: 7 for its address, 41 for its fine address, 42 for a read.
    fn refusal(&self, tests: &[Test], rows: &Rows) -> Option<u32> {
        let mut faults = tests.iter().filter(|test| self.fails(**test, rows));
        let fault = if self.wrong == LastFaultOfMap { faults.next_back() } else { faults.next() }?;
        let in_file = rows.fine_at <= self.file.len() as u64;
        Some(match (self.wrong, fault) {
            (Told(test, number), _) if test == *fault => number,
            (SevenForEveryFault, _) => 7,
            (FineAddressInFileTold42, FineAddress) if in_file => 42,
            (FineAddressPastFileTold42, FineAddress) if !in_file => 42,
            (_, Address) => 7,
            (_, FineAddress) => 41,
            (_, FourBytes | CoarseRows | FineRows) => 42,
        })
    }

    /// Whether a map fails a test: something of it ends past the end that it may reach. No rows end nowhere.
    fn fails(&self, test: Test, rows: &Rows) -> bool {
        let bytes = self.file.len() as u64;
        let last_row = if self.wrong == RowsStopAtCpiEnd { self.end } else { bytes };
        let rows_end = |at: u64, rows: u64, width: u64| if rows == 0 { 0 } else { at + rows * width };
        let (end, limit) = match test {
            Address => (rows.body + 1, self.end),
            FourBytes if self.wrong == FourBytesStopAtCpiEnd => (rows.body + 4, self.end),
            FourBytes => (rows.body + 4, bytes),
            CoarseRows => (rows_end(rows.coarse_at, rows.coarse, 8), last_row),
            FineAddress => (rows.fine_at, self.end),
            FineRows => (rows_end(rows.fine_at, rows.fine, 4), last_row),
        };
        match self.wrong {
            NotTested(of) if of == test => false,
            LimitPassed(of) if of == test => end > limit + 1,
            LimitRefused(of) if of == test => end >= limit,
            _ => end > limit,
        }
    }

    /// Puts a map and its entries into the tables.
    fn map(&self, row: usize, header: &Header, out: &mut Record) {
        let before = out.tables[ENTRIES].len();
        let skipped = self.wrong == OnlyFirstMap && row > 0 || self.wrong == NoCoarseNoRows && header.coarse == 0;
        if !skipped {
            self.entries(&self.rows(header), header.kind, &mut out.tables[ENTRIES]);
        }
        let entries = (out.tables[ENTRIES].len() - before) / CELLS[ENTRIES];
        out.tables[MAPS].extend([header.pid as u32, header.kind as u32, entries as u32]);
    }

    /// Joins each fine row with its coarse row.
    fn entries(&self, rows: &Rows, kind: u64, out: &mut Vec<u32>) {
        let mut reached = 0;
        let first = if self.wrong == RowsFromFirstReference && rows.coarse > 0 { self.reference(rows, 0) } else { 0 };
        for k in first..rows.fine {
            reached = self.coarse_row(rows, reached, k);
            let (coarse_time, coarse_packet) = match rows.coarse {
                0 => (0, 0),
                _ => (self.word(rows.coarse_at + 8 * reached) & 0x3FFF, self.word(rows.coarse_at + 8 * reached + 4)),
            };
            let fine = self.word(rows.fine_at + 4 * k);
            out.extend(entry_cells(
                (fine >> 31) as u32,
                (fine >> 28 & if self.wrong == IEndOf4Bits { 15 } else { 7 }) as u32,
                self.time(coarse_time, fine >> 17 & 0x7FF).into(),
                self.packet(coarse_packet, fine & 0x1_FFFF),
                kind as u32,
            ));
        }
    }

    /// The coarse row of a fine row, stepping on from the one reached.
    fn coarse_row(&self, rows: &Rows, reached: u64, k: u64) -> u64 {
        let mut row = reached;
        if self.wrong == NearestCoarse {
            return (0..rows.coarse)
                .filter(|&c| self.reference(rows, c) <= k)
                .max_by_key(|&c| self.reference(rows, c))
                .unwrap_or(0);
        }
        while row + 1 < rows.coarse && self.reference(rows, row + 1) <= k {
            row += 1;
            if self.wrong == OneStepOnly {
                break;
            }
        }
        row
    }

    /// The first fine row that a coarse row names.
    fn reference(&self, rows: &Rows, row: u64) -> u64 {
        self.word(rows.coarse_at + 8 * row) >> 14
    }

    /// Four bytes of the file; 0 where they aren't there.
    fn word(&self, at: u64) -> u64 {
        number(self.file, at, 4).unwrap_or(0)
    }

    /// An entry's time: the two times share a bit, so they are joined by OR.
    fn time(&self, coarse: u64, fine: u64) -> u32 {
        let coarse = if self.wrong == CoarseTimeCut { coarse & !1 } else { coarse };
        let (high, low) = ((coarse * 524_288) as u32, (fine * 512) as u32);
        if self.wrong == TimesAdded { high.wrapping_add(low) } else { high | low }
    }

    /// An entry's packet: the coarse one with its low 17 bits replaced.
    fn packet(&self, coarse: u64, fine: u64) -> u32 {
        match self.wrong {
            CoarsePacket => coarse as u32,
            PacketsOred => (coarse | fine) as u32,
            _ => ((coarse >> 17 << 17) | fine) as u32,
        }
    }
}
