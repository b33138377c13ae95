//! Why a record can't be written: 22, 40, 30, 31 and, where the order is wrong, 23.

use super::bytes::{rows, runs};
use crate::answers::{Counted, Input, OF_ATCS, OF_MAPS, OF_PROGRAMS};
use crate::record::{ATCS, CELLS, CLPI, ENTRIES, HDMV, KIND, MAPS, PROGRAMS, STREAMS, TIME};
use crate::writer::{Info, TABLES};
use crate::wrong_writes::WrongWrite::{self, *};

/// The greatest cell of each column, table by table.
const GREATEST: [&[u32]; TABLES] = [
    &[u32::MAX, 255, 255],
    &[65_535, u32::MAX, u32::MAX, u32::MAX],
    &[u32::MAX, 65_535, 255],
    &[65_535, 255, 255, 15, 0xFF_FFFF],
    &[65_535, 15, 262_143],
    &[1, 7, u32::MAX, 0, u32::MAX, 15],
];

/// What is tested, each part of 22 by itself.
#[derive(Clone, Copy)]
enum Test {
    Stated,
    Counts,
    Letters,
    Cells,
    Runs,
    Output,
}

use Test::*;

impl Test {
    /// The refusal of what doesn't hold.
    fn number(self) -> u32 {
        match self {
            Stated | Counts => 22,
            Letters => 40,
            Cells => 30,
            Runs => 31,
            Output => 23,
        }
    }
}

/// The tests in their order; that of the output stands elsewhere, but where the order is wrong.
fn order(wrong: WrongWrite) -> &'static [Test] {
    match wrong {
        CellsBeforeRows => &[Cells, Stated, Counts, Letters, Runs],
        RunsBeforeRows => &[Runs, Stated, Counts, Letters, Cells],
        OutputBeforeRows => &[Output, Stated, Counts, Letters, Cells, Runs],
        LettersBeforeRows => &[Letters, Stated, Counts, Cells, Runs],
        LettersBeforeStated => &[Counts, Letters, Stated, Cells, Runs],
        LettersBeforeCounts => &[Stated, Letters, Counts, Cells, Runs],
        CellsBeforeLetters => &[Stated, Counts, Cells, Letters, Runs],
        RunsBeforeLetters => &[Stated, Counts, Runs, Letters, Cells],
        OutputBeforeLetters => &[Stated, Counts, Output, Letters, Cells, Runs],
        RunsBeforeCells => &[Stated, Counts, Letters, Runs, Cells],
        OutputBeforeCells => &[Stated, Counts, Letters, Output, Cells, Runs],
        OutputBeforeRuns => &[Stated, Counts, Letters, Cells, Output, Runs],
        _ => &[Stated, Counts, Letters, Cells, Runs],
    }
}

/// The first refusal in the order 22, 40, 30, 31, or 0. The output's length is asked for where the order is wrong.
pub fn refusal(info: &Info, input: &Input, is_short: impl Fn() -> bool, wrong: WrongWrite) -> u32 {
    let holds = |test: Test| match test {
        Stated => stated(input, wrong),
        Counts => adds_up(input, wrong),
        Letters => letters_right(info.letters, wrong),
        Cells => cells_fit(info, input, wrong),
        Runs => runs_fit(input, wrong),
        Output => !is_short(),
    };
    order(wrong).iter().find(|test| !holds(**test)).map_or(0, |test| test.number())
}

/// Whether the letters are HDMV or CLPI.
fn letters_right(letters: u32, wrong: WrongWrite) -> bool {
    let capitals = u32::from_be_bytes(letters.to_be_bytes().map(|byte| byte.to_ascii_uppercase()));
    let right = |letters: u32| letters == HDMV && wrong != HdmvRefused || letters == CLPI && wrong != ClpiRefused;
    right(letters)
        || match wrong {
            LettersNotTested => true,
            ZeroLettersAccepted => letters == 0,
            SwappedLettersAccepted => right(letters.swap_bytes()),
            SmallLettersAccepted => right(capitals),
            ThreeLettersTested => [HDMV, CLPI].iter().any(|right| right >> 8 == letters >> 8),
            _ => false,
        }
}

/// Whether no more rows are stated than lent.
fn stated(input: &Input, wrong: WrongWrite) -> bool {
    (0..TABLES).all(|table| input.tables[table].rows as usize <= input.room(table) || wrong == StatedNotTested(table))
}

/// Whether the counts of each table of counts add up to the rows stated of the table counted.
fn adds_up(input: &Input, wrong: WrongWrite) -> bool {
    [OF_ATCS, OF_PROGRAMS, OF_MAPS].into_iter().all(|counted: Counted| {
        let Counted { heads, rows: table, .. } = counted;
        let sum = input.sum(counted, rows(input, heads, wrong));
        let sum = if wrong == CountsIn32Bits(heads) { sum & 0xFFFF_FFFF } else { sum };
        let rows =
            if wrong == RoomForStated(table) { input.room(table) as u64 } else { input.tables[table].rows.into() };
        sum == rows || wrong == CountsMayFallShort(heads) && sum < rows || wrong == CountsMayExceed(heads) && sum > rows
    })
}

/// Whether every number, count and cell fits its field in the file.
fn cells_fit(info: &Info, input: &Input, wrong: WrongWrite) -> bool {
    let number = |place: usize, number: u32| {
        number < 255 || number == 255 && wrong != NumberEdgeRefused(place) || wrong == NumberNotTested(place)
    };
    let count = |table: usize| {
        let rows = rows(input, table, wrong);
        rows < 255 || rows == 255 && wrong != RowsEdgeRefused(table) || wrong == RowsNotTested(table)
    };
    number(1, info.clip_stream_type)
        && number(2, info.application_type)
        && number(5, info.validity_flags)
        && [ATCS, PROGRAMS, MAPS].into_iter().all(count)
        && (0..TABLES).all(|table| rows_fit(input, table, wrong))
        && entry_types_fit(input, wrong)
}

/// Whether every row of a table fits.
fn rows_fit(input: &Input, table: usize, wrong: WrongWrite) -> bool {
    let all = rows(input, table, wrong);
    let tested = if wrong == FirstRowTested(table) { all.min(1) } else { all };
    (0..tested).all(|row| {
        (0..CELLS[table]).all(|column| {
            let (cell, greatest) = (input.cell(table, row, column), GREATEST[table][column]);
            let refused = cell > greatest && wrong != CellNotTested(table, column)
                || cell == greatest && wrong == CellEdgeRefused(table, column);
            !refused
        }) && row_fits(input, table, row, wrong)
    })
}

/// Whether a row's cells go with one another: no language on video, no aspect on anything else, a time in steps of 512.
fn row_fits(input: &Input, table: usize, row: usize, wrong: WrongWrite) -> bool {
    let cell = |column: usize| input.cell(table, row, column);
    match table {
        STREAMS if is_video(cell(1)) => cell(4) == 0 || wrong == LanguageOnVideoAccepted,
        STREAMS => cell(3) == 0 || wrong == AspectOnAudioAccepted,
        ENTRIES => cell(TIME) % 512 == 0 || wrong == TimeNotTested,
        _ => true,
    }
}

/// Whether every entry's type is its map's.
fn entry_types_fit(input: &Input, wrong: WrongWrite) -> bool {
    let mut first = 0;
    let maps = rows(input, MAPS, wrong);
    let all = rows(input, ENTRIES, wrong);
    let tested = if wrong == FirstMapTested { maps.min(1) } else { maps };
    (0..tested).all(|map| {
        let own = own_rows(input, map, &mut first, all);
        let mut entries = if wrong == FirstRowTested(ENTRIES) { own.start..own.end.min(own.start + 1) } else { own };
        entries.all(|row| input.cell(ENTRIES, row, KIND) == input.cell(MAPS, map, 1) || wrong == TypeNotTested)
    })
}

/// Whether no map has over 65,535 runs.
fn runs_fit(input: &Input, wrong: WrongWrite) -> bool {
    let (mut first, mut together) = (0, 0);
    let maps = rows(input, MAPS, wrong);
    let all = rows(input, ENTRIES, wrong);
    let most = if wrong == RunsEdgeRefused { 65_534 } else { 65_535 };
    let tested = if wrong == RunsOfFirstMap { maps.min(1) } else { maps };
    (0..tested).all(|map| {
        let runs = runs(input, own_rows(input, map, &mut first, all), wrong).len();
        together = if wrong == RunsOfAllMaps { together + runs } else { runs };
        together <= most || wrong == RunsNotTested
    })
}

/// The entries of a map, as far as they are there; the next map's start behind them.
fn own_rows(input: &Input, map: usize, first: &mut usize, all: usize) -> std::ops::Range<usize> {
    let end = all.min(*first + input.cell(MAPS, map, 2) as usize);
    std::mem::replace(first, end)..end
}

/// Whether a coding type is video.
pub fn is_video(coding_type: u32) -> bool {
    matches!(coding_type, 0x02 | 0x1B | 0x20 | 0x24 | 0xEA)
}
