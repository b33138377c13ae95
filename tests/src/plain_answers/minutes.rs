//! Minutes remaining at a place, an STC's row and a time on its clock: the row's end less the time, with a time before its
//! start taken as the start and never below 0, plus the durations of all later rows, in whole minutes. Numbers have 128 bits
//! here, so that no sum overflows, and a sign, which only wrong rules use.

use super::rows::{one_of, stated};
use crate::answers::{Answer, Input};
use crate::record::STCS;
use crate::wrong_answers::WrongAnswer::{self, *};
use std::ops::Range;

/// The 90 kHz ticks of a minute.
const MINUTE: i128 = 5_400_000;

/// The whole minutes that remain at a place; none where its row is missing.
pub fn remaining(input: &Input, stc: u32, at: u64, wrong: WrongAnswer) -> Option<Answer> {
    let rows = stated(input, STCS, wrong)?;
    let Some(row) = row_at(stc, rows, wrong) else {
        let is_zero = wrong == MissingRowZero || wrong == NoRowsZero && rows == 0;
        return is_zero.then(|| Answer::of(0));
    };
    let ticks = match wrong {
        LatestEndLessTime => 2 * (0..rows).map(|row| end(input, row)).max()? - i128::from(at),
        _ => left_of(input, row, rows, at, wrong) + later_rows(input, row, rows, wrong),
    };
    Some(Answer::of(whole_minutes(ticks, wrong)))
}

/// The row of a place, or none where it is missing.
fn row_at(stc: u32, rows: usize, wrong: WrongAnswer) -> Option<usize> {
    match wrong {
        RowFromOne => one_of(stc.checked_sub(1)?, rows, wrong),
        MissingRowLast => rows.checked_sub(1).map(|last| last.min(stc as usize)),
        _ => one_of(stc, rows, wrong),
    }
}

/// A row's start in 45 kHz ticks.
fn start(input: &Input, row: usize) -> i128 {
    input.cell(STCS, row, 2).into()
}

/// A row's end in 45 kHz ticks.
fn end(input: &Input, row: usize) -> i128 {
    input.cell(STCS, row, 3).into()
}

/// What is left of a row at a time, in 90 kHz ticks.
fn left_of(input: &Input, row: usize, rows: usize, at: u64, wrong: WrongAnswer) -> i128 {
    let start = start_of(input, row, wrong);
    let end = end_of(input, row, rows, wrong);
    let at = time(at, start, wrong);
    let at = if at < start && wrong != TimeNotRaised { start } else { at };
    match wrong {
        LeftWraps => i128::from((end - at) as u64),
        LeftNegative => end - at,
        RowBackwards if end < start => start - end,
        MinutesOfEachRow => (end - at).max(0) / MINUTE * MINUTE,
        _ => (end - at).max(0),
    }
}

/// The start of the row that is asked about, in 90 kHz ticks.
fn start_of(input: &Input, row: usize, wrong: WrongAnswer) -> i128 {
    match wrong {
        RaisedToUndoubled => start(input, row),
        RaisedToFirstRow => 2 * start(input, 0),
        DoubledIn32Bits => i128::from((2 * start(input, row)) as u32),
        _ => 2 * start(input, row),
    }
}

/// The end of the row that is asked about, in 90 kHz ticks.
fn end_of(input: &Input, row: usize, rows: usize, wrong: WrongAnswer) -> i128 {
    match wrong {
        EndNotDoubled => end(input, row),
        EndOfLastRow => 2 * end(input, rows - 1),
        DoubledIn32Bits => i128::from((2 * end(input, row)) as u32),
        GreatestEndUnknown if end(input, row) == i128::from(u32::MAX) => 0,
        _ => 2 * end(input, row),
    }
}

/// The time that is asked about, which is in 90 kHz ticks.
fn time(at: u64, start: i128, wrong: WrongAnswer) -> i128 {
    match wrong {
        AtOf32Bits => i128::from(at as u32),
        SignedAt => i128::from(at as i64),
        AtHalved => i128::from(at / 2 * 2),
        AtFromTheStart => i128::from(at) + start,
        _ => i128::from(at),
    }
}

/// The durations of all rows behind one, added up in 90 kHz ticks.
fn later_rows(input: &Input, row: usize, rows: usize, wrong: WrongAnswer) -> i128 {
    let all = |rows: Range<usize>| rows.map(|row| duration(input, row, wrong)).sum::<i128>();
    match wrong {
        OtherRowsAdded => all(0..row) + all(row + 1..rows),
        EarlierRowsAdded => all(0..row),
        RowItselfAdded => all(row..rows),
        LaterRowsLeftOut => 0,
        NextRowAlone => all(row + 1..rows.min(row + 2)),
        LastRowLeftOut => all(row + 1..rows - 1),
        _ => all(row + 1..rows),
    }
}

/// The duration of a later row in 90 kHz ticks: twice its end less its start, not below 0.
#[inline]
fn duration(input: &Input, row: usize, wrong: WrongAnswer) -> i128 {
    let ticks = end(input, row) - start(input, row);
    match wrong {
        LaterEndsAdded => 2 * end(input, row),
        LaterNegative => 2 * ticks,
        LaterWraps => 2 * i128::from(ticks as u32),
        LaterBackwards => 2 * ticks.abs(),
        LaterNotDoubled => ticks.max(0),
        LaterDoubledIn32Bits => i128::from((2 * ticks.max(0)) as u32),
        MinutesOfEachRow => 2 * ticks.max(0) / MINUTE * MINUTE,
        _ => 2 * ticks.max(0),
    }
}

/// The whole minutes of 90 kHz ticks.
fn whole_minutes(ticks: i128, wrong: WrongAnswer) -> u64 {
    let ticks = match wrong {
        SumOf32Bits => i128::from(ticks as u32),
        SumOf64Bits => i128::from(ticks as u64),
        SumStopsAt64Bits => ticks.min(u64::MAX.into()),
        MinutesRoundedUp => ticks + MINUTE - 1,
        MinutesNearest => ticks + MINUTE / 2,
        MinutesOf45k => 2 * ticks,
        _ => ticks.max(0),
    };
    (ticks / MINUTE) as u64
}
