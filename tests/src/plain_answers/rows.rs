//! Rows that are stated, named and counted, and the tests that are 22's.

use crate::answers::{Answer, Counted, Input};
use crate::record::row_bytes;
use crate::wrong_answers::WrongAnswer::{self, *};

/// The rows stated to be in a table, or none where more are stated than lent.
pub fn stated(input: &Input, table: usize, wrong: WrongAnswer) -> Option<usize> {
    let rows = input.tables[table].rows as usize;
    let there = input.room(table);
    let spare = if wrong == PartialRowCounts { row_bytes(table) - 1 } else { 0 };
    let room = (input.tables[table].bytes.len() + spare) / row_bytes(table);
    if rows > room && wrong != MoreStatedThanThere {
        return None;
    }
    Some(if wrong == UnstatedRowsSeen { there } else { rows.min(there) })
}

/// The same of one of two tables, which a wrong rule doesn't test.
fn stated_of_two(input: &Input, table: usize, not_tested: WrongAnswer, wrong: WrongAnswer) -> Option<usize> {
    stated(input, table, if wrong == not_tested { MoreStatedThanThere } else { wrong })
}

/// A row number as an index, or none where it isn't one of the rows.
pub fn one_of(row: u32, rows: usize, wrong: WrongAnswer) -> Option<usize> {
    let at_end = wrong == RowAtTheEnd && row as usize == rows && rows > 0;
    if at_end {
        return Some(rows - 1);
    }
    ((row as usize) < rows).then_some(row as usize)
}

/// The rows of a table of counts and of the table counted, where all counts add up to the rows stated of the latter.
fn added_up(input: &Input, counted: Counted, head: usize, wrong: WrongAnswer) -> Option<(usize, usize)> {
    let heads = stated_of_two(input, counted.heads, FirstTableNotTested, wrong)?;
    let rows = stated_of_two(input, counted.rows, SecondTableNotTested, wrong)?;
    let wanted = if wrong == UnstatedRowsSeen { rows as u64 } else { input.tables[counted.rows].rows.into() };
    let sum = |heads: usize| input.sum(counted, heads);
    let all = match wrong {
        SumsOf32Bits => u64::from(sum(heads) as u32),
        SumsToTheRow => sum(heads.min(head + 1)).max(wanted),
        SumsNotAbove => sum(heads).max(wanted),
        SumsNotBelow => sum(heads).min(wanted),
        SumsNotTested => wanted,
        _ => sum(heads),
    };
    (all == wanted).then_some((heads, rows))
}

/// The rows of a table of counts, where they add up.
pub fn heads(input: &Input, counted: Counted, wrong: WrongAnswer) -> Option<usize> {
    Some(added_up(input, counted, usize::MAX - 1, wrong)?.0)
}

/// The rows of a header row, from one up to another, where all counts add up.
pub fn rows_of(input: &Input, counted: Counted, head: u32, wrong: WrongAnswer) -> Option<(usize, usize)> {
    let (heads, rows) = added_up(input, counted, head as usize, wrong)?;
    let head = one_of(head, heads, wrong)?;
    let within = |row: u64| row.min(rows as u64) as usize;
    Some((within(input.sum(counted, head)), within(input.sum(counted, head + 1))))
}

/// The first row of a header row and how many there are.
pub fn own_rows(input: &Input, counted: Counted, head: u32, wrong: WrongAnswer) -> Option<Answer> {
    let (first, end) = rows_of(input, counted, head, wrong)?;
    let count = end - first;
    Some(match wrong {
        RowsFromTheEnd => Answer::of_rows(end, count),
        EndForTheCount => Answer::of_rows(first, end),
        CountAndFirstSwapped => Answer::of_rows(count, first),
        RowsOfNoneFromZero if count == 0 => Answer::of_rows(0, 0),
        RowsFromZero => Answer::of_rows(0, count),
        _ => Answer::of_rows(first, count),
    })
}

/// The first of the rows, from one on, that passes; a number beyond the rows is no refusal.
pub fn next_row(rows: usize, from: u32, wrong: WrongAnswer, passes: impl Fn(usize) -> bool) -> Option<Answer> {
    let from = from as usize;
    if wrong == FromAtTheEndRefused && from >= rows {
        return None;
    }
    let first = match wrong {
        FromIgnored => 0,
        FromLeftOut => from + 1,
        _ => from,
    };
    let mut passing = (first..rows).filter(|&row| passes(row));
    let row = if wrong == LastFromThere { passing.next_back() } else { passing.next() };
    let zero = if wrong == CountedFromThere { from } else { 0 };
    Some(Answer::of_option(row.map(|row| (row - zero) as u64)))
}

/// The first or, with a wrong rule, the last of the rows that passes.
pub fn first_row(rows: usize, last: bool, passes: impl Fn(usize) -> bool) -> Answer {
    let mut passing = (0..rows).filter(|&row| passes(row));
    let row = if last { passing.next_back() } else { passing.next() };
    Answer::of_option(row.map(|row| row as u64))
}

/// The difference of two numbers, not below 0, or wrapped.
pub fn less(from: u64, what: u64, wraps: bool) -> u64 {
    if wraps { from.wrapping_sub(what) } else { from.saturating_sub(what) }
}
