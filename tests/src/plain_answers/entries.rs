//! Answers about a map's entries.

use super::maps::primary_of;
use super::rows::{heads, less, rows_of};
use crate::answers::{Answer, Input, OF_MAPS};
use crate::record::{ENTRIES, PACKET};
use crate::wrong_answers::WrongAnswer::{self, *};

/// A search for a row of table 6 between two rows, by a time.
type Search = fn(&Input, (usize, usize), u64, WrongAnswer) -> Option<usize>;

/// An entry's time.
fn time(input: &Input, row: usize) -> u64 {
    input.time(row)
}

/// Whether a time is at most another one.
fn at_most(one: u64, other: u64, wrong: WrongAnswer) -> bool {
    match wrong {
        SignedTimes => one as i32 <= other as i32,
        SignedLongTimes => one as i64 <= other as i64,
        TimesOf32Bits => one as u32 <= other as u32,
        _ => one <= other,
    }
}

/// The row within its map that is found by a time.
pub fn row(input: &Input, map: u32, at: u32, wrong: WrongAnswer, search: Search) -> Option<Answer> {
    let (first, end) = rows_of(input, OF_MAPS, map, wrong)?;
    if first == end && wrong == EmptyMapRowZero {
        return Some(Answer::of(0));
    }
    let zero = if wrong == RowOfWholeTable { 0 } else { first };
    Some(Answer::of_option(search(input, (first, end), at.into(), wrong).map(|row| (row - zero) as u64)))
}

/// The packet of the row that is found by a time.
pub fn packet(input: &Input, map: u32, at: u32, wrong: WrongAnswer, search: Search) -> Option<Answer> {
    let (first, end) = rows_of(input, OF_MAPS, map, wrong)?;
    if first == end && wrong == EmptyMapPacketZero {
        return Some(Answer::of(0));
    }
    let cell = |row: usize, column: usize| u64::from(input.cell(ENTRIES, row, column));
    let value = |row: usize| match wrong {
        RowForPacket => (row - first) as u64,
        TimeForPacket => time(input, row),
        PacketOfWholeTable => cell(row - first, PACKET),
        ByteForPacket => 192 * cell(row, PACKET),
        _ => cell(row, PACKET),
    };
    Some(Answer::of_option(search(input, (first, end), at.into(), wrong).map(value)))
}

/// The packet of the row that is found by a time in the primary map; none without maps.
pub fn packet_in_primary(input: &Input, at: u32, wrong: WrongAnswer, search: Search) -> Option<Answer> {
    let maps = heads(input, OF_MAPS, wrong)?;
    let filled = |map: &usize| input.cell(OF_MAPS.heads, *map, OF_MAPS.column) > 0;
    let map = match wrong {
        FirstMapForPrimary => (maps > 0).then_some(0),
        EmptyPrimaryPassedOver => primary_of(input, maps, wrong).filter(filled).or((0..maps).find(filled)),
        _ => primary_of(input, maps, wrong),
    };
    match map {
        Some(map) => packet(input, map as u32, at, wrong, search),
        None if wrong == NoMapsRefused => None,
        None => Some(Answer::NONE),
    }
}

/// The greatest time not above the one given, the earliest among equals; the first row where all are later.
pub fn at_or_before(input: &Input, (first, end): (usize, usize), at: u64, wrong: WrongAnswer) -> Option<usize> {
    if wrong == SearchedByHalves && first < end {
        return Some(by_halves(input, first, end, at));
    }
    let mut best: Option<usize> = None;
    for row in first..end {
        let allowed = at_most(time(input, row), at, wrong) && !(wrong == BeforeOnly && time(input, row) == at);
        let better = best.is_none_or(|best| match wrong {
            LatestOfEquals => time(input, row) >= time(input, best),
            _ => !at_most(time(input, row), time(input, best), wrong),
        });
        if allowed && better {
            best = Some(row);
        }
    }
    let all_later = match wrong {
        AllLaterNone => None,
        AllLaterLeast => (first..end).min_by_key(|&row| time(input, row)),
        _ => (first < end).then_some(first),
    };
    best.or(all_later)
}

/// The row at or before a time as a search by halves finds it, which needs ascending times.
fn by_halves(input: &Input, first: usize, end: usize, at: u64) -> usize {
    let (mut low, mut high) = (first, end);
    while low < high {
        let middle = (low + high) / 2;
        if time(input, middle) <= at {
            low = middle + 1;
        } else {
            high = middle;
        }
    }
    low.max(first + 1) - 1
}

/// The least time above the one given, the earliest among equals.
pub fn after(input: &Input, (first, end): (usize, usize), at: u64, wrong: WrongAnswer) -> Option<usize> {
    let mut best: Option<usize> = None;
    for row in first..end {
        let allowed = match wrong {
            AfterIncludesEqual => time(input, row) >= at,
            FarTimeNotFound => (1..1 << 32).contains(&time(input, row).saturating_sub(at)),
            _ => !at_most(time(input, row), at, wrong),
        };
        let better = best.is_none_or(|best| match wrong {
            LatestOfEqualsAfter => time(input, row) <= time(input, best),
            FirstAfter => false,
            _ => !at_most(time(input, best), time(input, row), wrong),
        });
        if allowed && better {
            best = Some(row);
        }
    }
    best
}

/// The time of a row of a map, where the map has one.
fn time_of(input: &Input, row: Option<usize>, wrong: WrongAnswer) -> Option<Answer> {
    let none = if wrong == EmptyMapTimeZero { Answer::of(0) } else { Answer::NONE };
    Some(row.map_or(none, |row| Answer::of(time(input, row))))
}

/// The time of a map's first entry.
pub fn first_pts(input: &Input, map: u32, wrong: WrongAnswer) -> Option<Answer> {
    let (first, end) = rows_of(input, OF_MAPS, map, wrong)?;
    let row = match wrong {
        LeastForFirst => (first..end).min_by_key(|&row| time(input, row)),
        FirstOfWholeTable => (first < end).then_some(0),
        LastForFirst => (first..end).last(),
        _ => (first..end).next(),
    };
    time_of(input, row, wrong)
}

/// The time of a map's last entry.
pub fn last_pts(input: &Input, map: u32, wrong: WrongAnswer) -> Option<Answer> {
    let (first, end) = rows_of(input, OF_MAPS, map, wrong)?;
    let row = match wrong {
        GreatestForLast => (first..end).max_by_key(|&row| time(input, row)),
        LastOfWholeTable => (first < end).then_some(input.tables[ENTRIES].rows as usize - 1),
        FirstForLast => (first..end).next(),
        _ => (first..end).last(),
    };
    time_of(input, row, wrong)
}

/// A map's last time less its first.
pub fn span(input: &Input, map: u32, wrong: WrongAnswer) -> Option<Answer> {
    let (first, end) = rows_of(input, OF_MAPS, map, wrong)?;
    if first == end {
        return Some(if wrong == EmptySpanNone { Answer::NONE } else { Answer::of(0) });
    }
    let times = || (first..end).map(|row| time(input, row));
    let (from, to) = match wrong {
        SpanGreatestLessLeast => (times().min()?, times().max()?),
        _ => (times().next()?, times().last()?),
    };
    Some(Answer::of(less(to, from, wrong == SpanWraps)))
}
