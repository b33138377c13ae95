//! Answers about ATCs and STCs.

use super::rows::{heads, less, one_of, rows_of, stated};
use crate::answers::{Answer, Input, OF_ATCS};
use crate::record::{ATCS, STCS};
use crate::wrong_answers::WrongAnswer::{self, *};

/// Twice the latest end less twice the least start.
pub fn presentation_span(input: &Input, wrong: WrongAnswer) -> Option<Answer> {
    let rows = stated(input, STCS, wrong)?;
    if rows == 0 {
        return Some(if wrong == PresentationNoneWithoutRows { Answer::NONE } else { Answer::of(0) });
    }
    let mut starts = (0..rows).map(|row| u64::from(input.cell(STCS, row, 2)));
    let start = if wrong == StartOfFirstRow { starts.next() } else { starts.min() };
    let end = (0..rows).map(|row| u64::from(input.cell(STCS, row, 3))).max();
    let ticks = if wrong == PresentationNotDoubled { 1 } else { 2 };
    Some(Answer::of(less(ticks * end?, ticks * start?, wrong == PresentationWraps)))
}

/// An STC's end less its start, times the ticks.
pub fn duration(input: &Input, stc: u32, ticks: u64, wrong: WrongAnswer) -> Option<Answer> {
    let row = one_of(stc, stated(input, STCS, wrong)?, wrong)?;
    let [start, end] = [2, 3].map(|column| u64::from(input.cell(STCS, row, column)));
    Some(Answer::of(ticks * less(end, start, wrong == DurationWraps)))
}

/// Row 0, where there is one.
pub fn first_stc(input: &Input, wrong: WrongAnswer) -> Option<Answer> {
    let rows = stated(input, STCS, wrong)?;
    let row = match wrong {
        FirstStcOfNone => Some(0),
        FirstStcByPacket => (0..rows).min_by_key(|&row| input.cell(STCS, row, 1)),
        FirstStcByTime => (0..rows).min_by_key(|&row| input.cell(STCS, row, 2)),
        _ => (rows > 0).then_some(0),
    };
    Some(Answer::of_option(row.map(|row| row as u64)))
}

/// Of the first ATC in which the id less the offset id is not negative and is one of its STCs, that STC's row.
pub fn stc_by_id(input: &Input, id: u8, wrong: WrongAnswer) -> Option<Answer> {
    let atcs = heads(input, OF_ATCS, wrong)?;
    let (mut found, mut first) = (None, 0);
    for atc in 0..if wrong == IdInFirstAtcAlone { atcs.min(1) } else { atcs } {
        let [count, offset] = [1, 2].map(|column| u64::from(input.cell(ATCS, atc, column)));
        let within = match wrong {
            IdWithoutOffset => Some(id.into()),
            IdWraps => Some(id.wrapping_sub(offset as u8).into()),
            OffsetOf8Bits => u64::from(id).checked_sub(offset & 0xFF),
            _ => u64::from(id).checked_sub(offset),
        };
        let there = within.filter(|&within| within < count || wrong == IdAtTheEnd && within == count);
        if found.is_none() || wrong == IdInLastAtc {
            found = there.map(|within| first + within).or(found);
        }
        first += if wrong == IdWithinAtc { 0 } else { count };
    }
    Some(Answer::of_option(found))
}

/// In one ATC, the last row whose packet is at most the one given.
pub fn stc_for_spn(input: &Input, atc: u32, spn: u32, wrong: WrongAnswer) -> Option<Answer> {
    let (first, end) = rows_of(input, OF_ATCS, atc, wrong)?;
    let mut rows = if wrong == PacketInAllAtcs { 0..stated(input, STCS, wrong)? } else { first..end };
    let packet = |row: usize| input.cell(STCS, row, 1);
    let reached = |row: &usize| packet(*row) < spn || packet(*row) == spn && wrong != PacketBelowAlone;
    let row = match wrong {
        FirstWithPacket => rows.find(reached),
        PacketSearchStops => rows.take_while(reached).last(),
        GreatestPacket => rows.filter(reached).max_by_key(|&row| packet(row)),
        PacketBeforeAllFirst => rows.rfind(reached).or((first < end).then_some(first)),
        _ => rows.rfind(reached),
    };
    let zero = if wrong == PacketWithinAtc { first } else { 0 };
    Some(Answer::of_option(row.map(|row| (row - zero) as u64)))
}
