//! Plain answers by the scope document's definitions, with a switch for one wrong rule. They are slow and short.

mod clips;
mod entries;
mod maps;
mod minutes;
mod programs;
mod rows;
mod sequences;

use crate::answers::{Answer, Answerer, Input, OF_ATCS, OF_MAPS, OF_PROGRAMS, Question, Question::*};
use crate::wrong_answers::WrongAnswer::{self, *};
use std::mem::{Discriminant, discriminant};

/// Answers by the definitions, with one rule wrong in one question, or none.
pub struct Plain {
    wrong: WrongAnswer,
    question: Discriminant<Question>,
}

impl Plain {
    /// The answerer with no rule wrong.
    pub fn right() -> Self {
        Plain::wrong(Right, PrimaryMap)
    }

    /// The answerer with a rule wrong in one question, whatever its arguments.
    pub fn wrong(wrong: WrongAnswer, question: Question) -> Self {
        Plain { wrong, question: discriminant(&question) }
    }
}

impl Answerer for Plain {
    /// The plain answer.
    fn ask(&mut self, question: Question, input: &Input) -> Answer {
        let wrong = if discriminant(&question) == self.question { self.wrong } else { Right };
        answer(question, input, wrong)
    }
}

/// The answer to a question, or 22 where a row, a stated row or a sum isn't there.
pub fn answer(question: Question, input: &Input, wrong: WrongAnswer) -> Answer {
    match given(question, input, wrong) {
        None if wrong == RefusedByNone => Answer::NONE,
        None => Answer::REFUSED,
        Some(_) if wrong == NothingLookedAt => Answer::NONE,
        Some(Answer::NONE) if wrong == ValueBesideNone => Answer { value: 1, ..Answer::NONE },
        Some(answer) => answer,
    }
}

/// The answer to a question, or none where it is refused.
fn given(question: Question, input: &Input, wrong: WrongAnswer) -> Option<Answer> {
    match question {
        ExtensionEntry(id1, id2) => maps::extension_entry(input, id1, id2, wrong),
        MinutesRemaining(stc, at) => minutes::remaining(input, stc, at, wrong),
        PresentationSpan => sequences::presentation_span(input, wrong),
        Duration45k(stc) => sequences::duration(input, stc, 1, wrong),
        Duration90k(stc) => sequences::duration(input, stc, if wrong == DurationNotDoubled { 1 } else { 2 }, wrong),
        FirstStc => sequences::first_stc(input, wrong),
        StcsOfAtc(atc) => rows::own_rows(input, OF_ATCS, atc, wrong),
        StcById(id) => sequences::stc_by_id(input, id, wrong),
        StcForSpn(atc, spn) => sequences::stc_for_spn(input, atc, spn, wrong),
        ProgramByPmtPid(pid) => programs::program_by_pmt_pid(input, pid, wrong),
        StreamsOfProgram(program) => rows::own_rows(input, OF_PROGRAMS, program, wrong),
        StreamByPid(pid) => programs::stream_by_pid(input, pid, wrong),
        PrimaryVideoPid => programs::primary_video_pid(input, wrong),
        NextVideoStream(from) => programs::next_stream(input, from, wrong, programs::is_video),
        NextAudioStream(from) => programs::next_stream(input, from, wrong, programs::is_audio),
        EntryAtOrBefore(map, at) => entries::row(input, map, at, wrong, entries::at_or_before),
        EntryAfter(map, at) => entries::row(input, map, at, wrong, entries::after),
        SeekSpn(map, at) => entries::packet(input, map, at, wrong, entries::at_or_before),
        NextSeekSpn(map, at) => entries::packet(input, map, at, wrong, entries::after),
        PrimarySeekSpn(at) => entries::packet_in_primary(input, at, wrong, entries::at_or_before),
        PrimaryNextSeekSpn(at) => entries::packet_in_primary(input, at, wrong, entries::after),
        FirstPts(map) => entries::first_pts(input, map, wrong),
        LastPts(map) => entries::last_pts(input, map, wrong),
        IndexedSpan(map) => entries::span(input, map, wrong),
        EntriesOfMap(map) => rows::own_rows(input, OF_MAPS, map, wrong),
        PrimaryMap => maps::primary_map(input, wrong),
        MapByKind(kind) => maps::map_by_kind(input, kind, wrong),
        NextVideoMap(from) => maps::next_video_map(input, from, wrong),
        ClipByteLen => Some(clips::byte_len(input.packets, wrong)),
        SpnToByte(spn) => Some(clips::spn_to_byte(input.packets, spn, wrong)),
        ByteToSpn(byte) => Some(clips::byte_to_spn(input.packets, byte, wrong)),
        TransferDuration => Some(clips::transfer_duration(input.rate, input.packets, wrong)),
    }
}
