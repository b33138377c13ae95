//! The wrong rules of questions that the comparison must catch, one at a time and in one question at a time.

use crate::answers::{EACH, Question, Question::*};

/// Which rule an answerer has wrong.
#[derive(Clone, Copy, PartialEq, Eq, Debug)]
pub enum WrongAnswer {
    /// No rule.
    Right,
    // entries
    LatestOfEquals,
    LatestOfEqualsAfter,
    BeforeOnly,
    AfterIncludesEqual,
    AllLaterNone,
    AllLaterLeast,
    SearchedByHalves,
    FirstAfter,
    SignedTimes,
    SignedLongTimes,
    TimesOf32Bits,
    FarTimeNotFound,
    EmptyMapRowZero,
    RowOfWholeTable,
    EmptyMapPacketZero,
    RowForPacket,
    TimeForPacket,
    ByteForPacket,
    PacketOfWholeTable,
    FirstMapForPrimary,
    EmptyPrimaryPassedOver,
    NoMapsRefused,
    LeastForFirst,
    LastForFirst,
    FirstOfWholeTable,
    GreatestForLast,
    FirstForLast,
    LastOfWholeTable,
    EmptyMapTimeZero,
    SpanGreatestLessLeast,
    SpanWraps,
    EmptySpanNone,
    // maps
    PrimaryByPidFirst,
    Type8NotFirst,
    LatestOfEqualPids,
    TypeNotMasked,
    KindNotMasked,
    OtherKindsAlike,
    LastOfKind,
    Type8NotVideo,
    AnyMap,
    // minutes
    LatestEndLessTime,
    EndNotDoubled,
    EndOfLastRow,
    GreatestEndUnknown,
    DoubledIn32Bits,
    TimeNotRaised,
    RaisedToUndoubled,
    RaisedToFirstRow,
    AtFromTheStart,
    AtOf32Bits,
    SignedAt,
    AtHalved,
    LeftWraps,
    LeftNegative,
    RowBackwards,
    OtherRowsAdded,
    EarlierRowsAdded,
    RowItselfAdded,
    LaterRowsLeftOut,
    NextRowAlone,
    LastRowLeftOut,
    LaterEndsAdded,
    LaterNegative,
    LaterWraps,
    LaterBackwards,
    LaterNotDoubled,
    LaterDoubledIn32Bits,
    SumOf32Bits,
    SumOf64Bits,
    SumStopsAt64Bits,
    MinutesOfEachRow,
    MinutesRoundedUp,
    MinutesNearest,
    MinutesOf45k,
    NoRowsZero,
    MissingRowZero,
    MissingRowLast,
    RowFromOne,
    // STCs
    PresentationNotDoubled,
    StartOfFirstRow,
    PresentationWraps,
    PresentationNoneWithoutRows,
    DurationNotDoubled,
    DurationWraps,
    FirstStcOfNone,
    FirstStcByPacket,
    FirstStcByTime,
    IdWithoutOffset,
    IdWraps,
    OffsetOf8Bits,
    IdAtTheEnd,
    IdWithinAtc,
    IdInFirstAtcAlone,
    IdInLastAtc,
    FirstWithPacket,
    PacketBelowAlone,
    PacketSearchStops,
    GreatestPacket,
    PacketBeforeAllFirst,
    PacketWithinAtc,
    PacketInAllAtcs,
    // packets and seconds
    PacketCountRefused,
    ByteAtCountAccepted,
    ByteOf32Bits,
    PacketBytesOf32Bits,
    PacketsOf188,
    LastByteForLength,
    NoRateInfinite,
    NoRateZeroSeconds,
    WholeSeconds,
    SecondsOf32Bits,
    SecondsByInverse,
    SecondsCutOff,
    PacketsForBytes,
    // programs, streams and extensions
    LastWithPid,
    PidOf16Bits,
    PacketForPid,
    LastVideo,
    CodingOf8Bits,
    AnyStream,
    Type20NotVideo,
    Type86NotAudio,
    AudioToTheEight,
    SecondaryNotAudio,
    AllButVideoAudio,
    LastWithIds,
    FirstIdAlone,
    SecondIdAlone,
    IdsSwapped,
    IdsOf16Bits,
    // rows
    FromIgnored,
    FromLeftOut,
    CountedFromThere,
    LastFromThere,
    FromAtTheEndRefused,
    RowsFromTheEnd,
    RowsFromZero,
    RowsOfNoneFromZero,
    EndForTheCount,
    CountAndFirstSwapped,
    UnstatedRowsSeen,
    NothingLookedAt,
    ValueBesideNone,
    // refusals
    SumsNotTested,
    SumsOf32Bits,
    SumsToTheRow,
    SumsNotAbove,
    SumsNotBelow,
    RowAtTheEnd,
    MoreStatedThanThere,
    PartialRowCounts,
    FirstTableNotTested,
    SecondTableNotTested,
    RefusedByNone,
}

use WrongAnswer::*;

/// The wrong rules that no made file shows: its cells are never wide enough, or none is the greatest.
pub const NOT_BY_FILES: &[WrongAnswer] = &[
    SignedLongTimes,
    TimesOf32Bits,
    FarTimeNotFound,
    TypeNotMasked,
    PidOf16Bits,
    CodingOf8Bits,
    OffsetOf8Bits,
    IdsOf16Bits,
    GreatestEndUnknown,
];

/// The wrong rules that only a great table of STCs shows, and no file or table made by hand.
pub const BY_GREAT_TABLE: &[WrongAnswer] = &[SumOf64Bits, SumStopsAt64Bits];

/// The wrong rules that the lookups with names must catch too.
pub const BY_NAMES: &[WrongAnswer] = &[
    LatestOfEqualsAfter,
    BeforeOnly,
    AfterIncludesEqual,
    AllLaterNone,
    AllLaterLeast,
    FirstAfter,
    SignedTimes,
    SignedLongTimes,
    TimesOf32Bits,
    FarTimeNotFound,
    LeastForFirst,
    LastForFirst,
    GreatestForLast,
    FirstForLast,
    SpanGreatestLessLeast,
    SpanWraps,
];

/// The wrong rules that an answerer about a row of records can have too: those of lookups by time, of packets and spans.
pub const OF_RECORDS: &[WrongAnswer] = &[
    LatestOfEquals,
    LatestOfEqualsAfter,
    BeforeOnly,
    AfterIncludesEqual,
    AllLaterNone,
    AllLaterLeast,
    SearchedByHalves,
    FirstAfter,
    SignedTimes,
    EmptyMapRowZero,
    EmptyMapPacketZero,
    RowForPacket,
    TimeForPacket,
    ByteForPacket,
    SpanGreatestLessLeast,
    SpanWraps,
    EmptySpanNone,
    NothingLookedAt,
    ValueBesideNone,
];

/// Whether a question is asked of a row of records.
pub fn of_records(question: Question) -> bool {
    ROWS_BY_TIME(question) || MAP_SPAN(question) || matches!(question, SeekSpn(..) | NextSeekSpn(..))
}

/// The questions that a rule is a rule of.
type Of = fn(Question) -> bool;

// By what a question looks for.
const BEFORE: Of = |q| matches!(q, EntryAtOrBefore(..) | SeekSpn(..) | PrimarySeekSpn(_));
const AFTER: Of = |q| matches!(q, EntryAfter(..) | NextSeekSpn(..) | PrimaryNextSeekSpn(_));
const LOOKUPS: Of = Question::is_lookup;
const ROWS_BY_TIME: Of = |q| matches!(q, EntryAtOrBefore(..) | EntryAfter(..));
const PACKETS_BY_TIME: Of = |q| q.is_lookup() && !ROWS_BY_TIME(q);
const IN_PRIMARY: Of = |q| matches!(q, PrimarySeekSpn(_) | PrimaryNextSeekSpn(_));
const FIRST_PTS: Of = |q| matches!(q, FirstPts(_));
const LAST_PTS: Of = |q| matches!(q, LastPts(_));
const BOTH_PTS: Of = |q| FIRST_PTS(q) || LAST_PTS(q);
const MAP_SPAN: Of = |q| matches!(q, IndexedSpan(_));
const BY_PRIMARY: Of = |q| matches!(q, PrimaryMap | PrimarySeekSpn(_) | PrimaryNextSeekSpn(_));
const BY_KIND: Of = |q| matches!(q, MapByKind(_));
const NEXT_MAP: Of = |q| matches!(q, NextVideoMap(_));
const BY_TYPE: Of = |q| BY_PRIMARY(q) || BY_KIND(q) || NEXT_MAP(q);
const MINUTES: Of = |q| matches!(q, MinutesRemaining(..));
const WHOLE_SPAN: Of = |q| q == PresentationSpan;
const DURATIONS: Of = |q| matches!(q, Duration45k(_) | Duration90k(_));
const DURATION_90K: Of = |q| matches!(q, Duration90k(_));
const FIRST_STC: Of = |q| q == FirstStc;
const BY_ID: Of = |q| matches!(q, StcById(_));
const BY_PACKET: Of = |q| matches!(q, StcForSpn(..));
const PACKET_BYTE: Of = |q| matches!(q, SpnToByte(_));
const BYTE_PACKET: Of = |q| matches!(q, ByteToSpn(_));
const LENGTH: Of = |q| q == ClipByteLen;
const SECONDS: Of = |q| q == TransferDuration;
const TO_BYTES: Of = |q| PACKET_BYTE(q) || LENGTH(q) || SECONDS(q);
const OF_PACKETS: Of = |q| TO_BYTES(q) || BYTE_PACKET(q);
const PROGRAM: Of = |q| matches!(q, ProgramByPmtPid(_));
const BY_PID: Of = |q| matches!(q, ProgramByPmtPid(_) | StreamByPid(_));
const VIDEO_PID: Of = |q| q == PrimaryVideoPid;
const VIDEO: Of = |q| matches!(q, PrimaryVideoPid | NextVideoStream(_));
const AUDIO: Of = |q| matches!(q, NextAudioStream(_));
const BY_CODING: Of = |q| VIDEO(q) || AUDIO(q);
const BY_IDS: Of = |q| matches!(q, ExtensionEntry(..));

// By the form of a question.
const NEXT: Of = |q| matches!(q, NextVideoStream(_) | NextAudioStream(_) | NextVideoMap(_));
const OWN: Of = Question::is_of_rows;
const TABLES: Of = |q| !q.tables().is_empty();
const COUNTED: Of = |q| q.counted().is_some();
const NAMED_ROW: Of = |q| q.about_row(0).is_some();
const COUNTED_ROW: Of = |q| COUNTED(q) && NAMED_ROW(q);
const ANY: Of = |_| true;
const MAYBE_NONE: Of = |q| !(OWN(q) || MINUTES(q) || WHOLE_SPAN(q) || DURATIONS(q) || MAP_SPAN(q) || LENGTH(q));

/// Every wrong rule, in words, with the questions that have it.
pub const WRONG_ANSWERS: &[(WrongAnswer, &str, Of)] = &[
    (LatestOfEquals, "at or before: the latest of equal times", BEFORE),
    (LatestOfEqualsAfter, "after: the latest of equal times", AFTER),
    (BeforeOnly, "at or before: a time that is equal left out", BEFORE),
    (AfterIncludesEqual, "after: a time that is equal taken", AFTER),
    (AllLaterNone, "none where all times are later", BEFORE),
    (AllLaterLeast, "the least time where all are later", BEFORE),
    (SearchedByHalves, "at or before searched by halves in any order", BEFORE),
    (FirstAfter, "after: the first row above, not the least time", AFTER),
    (SignedTimes, "times compared by their low 32 bits as signed numbers", LOOKUPS),
    (SignedLongTimes, "times compared as signed numbers of 64 bits", LOOKUPS),
    (TimesOf32Bits, "times compared by their low 32 bits", LOOKUPS),
    (FarTimeNotFound, "after: a time 2^32 or more ahead not found", AFTER),
    (EmptyMapRowZero, "row 0 of an empty map", ROWS_BY_TIME),
    (RowOfWholeTable, "entry rows counted from the table's start", ROWS_BY_TIME),
    (EmptyMapPacketZero, "packet 0 in an empty map", PACKETS_BY_TIME),
    (RowForPacket, "an entry's row for its packet", PACKETS_BY_TIME),
    (TimeForPacket, "an entry's time for its packet", PACKETS_BY_TIME),
    (ByteForPacket, "the byte of an entry's packet", PACKETS_BY_TIME),
    (PacketOfWholeTable, "the packet of a row counted from the table's start", PACKETS_BY_TIME),
    (FirstMapForPrimary, "the first map for the primary one", IN_PRIMARY),
    (EmptyPrimaryPassedOver, "another map where the primary one is empty", IN_PRIMARY),
    (NoMapsRefused, "22 without maps", IN_PRIMARY),
    (LeastForFirst, "the least time for the first", FIRST_PTS),
    (LastForFirst, "the last time for the first", FIRST_PTS),
    (FirstOfWholeTable, "the first time of the table, not of the map", FIRST_PTS),
    (GreatestForLast, "the greatest time for the last", LAST_PTS),
    (FirstForLast, "the first time for the last", LAST_PTS),
    (LastOfWholeTable, "the last time of the table, not of the map", LAST_PTS),
    (EmptyMapTimeZero, "time 0 in an empty map", BOTH_PTS),
    (SpanGreatestLessLeast, "a map's span from its least to its greatest time", MAP_SPAN),
    (SpanWraps, "a map's span wrapped below 0", MAP_SPAN),
    (EmptySpanNone, "no span in an empty map", MAP_SPAN),
    (PrimaryByPidFirst, "the primary map by the least PID first", BY_PRIMARY),
    (Type8NotFirst, "type 8 not before the other video types", BY_PRIMARY),
    (LatestOfEqualPids, "the latest map of equal PIDs", BY_PRIMARY),
    (TypeNotMasked, "a map's type not masked to four bits", BY_TYPE),
    (KindNotMasked, "the type asked for not masked to four bits", BY_KIND),
    (OtherKindsAlike, "types that aren't video taken for one", BY_KIND),
    (LastOfKind, "the last map of a type", BY_KIND),
    (Type8NotVideo, "maps of type 8 not video", NEXT_MAP),
    (AnyMap, "any map, video or not", NEXT_MAP),
    (LatestEndLessTime, "minutes: the latest end of all rows less the time", MINUTES),
    (EndNotDoubled, "minutes: the row's end not doubled", MINUTES),
    (EndOfLastRow, "minutes: the last row's end for the row's", MINUTES),
    (GreatestEndUnknown, "minutes: an end of 2^32 - 1 taken for none", MINUTES),
    (DoubledIn32Bits, "minutes: the row's start and end doubled in 32 bits", MINUTES),
    (TimeNotRaised, "minutes: a time before the row's start not taken as the start", MINUTES),
    (RaisedToUndoubled, "minutes: a time taken as the undoubled start", MINUTES),
    (RaisedToFirstRow, "minutes: a time taken as the first row's start", MINUTES),
    (AtFromTheStart, "minutes: the time counted from the row's start", MINUTES),
    (AtOf32Bits, "minutes: the time taken at 32 bits", MINUTES),
    (SignedAt, "minutes: the time taken as a signed number", MINUTES),
    (AtHalved, "minutes: the time in whole 45 kHz ticks", MINUTES),
    (LeftWraps, "minutes: what is left of the row wrapped below 0", MINUTES),
    (LeftNegative, "minutes: what is left of the row below 0 taken off the sum", MINUTES),
    (RowBackwards, "minutes: a row whose end is before its start counted backwards", MINUTES),
    (OtherRowsAdded, "minutes: all other rows added, also the earlier ones", MINUTES),
    (EarlierRowsAdded, "minutes: the earlier rows added, not the later ones", MINUTES),
    (RowItselfAdded, "minutes: the row itself added to the later ones", MINUTES),
    (LaterRowsLeftOut, "minutes: the later rows left out", MINUTES),
    (NextRowAlone, "minutes: the next row alone added", MINUTES),
    (LastRowLeftOut, "minutes: the last of the later rows left out", MINUTES),
    (LaterEndsAdded, "minutes: the ends of later rows added, not their durations", MINUTES),
    (LaterNegative, "minutes: a later row whose end is before its start taken off the sum", MINUTES),
    (LaterWraps, "minutes: a later row whose end is before its start wrapped below 0", MINUTES),
    (LaterBackwards, "minutes: a later row whose end is before its start counted backwards", MINUTES),
    (LaterNotDoubled, "minutes: later durations not doubled", MINUTES),
    (LaterDoubledIn32Bits, "minutes: later durations doubled in 32 bits", MINUTES),
    (SumOf32Bits, "minutes: the sum in 32 bits", MINUTES),
    (SumOf64Bits, "minutes: the sum in 64 bits", MINUTES),
    (SumStopsAt64Bits, "minutes: the sum not above 2^64 - 1", MINUTES),
    (MinutesOfEachRow, "minutes rounded for each row before they are added", MINUTES),
    (MinutesRoundedUp, "minutes rounded up", MINUTES),
    (MinutesNearest, "minutes rounded to the nearest", MINUTES),
    (MinutesOf45k, "minutes of 45 kHz ticks", MINUTES),
    (NoRowsZero, "0 minutes without STCs", MINUTES),
    (MissingRowZero, "0 minutes for a missing row", MINUTES),
    (MissingRowLast, "minutes of the last row for a missing one", MINUTES),
    (RowFromOne, "minutes: the row counted from 1", MINUTES),
    (PresentationNotDoubled, "the presentation span not doubled", WHOLE_SPAN),
    (StartOfFirstRow, "the presentation span from the first row's start", WHOLE_SPAN),
    (PresentationWraps, "the presentation span wrapped below 0", WHOLE_SPAN),
    (PresentationNoneWithoutRows, "no presentation span without STCs", WHOLE_SPAN),
    (DurationNotDoubled, "the 90 kHz duration not doubled", DURATION_90K),
    (DurationWraps, "a duration wrapped below 0", DURATIONS),
    (FirstStcOfNone, "row 0 without STCs", FIRST_STC),
    (FirstStcByPacket, "the STC with the least packet for the first", FIRST_STC),
    (FirstStcByTime, "the STC with the least start for the first", FIRST_STC),
    (IdWithoutOffset, "an STC's id not less its ATC's offset id", BY_ID),
    (IdWraps, "an STC's id less the offset id wrapped below 0", BY_ID),
    (OffsetOf8Bits, "an offset id cell taken at 8 bits", BY_ID),
    (IdAtTheEnd, "an STC's id one beyond its ATC's rows", BY_ID),
    (IdWithinAtc, "an STC's row by id counted within its ATC", BY_ID),
    (IdInFirstAtcAlone, "an STC's id looked for in the first ATC alone", BY_ID),
    (IdInLastAtc, "the last ATC that has an STC's id", BY_ID),
    (FirstWithPacket, "the first STC whose packet is at most the one given", BY_PACKET),
    (PacketBelowAlone, "an STC's packet that is equal left out", BY_PACKET),
    (PacketSearchStops, "no STC looked at behind one that starts later", BY_PACKET),
    (GreatestPacket, "the STC with the greatest packet, not the last", BY_PACKET),
    (PacketBeforeAllFirst, "the first STC where all start later", BY_PACKET),
    (PacketWithinAtc, "an STC's row by packet counted within its ATC", BY_PACKET),
    (PacketInAllAtcs, "STCs of all ATCs looked at for a packet", BY_PACKET),
    (PacketCountRefused, "packet number equal to the count not accepted", PACKET_BYTE),
    (ByteAtCountAccepted, "the byte at the clip's end accepted", BYTE_PACKET),
    (ByteOf32Bits, "a byte number taken at 32 bits", BYTE_PACKET),
    (PacketBytesOf32Bits, "a packet's byte in 32 bits", TO_BYTES),
    (PacketsOf188, "packets of 188 bytes", OF_PACKETS),
    (LastByteForLength, "the last byte's number for the length", LENGTH),
    (NoRateInfinite, "infinite seconds at rate 0", SECONDS),
    (NoRateZeroSeconds, "0 seconds found at rate 0", SECONDS),
    (WholeSeconds, "whole seconds", SECONDS),
    (SecondsOf32Bits, "seconds of 32 bits", SECONDS),
    (SecondsByInverse, "seconds by the inverse of the rate", SECONDS),
    (SecondsCutOff, "seconds cut off, not rounded", SECONDS),
    (PacketsForBytes, "seconds of packets, not of bytes", SECONDS),
    (LastWithPid, "the last row with a PID", BY_PID),
    (PidOf16Bits, "a PID cell taken at 16 bits", BY_PID),
    (PacketForPid, "a program's packet for its PID", PROGRAM),
    (LastVideo, "the last video stream", VIDEO_PID),
    (CodingOf8Bits, "a coding type cell taken at 8 bits", BY_CODING),
    (AnyStream, "any stream, of the kind or not", BY_CODING),
    (Type20NotVideo, "coding type 0x20 not video", VIDEO),
    (Type86NotAudio, "coding type 0x86 not audio", AUDIO),
    (AudioToTheEight, "all coding types of 0x80 to 0x8F audio", AUDIO),
    (SecondaryNotAudio, "secondary audio not audio", AUDIO),
    (AllButVideoAudio, "all that isn't video audio", AUDIO),
    (LastWithIds, "the last extension with two ids", BY_IDS),
    (FirstIdAlone, "an extension by its first id alone", BY_IDS),
    (SecondIdAlone, "an extension by its second id alone", BY_IDS),
    (IdsSwapped, "an extension's ids swapped", BY_IDS),
    (IdsOf16Bits, "an extension's id cells taken at 16 bits", BY_IDS),
    (FromIgnored, "the next one looked for from row 0", NEXT),
    (FromLeftOut, "the next one looked for behind the row given", NEXT),
    (CountedFromThere, "the next one's row counted from the row given", NEXT),
    (LastFromThere, "the last one from the row given on", NEXT),
    (FromAtTheEndRefused, "22 where the row given is beyond the rows", NEXT),
    (RowsFromTheEnd, "own rows from behind the last of them", OWN),
    (RowsFromZero, "own rows from row 0", OWN),
    (RowsOfNoneFromZero, "no own rows told from row 0", OWN),
    (EndForTheCount, "the end of own rows for their count", OWN),
    (CountAndFirstSwapped, "count and first of own rows swapped", OWN),
    (UnstatedRowsSeen, "rows lent beyond those stated looked at", TABLES),
    (NothingLookedAt, "none before a row was looked at", ANY),
    (ValueBesideNone, "a value told beside none", MAYBE_NONE),
    (SumsNotTested, "counts not added up", COUNTED),
    (SumsOf32Bits, "counts added up in 32 bits", COUNTED),
    (SumsToTheRow, "counts added up to the row asked about", COUNTED_ROW),
    (SumsNotAbove, "counts that add up to less accepted", COUNTED),
    (SumsNotBelow, "counts that add up to more accepted", COUNTED),
    (RowAtTheEnd, "a row number equal to the rows stated", NAMED_ROW),
    (MoreStatedThanThere, "more rows stated than lent", TABLES),
    (PartialRowCounts, "a partial row counted as a row", TABLES),
    (FirstTableNotTested, "more rows stated than lent of the table of counts", COUNTED),
    (SecondTableNotTested, "more rows stated than lent of the table counted", COUNTED),
    (RefusedByNone, "none told for a refusal", TABLES),
];

/// The questions that have a rule.
pub fn questions_of(of: Of) -> impl Iterator<Item = Question> {
    EACH.into_iter().filter(move |question| of(*question))
}
