//! Which questions are asked of tables: about each row or some, with the arguments at which answers change.

use crate::answers::{Counted, Input, OF_ATCS, OF_MAPS, OF_PROGRAMS, Question, Question::*};
use crate::random::Random;
use crate::record::{ATCS, ENTRIES, EXTENSIONS, MAPS, PROGRAMS, STCS, STREAMS, TIME};

/// How many rows of a table are asked about one by one; of more rows these are the first, the last, and any others.
const ASKED: u64 = 6;

/// How many rows of another table are asked about for each of these where it isn't the entries.
const FEW: u64 = 3;

/// The 90 kHz ticks of a minute.
const MINUTE: u64 = 5_400_000;

/// Some of the numbers below `count`: all where they are at most `most`, else the first, the last, and any others.
fn some_of(count: u64, most: u64, random: &mut Random) -> impl Iterator<Item = u64> + use<> {
    let mut random = Random::new(random.next());
    (0..count.min(most)).map(move |k| match k {
        _ if count <= most => k,
        0 => 0,
        1 => count - 1,
        _ => random.below(count),
    })
}

/// Some of a table's rows.
fn some_rows(input: &Input, table: usize, random: &mut Random) -> impl Iterator<Item = u32> + use<> {
    some_of(input.tables[table].rows.into(), ASKED, random).map(|row| row as u32)
}

/// Some of the rows of a header row that are lent.
fn some_own(input: &Input, counted: Counted, head: u32, most: u64, random: &mut Random) -> Vec<usize> {
    let first = input.sum(counted, head as usize);
    let count = input.cell(counted.heads, head as usize, counted.column);
    let room = input.room(counted.rows);
    some_of(count.into(), most, random).map(|row| (first + row) as usize).filter(|&row| row < room).collect()
}

/// Numbers of rows that aren't there.
fn beyond(input: &Input, table: usize) -> [u32; 2] {
    [input.tables[table].rows, u32::MAX]
}

/// The times at which the minutes that remain on an STC's row change: about its start and its end, and about whole minutes
/// of what remains; a time between the two, far past its end, 0, any, and the greatest.
fn times_of_stc(input: &Input, stc: u32, random: &mut Random) -> Vec<u64> {
    let twice = |row: usize, column: usize| 2 * u64::from(input.cell(STCS, row, column));
    let [start, end] = [2, 3].map(|column| twice(stc as usize, column));
    let mut times = vec![0, start.wrapping_sub(1), start, start + 1, end.wrapping_sub(1), end, end + 1];
    times.extend([random.between(start.min(end), start.max(end)), end + MINUTE, (1 << 32) + start]);
    times.extend([random.next(), u64::MAX]);
    if start < end {
        let rows = stc as usize + 1..input.tables[STCS].rows as usize;
        let later: u64 = rows.map(|row| twice(row, 3).saturating_sub(twice(row, 2)) % MINUTE).sum();
        let first = start + (end - start + later) % MINUTE;
        let last = end.saturating_sub((MINUTE - later % MINUTE) % MINUTE);
        let any = first + MINUTE * random.below((end - start) / MINUTE + 1);
        times.extend([first, any, last].into_iter().flat_map(|whole| [whole, whole + 1]));
    }
    times
}

/// The questions about times of STCs.
pub fn times(input: &Input, random: &mut Random, out: &mut Vec<Question>) {
    for stc in some_rows(input, STCS, random) {
        out.extend(times_of_stc(input, stc, random).into_iter().map(|at| MinutesRemaining(stc, at)));
    }
    for stc in beyond(input, STCS) {
        out.extend([0, random.next(), u64::MAX].map(|at| MinutesRemaining(stc, at)));
    }
    out.push(PresentationSpan);
    for row in some_rows(input, STCS, random).chain(beyond(input, STCS)) {
        out.extend([Duration45k(row), Duration90k(row)]);
    }
}

/// The questions about STCs of ATCs, by ids and packets.
pub fn sequences(input: &Input, random: &mut Random, out: &mut Vec<Question>) {
    out.push(FirstStc);
    let any = random.next();
    out.extend([0, any as u8, u8::MAX].map(StcById));
    for atc in beyond(input, ATCS) {
        out.extend([StcsOfAtc(atc), StcForSpn(atc, any as u32)]);
    }
    for atc in some_rows(input, ATCS, random) {
        let [count, offset] = [1, 2].map(|column| input.cell(ATCS, atc as usize, column) as u8);
        let end = offset.wrapping_add(count);
        out.extend([offset.wrapping_sub(1), offset, end.wrapping_sub(1), end].map(StcById));
        out.push(StcsOfAtc(atc));
        out.extend([0, any as u32, u32::MAX].map(|spn| StcForSpn(atc, spn)));
        for stc in some_own(input, OF_ATCS, atc, FEW, random) {
            let packet = input.cell(STCS, stc, 1);
            out.extend([packet, packet.wrapping_sub(1), packet.wrapping_add(1)].map(|spn| StcForSpn(atc, spn)));
        }
    }
}

/// The questions about programs.
pub fn programs(input: &Input, random: &mut Random, out: &mut Vec<Question>) {
    out.extend(beyond(input, PROGRAMS).map(StreamsOfProgram));
    for row in some_rows(input, PROGRAMS, random) {
        let pid = input.cell(PROGRAMS, row as usize, 1) as u16;
        out.extend([pid, pid.wrapping_add(1), pid.swap_bytes()].map(ProgramByPmtPid));
        out.push(ProgramByPmtPid(input.cell(PROGRAMS, row as usize, 0) as u16));
        out.push(StreamsOfProgram(row));
    }
    let any = random.next() as u16;
    out.extend([0, any, u16::MAX].map(ProgramByPmtPid));
}

/// The questions about streams.
pub fn streams(input: &Input, random: &mut Random, out: &mut Vec<Question>) {
    out.push(PrimaryVideoPid);
    for row in some_rows(input, STREAMS, random) {
        let pid = input.cell(STREAMS, row as usize, 0) as u16;
        out.extend([pid, pid.wrapping_add(1), pid.swap_bytes()].map(StreamByPid));
    }
    let any = random.next() as u16;
    out.extend([0, any, u16::MAX].map(StreamByPid));
    next_streams(input, random, out);
}

/// The questions about the next stream of a kind.
pub fn next_streams(input: &Input, random: &mut Random, out: &mut Vec<Question>) {
    let rows = input.tables[STREAMS].rows;
    for from in some_rows(input, STREAMS, random).chain([0, rows, rows.wrapping_add(1), u32::MAX]) {
        out.extend([NextVideoStream(from), NextAudioStream(from)]);
    }
}

/// The PIDs of one program's streams, and of others.
pub fn pids_of_program(input: &Input, program: u32, random: &mut Random, out: &mut Vec<Question>) {
    for row in some_own(input, OF_PROGRAMS, program, FEW, random) {
        out.push(StreamByPid(input.cell(STREAMS, row, 0) as u16));
    }
    for row in some_rows(input, STREAMS, random).take(FEW as usize) {
        out.push(StreamByPid(input.cell(STREAMS, row as usize, 0) as u16));
    }
}

/// Some programs, by their rows.
pub fn some_programs(input: &Input, random: &mut Random) -> impl Iterator<Item = u32> + use<> {
    some_of(input.tables[PROGRAMS].rows.into(), FEW, random).map(|row| row as u32)
}

/// The questions about maps.
pub fn maps(input: &Input, random: &mut Random, out: &mut Vec<Question>) {
    let rows = input.tables[MAPS].rows;
    out.push(PrimaryMap);
    for row in some_rows(input, MAPS, random) {
        let kind = input.cell(MAPS, row as usize, 1) as u8;
        out.extend([kind, kind ^ 16 << random.below(4)].map(MapByKind));
        out.extend([NextVideoMap(row), EntriesOfMap(row), FirstPts(row), LastPts(row), IndexedSpan(row)]);
    }
    let any = random.next() as u8;
    out.extend([0, 1, 2, 8, 16, any].map(MapByKind));
    out.extend([0, rows, rows.wrapping_add(1), u32::MAX].map(NextVideoMap));
    for row in beyond(input, MAPS) {
        out.extend([EntriesOfMap(row), FirstPts(row), LastPts(row), IndexedSpan(row)]);
    }
}

/// The times at which a map's answers change: each of its times or some, one less, one more, 0, and the greatest; and any.
fn times_of_map(input: &Input, map: u32, random: &mut Random) -> Vec<u32> {
    let mut times = vec![0, random.next() as u32, u32::MAX];
    for row in some_own(input, OF_MAPS, map, ASKED, random) {
        let time = input.cell(ENTRIES, row, TIME);
        times.extend([time, time.wrapping_sub(1), time.wrapping_add(1)]);
    }
    times
}

/// The questions about entries by their times; `primary` is the row of the primary map.
pub fn entries(input: &Input, primary: Option<u32>, random: &mut Random, out: &mut Vec<Question>) {
    let by_time =
        |map: u32, at: u32| [EntryAtOrBefore(map, at), EntryAfter(map, at), SeekSpn(map, at), NextSeekSpn(map, at)];
    for map in some_rows(input, MAPS, random) {
        for at in times_of_map(input, map, random) {
            out.extend(by_time(map, at));
        }
    }
    let any = random.next() as u32;
    for map in beyond(input, MAPS) {
        out.extend(by_time(map, any));
    }
    for at in primary.map_or(vec![0, any], |map| times_of_map(input, map, random)) {
        out.extend([PrimarySeekSpn(at), PrimaryNextSeekSpn(at)]);
    }
}

/// The questions about packets and bytes.
pub fn packets(input: &Input, random: &mut Random, out: &mut Vec<Question>) {
    let count = input.packets;
    let any = random.below(u64::from(count) + 1);
    for spn in [0, 1, count.wrapping_sub(1), count, count.wrapping_add(1), any as u32, u32::MAX] {
        out.push(SpnToByte(spn));
    }
    let end = 192 * u64::from(count);
    let some = [0, 1, 191, 192, u64::from(count), any, 192 * any, 192 * any + 191, u64::MAX];
    for byte in some.into_iter().chain([end.wrapping_sub(1), end, end + 1, end + 191, end + 192, 1 << 32]) {
        out.push(ByteToSpn(byte));
    }
    out.extend([ClipByteLen, TransferDuration]);
}

/// The questions about extensions: the ids of each, with one of them another, and swapped.
pub fn extensions(input: &Input, random: &mut Random, out: &mut Vec<Question>) {
    let any = random.next() as u16;
    out.extend([ExtensionEntry(2, 5), ExtensionEntry(0, 0), ExtensionEntry(any, 5)]);
    for row in some_rows(input, EXTENSIONS, random) {
        let [id1, id2] = [0, 1].map(|column| input.cell(EXTENSIONS, row as usize, column) as u16);
        out.extend([ExtensionEntry(id1, id2), ExtensionEntry(id2, id1)]);
        out.extend([ExtensionEntry(id1, any), ExtensionEntry(any, id2), ExtensionEntry(id1, id2 ^ 1)]);
    }
}

/// Each question that is lent tables once, about any row that is there, with any time.
pub fn one_of_each(input: &Input, random: &mut Random) -> [Question; 28] {
    let mut row = |table: usize| random.below(u64::from(input.tables[table].rows).max(1)) as u32;
    let [stc, atc, program, map] = [STCS, ATCS, PROGRAMS, MAPS].map(&mut row);
    let [stream, next_map, extension] = [STREAMS, MAPS, EXTENSIONS].map(row);
    let (any, at) = (random.next(), random.next() as u32);
    let cell = |table: usize, row: u32, column: usize| {
        if row < input.tables[table].rows { input.cell(table, row as usize, column) } else { at }
    };
    let [id1, id2] = [0, 1].map(|column| cell(EXTENSIONS, extension, column) as u16);
    [
        ExtensionEntry(id1, id2),
        MinutesRemaining(stc, any >> random.below(64)),
        PresentationSpan,
        Duration45k(stc),
        Duration90k(stc),
        FirstStc,
        StcsOfAtc(atc),
        StcById(any as u8),
        StcForSpn(atc, at),
        ProgramByPmtPid(cell(PROGRAMS, program, 1) as u16),
        StreamsOfProgram(program),
        StreamByPid(cell(STREAMS, stream, 0) as u16),
        PrimaryVideoPid,
        NextVideoStream(stream),
        NextAudioStream(stream),
        EntryAtOrBefore(map, at),
        EntryAfter(map, at),
        SeekSpn(map, at),
        NextSeekSpn(map, at),
        PrimarySeekSpn(at),
        PrimaryNextSeekSpn(at),
        FirstPts(map),
        LastPts(map),
        IndexedSpan(map),
        EntriesOfMap(map),
        PrimaryMap,
        MapByKind(any as u8),
        NextVideoMap(next_map),
    ]
}
