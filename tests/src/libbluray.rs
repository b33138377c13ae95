//! The command `libbluray`: a third reader of the format, libbluray, must read the new files of files that begin HDMV, as
//! they are, to the same maps and entries, and to the rest of the record wherever its own rules allow; docs/DIFFERENCES.md
//! lists where they don't. A file that begins CLPI it refuses, and its new file too.

mod data;

use crate::compare::{Difference, must};
use crate::make::{CLASSES, Maker};
use crate::model;
use crate::mutation::Mutation;
use crate::ours::Library;
use crate::record::{ATCS, CLPI, ENTRIES, MAPS, PROGRAMS, Record, STCS, STREAMS, entry_cells};
use crate::writer::Writer;
use data::{Clip, EpMapEntry, ProgStream, rows};
use std::path::PathBuf;

/// The versions that libbluray reads.
const VERSIONS: [&[u8; 4]; 4] = [b"0100", b"0200", b"0240", b"0300"];

/// What was seen.
#[derive(Default)]
struct Seen {
    files: u64,
    /// Refused, the old file and the new one, since they begin CLPI.
    letters: u64,
    /// Refused by their version.
    versions: u64,
    maps: u64,
    entries: u64,
    streams: u64,
    differences: u64,
}

/// Rewrites the accepted files among the first `count` seeds and hands each new file, as it is, to libbluray.
pub fn libbluray(count: u64) -> bool {
    // SAFETY: nothing else runs yet that could look at the environment. libbluray would tell of each refusal.
    unsafe { std::env::set_var("BD_DEBUG_MASK", "0") };
    let Some(library) = data::Library::find() else {
        println!("left out: libbluray's readings of new files: libbluray 1.3.4 isn't there");
        return true;
    };
    let (mut maker, mut record, mut seen) = (Maker::new(), Record::default(), Seen::default());
    let path = file_path();
    for seed in 0..count {
        let file = maker.make(seed);
        let length = Library.rewritten_length(file);
        if length.refusal != 0 || model::read(file, Mutation::Right, &mut record) != 0 {
            continue;
        }
        let mut new = vec![0; length.bytes as usize];
        Library.rewrite(file, &mut new);
        if let Err(why) = one(library, &path, file, &new, &record, &mut seen) {
            seen.differences += 1;
            println!("seed {seed} ({}): {why}", CLASSES[(seed % CLASSES.len() as u64) as usize].0);
        }
    }
    let _ = std::fs::remove_file(&path);
    let Seen { files, letters, versions, maps, entries, streams, differences } = seen;
    println!(
        "{files} new files read by libbluray as they are, {versions} more refused by their version: {maps} maps, {entries} entries, {streams} streams; {letters} that begin CLPI refused as the old ones are; {differences} differences"
    );
    differences == 0
}

/// Where the new file is put for libbluray: memory-backed storage, if there is some.
fn file_path() -> PathBuf {
    let shared = PathBuf::from("/dev/shm");
    let folder = if shared.is_dir() { shared } else { std::env::temp_dir() };
    folder.join(format!("clip_tests_{}.clpi", std::process::id()))
}

/// Hands one new file to libbluray and compares what it reads with the record; one that begins CLPI it must refuse, and the
/// old file too.
fn one(
    library: data::Library,
    path: &PathBuf,
    old: &[u8],
    new: &[u8],
    record: &Record,
    seen: &mut Seen,
) -> Result<(), Difference> {
    if record.scalars.letters == CLPI {
        [old, new].into_iter().try_for_each(|file| must_refuse(library, path, file))?;
        seen.letters += 1;
        return Ok(());
    }
    std::fs::write(path, new).map_err(|why| why.to_string())?;
    let known = VERSIONS.iter().any(|version| version[..] == record.scalars.version.to_be_bytes());
    match library.read(path, |clip| same(clip, record)) {
        None if known => Err("refused".into()),
        None => {
            seen.versions += 1;
            Ok(())
        }
        Some(_) if !known => Err("a version accepted that isn't known".into()),
        Some(found) => {
            seen.files += 1;
            seen.maps += record.rows(MAPS) as u64;
            seen.entries += record.rows(ENTRIES) as u64;
            seen.streams += record.rows(STREAMS) as u64;
            found
        }
    }
}

/// Hands a file to libbluray that begins CLPI, which it must refuse.
fn must_refuse(library: data::Library, path: &PathBuf, file: &[u8]) -> Result<(), Difference> {
    must(file.starts_with(b"CLPI"), || "other letters than the record's".into())?;
    std::fs::write(path, file).map_err(|why| why.to_string())?;
    must(library.read(path, |_| ()).is_none(), || "a file accepted that begins CLPI".into())
}

/// Compares libbluray's clip with a record.
fn same(clip: &Clip, record: &Record) -> Result<(), Difference> {
    let (info, scalars) = (&clip.clip, &record.scalars);
    let numbers = [info.clip_stream_type.into(), info.application_type.into(), info.ts_recording_rate];
    let wanted = [scalars.clip_stream_type, scalars.application_type, scalars.ts_recording_rate];
    must(numbers == wanted && info.num_source_packets == scalars.number_of_source_packets, || "the ClipInfo".into())?;
    must(clip.type_indicator == scalars.letters, || "the letters".into())?;
    must(clip.type_indicator2 == scalars.version, || "the version".into())?;
    ts_type(clip, record)?;
    sequences(clip, record)?;
    programs(clip, record)?;
    maps(clip, record)
}

/// The TS type block: its length is where the validity flags stand, and 0 beside none. Where there are flags, what it takes
/// for the flags is the first byte of the format id, and its format id starts with the others.
fn ts_type(clip: &Clip, record: &Record) -> Result<(), Difference> {
    let block = &clip.clip.ts_type_info;
    let [first, rest @ ..] = record.scalars.format_id.to_be_bytes();
    let wanted = if record.scalars.validity_flags == 0 { (0, [0; 3]) } else { (first, rest) };
    let given = (block.validity, [block.format_id[0], block.format_id[1], block.format_id[2]]);
    must(given == wanted, || format!("the TS type block: {given:?}, not {wanted:?}"))
}

/// Tables 1 and 2.
fn sequences(clip: &Clip, record: &Record) -> Result<(), Difference> {
    let (mut atcs, mut stcs) = (Vec::new(), Vec::new());
    for atc in rows(&clip.sequence.atc_seq, clip.sequence.num_atc_seq.into()) {
        atcs.extend([atc.spn_atc_start, atc.num_stc_seq.into(), atc.offset_stc_id.into()]);
        for stc in rows(&atc.stc_seq, atc.num_stc_seq.into()) {
            let times = [stc.presentation_start_time, stc.presentation_end_time];
            stcs.extend([stc.pcr_pid.into(), stc.spn_stc_start, times[0], times[1]]);
        }
    }
    must(atcs == record.tables[ATCS] && stcs == record.tables[STCS], || "the sequences".into())
}

/// Tables 3 and 4.
fn programs(clip: &Clip, record: &Record) -> Result<(), Difference> {
    let mut programs = Vec::new();
    let mut cells = record.tables[STREAMS].chunks_exact(5);
    for program in rows(&clip.program.progs, clip.program.num_prog.into()) {
        let streams = rows(&program.streams, program.num_streams.into());
        programs.extend([program.spn_program_sequence_start, program.program_map_pid.into(), streams.len() as u32]);
        for given in streams {
            let wanted = cells.next().ok_or("more streams")?;
            must(is_same_stream(given, wanted), || format!("a stream of cells {wanted:x?}"))?;
        }
    }
    must(programs == record.tables[PROGRAMS] && cells.next().is_none(), || "the programs".into())
}

/// Whether a stream is the one of these cells, in what libbluray reads of its coding type. The language of graphics (0x90,
/// 0x91, 0xA0) it reads a byte earlier, from the format on; for one that isn't given it reads what stands behind the body.
fn is_same_stream(given: &ProgStream, wanted: &[u32]) -> bool {
    let &[pid, kind, format, aspect, language] = wanted else { return false };
    let halves = (u32::from(given.format), u32::from(given.rate)) == (format >> 4, format & 15);
    let letters = language.to_be_bytes();
    let same_language = language == 0 || text(&given.lang) == text(&letters[1..]);
    let body = match kind {
        0x02 | 0x1B | 0x20 | 0x24 | 0xEA => halves && u32::from(given.aspect) == aspect,
        0x03 | 0x04 | 0x80..=0x86 | 0xA1 | 0xA2 => halves && same_language,
        0x92 => u32::from(given.char_code) == format && same_language,
        0x90 | 0x91 | 0xA0 => language == 0 || text(&given.lang) == text(&[format as u8, letters[1], letters[2]]),
        0x01 => halves,
        _ => true,
    };
    u32::from(given.pid) == pid && u32::from(given.coding_type) == kind && body
}

/// The letters before the first zero byte, which ends a text in C.
fn text(letters: &[u8]) -> &[u8] {
    letters.split(|byte| *byte == 0).next().unwrap_or(&[])
}

/// Tables 5 and 6, each entry joined from the rows that libbluray has read.
fn maps(clip: &Clip, record: &Record) -> Result<(), Difference> {
    let (mut maps, mut entries) = (Vec::new(), Vec::new());
    for map in rows(&clip.cpi.entry, clip.cpi.num_stream_pid.into()) {
        maps.extend([map.pid.into(), map.ep_stream_type.into(), map.num_ep_fine as u32]);
        map_entries(map, &mut entries)?;
    }
    must(maps == record.tables[MAPS], || "the maps".into())?;
    must(entries == record.tables[ENTRIES], || "the entries".into())?;
    must(clip.cpi.kind == u8::from(!maps.is_empty()), || "the CPI type".into())
}

/// The entries of a map, as libbluray's own lookup joins them: the coarse time without its lowest bit, in 45 kHz ticks.
fn map_entries(map: &EpMapEntry, out: &mut Vec<u32>) -> Result<(), Difference> {
    let coarse = rows(&map.coarse, map.num_ep_coarse as usize);
    let fine = rows(&map.fine, map.num_ep_fine as usize);
    for (k, run) in coarse.iter().enumerate() {
        let first = run.ref_ep_fine_id as usize;
        let end = coarse.get(k + 1).map_or(fine.len(), |next| next.ref_ep_fine_id as usize);
        let own = fine.get(first..end).ok_or("a coarse row that refers to no fine row")?;
        for entry in own {
            let time = ((run.pts_ep as u32 & !1) << 18) + ((entry.pts_ep as u32) << 8);
            let packet = (run.spn_ep & !0x1_FFFF) + entry.spn_ep as u32;
            let [angle, i_end] = [entry.is_angle_change_point, entry.i_end_position_offset].map(u32::from);
            out.extend(entry_cells(angle, i_end, u64::from(2 * time), packet, map.ep_stream_type.into()));
        }
    }
    Ok(())
}
