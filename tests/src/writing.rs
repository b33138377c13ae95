//! The comparison of writing and rewriting: the answer, every byte of the output, and every byte about it.

use crate::answers::{Input, OF_MAPS};
use crate::canary::{Canary, Place};
use crate::compare::{Difference, must};
use crate::made::{Made, of_the_rust, read_back};
use crate::ours::Reader;
use crate::plain_writer::bytes::{encode, runs};
use crate::random::Random;
use crate::record::MAPS;
use crate::writer::{Info, Length, Writer, Writing};
use crate::wrong_writes::WrongWrite::Right;
use oracle::bdmv::clpi::ClipInformation;

/// The most runs of a map that can be written.
const MOST_RUNS: usize = 65_535;

/// What was compared of writing, in numbers.
#[derive(Clone, Copy, Default)]
pub struct Counts {
    /// New files compared with the Rust's, and their bytes.
    pub files: u64,
    pub bytes: u64,
    /// Refusals beside an output.
    pub refused: u64,
}

impl std::ops::AddAssign for Counts {
    /// Counts what another has counted too.
    fn add_assign(&mut self, other: Counts) {
        self.files += other.files;
        self.bytes += other.bytes;
        self.refused += other.refused;
    }
}

/// An output, the new file of the last record that can be written, and what was compared.
#[derive(Default)]
pub struct Writings {
    output: Canary,
    pub new: Vec<u8>,
    pub counts: Counts,
}

impl Writings {
    /// A file that is refused: rewriting and measuring it answer the same number, and no byte changes.
    pub fn refused(
        &mut self,
        file: &[u8],
        refusal: u32,
        random: &mut Random,
        writer: &mut impl Writer,
    ) -> Result<(), Difference> {
        let length = writer.rewritten_length(file);
        must(length == Length { refusal, bytes: 0 }, || format!("rewritten length: {length:?}, not {refusal}"))?;
        self.must_refuse(refusal, random, |output| writer.rewrite(file, output))
            .map_err(|why| format!("rewriting: {why}"))
    }

    /// A file that is accepted, in the tables that reading has filled: written and rewritten to the Rust's bytes behind the
    /// file's letters, or both refused by 31. The Rust's record has its languages lowered.
    pub fn accepted(
        &mut self,
        file: &[u8],
        clip: &ClipInformation,
        info: Info,
        input: &Input,
        random: &mut Random,
        writer: &mut impl Writer,
    ) -> Result<(), Difference> {
        self.new.clear();
        let wanted = if runs_fit(input) { 0 } else { 31 };
        if wanted == 31 {
            self.must_refuse(31, random, |output| writer.write(info, input, output))
                .map_err(|why| format!("writing: {why}"))?;
            return self.refused(file, 31, random, writer);
        }
        self.record(clip, info, input, random, writer)?;
        self.must_rewrite(file, random, writer)
    }

    /// Writes a record made by hand that can be written, and reads the new file back.
    pub fn made(
        &mut self,
        made: &Made,
        input: &Input,
        clip: &mut ClipInformation,
        random: &mut Random,
        reader: &mut impl Reader,
        writer: &mut impl Writer,
    ) -> Result<(), Difference> {
        of_the_rust(&made.info, input, clip);
        self.record(clip, made.info, input, random, writer)?;
        self.same_for_the_rust(clip)?;
        read_back(&self.new, &made.info, input, reader)?;
        lower_languages(clip);
        let old = std::mem::replace(&mut self.new, encoded(clip, made.info.letters)?);
        self.must_rewrite(&old, random, writer)
    }

    /// Writes a record that can be written: the bytes must be the Rust's behind the record's letters, and the plain writer's
    /// too.
    pub fn record(
        &mut self,
        clip: &ClipInformation,
        info: Info,
        input: &Input,
        random: &mut Random,
        writer: &mut impl Writer,
    ) -> Result<(), Difference> {
        self.new = encoded(clip, info.letters)?;
        must(self.new == encode(&info, input, Right), || "the plain writer's bytes and the Rust's differ".into())?;
        self.must_give(random, |output| writer.write(info, input, output)).map_err(|why| format!("writing: {why}"))
    }

    /// Rewrites a file whose new file is known, in full and by its length.
    pub fn must_rewrite(
        &mut self,
        file: &[u8],
        random: &mut Random,
        writer: &mut impl Writer,
    ) -> Result<(), Difference> {
        let (length, bytes) = (writer.rewritten_length(file), self.new.len() as u32);
        must(length == Length { refusal: 0, bytes }, || format!("rewritten length: {length:?}, not of {bytes} bytes"))?;
        self.must_give(random, |output| writer.rewrite(file, output)).map_err(|why| format!("rewriting: {why}"))
    }

    /// The Rust reads the new file to the same record, with no marks and no extensions; what it reads.
    pub fn same_for_the_rust(&self, clip: &ClipInformation) -> Result<ClipInformation, Difference> {
        let again = ClipInformation::parse(&self.new).map_err(|why| format!("the Rust refuses the new file: {why}"))?;
        let same = again.version == clip.version
            && again.clip_info == clip.clip_info
            && again.sequence_info == clip.sequence_info
            && again.program_info == clip.program_info
            && again.cpi == clip.cpi;
        must(same, || "the Rust reads the new file to another record".into())?;
        let extensions = !again.extension.entries.is_empty() || again.extension.program_info_ss.is_some();
        must(again.clip_mark.num_marks == 0 && !extensions, || "the new file has marks or extensions".into())?;
        Ok(again)
    }

    /// An output that suffices gets the new file at its front; one that is short by a byte, or by any number, is told the
    /// length needed; no other byte changes.
    fn must_give(&mut self, random: &mut Random, mut call: impl FnMut(&mut [u8]) -> Writing) -> Result<(), Difference> {
        let bytes = self.new.len();
        let more = if random.one_in(2) { 0 } else { random.between(1, 40) as usize };
        self.output.reset(bytes + more, Place::any(random));
        let answer = call(self.output.slice());
        let wanted = Writing::written(bytes);
        must(answer == wanted, || format!("answered {answer:?}, not {wanted:?}"))?;
        self.same_bytes(self.output.written(bytes))?;
        must(!self.output.changed_beyond(bytes), || "a byte beyond the new file has changed".into())?;
        self.counts.files += 1;
        self.counts.bytes += bytes as u64;
        let any = if random.one_in(3) { 0 } else { random.below(bytes as u64) as usize };
        for room in [bytes - 1, any] {
            self.must_answer(room, Writing::too_short(bytes), random, &mut call)?;
        }
        Ok(())
    }

    /// Compares the bytes that were written with the new file.
    fn same_bytes(&self, given: &[u8]) -> Result<(), Difference> {
        if given == self.new {
            return Ok(());
        }
        let at = given.iter().zip(&self.new).position(|(given, wanted)| given != wanted).unwrap_or(0);
        Err(format!("byte {at} of {}: {:02x}, not {:02x}", self.new.len(), given[at], self.new[at]))
    }

    /// With a long output and with none, the answer is this refusal and no byte changes.
    pub fn must_refuse(
        &mut self,
        refusal: u32,
        random: &mut Random,
        mut call: impl FnMut(&mut [u8]) -> Writing,
    ) -> Result<(), Difference> {
        let long = random.between(1, 1000) as usize;
        for room in [long, 0] {
            self.must_answer(room, Writing::refused(refusal), random, &mut call)?;
        }
        Ok(())
    }

    /// With an output of so many bytes, the answer is this refusal and no byte changes.
    pub fn must_answer(
        &mut self,
        room: usize,
        wanted: Writing,
        random: &mut Random,
        mut call: impl FnMut(&mut [u8]) -> Writing,
    ) -> Result<(), Difference> {
        self.output.reset(room, Place::any(random));
        let answer = call(self.output.slice());
        must(answer == wanted, || format!("an output of {room} bytes: answered {answer:?}, not {wanted:?}"))?;
        must(!self.output.changed_beyond(0), || format!("a byte has changed beside refusal {}", wanted.refusal))?;
        self.counts.refused += 1;
        Ok(())
    }
}

/// The Rust's new file with these letters for its own: it writes CLPI, whatever it has read.
fn encoded(clip: &ClipInformation, letters: u32) -> Result<Vec<u8>, Difference> {
    let mut new = clip.encode();
    must(new.starts_with(b"CLPI"), || "the Rust writes other letters than CLPI".into())?;
    new[..4].copy_from_slice(&letters.to_be_bytes());
    Ok(new)
}

/// Whether no map has more runs than can be written.
fn runs_fit(input: &Input) -> bool {
    (0..input.tables[MAPS].rows as usize).all(|map| {
        let [first, end] = [map, map + 1].map(|heads| input.sum(OF_MAPS, heads) as usize);
        end - first <= MOST_RUNS || runs(input, first..end, Right).len() <= MOST_RUNS
    })
}

/// Lowers the languages of the Rust's record, which writes the capitals that it has read.
pub fn lower_languages(clip: &mut ClipInformation) {
    for stream in clip.program_info.programs.iter_mut().flat_map(|program| &mut program.streams) {
        stream.language_code.make_ascii_lowercase();
    }
}
