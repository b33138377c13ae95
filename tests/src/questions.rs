//! The comparison of the questions on one set of tables: an answerer against the Rust and the plain definitions.

mod asked;

use crate::answers::{Answer, Answerer, Counted, Input, Question, Question::*};
use crate::compare::{Difference, must};
use crate::plain_answers;
use crate::random::Random;
use crate::record::row_bytes;
use crate::rust_answers;
use crate::wrong_answers::WrongAnswer;
use oracle::bdmv::clpi::{ClipInfo, ClipInformation};
use std::ops::AddAssign;

/// How many questions were asked, and in which ways.
#[derive(Clone, Copy, Default)]
pub struct Questions {
    /// Compared with the plain answer.
    pub asked: u64,
    /// Of those, compared with the Rust too; and entry lookups among these.
    pub of_the_rust: u64,
    pub lookups_of_the_rust: u64,
    /// To be refused.
    pub refused: u64,
}

impl AddAssign for Questions {
    /// Counts those of another run too.
    fn add_assign(&mut self, other: Questions) {
        self.asked += other.asked;
        self.of_the_rust += other.of_the_rust;
        self.lookups_of_the_rust += other.lookups_of_the_rust;
        self.refused += other.refused;
    }
}

impl Questions {
    /// Asks every question of the tables, rightly and so that it must be refused; `clip` is the Rust's record of them.
    pub fn compare(
        &mut self,
        input: &Input,
        clip: Option<&ClipInformation>,
        random: &mut Random,
        answerer: &mut impl Answerer,
    ) -> Result<(), Difference> {
        for question in every_question(input, random) {
            self.same(question, input, clip, answerer)?;
        }
        self.other_counts(input, clip, random, answerer)?;
        if let Some(clip) = clip {
            self.programs_alone(input, clip, random, answerer)?;
            self.list(input, clip, random, answerer)?;
        }
        for question in asked::one_of_each(input, random) {
            self.too_few_rows(question, input, random, answerer)?;
            self.rows_not_there(question, input, random, answerer)?;
            self.same(question, &fewer_stated(question, input, random), None, answerer)?;
            if let Some(counted) = question.counted() {
                self.counts(question, counted, input, random, answerer)?;
            }
        }
        Ok(())
    }

    /// The answer must be the plain one, and that must be the Rust's where there is one.
    fn same(
        &mut self,
        question: Question,
        input: &Input,
        clip: Option<&ClipInformation>,
        answerer: &mut impl Answerer,
    ) -> Result<(), Difference> {
        self.agree(question, input, clip.and_then(|clip| rust_answers::answer(question, clip)), answerer)
    }

    /// The answer must be the plain one, and that must be the one given of the Rust.
    fn agree(
        &mut self,
        question: Question,
        input: &Input,
        rust: Option<Answer>,
        answerer: &mut impl Answerer,
    ) -> Result<(), Difference> {
        self.asked += 1;
        let wanted = plain_answers::answer(question, input, WrongAnswer::Right);
        if let Some(rust) = rust {
            self.of_the_rust += 1;
            self.lookups_of_the_rust += u64::from(question.is_lookup());
            must(rust == wanted, || {
                format!("{question:?}: the Rust's answer {rust:?}\nnot {wanted:?} {}", told(question, input))
            })?;
        }
        let given = answerer.ask(question, input);
        must(given == wanted, || format!("{question:?}: answered {given:?}\nnot {wanted:?} {}", told(question, input)))
    }

    /// The length and the duration of other packet counts and rates.
    fn other_counts(
        &mut self,
        input: &Input,
        clip: Option<&ClipInformation>,
        random: &mut Random,
        answerer: &mut impl Answerer,
    ) -> Result<(), Difference> {
        let [rate, packets] = [(); 2].map(|()| random.next() as u32 >> random.below(32));
        for (rate, packets) in [(rate, input.packets), (rate, packets), (0, packets)] {
            let other = Input { rate, packets, ..*input };
            for question in [ClipByteLen, TransferDuration] {
                let info = clip.map(|clip| ClipInfo {
                    ts_recording_rate: rate,
                    number_of_source_packets: packets,
                    ..clip.clip_info
                });
                self.agree(question, &other, info.and_then(|info| rust_answers::of_info(question, &info)), answerer)?;
            }
        }
        Ok(())
    }

    /// The streams of some programs, each program's lent as a table of their own.
    fn programs_alone(
        &mut self,
        input: &Input,
        clip: &ClipInformation,
        random: &mut Random,
        answerer: &mut impl Answerer,
    ) -> Result<(), Difference> {
        for program in asked::some_programs(input, random) {
            let part = input.streams_of(program as usize);
            let mut questions = Vec::new();
            asked::pids_of_program(input, program, random, &mut questions);
            asked::next_streams(&part, random, &mut questions);
            for question in questions {
                let rust = rust_answers::of_program(question, &clip.program_info.programs[program as usize]);
                self.agree(question, &part, rust, answerer)?;
            }
        }
        Ok(())
    }

    /// The programs and streams of the (2, 5) list, where there is one.
    fn list(
        &mut self,
        input: &Input,
        clip: &ClipInformation,
        random: &mut Random,
        answerer: &mut impl Answerer,
    ) -> Result<(), Difference> {
        let Some(list) = &clip.extension.program_info_ss else { return Ok(()) };
        let input = input.of_the_list();
        let mut questions = Vec::new();
        asked::programs(&input, random, &mut questions);
        asked::streams(&input, random, &mut questions);
        for question in questions {
            self.agree(question, &input, rust_answers::of_programs(question, list), answerer)?;
        }
        Ok(())
    }

    /// The answer must be 22, and so must the plain one.
    fn refused(
        &mut self,
        question: Question,
        input: &Input,
        what: &str,
        answerer: &mut impl Answerer,
    ) -> Result<(), Difference> {
        self.refused += 1;
        let plain = plain_answers::answer(question, input, WrongAnswer::Right);
        must(plain == Answer::REFUSED, || format!("{question:?}: {what}: the plain answer is {plain:?}"))?;
        let given = answerer.ask(question, input);
        must(given == Answer::REFUSED, || format!("{question:?}: {what}: answered {given:?} {}", told(question, input)))
    }

    /// Each table of a question in turn has more rows stated than lent.
    fn too_few_rows(
        &mut self,
        question: Question,
        input: &Input,
        random: &mut Random,
        answerer: &mut impl Answerer,
    ) -> Result<(), Difference> {
        for &table in question.tables() {
            let whole = input.tables[table];
            let there = input.room(table) as u32;
            for rows in [there + 1, random.pick(&[there.saturating_add(1 << 31), u32::MAX])] {
                self.refused(question, &input.with(table, whole.bytes, rows), "more rows stated than lent", answerer)?;
            }
            if whole.rows > 0 {
                let needed = whole.rows as usize * row_bytes(table);
                let part = random.between(1, row_bytes(table) as u64) as usize;
                let missing = random.pick(&[1, part, needed]);
                let bytes = &whole.bytes[..needed - missing];
                self.refused(question, &input.with(table, bytes, whole.rows), "fewer bytes lent", answerer)?;
            }
        }
        Ok(())
    }

    /// A question that names a row is asked about rows that aren't there.
    fn rows_not_there(
        &mut self,
        question: Question,
        input: &Input,
        random: &mut Random,
        answerer: &mut impl Answerer,
    ) -> Result<(), Difference> {
        let Some(&table) = question.tables().first() else { return Ok(()) };
        let rows = input.tables[table].rows;
        for row in [rows, random.pick(&[rows.saturating_add(1), rows | 1 << 31, u32::MAX])] {
            if let Some(question) = question.about_row(row) {
                self.refused(question, input, "a row that isn't there", answerer)?;
            }
        }
        Ok(())
    }

    /// The counts don't add up to the rows stated of the table counted.
    fn counts(
        &mut self,
        question: Question,
        counted: Counted,
        input: &Input,
        random: &mut Random,
        answerer: &mut impl Answerer,
    ) -> Result<(), Difference> {
        let (heads, rows) = (input.tables[counted.heads], input.tables[counted.rows]);
        for stated in [rows.rows.wrapping_sub(1), rows.rows.wrapping_add(1)] {
            let other = input.with(counted.rows, rows.bytes, stated);
            self.refused(question, &other, "one row stated more or less", answerer)?;
        }
        if heads.rows == 0 {
            return Ok(());
        }
        let count = |head: u64| input.cell(counted.heads, head as usize, counted.column);
        let head = random.below(heads.rows.into());
        let near = random.pick(&[count(head).wrapping_add(1), count(head).wrapping_sub(1)]);
        let any = count(head) ^ 1 << random.below(32);
        for other in [near, random.pick(&[u32::MAX, any])] {
            if other != count(head) {
                let bytes = with_counts(input, counted, &[(head, other)]);
                let other = input.with(counted.heads, &bytes, heads.rows);
                self.refused(question, &other, "a count that is another", answerer)?;
            }
        }
        let next = random.below(heads.rows.into());
        if next == head { Ok(()) } else { self.two_counts(question, counted, input, [head, next], random, answerer) }
    }

    /// The counts of two rows are 2^32 too many; then the border between the two is moved, and they add up.
    fn two_counts(
        &mut self,
        question: Question,
        counted: Counted,
        input: &Input,
        [head, next]: [u64; 2],
        random: &mut Random,
        answerer: &mut impl Answerer,
    ) -> Result<(), Difference> {
        let rows = input.tables[counted.heads].rows;
        let [one, other] = [head, next].map(|head| input.cell(counted.heads, head as usize, counted.column));
        if other < u32::MAX - one {
            let more = random.between(u64::from(other) + 1, u64::from(u32::MAX - one)) as u32;
            let bytes = with_counts(input, counted, &[(head, one + more), (next, other.wrapping_sub(more))]);
            let input = input.with(counted.heads, &bytes, rows);
            self.refused(question, &input, "counts that are 2^32 too many", answerer)?;
        }
        let moved = random.below(u64::from(other) + 1) as u32;
        let bytes = with_counts(input, counted, &[(head, one + moved), (next, other - moved)]);
        self.same(question, &input.with(counted.heads, &bytes, rows), None, answerer)
    }
}

/// Every question with the arguments that matter on these tables.
fn every_question(input: &Input, random: &mut Random) -> Vec<Question> {
    let mut questions = Vec::new();
    let primary = plain_answers::answer(PrimaryMap, input, WrongAnswer::Right);
    let primary = (primary.found == 1).then_some(primary.value as u32);
    asked::times(input, random, &mut questions);
    asked::sequences(input, random, &mut questions);
    asked::programs(input, random, &mut questions);
    asked::streams(input, random, &mut questions);
    asked::maps(input, random, &mut questions);
    asked::entries(input, primary, random, &mut questions);
    asked::packets(input, random, &mut questions);
    asked::extensions(input, random, &mut questions);
    questions
}

/// The tables of a question, in words; of long ones only the lengths.
fn told(question: Question, input: &Input) -> String {
    let mut words = format!("with rate {} and {} packets", input.rate, input.packets);
    for &table in question.tables() {
        let input = input.tables[table];
        words += &format!(", table {} of {} rows and {} bytes", table + 1, input.rows, input.bytes.len());
        if input.bytes.len() <= 400 {
            words += &format!(" {:02x?}", input.bytes);
        }
    }
    words
}

/// The same tables with fewer rows stated. Of a table of counts and the table counted they mostly add up, and else are any.
fn fewer_stated<'a>(question: Question, input: &Input<'a>, random: &mut Random) -> Input<'a> {
    let mut fewer = *input;
    for &table in question.tables() {
        fewer.tables[table].rows = random.below(u64::from(input.tables[table].rows) + 1) as u32;
    }
    if let Some(counted) = question.counted() {
        if !random.one_in(8) {
            fewer.tables[counted.rows].rows = input.sum(counted, fewer.tables[counted.heads].rows as usize) as u32;
        }
    }
    fewer
}

/// A copy of a table of counts with other counts.
fn with_counts(input: &Input, counted: Counted, counts: &[(u64, u32)]) -> Vec<u8> {
    let mut bytes = input.tables[counted.heads].bytes.to_vec();
    for &(head, count) in counts {
        let at = head as usize * row_bytes(counted.heads) + 4 * counted.column;
        bytes[at..at + 4].copy_from_slice(&count.to_le_bytes());
    }
    bytes
}
