//! The command `mutants`: readers, answerers and writers with one wrong rule, which the made files, tables and records must
//! catch.

use crate::answers::Question;
use crate::by_hand::ByHand;
use crate::compare::Comparison;
use crate::entry_rows::{EntryRows, MISREAD, Misread, RowAnswerer};
use crate::great_minutes;
use crate::limits::Limits;
use crate::long_minutes;
use crate::long_times;
use crate::make::{CLASSES, Maker};
use crate::map_faults;
use crate::mutation::{Mutation, WRONG, WRONG_OF_MAPS};
use crate::plain_answers::Plain;
use crate::plain_writer;
use crate::records::Records;
use crate::wrong::Wrong;
use crate::wrong_answers::{BY_GREAT_TABLE, BY_NAMES, NOT_BY_FILES, OF_RECORDS};
use crate::wrong_answers::{WRONG_ANSWERS, WrongAnswer, of_records, questions_of};
use crate::wrong_writes::{ALSO_BY_RECORDS, BY_FILES, BY_MAP_FAULTS, NOT_BY_RECORDS, WrongWrite, by_hand as by_limits};

/// The first seed below `count` whose file catches a reader, an answerer or a writer.
fn by_file(mutation: Mutation, mut answerer: Plain, wrong: WrongWrite, count: u64) -> Option<u64> {
    let (mut maker, mut comparison) = (Maker::new(), Comparison::new());
    let (mut reader, mut writer) = (Wrong::new(mutation), plain_writer::Plain::new(wrong));
    (0..count)
        .find(|&seed| comparison.compare(maker.make(seed), seed, &mut reader, &mut answerer, &mut writer).is_err())
}

/// The first seed below `count` whose record made by hand catches a writer.
fn by_record(wrong: WrongWrite, count: u64) -> Option<u64> {
    let (mut records, mut writer) = (Records::new(), plain_writer::Plain::new(wrong));
    let mut reader = Wrong::new(Mutation::Right);
    (0..count).find(|&seed| records.compare(seed, &mut reader, &mut writer).is_err())
}

/// The name of the first limit that catches a writer.
fn by_limit(wrong: WrongWrite) -> Option<String> {
    let writer = plain_writer::Plain::new(wrong);
    Limits { reader: Wrong::new(Mutation::Right), answerer: Plain::right(), writer }.first().map(|(name, _)| name)
}

/// The name of the first fault of a map that catches a reader or a writer.
fn by_map_fault(mutation: Mutation, wrong: WrongWrite) -> Option<String> {
    map_faults::first(&mut Wrong::new(mutation), &mut plain_writer::Plain::new(wrong))
}

/// How many wrong writers there are, and how many aren't caught: by a file and a record made by hand, or a fault of a map with
/// a name in its place, those that these can catch, the others by a limit with a name, some of them by a record too.
fn writers_not_caught(count: u64) -> [usize; 2] {
    let mut missed = 0;
    for (wrong, words) in BY_FILES {
        let file = by_file(Mutation::Right, Plain::right(), *wrong, count);
        let too = match wrong {
            wrong if NOT_BY_RECORDS.contains(wrong) => Some("no record can".into()),
            wrong if BY_MAP_FAULTS.contains(wrong) => {
                by_map_fault(Mutation::Right, *wrong).map(|name| format!("\"{name}\" too"))
            }
            wrong => by_record(*wrong, count).map(|seed| format!("record {seed} too")),
        };
        println!("{}, {}: {words}", told(file), too.as_deref().unwrap_or("NOT a record or a name"));
        missed += usize::from(file.is_none() || too.is_none());
    }
    let others = by_limits();
    missed += others.iter().filter(|(wrong, words)| !caught_by_limit(*wrong, words, count)).count();
    [BY_FILES.len() + others.len(), missed]
}

/// Whether a wrong writer is caught by a limit with a name and, where that is asked for, by a record made by hand too.
fn caught_by_limit(wrong: WrongWrite, words: &str, count: u64) -> bool {
    let name = by_limit(wrong);
    let record = ALSO_BY_RECORDS.contains(&wrong).then(|| by_record(wrong, count).is_some());
    let too = match record {
        Some(true) => ", a record too",
        Some(false) => ", no record",
        None => "",
    };
    println!("{}{too}: {words}", name.as_ref().map_or("not caught".into(), |name| format!("\"{name}\" catches")));
    name.is_some() && record != Some(false)
}

/// The first seed below `count` whose tables made by hand catch an answerer.
fn by_hand(mut answerer: Plain, count: u64) -> Option<u64> {
    let mut by_hand = ByHand::new();
    (0..count).find(|&seed| by_hand.compare(seed, &mut answerer).is_err())
}

/// The first seed below `count` whose row of records catches an answerer.
fn by_row(mut answerer: impl RowAnswerer, count: u64) -> Option<u64> {
    let mut rows = EntryRows::new();
    (0..count).find(|&seed| rows.compare(seed, &mut answerer).is_err())
}

/// How many wrong answerers about rows of records there are, and how many aren't caught: those with a rule wrong in one
/// lookup, and those that take the records for others.
fn row_answerers_not_caught(count: u64) -> [usize; 2] {
    let (mut answerers, mut missed) = (0, 0);
    let mut tell = |words: &str, seed: Option<u64>| {
        answerers += 1;
        missed += usize::from(seed.is_none());
        let caught = seed.map_or("NOT CAUGHT".into(), |seed| format!("row of records {seed} catches"));
        println!("{caught}: {words}");
    };
    for (answer, words, of) in WRONG_ANSWERS.iter().filter(|(answer, ..)| OF_RECORDS.contains(answer)) {
        for question in questions_of(*of).filter(|question| of_records(*question)) {
            tell(&format!("{question:?}: {words}"), by_row(Plain::wrong(*answer, question), count));
        }
    }
    for (words, misread) in MISREAD {
        tell(words, by_row(Misread(*misread), count));
    }
    [answerers, missed]
}

/// A seed and its class, in words.
fn told(seed: Option<u64>) -> String {
    match seed {
        Some(seed) => format!("seed {seed:>6} ({}) catches", CLASSES[(seed % CLASSES.len() as u64) as usize].0),
        None => "not caught".into(),
    }
}

/// Whether a reader with this rule wrong is caught.
fn reader_caught(mutation: Mutation, words: &str, count: u64) -> bool {
    let seed = by_file(mutation, Plain::right(), WrongWrite::Right, count);
    println!("{}: {words}", told(seed));
    seed.is_some()
}

/// Whether a reader with this rule of maps wrong is caught, by a fault with a name too.
fn map_reader_caught(mutation: Mutation, words: &str, count: u64) -> bool {
    let seed = by_file(mutation, Plain::right(), WrongWrite::Right, count);
    let name = by_map_fault(mutation, WrongWrite::Right);
    let too = name.as_ref().map_or("no fault with a name".into(), |name| format!("\"{name}\" too"));
    println!("{}, {too}: {words}", told(seed));
    seed.is_some() && name.is_some()
}

/// How many wrong readers there are, and how many aren't caught.
fn readers_not_caught(count: u64) -> [usize; 2] {
    let others = WRONG.iter().filter(|(mutation, words)| !reader_caught(*mutation, words, count)).count();
    let of_maps = WRONG_OF_MAPS.iter().filter(|(mutation, words)| !map_reader_caught(*mutation, words, count)).count();
    [WRONG.len() + WRONG_OF_MAPS.len(), others + of_maps]
}

/// Whether an answerer that has a rule wrong in one question is caught by a question with a name, where it must be: each rule
/// of minutes, and some of lookups.
fn caught_by_name(answer: WrongAnswer, question: Question) -> bool {
    let mut wrong = Plain::wrong(answer, question);
    match question {
        Question::MinutesRemaining(..) => long_minutes::first(&mut wrong).is_some(),
        _ => !BY_NAMES.contains(&answer) || long_times::first(&mut wrong).is_some(),
    }
}

/// The first seed by whose file, where a file can, and the first by whose tables made by hand an answerer is caught that
/// has a rule wrong in one question; none where it isn't caught by these, or by a question with a name where it must be.
fn answerer_caught(answer: WrongAnswer, question: Question, count: u64) -> Option<(u64, u64)> {
    let wrong = || Plain::wrong(answer, question);
    let by_file = || by_file(Mutation::Right, wrong(), WrongWrite::Right, count);
    let file = if NOT_BY_FILES.contains(&answer) { Some(0) } else { by_file() };
    let hand = by_hand(wrong(), count);
    let named = caught_by_name(answer, question);
    if file.is_none() || hand.is_none() || !named {
        println!("NOT CAUGHT {question:?}: {answer:?}: by a file {file:?}, by hand {hand:?}, by a name {named}");
        return None;
    }
    file.zip(hand)
}

/// Runs a wrong rule in each question that has it; how many there are, and how many of these are caught.
fn rule_caught(answer: WrongAnswer, words: &str, questions: &[Question], count: u64) -> usize {
    let caught: Vec<(u64, u64)> =
        questions.iter().filter_map(|&question| answerer_caught(answer, question, count)).collect();
    let [file, hand] = [|seeds: &(u64, u64)| seeds.0, |seeds: &(u64, u64)| seeds.1]
        .map(|seed| caught.iter().map(seed).max().unwrap_or(0));
    let files = if NOT_BY_FILES.contains(&answer) { "no made file".into() } else { format!("files to seed {file}") };
    println!("{files}, tables made by hand to seed {hand} catch {} of {}: {words}", caught.len(), questions.len());
    caught.len()
}

/// How many wrong answerers there are that only a great table of STCs shows, and how many it doesn't catch; those for which
/// there is no such table are left out.
fn great_tables_not_caught() -> [usize; 2] {
    let (mut answerers, mut missed) = (0, 0);
    for (answer, words, of) in WRONG_ANSWERS.iter().filter(|(answer, ..)| BY_GREAT_TABLE.contains(answer)) {
        for question in questions_of(*of) {
            let Some(name) = great_minutes::first(&mut Plain::wrong(*answer, question)) else {
                println!("left out: {words}: a great table of STCs can't be mapped");
                continue;
            };
            answerers += 1;
            missed += usize::from(name.is_none());
            println!("{}: {words}", name.map_or("NOT CAUGHT".into(), |name| format!("\"{name}\" catches")));
        }
    }
    [answerers, missed]
}

/// Runs every wrong reader, answerer and writer until it is caught, and the right ones over all seeds, which must not be.
pub fn mutants(count: u64) -> bool {
    let [readers, readers_missed] = readers_not_caught(count);
    let [mut answerers, mut answerers_missed] = great_tables_not_caught();
    for (answer, words, of) in WRONG_ANSWERS.iter().filter(|(answer, ..)| !BY_GREAT_TABLE.contains(answer)) {
        let questions: Vec<Question> = questions_of(*of).collect();
        answerers += questions.len();
        answerers_missed += questions.len() - rule_caught(*answer, words, &questions, count);
    }
    let [row_answerers, rows_missed] = row_answerers_not_caught(count);
    let [writers, missed] = writers_not_caught(count);
    let right = by_file(Mutation::Right, Plain::right(), WrongWrite::Right, count)
        .or(by_hand(Plain::right(), count))
        .or(by_row(Plain::right(), count))
        .or(by_record(WrongWrite::Right, count))
        .map(|seed| format!("seed {seed}"))
        .or(long_times::first(&mut Plain::right()))
        .or(long_minutes::first(&mut Plain::right()))
        .or(great_minutes::first(&mut Plain::right()).flatten())
        .or(by_map_fault(Mutation::Right, WrongWrite::Right))
        .or(by_limit(WrongWrite::Right));
    if let Some(name) = &right {
        println!("{name} accuses the reader, the answerer or the writer with no wrong rule");
    }
    println!(
        "{readers} wrong readers, {readers_missed} not caught; {answerers} wrong answerers, {answerers_missed} not caught; {row_answerers} about rows of records, {rows_missed} not caught; {writers} wrong writers, {missed} not caught; the right ones {}",
        if right.is_none() { "are not accused" } else { "are accused" }
    );
    readers_missed == 0 && answerers_missed == 0 && rows_missed == 0 && missed == 0 && right.is_none()
}
