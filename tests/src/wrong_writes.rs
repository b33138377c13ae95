//! The wrong rules of writing and rewriting that the comparison must catch, one at a time.

use crate::record::{ATCS, ENTRIES, MAPS, PROGRAMS, STCS, STREAMS, TIME_HIGH};

/// Which rule a writer has wrong.
#[derive(Clone, Copy, PartialEq, Eq, Debug)]
pub enum WrongWrite {
    /// No rule.
    Right,
    // whole files
    OldFile,
    FixedFile,
    AllRefused,
    Untouched,
    // the letters that are written
    ClpiAlways,
    HdmvAlways,
    LettersLowestFirst,
    RewrittenClpi,
    // the head
    RateAndPacketsSwapped,
    FlagsLate,
    FormatIdEarly,
    ExtensionsAtEnd,
    MarksLeftOut,
    MarksStartZero,
    StartsSwapped,
    InfoLengthOf150,
    // sections
    LengthWithItself,
    /// The count of a table's rows, or of a head's own rows, one too many.
    RowsOff(usize),
    OwnRowsOff(usize),
    OffsetIdDropped,
    EndForStart,
    LanguageDropped,
    LanguageLowered,
    LanguageAlways,
    AspectDropped,
    AspectLowBits,
    AspectOfAudio,
    FormatDropped,
    // CPI
    FirstMapOnly,
    RunByTime,
    RunByPacket,
    RunNotLongest,
    LowPacketCleared,
    FirstFineFromOne,
    CoarseTimeOf12Bits,
    CoarseCountOff,
    FineCountOff,
    FineAddressFromRows,
    AddressFromCpiStart,
    AddressOfFirst,
    FineTimeOf10Bits,
    FinePacketOf16Bits,
    AngleDropped,
    IEndDropped,
    MapTypeDropped,
    CountOfNoMaps,
    // answers and outputs
    OutputCut,
    ExactRefused,
    MissingTold,
    NeededBesideSuccess,
    WrittenBesideRefusal,
    RoomTold,
    RestCleared,
    TouchedBefore23,
    TouchedBefore31,
    TouchedBefore30,
    TouchedBefore40,
    TouchedBefore22,
    TouchedBeforeReading,
    RewriteTells7,
    LengthTells7,
    RewriteOf4096,
    LengthOfOldFile,
    LengthBesideRefusal,
    LengthWithoutRuns,
    // the order of refusals
    CellsBeforeRows,
    RunsBeforeRows,
    OutputBeforeRows,
    LettersBeforeRows,
    LettersBeforeStated,
    LettersBeforeCounts,
    CellsBeforeLetters,
    RunsBeforeLetters,
    OutputBeforeLetters,
    RunsBeforeCells,
    OutputBeforeCells,
    OutputBeforeRuns,
    // 22
    StatedNotTested(usize),
    RoomForStated(usize),
    CountsMayFallShort(usize),
    CountsMayExceed(usize),
    CountsIn32Bits(usize),
    // 40
    LettersNotTested,
    ZeroLettersAccepted,
    SwappedLettersAccepted,
    SmallLettersAccepted,
    ThreeLettersTested,
    HdmvRefused,
    ClpiRefused,
    RewriteGives40,
    LengthGives40,
    // 30, by the table and its column, or by the place of a number beside the tables
    CellNotTested(usize, usize),
    CellEdgeRefused(usize, usize),
    NumberNotTested(usize),
    NumberEdgeRefused(usize),
    RowsNotTested(usize),
    RowsEdgeRefused(usize),
    TimeNotTested,
    TypeNotTested,
    AspectOnAudioAccepted,
    LanguageOnVideoAccepted,
    FirstRowTested(usize),
    FirstMapTested,
    // 31
    RunsNotTested,
    RunsEdgeRefused,
    RunsOfAllMaps,
    RunsOfFirstMap,
}

use WrongWrite::*;

/// The wrong rules that a made file catches, in words.
pub const BY_FILES: &[(WrongWrite, &str)] = &[
    (OldFile, "the old file handed over"),
    (FixedFile, "one fixed file for all"),
    (AllRefused, "a refusal of all"),
    (Untouched, "the output never written"),
    (ClpiAlways, "the letters CLPI always written"),
    (HdmvAlways, "the letters HDMV always written"),
    (LettersLowestFirst, "the letters written with their first byte lowest"),
    (RewrittenClpi, "the letters CLPI always written by rewriting alone"),
    (HdmvRefused, "the letters HDMV refused by 40"),
    (ClpiRefused, "the letters CLPI refused by 40"),
    (RewriteGives40, "40 from rewriting"),
    (LengthGives40, "40 from the rewritten length"),
    (RateAndPacketsSwapped, "rate and packet count swapped"),
    (FlagsLate, "the validity flags one byte late"),
    (FormatIdEarly, "the format id one byte early"),
    (ExtensionsAtEnd, "an extension start that isn't 0"),
    (MarksLeftOut, "no marks"),
    (MarksStartZero, "the marks' start 0"),
    (StartsSwapped, "the starts of sequences and programs swapped"),
    (InfoLengthOf150, "a ClipInfo length of 150"),
    (LengthWithItself, "a section's length with its own four bytes"),
    (RowsOff(ATCS), "the ATC count one off"),
    (RowsOff(PROGRAMS), "the program count one off"),
    (RowsOff(MAPS), "the map count one off"),
    (OwnRowsOff(ATCS), "an ATC's STC count one off"),
    (OwnRowsOff(PROGRAMS), "a program's stream count one off"),
    (OffsetIdDropped, "an offset id dropped"),
    (EndForStart, "an STC's end for its start"),
    (LanguageDropped, "a language dropped"),
    (LanguageAlways, "a body of 5 bytes without a language"),
    (AspectDropped, "an aspect dropped"),
    (AspectLowBits, "the aspect in the low four bits"),
    (AspectOfAudio, "a body of 3 bytes for what isn't video"),
    (FormatDropped, "a format dropped"),
    (FirstMapOnly, "only the first map"),
    (RunByTime, "a run keyed by its time alone"),
    (RunByPacket, "a run keyed by its packet alone"),
    (RunNotLongest, "a run for each entry"),
    (LowPacketCleared, "the low bits of a coarse row's packet cleared"),
    (FirstFineFromOne, "first fine rows counted from 1"),
    (CoarseTimeOf12Bits, "a coarse time of 12 bits"),
    (CoarseCountOff, "the coarse count one off"),
    (FineCountOff, "the fine count one off"),
    (FineAddressFromRows, "the fine address counted from the coarse rows"),
    (AddressFromCpiStart, "a map's address counted from the CPI start"),
    (AddressOfFirst, "the first map's address for every map"),
    (FineTimeOf10Bits, "a fine time of 10 bits"),
    (FinePacketOf16Bits, "a fine packet of 16 bits"),
    (AngleDropped, "the angle bit dropped"),
    (IEndDropped, "the I-end dropped"),
    (MapTypeDropped, "the map type dropped"),
    (CountOfNoMaps, "a map count where there are no maps"),
    (OutputCut, "as many bytes written as there is room for"),
    (ExactRefused, "an output that is just long enough refused"),
    (MissingTold, "23 tells the bytes missing, not the bytes needed"),
    (NeededBesideSuccess, "the bytes needed told beside a success"),
    (WrittenBesideRefusal, "bytes written told beside 23"),
    (RoomTold, "the output's length told for the bytes written"),
    (RestCleared, "the bytes beyond the last one cleared"),
    (TouchedBefore23, "the output touched before 23"),
    (TouchedBeforeReading, "the output touched before the file's refusal"),
    (RewriteTells7, "7 from rewriting for every fault of a map"),
    (LengthTells7, "7 from the rewritten length for every fault of a map"),
    (LengthOfOldFile, "the old file's length for the new one's"),
    (LengthBesideRefusal, "a length told beside a refusal"),
    (OutputBeforeRows, "23 before the file's refusal"),
];

/// Those of them that no record made by hand catches: the old files of these are new files already, or not refused.
pub const NOT_BY_RECORDS: [WrongWrite; 3] = [TouchedBeforeReading, LengthOfOldFile, LengthBesideRefusal];

/// Those of them that a fault of a map with a name must catch, in place of a record.
pub const BY_MAP_FAULTS: [WrongWrite; 2] = [RewriteTells7, LengthTells7];

/// Those of the rules below that a record made by hand of a seed must catch too: those of the letters.
pub const ALSO_BY_RECORDS: [WrongWrite; 11] = [
    TouchedBefore40,
    LettersBeforeRows,
    LettersBeforeStated,
    LettersBeforeCounts,
    CellsBeforeLetters,
    OutputBeforeLetters,
    LettersNotTested,
    ZeroLettersAccepted,
    SwappedLettersAccepted,
    SmallLettersAccepted,
    ThreeLettersTested,
];

/// The wrong rules that take a record made by hand, or a file of many rows, in words; each must be caught by one with a name.
pub fn by_hand() -> Vec<(WrongWrite, String)> {
    let mut rules: Vec<(WrongWrite, String)> = vec![
        (LanguageLowered, "a language in capitals lowered".into()),
        (TouchedBefore31, "the output touched before 31".into()),
        (TouchedBefore30, "the output touched before 30".into()),
        (TouchedBefore40, "the output touched before 40".into()),
        (TouchedBefore22, "the output touched before 22".into()),
        (CellsBeforeRows, "30 before 22".into()),
        (RunsBeforeRows, "31 before 22".into()),
        (OutputBeforeRows, "23 before 22".into()),
        (LettersBeforeRows, "40 before 22".into()),
        (LettersBeforeStated, "40 before 22 of more rows stated than lent".into()),
        (LettersBeforeCounts, "40 before 22 of counts that don't add up".into()),
        (CellsBeforeLetters, "30 before 40".into()),
        (RunsBeforeLetters, "31 before 40".into()),
        (OutputBeforeLetters, "23 before 40".into()),
        (RunsBeforeCells, "31 before 30".into()),
        (OutputBeforeCells, "23 before 30".into()),
        (OutputBeforeRuns, "23 before 31".into()),
        (RewriteOf4096, "21 from rewriting a file of more than 4,096 rows".into()),
        (LengthWithoutRuns, "a length told where rewriting is refused by 31".into()),
        (LettersNotTested, "letters of any kind written".into()),
        (ZeroLettersAccepted, "letters 0 written".into()),
        (SwappedLettersAccepted, "letters with their first byte lowest written".into()),
        (SmallLettersAccepted, "small letters written".into()),
        (ThreeLettersTested, "the fourth letter not tested".into()),
        (TimeNotTested, "a time that is no multiple of 512".into()),
        (TypeNotTested, "an entry type unlike its map's".into()),
        (AspectOnAudioAccepted, "an aspect on what isn't video".into()),
        (LanguageOnVideoAccepted, "a language on video".into()),
        (FirstMapTested, "the first map's entries tested alone".into()),
        (RunsNotTested, "65,536 runs accepted".into()),
        (RunsEdgeRefused, "65,535 runs refused".into()),
        (RunsOfAllMaps, "the runs of all maps counted together".into()),
        (RunsOfFirstMap, "the runs of the first map counted alone".into()),
    ];
    for table in 0..6 {
        rules.push((StatedNotTested(table), format!("more rows stated than lent of table {}", table + 1)));
        rules.push((RoomForStated(table), format!("the rows lent taken for those stated of table {}", table + 1)));
        rules.push((FirstRowTested(table), format!("the cells of table {}'s first row tested alone", table + 1)));
    }
    for heads in [ATCS, PROGRAMS, MAPS] {
        rules.push((CountsMayFallShort(heads), format!("counts of table {} that add up to less", heads + 1)));
        rules.push((CountsMayExceed(heads), format!("counts of table {} that add up to more", heads + 1)));
        rules.push((CountsIn32Bits(heads), format!("counts of table {} added up in 32 bits", heads + 1)));
        rules.push((RowsNotTested(heads), format!("256 rows of table {}", heads + 1)));
        rules.push((RowsEdgeRefused(heads), format!("255 rows of table {} refused", heads + 1)));
    }
    for (table, column) in NARROW {
        rules.push((CellNotTested(table, column), format!("cell {column} of table {} too wide", table + 1)));
        rules.push((
            CellEdgeRefused(table, column),
            format!("cell {column} of table {} refused at its greatest", table + 1),
        ));
    }
    for place in [1, 2, 5] {
        rules.push((NumberNotTested(place), format!("number {place} of the clip too wide")));
        rules.push((NumberEdgeRefused(place), format!("number {place} of the clip refused at its greatest")));
    }
    rules
}

/// The cells that have fewer than 32 bits in the file, by table and column; an entry's type is its map's.
const NARROW: [(usize, usize); 16] = [
    (ATCS, 1),
    (ATCS, 2),
    (STCS, 0),
    (PROGRAMS, 1),
    (PROGRAMS, 2),
    (STREAMS, 0),
    (STREAMS, 1),
    (STREAMS, 2),
    (STREAMS, 3),
    (STREAMS, 4),
    (MAPS, 0),
    (MAPS, 1),
    (MAPS, 2),
    (ENTRIES, 0),
    (ENTRIES, 1),
    (ENTRIES, TIME_HIGH),
];
