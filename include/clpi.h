/* clpi.h: Blu-ray clip information (CLPI) files, read into tables that the caller lends, and written from them.
 *
 * For C99 or C++11 and later. Link with libclpi.a (`pkg-config --libs clpi`; x86-64, 64-bit size_t). Every call of the
 * library takes every input, allocates nothing, keeps nothing, calls nothing, and ends; its machine code needs less
 * than 1 KB of stack. What it answers and stores is proved equal to the format's definitions. Not proved are the four
 * functions that this page defines itself, the figure of stack, which is counted, and the caller's side of this page:
 *
 *  - a pointer points to as many bytes as its length says, at any alignment; with length 0 it may be NULL;
 *  - the tables lent to one call overlap neither one another nor the file, the output overlaps neither the tables
 *    nor the file, and nothing else uses them meanwhile;
 *  - the bytes of the file, and of tables that are written from, do not change while a call runs. It reads them
 *    more than once, to measure and to fill: where another thread, a device or a mapped file changes them in
 *    between, memory behind a table or the output may be overwritten.
 *
 * A table is an array of the structs below, lent as bytes. The array may have any length, and what stands beyond
 * its last whole row is left alone. A refusal leaves every table and every output as it was; on success the rows
 * stand at each table's front and the new file at the output's, and beyond them is what was there before. */
#ifndef CLPI_H
#define CLPI_H

#include <stddef.h>
#include <stdint.h>

#if !defined(__x86_64__) || SIZE_MAX < UINT64_MAX
#error "libclpi.a is made for x86-64 with a 64-bit size_t"
#endif

#ifdef __cplusplus
extern "C" {
#endif

/* ---- the version
 *
 * Another major number means that programs must be changed, or compiled anew; a higher minor number, that there is more
 * to call. */

#define CLPI_VERSION_MAJOR 5
#define CLPI_VERSION_MINOR 0
#define CLPI_VERSION_PATCH 0

/* the same as one number */
#define CLPI_VERSION (CLPI_VERSION_MAJOR * 10000 + CLPI_VERSION_MINOR * 100 + CLPI_VERSION_PATCH)

/* The version of the library that is linked, as one number. */
uint32_t clpi_version(void);

/* Tells whether the library fits this header: it has the same major number and at least this minor number. A program
 * that is linked with a libclpi.a from elsewhere tests it once, before any other call. */
static inline int clpi_version_fits(void)
{
    return clpi_version() / 10000 == CLPI_VERSION_MAJOR && clpi_version() / 100 >= CLPI_VERSION / 100;
}

/* ---- refusals
 *
 * A start of 0, or at or past the file's end, is no refusal of the CPI, the marks or the extensions: the file has none
 * then, so that one cut off right before its CPI reads as a file without maps.
 *
 * Reading tests 20, 1 for 8 bytes, 2, 1 for 40 bytes, 3 to 6, the maps, 8 and 21, in this order. A map's faults have
 * three numbers, 7, 41 and 42. Maps are tested one by one, in the order of their headers, each in this order: 7 for its
 * address, 42 for the first four bytes of its body, which are the fine address, and for its coarse rows, 41 for the fine
 * address, 42 for its fine rows. The first fault found gives the number; others may be behind it. Both addresses are
 * tested against the CPI end, which is CPI start + 4 + the CPI's length. */

/* made by tools/refusals from docs/REFUSALS.md */
enum clpi_refusal {
    CLPI_OK = 0,
    /* the disc's author: faults of the file */
    CLPI_REFUSED_HEADER_SHORT = 1,  /* the file has under 8 bytes, or the right letters and under 40 */
    CLPI_REFUSED_LETTERS = 2,       /* the file begins neither with HDMV nor with CLPI */
    CLPI_REFUSED_CLIP_INFO = 3,     /* the file has under 194 bytes, or the ClipInfo passes its end */
    CLPI_REFUSED_SEQUENCES = 4,     /* the sequences pass the file's end */
    CLPI_REFUSED_PROGRAMS = 5,      /* the programs pass the file's end */
    CLPI_REFUSED_CPI = 6,           /* the CPI's length or its map headers pass the file's end */
    CLPI_REFUSED_MAP_ADDRESS = 7,   /* a map's address: its body at CPI start + 6 + address is not below the CPI end */
    CLPI_REFUSED_MARKS = 8,         /* the marks pass the file's end */
    CLPI_REFUSED_FINE_ADDRESS = 41, /* a map's fine address: body + fine address passes the CPI end */
    CLPI_REFUSED_MAP_BODY = 42,     /* a map's body: its first four bytes, coarse or fine rows pass the file's end */
    /* the caller: faults of the call */
    CLPI_REFUSED_FILE_TOO_LONG = 20, /* the file has over 536870912 bytes, `CLPI_MOST_BYTES` */
    CLPI_REFUSED_TABLE_SHORT = 21,   /* a table is too short: `table` and `rows_needed` tell which, and how many rows
                                      * it needs */
    CLPI_REFUSED_ROWS = 22,          /* a row number, stated rows or a row's data that isn't there, or counts that
                                      * don't add up to the rows stated */
    CLPI_REFUSED_OUTPUT_SHORT = 23,  /* the output is too short: `bytes_needed` tells how long it must be (writing) */
    /* the record's maker: faults of the record that is to be written */
    CLPI_REFUSED_CELLS = 30,          /* a count or a cell that its field in the file can't hold */
    CLPI_REFUSED_RUNS = 31,           /* a map has over 65535 runs */
    CLPI_REFUSED_RECORD_LETTERS = 40, /* the letters of a record are neither HDMV nor CLPI (writing) */
};

/* A refusal in words, for messages; an empty string for 0 and for what is no refusal. */
static inline const char *clpi_refusal_words(uint32_t refusal)
{
    switch (refusal) {
    case CLPI_REFUSED_HEADER_SHORT:
        return "the file is too short for the header of a clip file";
    case CLPI_REFUSED_LETTERS:
        return "the file is no clip file: it begins neither with HDMV nor with CLPI";
    case CLPI_REFUSED_CLIP_INFO:
        return "the clip information passes the file's end";
    case CLPI_REFUSED_SEQUENCES:
        return "the sequences pass the file's end";
    case CLPI_REFUSED_PROGRAMS:
        return "the programs pass the file's end";
    case CLPI_REFUSED_CPI:
        return "the length or the map headers of the entry index pass the file's end";
    case CLPI_REFUSED_MAP_ADDRESS:
        return "the address of an entry map is at or past the end of the entry index";
    case CLPI_REFUSED_MARKS:
        return "the marks pass the file's end";
    case CLPI_REFUSED_FILE_TOO_LONG:
        return "the file is longer than 536870912 bytes";
    case CLPI_REFUSED_TABLE_SHORT:
        return "a table is too short for the file's rows";
    case CLPI_REFUSED_ROWS:
        return "rows, or a row's data, that aren't there, or counts that don't add up";
    case CLPI_REFUSED_OUTPUT_SHORT:
        return "the output is too short for the new file";
    case CLPI_REFUSED_CELLS:
        return "a count or a number that its field in a clip file can't hold";
    case CLPI_REFUSED_RUNS:
        return "an entry map has over 65535 runs, more than a clip file can hold";
    case CLPI_REFUSED_RECORD_LETTERS:
        return "the record's letters are neither HDMV nor CLPI";
    case CLPI_REFUSED_FINE_ADDRESS:
        return "the fine address of an entry map passes the end of the entry index";
    case CLPI_REFUSED_MAP_BODY:
        return "the first four bytes or the rows of an entry map pass the file's end";
    default:
        return "";
    }
}
/* end of what tools/refusals makes */

/* the longest file that is read */
#define CLPI_MOST_BYTES 536870912u

/* the longest file that is written: an output of so many bytes is never too short */
#define CLPI_MOST_REWRITTEN_BYTES 402515706u

/* the most rows that an accepted file can need, table by table; 8 and 9 are as 3 and 4 */
#define CLPI_MOST_ATCS 255u
#define CLPI_MOST_STCS 65025u
#define CLPI_MOST_PROGRAMS 255u
#define CLPI_MOST_STREAMS 65025u
#define CLPI_MOST_MAPS 255u
#define CLPI_MOST_ENTRIES 66846465u
#define CLPI_MOST_EXTENSIONS 255u

/* ---- the rows of the tables */

#if defined(__BYTE_ORDER__) && __BYTE_ORDER__ != __ORDER_LITTLE_ENDIAN__
#error "the cells of a table have their lowest byte first"
#endif

/* table 1: a sequence with one arrival time clock */
struct clpi_atc {
    uint32_t spn_atc_start;
    uint32_t stc_count; /* how many of table 2's rows, in order, are its own */
    uint32_t offset_stc_id;
};

/* table 2: a sequence with one system time clock; times in 45 kHz ticks */
struct clpi_stc {
    uint32_t pcr_pid;
    uint32_t spn_stc_start;
    uint32_t presentation_start_time;
    uint32_t presentation_end_time;
};

/* tables 3 and 8: a program */
struct clpi_program {
    uint32_t spn_program_sequence_start;
    uint32_t program_map_pid;
    uint32_t stream_count; /* how many rows of table 4 (or 9), in order, are its own */
};

/* tables 4 and 9: a stream. Of the coding types 0x02, 0x1B, 0x20, 0x24 and 0xEA are video, 0x80 to 0x86, 0xA1 and 0xA2
 * audio. Video alone has an aspect, all others alone a language: three bytes, the first one highest, A to Z lowered; 0
 * for none */
struct clpi_stream {
    uint32_t pid;
    uint32_t stream_coding_type;
    uint32_t format_info_byte;
    uint32_t aspect_ratio_nibble;
    uint32_t language_code;
};

/* table 5: an entry point map */
struct clpi_ep_map {
    uint32_t stream_pid;
    uint32_t ep_stream_type;
    uint32_t entry_count; /* how many of table 6's rows, in order, are its own */
};

/* table 6: an entry point; its time in 90 kHz ticks. A file's times are below 2^32; one that is not is refused in
 * writing (CLPI_REFUSED_CELLS), and compared as it is by the questions */
struct clpi_ep_entry {
    uint32_t is_angle_change_point;
    uint32_t i_end_position_offset;
    uint64_t pts_ep_start;
    uint32_t spn_ep_start;
    uint32_t ep_stream_type;
};

/* table 7: an extension, by the place of its data in the file */
struct clpi_extension {
    uint32_t id1;
    uint32_t id2;
    uint32_t start; /* counted from the file's first byte */
    uint32_t length;
};

/* ---- reading */

/* The letters with which a clip file begins, four bytes as one number, the first one highest. Discs have HDMV, and
 * some players list no file without it. Both are read, and writing keeps them. */
#define CLPI_LETTERS_HDMV 0x48444D56u
#define CLPI_LETTERS_CLPI 0x434C5049u

/* What reading answers. Where `refusal` is not 0 every other number is 0, but for `table` and `rows_needed` with 21. */
struct clpi_reading {
    uint32_t refusal;     /* enum clpi_refusal */
    uint32_t table;       /* 21: the lowest table, 1 to 9, that is too short */
    uint32_t rows_needed; /* 21: the rows that table needs */
    uint32_t letters;     /* CLPI_LETTERS_HDMV or CLPI_LETTERS_CLPI: with which of the two the file begins */
    uint32_t version;     /* four bytes, the first one highest */
    uint32_t clip_stream_type;
    uint32_t application_type;
    uint32_t ts_recording_rate; /* bytes a second */
    uint32_t number_of_source_packets;
    uint32_t validity_flags;
    uint32_t format_id; /* four bytes, the first one highest */
    uint32_t marks;
    /* the rows of tables 1 to 9 */
    uint32_t atcs;
    uint32_t stcs;
    uint32_t programs;
    uint32_t streams;
    uint32_t maps;
    uint32_t entries;
    uint32_t extensions;
    uint32_t list_programs;
    uint32_t list_streams;
    uint32_t has_list; /* 1 where the first extension with ids 2 and 5 reads as a list of programs, maybe empty */
};

/* Reads a file. Each table is given by its first byte and its length in bytes. */
struct clpi_reading clpi_read(
    const uint8_t *file, size_t file_bytes,
    uint8_t *atcs, size_t atcs_bytes,
    uint8_t *stcs, size_t stcs_bytes,
    uint8_t *programs, size_t programs_bytes,
    uint8_t *streams, size_t streams_bytes,
    uint8_t *maps, size_t maps_bytes,
    uint8_t *entries, size_t entries_bytes,
    uint8_t *extensions, size_t extensions_bytes,
    uint8_t *list_programs, size_t list_programs_bytes,
    uint8_t *list_streams, size_t list_streams_bytes);

/* Nine tables with the rows that each has room for. */
struct clpi_tables {
    struct clpi_atc *atcs;
    size_t atcs_room;
    struct clpi_stc *stcs;
    size_t stcs_room;
    struct clpi_program *programs;
    size_t programs_room;
    struct clpi_stream *streams;
    size_t streams_room;
    struct clpi_ep_map *maps;
    size_t maps_room;
    struct clpi_ep_entry *entries;
    size_t entries_room;
    struct clpi_extension *extensions;
    size_t extensions_room;
    struct clpi_program *list_programs;
    size_t list_programs_room;
    struct clpi_stream *list_streams;
    size_t list_streams_room;
};

/* The same call on the structs. */
static inline struct clpi_reading clpi_read_tables(const uint8_t *file, size_t file_bytes, const struct clpi_tables *t)
{
    return clpi_read(
        file, file_bytes,
        (uint8_t *)t->atcs, t->atcs_room * sizeof *t->atcs,
        (uint8_t *)t->stcs, t->stcs_room * sizeof *t->stcs,
        (uint8_t *)t->programs, t->programs_room * sizeof *t->programs,
        (uint8_t *)t->streams, t->streams_room * sizeof *t->streams,
        (uint8_t *)t->maps, t->maps_room * sizeof *t->maps,
        (uint8_t *)t->entries, t->entries_room * sizeof *t->entries,
        (uint8_t *)t->extensions, t->extensions_room * sizeof *t->extensions,
        (uint8_t *)t->list_programs, t->list_programs_room * sizeof *t->list_programs,
        (uint8_t *)t->list_streams, t->list_streams_room * sizeof *t->list_streams);
}

/* ---- writing and rewriting
 *
 * Writing puts the file of a record at the output's front: the record's letters, then clip, sequences, programs, CPI
 * and empty marks, one behind the other. It tests, in this order:
 *
 *  - CLPI_REFUSED_ROWS: more rows are stated of a table than are lent, or the counts of a table (`stc_count`,
 *    `stream_count`, `entry_count`) don't add up to the rows stated of the table counted;
 *  - CLPI_REFUSED_RECORD_LETTERS: the letters are neither CLPI_LETTERS_HDMV nor CLPI_LETTERS_CLPI;
 *  - CLPI_REFUSED_CELLS: over 255 ATCs, STCs of one ATC, programs, streams of one program, or maps; over 262,143
 *    entries of a map; a time that is no multiple of 512, an I-end over 7, an entry's type that is not its map's; an
 *    aspect on a stream that is no video, a language on one that is; any other number that is too large for its field;
 *  - CLPI_REFUSED_RUNS: a map has over 65,535 runs. A run is a longest stretch of entries with equal time / 524288 and
 *    equal packet / 131072;
 *  - CLPI_REFUSED_OUTPUT_SHORT: the new file is longer than the output.
 *
 * All tests come before the first byte is stored. Neither the mark count nor tables 7 to 9 are looked at: the marks of
 * the new file are empty, and it has no extensions. A language made by hand with capitals is written as it is. */

/* The scalars of a record, as a reading has them. The stream type, the application type and the validity flags have a
 * byte each in the file: CLPI_REFUSED_CELLS where one is over 255. */
struct clpi_clip_info {
    uint32_t letters; /* CLPI_LETTERS_HDMV or CLPI_LETTERS_CLPI; else, also where it is 0, CLPI_REFUSED_RECORD_LETTERS */
    uint32_t version; /* four bytes, the first one highest: 0x30323030 is 0200 */
    uint32_t clip_stream_type;
    uint32_t application_type;
    uint32_t ts_recording_rate; /* bytes a second */
    uint32_t number_of_source_packets;
    uint32_t validity_flags;
    uint32_t format_id; /* four bytes, the first one highest: 0x48444D56 is HDMV */
};

/* What writing and rewriting answer. Other numbers are 0. */
struct clpi_writing {
    uint32_t refusal;       /* enum clpi_refusal */
    uint32_t bytes_needed;  /* 23: how long the output must be */
    uint32_t bytes_written; /* where `refusal` is 0 */
};

/* Writes a record. Each of tables 1 to 6 is given by its first byte, its length in bytes and the rows stated to be in
 * it. To learn how long the output must be, call it with none (NULL, 0): the answer is 23 with `bytes_needed`, as no
 * file is empty. */
struct clpi_writing clpi_write(
    struct clpi_clip_info info,
    const uint8_t *atcs, size_t atcs_bytes, uint32_t atc_rows,
    const uint8_t *stcs, size_t stcs_bytes, uint32_t stc_rows,
    const uint8_t *programs, size_t programs_bytes, uint32_t program_rows,
    const uint8_t *streams, size_t streams_bytes, uint32_t stream_rows,
    const uint8_t *maps, size_t maps_bytes, uint32_t map_rows,
    const uint8_t *entries, size_t entries_bytes, uint32_t entry_rows,
    uint8_t *output, size_t output_bytes);

/* The same call on the record that a reading has put into the tables, or on one made by hand: then `r` is all zeros but
 * for the scalars, of which the letters must be set, and the rows of tables 1 to 6. A reading that was refused has put
 * nothing there: its refusal is handed on, and nothing is written. */
static inline struct clpi_writing clpi_write_tables(
    const struct clpi_reading *r, const struct clpi_tables *t, uint8_t *output, size_t output_bytes)
{
    struct clpi_clip_info info;
    if (r->refusal) {
        struct clpi_writing refused = {0, 0, 0};
        refused.refusal = r->refusal;
        return refused;
    }
    info.letters = r->letters;
    info.version = r->version;
    info.clip_stream_type = r->clip_stream_type;
    info.application_type = r->application_type;
    info.ts_recording_rate = r->ts_recording_rate;
    info.number_of_source_packets = r->number_of_source_packets;
    info.validity_flags = r->validity_flags;
    info.format_id = r->format_id;
    return clpi_write(
        info,
        (const uint8_t *)t->atcs, t->atcs_room * sizeof *t->atcs, r->atcs,
        (const uint8_t *)t->stcs, t->stcs_room * sizeof *t->stcs, r->stcs,
        (const uint8_t *)t->programs, t->programs_room * sizeof *t->programs, r->programs,
        (const uint8_t *)t->streams, t->streams_room * sizeof *t->streams, r->streams,
        (const uint8_t *)t->maps, t->maps_room * sizeof *t->maps, r->maps,
        (const uint8_t *)t->entries, t->entries_room * sizeof *t->entries, r->entries,
        output, output_bytes);
}

/* Rewrites a file, straight from its bytes: reads it and writes its record, with no tables lent. It tests what reading
 * tests, in that order but for 21, then CLPI_REFUSED_RUNS, then CLPI_REFUSED_OUTPUT_SHORT. The new file begins with the
 * old one's letters and reads to the same record apart from the mark count and the extensions, every question on it has
 * the same answer, and rewriting it again changes no byte. */
struct clpi_writing clpi_rewrite(const uint8_t *file, size_t file_bytes, uint8_t *output, size_t output_bytes);

/* How long the new file is, at most CLPI_MOST_REWRITTEN_BYTES; it may be longer than the old one. `bytes` is 0 where
 * the file is refused: as by rewriting, but never by 23. */
struct clpi_length {
    uint32_t refusal; /* enum clpi_refusal */
    uint32_t bytes;
};
struct clpi_length clpi_rewritten_length(const uint8_t *file, size_t file_bytes);

/* ---- an extension and its data */

/* Where a row's data stands in the file; offset and length are 0 where `refusal` is not. */
struct clpi_part {
    uint32_t refusal; /* 0 or CLPI_REFUSED_ROWS; data of length 0 is no refusal */
    size_t offset;
    size_t length;
};

/* The place of the data of row `row`, counted from 0, of table 7 with `rows` rows stated to be in it: 22 where more
 * rows are stated than lent, where the row is not one of them, or where its data isn't inside the file. */
struct clpi_part clpi_extension_data(
    const uint8_t *file, size_t file_bytes,
    const uint8_t *extensions, size_t extensions_bytes,
    uint32_t rows, uint32_t row);

/* ---- questions
 *
 * Each is asked of the tables that it looks at, as bytes, with the rows stated to be in each. CLPI_REFUSED_ROWS where
 * more rows are stated than lent, where a row number is not one of them, or, where a table of counts and the table
 * counted are both lent, where the counts don't add up to the rows stated. A time in 90 kHz ticks has 32 bits where
 * entries are looked up, else 64: C cuts a longer one off without a word, so look up UINT32_MAX where a time is greater,
 * which has the same answer where no entry's time is 2^32 or more, as in tables that were read. Ids and types of 8
 * bits, PIDs and extension ids of 16, and row and packet numbers of 32 are cut off in the same way, so that 257 asks
 * for id 1: test longer ones first. A part of a table may be lent as a table: the streams of one program, say; and
 * tables 8 and 9 may be lent where tables 3 and 4 are asked for. */

/* An answer. `found` is 0 where there is none, which is no refusal; then, and beside a refusal, `value` is 0. Below,
 * "nothing" is `found` 0, and "0" is a value that is found. */
struct clpi_answer {
    uint32_t refusal; /* 0 or CLPI_REFUSED_ROWS */
    uint32_t found;   /* 1 where there is a value */
    uint64_t value;
};

/* The rows that belong to a row of another table; both numbers are 0 beside a refusal. */
struct clpi_rows {
    uint32_t refusal; /* 0 or CLPI_REFUSED_ROWS */
    uint32_t count;
    uint64_t first; /* the number of the first of them in their table */
};

/* The row of table 7 that has the first extension with two ids. */
struct clpi_answer clpi_extension_entry(
    const uint8_t *extensions, size_t extensions_bytes, uint32_t rows, uint16_t id1, uint16_t id2);

/* ---- questions about the ATC and STC sequences */

/* Minutes remaining at a place of the clip, the figure on a player's front. The place is an STC, by its row of table 2
 * in file order, counted from 0, and a time on that STC's own clock, in 90 kHz ticks, as the times of its entries are.
 * What remains there, in 90 kHz ticks, is twice the row's end less the time, not below 0, plus twice the durations of
 * all later rows, each its end less its start, not below 0. The sum is rounded down, once, to whole minutes of
 * 5,400,000 ticks.
 *
 * Every STC has its own clock, which seldom shows 0 where the STC starts. The row has start and end in 45 kHz ticks, so
 * on the clock the start is `2 * (uint64_t)presentation_start_time`: add that to a position counted from the start. A
 * time before it, as 0 mostly is, is taken as the start. So row 0 with time 0 asks at the clip's start: a film of 120
 * minutes whose STC starts at 27,000,000 in its row, 10 minutes on its clock, has 120 there.
 *
 * While a clip plays, ask with the row of the STC that plays, which `clpi_stc_sequence_for_spn` tells by an ATC and a
 * packet, and the time on its clock. The answer at an STC's end, or past it, is the one at the next STC's start, so the
 * figure falls from one to the next without a jump. It is CLPI_REFUSED_ROWS where `stc` is not one of the rows, so
 * always without STCs. The rows are gone over once, from `stc` on. */
struct clpi_answer clpi_minutes_remaining(
    const uint8_t *stcs, size_t stcs_bytes, uint32_t rows, uint32_t stc, uint64_t at_90k);

/* Twice the latest STC end less twice the least start, not below 0, in 90 kHz ticks; 0 without STCs. */
struct clpi_answer clpi_presentation_span_90k(const uint8_t *stcs, size_t stcs_bytes, uint32_t rows);

/* The end of an STC less its start, not below 0, in 45 kHz and in 90 kHz ticks. */
struct clpi_answer clpi_duration_45k(const uint8_t *stcs, size_t stcs_bytes, uint32_t rows, uint32_t stc);
struct clpi_answer clpi_duration_90k(const uint8_t *stcs, size_t stcs_bytes, uint32_t rows, uint32_t stc);

/* The row of the first STC, which is 0; nothing without STCs. */
struct clpi_answer clpi_first_stc_sequence(const uint8_t *stcs, size_t stcs_bytes, uint32_t rows);

/* The STCs of an ATC. */
struct clpi_rows clpi_stcs_of_atc(
    const uint8_t *atcs, size_t atcs_bytes, uint32_t atc_rows,
    const uint8_t *stcs, size_t stcs_bytes, uint32_t stc_rows,
    uint32_t atc);

/* The row of table 2 that has the STC with an id: of the first ATC in which the id less the offset id is not negative
 * and is one of its STCs. */
struct clpi_answer clpi_stc_sequence_by_id(
    const uint8_t *atcs, size_t atcs_bytes, uint32_t atc_rows,
    const uint8_t *stcs, size_t stcs_bytes, uint32_t stc_rows,
    uint8_t id);

/* The row of table 2 that has the STC of a packet in one ATC: the last whose packet is at most the one given. */
struct clpi_answer clpi_stc_sequence_for_spn(
    const uint8_t *atcs, size_t atcs_bytes, uint32_t atc_rows,
    const uint8_t *stcs, size_t stcs_bytes, uint32_t stc_rows,
    uint32_t atc, uint32_t spn);

/* ---- questions about the programs and their streams */

/* The row of table 3 that has the first program whose map table has a PID. */
struct clpi_answer clpi_program_by_pmt_pid(const uint8_t *programs, size_t programs_bytes, uint32_t rows, uint16_t pid);

/* The streams of a program. */
struct clpi_rows clpi_streams_of_program(
    const uint8_t *programs, size_t programs_bytes, uint32_t program_rows,
    const uint8_t *streams, size_t streams_bytes, uint32_t stream_rows,
    uint32_t program);

/* The row of table 4 that has the first stream with a PID. */
struct clpi_answer clpi_stream_by_pid(const uint8_t *streams, size_t streams_bytes, uint32_t rows, uint16_t pid);

/* The PID of the first video stream of table 4. */
struct clpi_answer clpi_primary_video_pid(const uint8_t *streams, size_t streams_bytes, uint32_t rows);

/* The first video or audio stream of table 4 from row `from` on; nothing where none is left. For all of them, ask from
 * 0, then from each answer plus 1. `from` is no row number: it may be any number, and is never refused. */
struct clpi_answer clpi_next_video_stream(const uint8_t *streams, size_t streams_bytes, uint32_t rows, uint32_t from);
struct clpi_answer clpi_next_audio_stream(const uint8_t *streams, size_t streams_bytes, uint32_t rows, uint32_t from);

/* ---- questions about the maps and their entries */

/* Entries of a map, by times; rows are counted within the map. The entries may be in any order. At or before: the
 * greatest time not above the one given, the earliest row among equals; row 0 if all are later; nothing in an empty
 * map. After: the least time above it, the earliest row among equals, or nothing. */
struct clpi_answer clpi_entry_point_at_or_before(
    const uint8_t *maps, size_t maps_bytes, uint32_t map_rows,
    const uint8_t *entries, size_t entries_bytes, uint32_t entry_rows,
    uint32_t map, uint32_t at_90k);
struct clpi_answer clpi_entry_point_after(
    const uint8_t *maps, size_t maps_bytes, uint32_t map_rows,
    const uint8_t *entries, size_t entries_bytes, uint32_t entry_rows,
    uint32_t map, uint32_t at_90k);

/* The packets of these entries: where to read from for a time, and the next such place. A file may name a packet that
 * its clip does not have: `clpi_spn_to_byte` finds nothing then. */
struct clpi_answer clpi_seek_spn(
    const uint8_t *maps, size_t maps_bytes, uint32_t map_rows,
    const uint8_t *entries, size_t entries_bytes, uint32_t entry_rows,
    uint32_t map, uint32_t at_90k);
struct clpi_answer clpi_next_seek_spn(
    const uint8_t *maps, size_t maps_bytes, uint32_t map_rows,
    const uint8_t *entries, size_t entries_bytes, uint32_t entry_rows,
    uint32_t map, uint32_t at_90k);

/* The same in the primary map; nothing without maps. */
struct clpi_answer clpi_primary_seek_spn(
    const uint8_t *maps, size_t maps_bytes, uint32_t map_rows,
    const uint8_t *entries, size_t entries_bytes, uint32_t entry_rows,
    uint32_t at_90k);
struct clpi_answer clpi_primary_next_seek_spn(
    const uint8_t *maps, size_t maps_bytes, uint32_t map_rows,
    const uint8_t *entries, size_t entries_bytes, uint32_t entry_rows,
    uint32_t at_90k);

/* The time of the first entry of a map, and of the last; nothing in an empty map. */
struct clpi_answer clpi_first_pts(
    const uint8_t *maps, size_t maps_bytes, uint32_t map_rows,
    const uint8_t *entries, size_t entries_bytes, uint32_t entry_rows,
    uint32_t map);
struct clpi_answer clpi_last_pts(
    const uint8_t *maps, size_t maps_bytes, uint32_t map_rows,
    const uint8_t *entries, size_t entries_bytes, uint32_t entry_rows,
    uint32_t map);

/* The last time of a map less its first, not below 0, in 90 kHz ticks; 0 in an empty map. */
struct clpi_answer clpi_indexed_span_90k(
    const uint8_t *maps, size_t maps_bytes, uint32_t map_rows,
    const uint8_t *entries, size_t entries_bytes, uint32_t entry_rows,
    uint32_t map);

/* The entries of a map. */
struct clpi_rows clpi_entries_of_map(
    const uint8_t *maps, size_t maps_bytes, uint32_t map_rows,
    const uint8_t *entries, size_t entries_bytes, uint32_t entry_rows,
    uint32_t map);

/* The row of the primary map, by the low four bits of the type: the first of type 8, else the first of 1, 5, 6, 8, else
 * the one with the least PID, the earliest among equals; nothing without maps. */
struct clpi_answer clpi_primary_video_ep_map(const uint8_t *maps, size_t maps_bytes, uint32_t rows);

/* The row of the first map of a type, by the low four bits of both. */
struct clpi_answer clpi_ep_map_by_kind(const uint8_t *maps, size_t maps_bytes, uint32_t rows, uint8_t kind);

/* The first video map, of type 1, 5, 6 or 8 by the low four bits, from row `from` on, which is no row number; nothing
 * where none is left. */
struct clpi_answer clpi_next_video_ep_map(const uint8_t *maps, size_t maps_bytes, uint32_t rows, uint32_t from);

/* ---- questions about the packet count and the rate: none is refused */

/* The clip's length in bytes: 192 for each packet. */
uint64_t clpi_clip_byte_len(uint32_t number_of_source_packets);

/* The byte at which a packet starts, for packet numbers up to and including the packet count. */
struct clpi_answer clpi_spn_to_byte(uint32_t number_of_source_packets, uint32_t spn);

/* The packet in which a byte of the clip lies. */
struct clpi_answer clpi_byte_to_spn(uint32_t number_of_source_packets, uint64_t byte);

/* The seconds that the clip's bytes take at its rate: seconds * rate and the bytes differ by at most bytes / 2^53. It is
 * the nearest double, in every rounding mode. `found` is 0 where the rate is 0, and `seconds` then too. */
struct clpi_seconds {
    uint32_t refusal; /* 0 */
    uint32_t found;   /* 1 where there is a rate */
    double seconds;
};
struct clpi_seconds clpi_transfer_duration_secs(uint32_t ts_recording_rate, uint32_t number_of_source_packets);

#ifdef __cplusplus
}
#endif

#endif
