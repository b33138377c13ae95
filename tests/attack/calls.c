/* The table of exported calls. `run` of this folder sees to it that none is missing. */
#include <string.h>

#include "attack.h"

#define SLICE(i) a->in[i].at, a->in[i].bytes
#define TABLE(i) SLICE(i), a->rows[i]
#define CALL(name) static void run_##name(const struct ask *a, const struct buffer *out, uint64_t *number)

/* The answers as numbers. */
static void give_answer(uint64_t *number, struct clpi_answer r)
{
    number[0] = r.refusal;
    number[1] = r.found;
    number[2] = r.value;
}

static void give_rows(uint64_t *number, struct clpi_rows r)
{
    number[0] = r.refusal;
    number[1] = r.count;
    number[2] = r.first;
}

static void give_writing(uint64_t *number, struct clpi_writing r)
{
    number[0] = r.refusal;
    number[1] = r.bytes_needed;
    number[2] = r.bytes_written;
}

/* ---- files */

CALL(read)
{
    struct clpi_reading r = clpi_read(
        SLICE(0), out[0].at, out[0].bytes, out[1].at, out[1].bytes, out[2].at, out[2].bytes, out[3].at, out[3].bytes,
        out[4].at, out[4].bytes, out[5].at, out[5].bytes, out[6].at, out[6].bytes, out[7].at, out[7].bytes, out[8].at,
        out[8].bytes);
    uint32_t cells[MOST_NUMBERS];
    memcpy(cells, &r, sizeof cells);
    for (int i = 0; i < MOST_NUMBERS; i++)
        number[i] = cells[i];
}

CALL(rewrite) { give_writing(number, clpi_rewrite(SLICE(0), out[0].at, out[0].bytes)); }

CALL(rewritten_length)
{
    struct clpi_length r = clpi_rewritten_length(SLICE(0));
    (void)out;
    number[0] = r.refusal;
    number[1] = r.bytes;
}

CALL(extension_data)
{
    struct clpi_part r = clpi_extension_data(SLICE(0), TABLE(1), (uint32_t)a->argument[0]);
    (void)out;
    number[0] = r.refusal;
    number[1] = r.offset;
    number[2] = r.length;
}

CALL(write)
{
    struct clpi_clip_info info;
    uint32_t cells[MOST_ARGUMENTS];
    for (int i = 0; i < MOST_ARGUMENTS; i++)
        cells[i] = (uint32_t)a->argument[i];
    memcpy(&info, cells, sizeof info);
    give_writing(number, clpi_write(info, TABLE(0), TABLE(1), TABLE(2), TABLE(3), TABLE(4), TABLE(5), out[0].at, out[0].bytes));
}

/* ---- questions of one table */

#define ONE(name, ...) \
    CALL(name) \
    { \
        (void)out; \
        give_answer(number, clpi_##name(TABLE(0) __VA_ARGS__)); \
    }
#define FIRST(type) , (type)a->argument[0]
#define SECOND(type) , (type)a->argument[1]

ONE(extension_entry, FIRST(uint16_t) SECOND(uint16_t))
ONE(minutes_remaining, FIRST(uint32_t) SECOND(uint64_t))
ONE(presentation_span_90k, )
ONE(duration_45k, FIRST(uint32_t))
ONE(duration_90k, FIRST(uint32_t))
ONE(first_stc_sequence, )
ONE(program_by_pmt_pid, FIRST(uint16_t))
ONE(stream_by_pid, FIRST(uint16_t))
ONE(primary_video_pid, )
ONE(next_video_stream, FIRST(uint32_t))
ONE(next_audio_stream, FIRST(uint32_t))
ONE(primary_video_ep_map, )
ONE(ep_map_by_kind, FIRST(uint8_t))
ONE(next_video_ep_map, FIRST(uint32_t))

/* ---- questions of a table of counts and the table counted */

#define TWO(name, give, ...) \
    CALL(name) \
    { \
        (void)out; \
        give(number, clpi_##name(TABLE(0), TABLE(1) __VA_ARGS__)); \
    }

TWO(stcs_of_atc, give_rows, FIRST(uint32_t))
TWO(stc_sequence_by_id, give_answer, FIRST(uint8_t))
TWO(stc_sequence_for_spn, give_answer, FIRST(uint32_t) SECOND(uint32_t))
TWO(streams_of_program, give_rows, FIRST(uint32_t))
TWO(entry_point_at_or_before, give_answer, FIRST(uint32_t) SECOND(uint32_t))
TWO(entry_point_after, give_answer, FIRST(uint32_t) SECOND(uint32_t))
TWO(seek_spn, give_answer, FIRST(uint32_t) SECOND(uint32_t))
TWO(next_seek_spn, give_answer, FIRST(uint32_t) SECOND(uint32_t))
TWO(primary_seek_spn, give_answer, FIRST(uint32_t))
TWO(primary_next_seek_spn, give_answer, FIRST(uint32_t))
TWO(first_pts, give_answer, FIRST(uint32_t))
TWO(last_pts, give_answer, FIRST(uint32_t))
TWO(indexed_span_90k, give_answer, FIRST(uint32_t))
TWO(entries_of_map, give_rows, FIRST(uint32_t))

/* ---- the version, which nothing is lent to or asked of */

CALL(version)
{
    (void)a;
    (void)out;
    number[1] = clpi_version();
    must(number[1] == CLPI_VERSION && clpi_version_fits(), "another version than the header's");
}

/* ---- questions of no table */

CALL(clip_byte_len)
{
    (void)out;
    number[1] = clpi_clip_byte_len((uint32_t)a->argument[0]);
}

CALL(spn_to_byte)
{
    (void)out;
    give_answer(number, clpi_spn_to_byte((uint32_t)a->argument[0], (uint32_t)a->argument[1]));
}

CALL(byte_to_spn)
{
    (void)out;
    give_answer(number, clpi_byte_to_spn((uint32_t)a->argument[0], a->argument[1]));
}

CALL(transfer_duration_secs)
{
    struct clpi_seconds r = clpi_transfer_duration_secs((uint32_t)a->argument[0], (uint32_t)a->argument[1]);
    (void)out;
    number[0] = r.refusal;
    number[1] = r.found;
    memcpy(&number[2], &r.seconds, sizeof r.seconds);
}

/* ---- the table */

#define BIT(refusal) (UINT64_C(1) << (refusal))
/* The bytes of a row of table 6. */
#define ENTRY sizeof(struct clpi_ep_entry)
#define FILES (BIT(1) | BIT(2) | BIT(3) | BIT(4) | BIT(5) | BIT(6) | BIT(7) | BIT(8) | BIT(20) | BIT(41) | BIT(42))
#define NAMED(call) .name = "clpi_" #call, .run = run_##call

/* A question of one table, and of two; and the rows that a row has in the next table. */
#define QUESTION1(call, of_table, bytes, first, second, of) \
    {NAMED(call), .table = of_table, .ins = 1, .numbers = 3, .row_bytes = {bytes}, .kind = {first, second}, \
     .row_of = of, .finds = 1, .refusals = BIT(22)}
#define QUESTION2(call, of_table, at, counted, first, second, of) \
    {NAMED(call), .table = of_table, .ins = 2, .numbers = 3, .row_bytes = {12, counted}, .count_at = {at}, \
     .kind = {first, second}, .row_of = of, .finds = 1, .refusals = BIT(22)}
#define ROWS_OF(call, of_table, at, counted) \
    {NAMED(call), .table = of_table, .ins = 2, .numbers = 3, .row_bytes = {12, counted}, .count_at = {at}, \
     .kind = {ROW}, .refusals = BIT(22)}
#define OF_ATC(call, first, second, of) QUESTION2(call, 1, 4, 16, first, second, of)
#define OF_MAP(call, first, second, of) QUESTION2(call, 5, 8, ENTRY, first, second, of)
#define OF_NUMBERS(call, first, second) {NAMED(call), .numbers = 3, .kind = {first, second}, .row_of = -1, .finds = 1}

const struct call calls[] = {
    {NAMED(read), .ins = 1, .outs = 9, .numbers = MOST_NUMBERS, .row_of = -1, .out_bytes = {12, 16, 12, 20, 12, ENTRY, 16, 12, 20},
     .out_count = COUNTS, .refusals = FILES | BIT(21)},
    {NAMED(rewrite), .ins = 1, .outs = 1, .numbers = 3, .row_of = -1, .out_bytes = {1}, .out_count = 2,
     .refusals = FILES | BIT(23) | BIT(31)},
    {NAMED(rewritten_length), .ins = 1, .numbers = 2, .row_of = -1, .refusals = FILES | BIT(31)},
    {NAMED(write), .ins = 6, .outs = 1, .numbers = 3, .row_bytes = {12, 16, 12, 20, 12, ENTRY}, .count_at = {4, 0, 8, 0, 8, 0},
     .row_of = -1, .out_bytes = {1}, .out_count = 2, .refusals = BIT(22) | BIT(23) | BIT(30) | BIT(31) | BIT(40)},
    {NAMED(extension_data), .ins = 2, .numbers = 3, .row_bytes = {0, 16}, .kind = {ROW}, .row_of = 1, .refusals = BIT(22)},
    QUESTION1(extension_entry, 7, 16, WORD, WORD, -1),
    QUESTION1(minutes_remaining, 2, 16, ROW, LONG, 0),
    QUESTION1(presentation_span_90k, 2, 16, NO_ARGUMENT, NO_ARGUMENT, -1),
    QUESTION1(duration_45k, 2, 16, ROW, NO_ARGUMENT, 0),
    QUESTION1(duration_90k, 2, 16, ROW, NO_ARGUMENT, 0),
    QUESTION1(first_stc_sequence, 2, 16, NO_ARGUMENT, NO_ARGUMENT, -1),
    QUESTION1(program_by_pmt_pid, 3, 12, WORD, NO_ARGUMENT, -1),
    QUESTION1(stream_by_pid, 4, 20, WORD, NO_ARGUMENT, -1),
    QUESTION1(primary_video_pid, 4, 20, NO_ARGUMENT, NO_ARGUMENT, -1),
    QUESTION1(next_video_stream, 4, 20, CELL, NO_ARGUMENT, -1),
    QUESTION1(next_audio_stream, 4, 20, CELL, NO_ARGUMENT, -1),
    QUESTION1(primary_video_ep_map, 5, 12, NO_ARGUMENT, NO_ARGUMENT, -1),
    QUESTION1(ep_map_by_kind, 5, 12, BYTE, NO_ARGUMENT, -1),
    QUESTION1(next_video_ep_map, 5, 12, CELL, NO_ARGUMENT, -1),
    ROWS_OF(stcs_of_atc, 1, 4, 16),
    OF_ATC(stc_sequence_by_id, BYTE, NO_ARGUMENT, -1),
    OF_ATC(stc_sequence_for_spn, ROW, CELL, 0),
    ROWS_OF(streams_of_program, 3, 8, 20),
    OF_MAP(entry_point_at_or_before, ROW, CELL, 0),
    OF_MAP(entry_point_after, ROW, CELL, 0),
    OF_MAP(seek_spn, ROW, CELL, 0),
    OF_MAP(next_seek_spn, ROW, CELL, 0),
    OF_MAP(primary_seek_spn, CELL, NO_ARGUMENT, -1),
    OF_MAP(primary_next_seek_spn, CELL, NO_ARGUMENT, -1),
    OF_MAP(first_pts, ROW, NO_ARGUMENT, 0),
    OF_MAP(last_pts, ROW, NO_ARGUMENT, 0),
    OF_MAP(indexed_span_90k, ROW, NO_ARGUMENT, 0),
    ROWS_OF(entries_of_map, 5, 8, ENTRY),
    {NAMED(version), .numbers = 2, .row_of = -1},
    {NAMED(clip_byte_len), .numbers = 2, .kind = {CELL}, .row_of = -1},
    OF_NUMBERS(spn_to_byte, CELL, CELL),
    OF_NUMBERS(byte_to_spn, CELL, LONG),
    OF_NUMBERS(transfer_duration_secs, CELL, CELL),
};

const int call_count = sizeof calls / sizeof *calls;

const struct call *call_named(const char *name)
{
    for (int i = 0; i < call_count; i++)
        if (strcmp(calls[i].name, name) == 0)
            return &calls[i];
    found(name);
    return NULL;
}
