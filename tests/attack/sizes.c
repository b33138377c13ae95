/* Lengths that no arithmetic of 32 bits holds: the longest file and one byte more, tables and outputs of about 2^32
 * bytes, 2^32 - 1 rows that are there. The memory is zeros that take no room until they are written. */
#include <stdio.h>
#include <string.h>

#include "attack.h"

static const size_t about_2_32[] = {0xFFFFFFFFu, 0x100000000u, 0x100000001u, 0x100000000u + 12, 0x180000000u};
enum { LENGTHS = sizeof about_2_32 / sizeof *about_2_32 };

/* Runs a call where its memory stands, and gives the answer. */
static void run_there(const char *name, const struct ask *a, const struct buffer *out, uint64_t *number)
{
    memset(number, 0, MOST_NUMBERS * sizeof *number);
    attempts++;
    running = call_named(name);
    running->run(a, out, number);
}

/* The three calls that take a file alone, on a file of so many bytes that begins with a header and is zeros. */
static void long_file(size_t bytes, uint64_t wanted)
{
    static const char *const names[] = {"clpi_read", "clpi_rewritten_length", "clpi_rewrite"};
    uint8_t *file = wide(bytes, 1), output[242];
    struct ask a;
    struct buffer out[MOST_OUT] = {{output, sizeof output}};
    uint64_t number[MOST_NUMBERS];
    if (!file) {
        printf("left out: the attack with a file of %zu bytes: there is no memory for it\n", bytes);
        return;
    }
    memset(&a, 0, sizeof a);
    memcpy(file, "CLPI0200", 8);
    put_be(file + 8, (uint32_t)bytes - 6, 4);
    put_be(file + 12, (uint32_t)bytes - 6, 4);
    put_be(file + 40, (uint32_t)bytes - 44, 4);
    a.in[0] = (struct buffer){file, bytes};
    for (int i = 0; i < 3; i++) {
        memset(output, 0xA5, sizeof output);
        run_there(names[i], &a, out, number);
        must(number[0] == wanted, "the longest file is refused, or a longer one is not");
        must(wanted == 0 || (output[0] == 0xA5 && memcmp(output, output + 1, sizeof output - 1) == 0),
             "a refusal changes the output");
    }
    give_back(file, bytes);
}

/* Questions of three rows in tables of about 2^32 bytes. */
static void long_tables(size_t bytes)
{
    uint8_t *zeros = wide(bytes, 0);
    if (!zeros) {
        printf("left out: the attack with a table of %zu bytes: there is no memory for it\n", bytes);
        return;
    }
    for (int i = 0; i < call_count; i++) {
        struct ask a;
        uint64_t number[MOST_NUMBERS];
        if (calls[i].table == 0)
            continue;
        memset(&a, 0, sizeof a);
        for (int k = 0; k < calls[i].ins; k++)
            a.in[k] = (struct buffer){zeros, bytes};
        a.rows[0] = 3;
        run_there(calls[i].name, &a, NULL, number);
        must(number[0] == 0, "rows that are there are refused");
        a.rows[calls[i].ins - 1] = 0xFFFFFFFFu;
        run_there(calls[i].name, &a, NULL, number);
        must(number[0] == CLPI_REFUSED_ROWS, "rows that aren't there are taken");
    }
    give_back(zeros, bytes);
}

/* Outputs and tables of about 2^32 bytes for one small file. */
static void long_outputs(size_t bytes)
{
    uint8_t file[256], *output = wide(bytes, 1);
    struct ask a;
    struct buffer out[MOST_OUT] = {{output, bytes}};
    uint64_t number[MOST_NUMBERS];
    if (!output) {
        printf("left out: the attack with an output of %zu bytes: there is no memory for it\n", bytes);
        return;
    }
    memset(&a, 0, sizeof a);
    memset(file, 0, sizeof file);
    memcpy(file, "CLPI0200", 8);
    put_be(file + 8, 200, 4);
    put_be(file + 12, 240, 4);
    file[205] = 1;
    a.in[0] = (struct buffer){file, sizeof file};
    run_there("clpi_read", &a, out, number);
    must(number[0] == 0 && number[COUNTS] == 1, "a table of about 2^32 bytes is not filled");
    run_there("clpi_rewrite", &a, out, number);
    must(number[0] == 0 && number[2] == 248 && memcmp(output, "CLPI0200", 8) == 0, "an output of about 2^32 bytes is not filled");
    must(output[248] == 0 && output[bytes - 1] == 0, "an output has changed behind the new file");
    give_back(output, bytes);
}

/* The last of 2^32 - 1 rows, whose place passes 2^32 bytes by far: one byte of it is 77, and the value or the refusal wanted. */
static void last_row(const char *name, uint8_t row_bytes, uint32_t byte, uint64_t value, uint64_t refusal)
{
    size_t bytes = (size_t)0xFFFFFFFFu * row_bytes;
    uint8_t *rows = wide(bytes, 1), file[1] = {0}, head[12] = {0};
    int two = call_named(name)->ins == 2;
    struct ask a;
    uint64_t number[MOST_NUMBERS];
    if (!rows) {
        printf("left out: the attack with 2^32 - 1 rows of %d bytes: there is no memory for them\n", row_bytes);
        return;
    }
    memset(&a, 0, sizeof a);
    memset(head + (row_bytes == 16 ? 4 : 8), 0xFF, 4);
    rows[bytes - row_bytes + byte] = 77;
    a.in[0] = (struct buffer){head, sizeof head};
    a.rows[0] = 1;
    if (call_named(name)->row_of == 1)
        a.in[0] = (struct buffer){file, 1};
    a.in[two] = (struct buffer){rows, bytes};
    a.rows[two] = 0xFFFFFFFFu;
    a.argument[0] = two && call_named(name)->row_of == 0 ? 0 : 0xFFFFFFFEu;
    run_there(name, &a, NULL, number);
    must(number[0] == refusal && (refusal || number[1] == 1 || number[1] == 0xFFFFFFFFu), "the last of 2^32 - 1 rows is refused");
    must(refusal || number[2] == value, "the last of 2^32 - 1 rows is another");
    give_back(rows, bytes);
}

void attack_sizes(void)
{
    long_file(CLPI_MOST_BYTES, 0);
    long_file((size_t)CLPI_MOST_BYTES + 1, CLPI_REFUSED_FILE_TOO_LONG);
    if (is_short)
        return;
    long_file(0xFFFFFFFFu, CLPI_REFUSED_FILE_TOO_LONG);
    long_file(0x100000000u, CLPI_REFUSED_FILE_TOO_LONG);
    long_file(0x100000000u + 300, CLPI_REFUSED_FILE_TOO_LONG);
    for (int i = 0; i < LENGTHS; i++) {
        long_tables(about_2_32[i]);
        long_outputs(about_2_32[i]);
    }
    last_row("clpi_duration_45k", 16, 12, 77, 0);
    last_row("clpi_minutes_remaining", 16, 15, 478, 0);
    last_row("clpi_last_pts", sizeof(struct clpi_ep_entry), 8, 77, 0);
    last_row("clpi_stcs_of_atc", 16, 0, 0, 0);
    last_row("clpi_entries_of_map", sizeof(struct clpi_ep_entry), 0, 0, 0);
    last_row("clpi_streams_of_program", 20, 0, 0, 0);
    last_row("clpi_extension_data", 16, 12, 0, CLPI_REFUSED_ROWS);
}
