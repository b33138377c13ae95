/* Wrong libraries, to see that the attack finds them: linked in with --wrap, each stands before a call and does one
 * thing wrong if WRONG names it. The runner takes the names from here; a wrong that only valgrind can see says so. */
#include <stdlib.h>
#include <string.h>

#include "clpi.h"

#define READ_PARAMETERS \
    const uint8_t *file, size_t file_bytes, uint8_t *a, size_t an, uint8_t *b, size_t bn, uint8_t *c, size_t cn, uint8_t *d, \
        size_t dn, uint8_t *e, size_t en, uint8_t *f, size_t fn, uint8_t *g, size_t gn, uint8_t *h, size_t hn, uint8_t *i, size_t in
#define OF_ONE const uint8_t *t, size_t n, uint32_t rows
#define OF_TWO const uint8_t *t, size_t n, uint32_t rows, const uint8_t *u, size_t m, uint32_t more
#define WRITE_TABLES \
    const uint8_t *a, size_t an, uint32_t ar, const uint8_t *b, size_t bn, uint32_t br, const uint8_t *c, size_t cn, uint32_t cr, \
        const uint8_t *d, size_t dn, uint32_t dr, const uint8_t *e, size_t en, uint32_t er, const uint8_t *f, size_t fn, uint32_t fr

/* The call itself, and the one that stands before it. */
#define STANDS_BEFORE(type, name, ...) \
    type __real_clpi_##name(__VA_ARGS__); \
    type __wrap_clpi_##name(__VA_ARGS__); \
    type __wrap_clpi_##name(__VA_ARGS__)

/* Tells whether a wrong is the one asked for. */
static int is(const char *wrong)
{
    static const char *asked;
    if (!asked && !(asked = getenv("WRONG")))
        asked = "";
    return strcmp(asked, wrong) == 0;
}

/* What is wrong in the number of a map's fault, in all three calls that tell it. */
static uint32_t wrong_number(uint32_t refusal)
{
    int is_fine = refusal == CLPI_REFUSED_FINE_ADDRESS, is_body = refusal == CLPI_REFUSED_MAP_BODY;
    if (refusal == CLPI_REFUSED_MAP_ADDRESS && is("41 in place of 7"))
        return CLPI_REFUSED_FINE_ADDRESS;
    if (refusal == CLPI_REFUSED_MAP_ADDRESS && is("42 in place of 7"))
        return CLPI_REFUSED_MAP_BODY;
    if ((is_fine && is("7 in place of 41")) || (is_body && is("7 in place of 42")))
        return CLPI_REFUSED_MAP_ADDRESS;
    if (is_fine && is("42 in place of 41"))
        return CLPI_REFUSED_MAP_BODY;
    if (is_body && is("41 in place of 42"))
        return CLPI_REFUSED_FINE_ADDRESS;
    if ((is_fine || is_body) && is("7 for every fault of a map"))
        return CLPI_REFUSED_MAP_ADDRESS;
    return refusal;
}

/* What is wrong in an answer of reading. */
static struct clpi_reading wrong_reading(struct clpi_reading r)
{
    r.refusal = wrong_number(r.refusal);
    if (r.refusal == CLPI_REFUSED_TABLE_SHORT && is("21 a row more"))
        r.rows_needed++;
    if (r.refusal == CLPI_REFUSED_TABLE_SHORT && r.rows_needed > 1 && is("21 a row less"))
        r.rows_needed--;
    if (r.refusal == CLPI_REFUSED_TABLE_SHORT && r.table < 9 && is("21 of the next table"))
        r.table++;
    if (r.refusal && r.refusal != CLPI_REFUSED_TABLE_SHORT && is("a number beside a refusal"))
        r.version = 1;
    if (r.refusal == CLPI_REFUSED_MAP_ADDRESS && is("a refusal that isn't there"))
        r.refusal = 9;
    if (!r.refusal && is("no entries read"))
        r.entries = 0;
    if (r.refusal == CLPI_REFUSED_LETTERS && is("another refusal"))
        r.refusal = CLPI_REFUSED_HEADER_SHORT;
    if (!r.refusal && is("HDMV told of every file"))
        r.letters = CLPI_LETTERS_HDMV;
    if (!r.refusal && is("the letters with their first byte lowest"))
        r.letters = r.letters == CLPI_LETTERS_HDMV ? 0x564D4448 : 0x49504C43;
    return r;
}

/* What is wrong in the tables of a reading. */
static void wrong_rows(const struct clpi_reading *r, uint8_t *a, size_t an, uint8_t *f, size_t fn)
{
    if (!r->refusal && is("a byte behind the rows") && fn > r->entries * sizeof(struct clpi_ep_entry))
        f[r->entries * sizeof(struct clpi_ep_entry)] = 0;
    if (!r->refusal && is("a byte behind the table") && an > 0)
        a[an] = 0;
    if (r->refusal && is("a table zeroed by a refusal") && an > 0)
        memset(a, 0, an);
}

STANDS_BEFORE(struct clpi_reading, read, READ_PARAMETERS)
{
    size_t bytes = is("20 not tested") && file_bytes > CLPI_MOST_BYTES ? CLPI_MOST_BYTES : file_bytes;
    uint8_t row[12] = {0};
    struct clpi_reading r;
    if (an >= sizeof row && is("a row not stored"))
        memcpy(row, a, sizeof row);
    if (is("input changed") && file_bytes > 0)
        *(uint8_t *)file ^= 1;
    if (is("a length of 32 bits"))
        an = (uint32_t)an;
    r = __real_clpi_read(file, bytes, a, an, b, bn, c, cn, d, dn, e, en, f, fn, g, gn, h, hn, i, in);
    if (file_bytes == CLPI_MOST_BYTES && is("20 a byte early")) {
        memset(&r, 0, sizeof r);
        r.refusal = CLPI_REFUSED_FILE_TOO_LONG;
    }
    if (!r.refusal && r.atcs > 0 && is("a row not stored"))
        memcpy(a, row, sizeof row);
    wrong_rows(&r, a, an, f, fn);
    return wrong_reading(r);
}

STANDS_BEFORE(struct clpi_writing, rewrite, const uint8_t *file, size_t file_bytes, uint8_t *output, size_t output_bytes)
{
    static volatile int looked;
    struct clpi_writing w;
    if (is("valgrind: the output looked at") && output_bytes > 0 && output[0] == 1)
        looked++;
    w = __real_clpi_rewrite(file, file_bytes, output, output_bytes);
    w.refusal = wrong_number(w.refusal);
    if (w.refusal && output_bytes > 0 && is("the output zeroed by a refusal"))
        memset(output, 0, output_bytes);
    if (!w.refusal && output_bytes > w.bytes_written && is("a byte behind the new file"))
        output[w.bytes_written] = 0;
    if (w.refusal == CLPI_REFUSED_OUTPUT_SHORT && is("23 a byte more"))
        w.bytes_needed++;
    if (!w.refusal && is("another record"))
        output[7] ^= 1;
    if (!w.refusal && is("another record by both writers"))
        output[7] ^= 1;
    if (!w.refusal && is("rewriting the new file changes it"))
        output[28] = file[28] ^ 1;
    if (!w.refusal && is("CLPI written by rewriting"))
        memcpy(output, "CLPI", 4);
    if (!w.refusal && is("CLPI always written"))
        memcpy(output, "CLPI", 4);
    if (!w.refusal && is("HDMV always written"))
        memcpy(output, "HDMV", 4);
    return w;
}

STANDS_BEFORE(struct clpi_length, rewritten_length, const uint8_t *file, size_t file_bytes)
{
    struct clpi_length l = __real_clpi_rewritten_length(file, file_bytes);
    l.refusal = wrong_number(l.refusal);
    if (l.refusal == CLPI_REFUSED_RUNS && is("31 not measured")) {
        l.refusal = CLPI_OK;
        l.bytes = 786686;
    }
    if (!l.refusal && is("a length off by one"))
        l.bytes++;
    return l;
}

/* What is wrong in an answer of writing a record with these letters, and in the letters that are written. */
static struct clpi_writing wrong_letters(struct clpi_writing w, uint32_t letters, uint8_t *output, size_t output_bytes)
{
    int are_right = letters == CLPI_LETTERS_HDMV || letters == CLPI_LETTERS_CLPI;
    if (!w.refusal && is("CLPI always written"))
        memcpy(output, "CLPI", 4);
    if (!w.refusal && is("HDMV always written"))
        memcpy(output, "HDMV", 4);
    if (!are_right && w.refusal == CLPI_REFUSED_ROWS && is("40 before 22"))
        w.refusal = CLPI_REFUSED_RECORD_LETTERS;
    if (w.refusal == CLPI_REFUSED_RECORD_LETTERS && output_bytes < 242 && is("23 before 40")) {
        w.refusal = CLPI_REFUSED_OUTPUT_SHORT;
        w.bytes_needed = 242;
    }
    if (w.refusal == CLPI_REFUSED_RECORD_LETTERS && is("22 in place of 40"))
        w.refusal = CLPI_REFUSED_ROWS;
    return w;
}

STANDS_BEFORE(struct clpi_writing, write, struct clpi_clip_info info, WRITE_TABLES, uint8_t *output, size_t output_bytes)
{
    uint8_t kept = output_bytes > 0 && is("the last byte not written") ? output[output_bytes - 1] : 0;
    uint32_t letters = info.letters;
    uint32_t first = is("30 before 40") ? CLPI_REFUSED_CELLS : is("31 before 40") ? CLPI_REFUSED_RUNS : CLPI_OK;
    struct clpi_writing w;
    if (first || (letters != CLPI_LETTERS_HDMV && is("40 not tested")))
        info.letters = CLPI_LETTERS_CLPI;
    if (first) {
        w = __real_clpi_write(info, a, an, ar, b, bn, br, c, cn, cr, d, dn, dr, e, en, er, f, fn, fr, NULL, 0);
        if (w.refusal == first)
            return w;
        info.letters = letters;
    }
    w = __real_clpi_write(info, a, an, ar, b, bn, br, c, cn, cr, d, dn, dr, e, en, er, f, fn, fr, output, output_bytes);
    if (!w.refusal && w.bytes_written == output_bytes && is("the last byte not written"))
        output[output_bytes - 1] = kept;
    if (!w.refusal && is("another record by both writers"))
        output[7] ^= 1;
    if (!w.refusal && is("rewriting the new file changes it"))
        output[28] = 1;
    if (w.refusal == CLPI_REFUSED_CELLS && is("22 in place of 30"))
        w.refusal = CLPI_REFUSED_ROWS;
    return wrong_letters(w, letters, output, output_bytes);
}

STANDS_BEFORE(uint32_t, version, void) { return __real_clpi_version() + is("another version"); }

STANDS_BEFORE(struct clpi_part, extension_data, const uint8_t *file, size_t file_bytes, OF_ONE, uint32_t row)
{
    struct clpi_part p = __real_clpi_extension_data(file, file_bytes, t, n, rows, row);
    if (p.refusal && is("data past the file's end") && rows <= n / 16 && row < rows) {
        p.refusal = 0;
        p.offset = 1;
        p.length = 1;
    }
    return p;
}

STANDS_BEFORE(struct clpi_answer, presentation_span_90k, OF_ONE)
{
    volatile uint8_t seen = 0;
    if (is("a byte read behind the table") && n > 0)
        seen = t[n];
    if (is("a byte read before the table") && n > 0)
        seen = t[-1];
    (void)seen;
    return __real_clpi_presentation_span_90k(t, n, rows);
}

struct clpi_answer __real_clpi_minutes_remaining(OF_ONE, uint32_t stc, uint64_t at);

/* What is wrong in the minutes at a place of a few rows: which row it is, where it is missing, and what is looked at. Of
 * many rows another one would be found by how long it takes. */
static struct clpi_answer wrong_minutes(struct clpi_answer r, OF_ONE, uint32_t stc, uint64_t at)
{
    const struct clpi_answer zero = {CLPI_OK, 1, 0}, refused = {CLPI_REFUSED_ROWS, 0, 0};
    int is_missing = rows <= n / 16 && stc >= rows;
    volatile uint8_t seen = 0;
    if (rows > 100)
        return r;
    if (rows == 0 && is("0 minutes without STCs"))
        return zero;
    if (is_missing && is("0 minutes for a missing row"))
        return zero;
    if (is_missing && rows > 0 && is("minutes of the last row for a missing one"))
        return __real_clpi_minutes_remaining(t, n, rows, rows - 1, at);
    if (is("minutes: the row counted from 1"))
        return __real_clpi_minutes_remaining(t, n, rows, stc - 1, at);
    if (is("minutes: the row taken at 16 bits"))
        return __real_clpi_minutes_remaining(t, n, rows, (uint16_t)stc, at);
    if (is("minutes: the row and the time swapped"))
        return __real_clpi_minutes_remaining(t, n, rows, (uint32_t)at, stc);
    if (!r.refusal && at >> 63 && is("22 for a time far past the end"))
        return refused;
    if (!r.refusal && is("minutes: a row behind the last looked at"))
        seen = t[(size_t)rows * 16];
    (void)seen;
    return r;
}

STANDS_BEFORE(struct clpi_answer, minutes_remaining, OF_ONE, uint32_t stc, uint64_t at)
{
    static uint64_t asked;
    struct clpi_answer r;
    uint32_t stated = is("bytes stated modulo 2^32") && (uint32_t)(rows * 16u) <= n ? (uint32_t)(rows * 16u) / 16 : rows;
    while (is("a call that doesn't end") && rows == 3)
        asked += at;
    r = __real_clpi_minutes_remaining(t, n, stated, stc, at);
    if (!r.refusal && rows < 100 && is("another answer each time"))
        r.value = asked++;
    return wrong_minutes(r, t, n, rows, stc, at);
}

STANDS_BEFORE(struct clpi_answer, stream_by_pid, OF_ONE, uint16_t pid)
{
    struct clpi_answer r = __real_clpi_stream_by_pid(t, n, rows, pid);
    if (!r.refusal && !r.found && is("a value that isn't found"))
        r.value = rows;
    if (r.refusal && is("22 with a value"))
        r.value = 1;
    return r;
}

STANDS_BEFORE(struct clpi_rows, stcs_of_atc, OF_TWO, uint32_t atc)
{
    struct clpi_rows r = __real_clpi_stcs_of_atc(t, n, rows, u, m, more, atc);
    uint32_t sum = 0;
    for (uint32_t i = 0; i < rows && rows <= n / 12; i++)
        sum += t[i * 12 + 4] | (uint32_t)t[i * 12 + 5] << 8 | (uint32_t)t[i * 12 + 6] << 16 | (uint32_t)t[i * 12 + 7] << 24;
    if (is("counts modulo 2^32") && rows <= n / 12 && more <= m / 16 && atc < rows && sum == more)
        r.refusal = 0;
    return r;
}

STANDS_BEFORE(struct clpi_answer, last_pts, OF_TWO, uint32_t map)
{
    struct clpi_answer r = __real_clpi_last_pts(t, n, rows, u, m, more, map);
    if (!r.refusal && is("another answer where unaligned") && (uintptr_t)u % 4)
        r.value ^= 1;
    if (r.refusal && map == rows && is("a row behind the last"))
        r.refusal = 0;
    return r;
}

STANDS_BEFORE(struct clpi_seconds, transfer_duration_secs, uint32_t rate, uint32_t packets)
{
    struct clpi_seconds r = __real_clpi_transfer_duration_secs(rate, packets);
    if (rate && is("the seconds in the machine's rounding mode"))
        r.seconds = (double)(packets * (uint64_t)192) / rate;
    return r;
}
