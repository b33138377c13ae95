/* All that is tried on one file: reading into tables of no byte, of just enough, of one byte less and of some more;
 * rewriting, and writing what was read; and that the old file and the new one are alike in all that is asked of them. */
#include <stdlib.h>
#include <string.h>

#include "attack.h"

enum { TABLES = 9, KEPT = 6, MARKS = 11, HAS_LIST = 21 };

static const uint32_t most_rows[TABLES] = {
    CLPI_MOST_ATCS, CLPI_MOST_STCS, CLPI_MOST_PROGRAMS, CLPI_MOST_STREAMS, CLPI_MOST_MAPS, CLPI_MOST_ENTRIES,
    CLPI_MOST_EXTENSIONS, CLPI_MOST_PROGRAMS, CLPI_MOST_STREAMS};

unsigned long files, accepted, rewritings;

/* A reading that is kept. */
struct record {
    uint64_t number[MOST_NUMBERS];
    uint8_t *rows[TABLES];
    size_t bytes[TABLES];
};

/* Copies bytes; there is always a byte to give back. */
static uint8_t *copy_of(const uint8_t *at, size_t bytes)
{
    uint8_t *copy = malloc(bytes + 1);
    must(copy != NULL, "no memory for the attack");
    if (bytes > 0)
        memcpy(copy, at, bytes);
    return copy;
}

static void free_record(struct record *r)
{
    for (int i = 0; i < TABLES; i++)
        free(r->rows[i]);
}

/* An ask on a file alone. */
static struct ask of_file(const uint8_t *file, size_t bytes)
{
    struct ask a;
    memset(&a, 0, sizeof a);
    a.in[0] = (struct buffer){(uint8_t *)file, bytes};
    return a;
}

/* The refusals that the file's first bytes settle; 0 where they settle none. */
static uint32_t plain_refusal(const uint8_t *file, size_t bytes)
{
    if (bytes < 8)
        return CLPI_REFUSED_HEADER_SHORT;
    if (memcmp(file, "HDMV", 4) != 0 && memcmp(file, "CLPI", 4) != 0)
        return CLPI_REFUSED_LETTERS;
    return bytes < 40 ? CLPI_REFUSED_HEADER_SHORT : bytes < 194 ? CLPI_REFUSED_CLIP_INFO : CLPI_OK;
}

/* Reads into tables that grow, from no byte, by what 21 says of the lowest that is too short. */
static struct outcome grown(const struct call *c, struct ask *a)
{
    uint64_t last = 0;
    struct outcome o = attempt(c, a);
    while (o.number[0] == CLPI_REFUSED_TABLE_SHORT) {
        must(o.number[1] > last, "21 again of a table that was given its rows");
        last = o.number[1];
        must(o.number[2] <= most_rows[last - 1], "21 of more rows than a file can have");
        a->room[last - 1] = o.number[2] * c->out_bytes[last - 1];
        o = attempt(c, a);
    }
    return o;
}

/* Keeps what was read into tables that are just long enough. */
static struct record kept(const struct call *c, const struct ask *a, const struct outcome *o)
{
    struct record r;
    memcpy(r.number, o->number, sizeof r.number);
    for (int i = 0; i < TABLES; i++) {
        r.bytes[i] = a->room[i];
        must(o->number[0] || r.bytes[i] == o->number[COUNTS + i] * c->out_bytes[i], "21 of other rows than are read");
        r.rows[i] = copy_of(o->out[i], r.bytes[i]);
    }
    return r;
}

/* Lends each table a byte less than it needs, the others just enough: 21, of that table and those rows. */
static void read_short(const struct call *c, const struct ask *exact)
{
    for (int i = 0; i < TABLES; i++) {
        struct ask a = *exact;
        struct outcome o;
        if (a.room[i] == 0)
            continue;
        a.room[i]--;
        o = attempt(c, &a);
        must(o.number[0] == CLPI_REFUSED_TABLE_SHORT && o.number[1] == (uint64_t)i + 1, "not 21 of the table that is too short");
        must(o.number[2] * c->out_bytes[i] == exact->room[i], "21 of other rows than suffice");
    }
}

/* Lends each table more than it needs: the answer and the rows are the same. */
static void read_long(const struct call *c, const struct ask *exact, const struct record *r)
{
    struct ask a = *exact;
    struct outcome o;
    for (int i = 0; i < TABLES; i++)
        a.room[i] += (size_t)i * 5 + 1;
    o = attempt(c, &a);
    must(memcmp(o.number, r->number, sizeof r->number) == 0, "longer tables have another answer");
    for (int i = 0; i < TABLES; i++)
        must(o.number[0] || memcmp(o.out[i], r->rows[i], r->bytes[i]) == 0, "longer tables have other rows");
}

/* Reads a file in every way. */
static struct record read_file(const uint8_t *file, size_t bytes)
{
    const struct call *c = call_named("clpi_read");
    struct ask a = of_file(file, bytes);
    struct outcome o = grown(c, &a);
    struct record r = kept(c, &a, &o);
    uint32_t plain = plain_refusal(file, bytes);
    must(!plain || r.number[0] == plain, "another refusal than the first bytes settle");
    must(r.number[0] || r.number[LETTERS] == get_be(file), "other letters than the file's");
    read_long(c, &a, &r);
    if (!r.number[0])
        read_short(c, &a);
    return r;
}

/* Asks for an output of each length about the one needed; gives the bytes that are put out, for the caller to free. */
static uint8_t *put_out(const struct call *c, struct ask *a, size_t needed)
{
    const size_t rooms[] = {0, 1, needed - 1, needed + 9, needed};
    struct outcome o;
    for (int i = 0; i < 5; i++) {
        a->room[0] = rooms[i];
        o = attempt(c, a);
        if (rooms[i] < needed)
            must(o.number[0] == CLPI_REFUSED_OUTPUT_SHORT && o.number[1] == needed, "not 23 of the length that suffices");
        else
            must(o.number[0] == 0 && o.number[2] == needed, "an output that is long enough is not filled");
    }
    return copy_of(o.out[0], needed);
}

/* Rewrites a file in every way. NULL where it is refused, as reading is or by 31; else the caller frees the bytes. */
static uint8_t *rewrite_file(const uint8_t *file, size_t bytes, const struct record *r, size_t *needed)
{
    struct ask a = of_file(file, bytes);
    struct outcome length = attempt(call_named("clpi_rewritten_length"), &a), o;
    *needed = (size_t)length.number[1];
    must(length.number[0] == r->number[0] || (!r->number[0] && length.number[0] == CLPI_REFUSED_RUNS),
         "measuring refuses in another way than reading");
    if (length.number[0] == 0) {
        uint8_t *new;
        must(*needed >= 242 && *needed <= CLPI_MOST_REWRITTEN_BYTES, "a new file of a length that none has");
        new = put_out(call_named("clpi_rewrite"), &a, *needed);
        must(memcmp(new, file, 4) == 0, "the new file begins with other letters");
        return new;
    }
    a.room[0] = 300;
    o = attempt(call_named("clpi_rewrite"), &a);
    must(o.number[0] == length.number[0], "rewriting refuses in another way than measuring");
    return NULL;
}

/* The ask to write what was read. */
static struct ask of_record(const struct record *r)
{
    struct ask a;
    memset(&a, 0, sizeof a);
    for (int i = 0; i < KEPT; i++) {
        a.in[i] = (struct buffer){r->rows[i], r->bytes[i]};
        a.rows[i] = (uint32_t)r->number[COUNTS + i];
    }
    for (int i = 0; i < MOST_ARGUMENTS; i++)
        a.argument[i] = r->number[LETTERS + i];
    return a;
}

/* Writes what was read with other letters: the refusal is 40, also of too many runs and where the output is too short. */
static void write_other_letters(const struct call *c, struct ask a)
{
    a.argument[0] ^= 1u << any() % 32;
    a.room[0] = any() % 2 ? 300 : 0;
    must(attempt(c, &a).number[0] == CLPI_REFUSED_RECORD_LETTERS, "not 40 of letters that no file has");
}

/* Writes what was read: the bytes are those of rewriting, or the refusal is 31. */
static void write_record(const struct record *r, const uint8_t *rewritten, size_t bytes)
{
    const struct call *c = call_named("clpi_write");
    struct ask a = of_record(r);
    uint8_t *output;
    write_other_letters(c, a);
    if (!rewritten) {
        must(attempt(c, &a).number[0] == CLPI_REFUSED_RUNS, "writing doesn't refuse what rewriting refuses");
        return;
    }
    output = put_out(c, &a, bytes);
    must(memcmp(output, rewritten, bytes) == 0, "reading and writing isn't rewriting");
    free(output);
}

/* Sees that two records are the same apart from the mark count and the extensions, of which the new one has none. */
static void compare(const struct record *old, const struct record *new)
{
    must(memcmp(old->number, new->number, MARKS * sizeof *old->number) == 0, "the new file has other numbers");
    must(memcmp(old->number + COUNTS, new->number + COUNTS, KEPT * sizeof *old->number) == 0, "the new file has other counts");
    for (int i = 0; i < KEPT; i++)
        must(memcmp(old->rows[i], new->rows[i], old->bytes[i]) == 0, "the new file has other rows");
    must(new->number[MARKS] == 0 && new->number[HAS_LIST] == 0, "the new file has marks or a list");
    for (int i = KEPT; i < TABLES; i++)
        must(new->number[COUNTS + i] == 0, "the new file has extensions");
}

/* The ask of a question on a record. */
static struct ask question(const struct call *c, const struct record *r, uint64_t first, uint64_t second)
{
    struct ask a;
    memset(&a, 0, sizeof a);
    for (int i = 0; i < c->ins; i++) {
        int table = c->table - 1 + i;
        a.in[i] = (struct buffer){r->rows[table], r->bytes[table]};
        a.rows[i] = (uint32_t)r->number[COUNTS + table];
    }
    a.argument[0] = first;
    a.argument[1] = second;
    return a;
}

/* Asks every question of the old record and of the new one: the answers are alike. */
static void ask_both(const struct record *old, const struct record *new)
{
    static const uint64_t firsts[] = {0, 1, 2, 27, 4113, 524288, 0xFFFFFFFFu}, seconds[] = {0, 524288, 0xFFFFFFFFu};
    for (int i = 0; i < call_count; i++) {
        const struct call *c = &calls[i];
        int asked = c->table == 0 || c->table > KEPT ? 0 : c->kind[1] == NO_ARGUMENT ? 7 : 21;
        for (int n = 0; n < asked; n++) {
            struct ask a = question(c, old, firsts[n % 7], seconds[n / 7]), b = question(c, new, firsts[n % 7], seconds[n / 7]);
            struct outcome p = attempt(c, &a), q = attempt(c, &b);
            must(memcmp(p.number, q.number, sizeof p.number) == 0, "the old file and the new one answer otherwise");
        }
    }
}

/* Asks for the data of every extension, beside the file and beside one that is a byte shorter than it. */
static void ask_data(const uint8_t *file, size_t bytes, const struct record *r)
{
    const struct call *c = call_named("clpi_extension_data");
    for (uint64_t row = 0; row <= r->number[COUNTS + 6]; row++)
        for (size_t less = 0; less < 2; less++) {
            struct ask a = of_file(file, bytes - less);
            struct outcome o;
            a.in[1] = (struct buffer){r->rows[6], r->bytes[6]};
            a.rows[1] = (uint32_t)r->number[COUNTS + 6];
            a.argument[0] = row;
            o = attempt(c, &a);
            must(less || row == a.rows[1] || o.number[0] == 0, "an extension that was read has no data");
            must(o.number[1] + o.number[2] <= bytes - less, "data that passes the file's end");
        }
}

/* Sees that a new file reads to the old one's record, and is its own rewriting. */
static void try_new(const struct record *old, const uint8_t *file, size_t bytes, int asking)
{
    struct record new = read_file(file, bytes);
    size_t needed;
    uint8_t *again = rewrite_file(file, bytes, &new, &needed);
    compare(old, &new);
    must(again && needed == bytes && memcmp(again, file, bytes) == 0, "rewriting the new file changes it");
    if (asking)
        ask_both(old, &new);
    free(again);
    free_record(&new);
}

int try_file(const uint8_t *file, size_t bytes)
{
    struct record r = read_file(file, bytes);
    size_t needed;
    uint8_t *rewritten = rewrite_file(file, bytes, &r, &needed);
    int is_accepted = r.number[0] == 0;
    files++;
    if (is_accepted) {
        write_record(&r, rewritten, needed);
        ask_data(file, bytes, &r);
        if (rewritten)
            try_new(&r, rewritten, needed, rewritings++ % 16 == 0);
        accepted++;
    }
    free(rewritten);
    free_record(&r);
    return is_accepted;
}
