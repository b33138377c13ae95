/* Writing of records made by hand: tables of every short length, stated rows of every size, cells at their limits, right and
 * wrong letters. */
#include <string.h>

#include "attack.h"

enum { TABLES = 6, MOST_BYTES = 64 };

static uint8_t table[TABLES][MOST_BYTES];
static const uint8_t cells_of[TABLES] = {3, 4, 3, 5, 3, 6};

/* A record of one row in each table, which can be written. */
static struct ask good(void)
{
    static const uint32_t rows[TABLES][6] = {
        {0, 1, 0}, {4097, 0, 16384, 65536}, {0, 256, 1}, {4352, 129, 49, 0, 0x656E67}, {4113, 1, 1}, {1, 7, 524288, 0, 131079, 1}};
    struct ask a;
    memset(&a, 0, sizeof a);
    memset(table, 0, sizeof table);
    for (int i = 0; i < TABLES; i++) {
        memcpy(table[i], rows[i], 4u * cells_of[i]);
        a.in[i] = (struct buffer){table[i], 4u * cells_of[i]};
        a.rows[i] = 1;
    }
    a.argument[0] = CLPI_LETTERS_HDMV;
    a.room[0] = 400;
    return a;
}

/* Writes a record; in the short run, some of them. */
static void write_one(const struct ask *a)
{
    if (!is_short || any() % 8 == 0)
        attempt(call_named("clpi_write"), a);
}

/* Every cell and every scalar at each limit and one over it. */
static void cells(void)
{
    static const uint32_t values[] = {
        0, 1, 2, 7, 8, 15, 16, 255, 256, 511, 512, 65535, 65536, 16777215, 16777216, 0x7FFFFFFF, 0x80000000u, 0xFFFFFE00u,
        0xFFFFFFFFu};
    for (size_t v = 0; v < sizeof values / sizeof *values; v++) {
        for (int i = 0; i < TABLES; i++)
            for (int k = 0; k < cells_of[i]; k++) {
                struct ask a = good();
                memcpy(table[i] + 4 * k, &values[v], 4);
                write_one(&a);
            }
        for (int i = 0; i < MOST_ARGUMENTS; i++) {
            struct ask a = good();
            a.argument[i] = values[v];
            write_one(&a);
        }
    }
}

/* What may be wrong of a record beside its letters: a bit for each. */
enum { SHORT_OUTPUT = 1, WIDE_NUMBER = 2, OTHER_COUNT = 4, ROW_NOT_LENT = 8, ALL_FAULTS = 15 };

/* The refusal that comes first. */
static uint32_t first_refusal(int faults, int are_right)
{
    if (faults & (OTHER_COUNT | ROW_NOT_LENT))
        return CLPI_REFUSED_ROWS;
    if (!are_right)
        return CLPI_REFUSED_RECORD_LETTERS;
    return faults & WIDE_NUMBER ? CLPI_REFUSED_CELLS : faults & SHORT_OUTPUT ? CLPI_REFUSED_OUTPUT_SHORT : CLPI_OK;
}

/* Writes a record with these letters and faults: the first refusal, or a file that begins with the letters. */
static void write_letters(uint32_t letters, int faults, int are_right)
{
    struct ask a = good();
    uint32_t wanted = first_refusal(faults, are_right);
    struct outcome o;
    a.argument[0] = letters;
    a.room[0] = faults & SHORT_OUTPUT ? 241 : 400;
    a.argument[2] = faults & WIDE_NUMBER ? 256 : 255;
    a.rows[1] = faults & OTHER_COUNT ? 0 : 1;
    a.in[5].bytes -= faults & ROW_NOT_LENT ? 1 : 0;
    o = attempt(call_named("clpi_write"), &a);
    must(o.number[0] == wanted, "another refusal than the first one in the order 22, 40, 30, 23");
    must(wanted || get_be(o.out[0]) == letters, "other letters written than the record's");
}

/* Letters, the two right ones first, with everything else right and with everything that comes before and after 40 wrong. */
static void letters(void)
{
    static const uint32_t kinds[] = {
        CLPI_LETTERS_HDMV, CLPI_LETTERS_CLPI, 0, 1, 0xFFFFFFFFu, CLPI_LETTERS_HDMV - 1, CLPI_LETTERS_HDMV + 1,
        CLPI_LETTERS_CLPI - 1, CLPI_LETTERS_CLPI + 1, 0x564D4448, 0x49504C43, 0x68646D76, 0x636C7069, 0x4D504C53, 0x48445049,
        0x434C4D56};
    const int all = (int)(sizeof kinds / sizeof *kinds) * (ALL_FAULTS + 1);
    for (int n = 0; n < all; n++)
        write_letters(kinds[n / (ALL_FAULTS + 1)], n % (ALL_FAULTS + 1), n / (ALL_FAULTS + 1) < 2);
}

/* Every table of every short length with rows of every number stated, the others as they should be. */
static void lengths(void)
{
    static const uint32_t stated[] = {0, 1, 2, 3, 255, 256, 0x80000000u, 214748365, 268435456, 357913942, 0xFFFFFFFFu};
    for (int i = 0; i < TABLES; i++)
        for (size_t bytes = 0; bytes < MOST_BYTES; bytes++)
            for (size_t n = 0; n < sizeof stated / sizeof *stated; n++) {
                struct ask a = good();
                a.in[i].bytes = bytes;
                a.rows[i] = stated[n];
                write_one(&a);
            }
}

/* Counts that pass 2^32: of two rows that add up to the rows stated and 2^32 more. */
static void sums(void)
{
    for (int i = 0; i < TABLES; i += 2) {
        struct ask a = good();
        uint32_t counts[2] = {0xFFFFFFFFu, 2};
        size_t row = 4u * cells_of[i], at = i == 0 ? 4 : 8;
        memcpy(table[i] + at, &counts[0], 4);
        memcpy(table[i] + row + at, &counts[1], 4);
        a.in[i].bytes = 2 * row;
        a.rows[i] = 2;
        must(attempt(call_named("clpi_write"), &a).number[0] == CLPI_REFUSED_ROWS, "counts that pass 2^32 are taken");
    }
}

/* An output of every length about the one needed. */
static void outputs(void)
{
    struct ask a = good();
    uint64_t needed;
    a.room[0] = 0;
    needed = attempt(call_named("clpi_write"), &a).number[1];
    must(needed > 242 && needed < 400, "a record that can be written is not");
    for (a.room[0] = is_short ? needed - 3 : 0; a.room[0] < needed + 3; a.room[0]++) {
        uint64_t refusal = attempt(call_named("clpi_write"), &a).number[0];
        must(refusal == (a.room[0] < needed ? CLPI_REFUSED_OUTPUT_SHORT : CLPI_OK), "23 where it has no place, or not where it has");
    }
}

void attack_records(void)
{
    cells();
    letters();
    lengths();
    sums();
    outputs();
}
