/* The questions, on tables of every short length, with rows stated from none to 2^32 - 1, cells of every kind, and
 * arguments up to their limits. What 22 is answered to is told by trial.c. */
#include <string.h>

#include "attack.h"

enum { MOST_ROWS = 4, MOST_BYTES = sizeof(struct clpi_ep_entry) * MOST_ROWS + 8, LENGTHS = 11, STATEMENTS = 8, ARGUMENTS = 7 };
enum filling { ZEROS, ONES, ANY, SMALL, ADDING_UP, PASSING, FILLINGS };

static uint8_t table[2][MOST_BYTES];

/* The lengths of a table, by number: up to three bytes, and a byte less and more than one row and three. */
static size_t length_of(int n, size_t row_bytes)
{
    const size_t lengths[LENGTHS] = {
        0, 1, 2, 3, row_bytes - 1, row_bytes, row_bytes + 1, 2 * row_bytes, 3 * row_bytes - 1, 3 * row_bytes, 3 * row_bytes + 5};
    return lengths[n];
}

/* The rows stated, by number. The last ones are so many that their bytes pass 2^32 by less than a row. */
static uint32_t stated_of(int n, size_t bytes, size_t row_bytes)
{
    uint32_t rows = (uint32_t)(bytes / row_bytes), passing = (uint32_t)(0x100000000u / row_bytes);
    const uint32_t stated[STATEMENTS] = {0, 1, rows, rows + 1, 0x80000000u, 0xFFFFFFFFu, passing, passing + 1};
    return stated[n];
}

/* Stores a cell. */
static void put_cell(uint8_t *at, uint32_t value)
{
    for (int i = 0; i < 4; i++)
        at[i] = (uint8_t)(value >> 8 * i);
}

/* Gives the rows counts that add up to those stated of the next table, or, passing 2^32, to 2^32 more. */
static void put_counts(uint8_t *rows, const struct call *c, uint32_t heads, uint32_t counted, int passing)
{
    for (uint32_t row = 0; row < heads && row < MOST_ROWS; row++) {
        uint32_t count = row + 1 == heads ? counted : counted / 2;
        counted -= count;
        if (passing && heads > 1)
            count += row == 0 ? 0xFFFFFFFFu : row == 1;
        put_cell(rows + (size_t)row * c->row_bytes[0] + c->count_at[0], count);
    }
}

/* Fills the tables of an ask. */
static void fill(const struct call *c, struct ask *a, enum filling filling)
{
    for (int i = 0; i < c->ins; i++) {
        a->in[i].at = table[i];
        for (size_t k = 0; k < MOST_BYTES; k++)
            table[i][k] = filling == ZEROS ? 0 : filling == ONES ? 0xFF : filling == ANY ? (uint8_t)any() : k % 4 ? 0 : any() % 4;
    }
    if (c->count_at[0] && (filling == ADDING_UP || filling == PASSING) && a->rows[0] * (size_t)c->row_bytes[0] <= a->in[0].bytes)
        put_counts(table[0], c, a->rows[0], a->rows[1], filling == PASSING);
}

/* The arguments of a kind, by number. */
static uint64_t argument_of(enum kind kind, int n, uint64_t limit)
{
    static const uint64_t greatest[] = {0, 0xFFFFFFFF, 0xFF, 0xFFFF, 0xFFFFFFFF, UINT64_MAX};
    const uint64_t arguments[] = {0, 1, limit - 1, limit, limit + 1, greatest[kind] / 2 + 1, greatest[kind]};
    return arguments[n] & greatest[kind];
}

/* Asks a question with every pair of arguments, or in the short run with some of them. */
static void ask_all(const struct call *c, struct ask *a)
{
    int firsts = c->kind[0] == NO_ARGUMENT ? 1 : ARGUMENTS, seconds = c->kind[1] == NO_ARGUMENT ? 1 : ARGUMENTS;
    uint64_t limit = c->row_of >= 0 ? a->rows[c->row_of] : 0x1B;
    for (int i = 0; i < firsts; i++)
        for (int k = 0; k < seconds; k++) {
            if ((is_short && any() % 200) || (seconds > 1 && any() % 4))
                continue;
            a->argument[0] = argument_of(c->kind[0], i, limit);
            a->argument[1] = argument_of(c->kind[1], k, 2);
            attempt(c, a);
        }
}

/* Asks a question of a first table of one length and every kind, with every second one beside it. */
static void ask_of(const struct call *c, size_t first, int first_stated)
{
    struct ask a;
    memset(&a, 0, sizeof a);
    for (int n = 0; n < (c->ins > 1 ? LENGTHS * STATEMENTS : 1); n++) {
        a.in[0].bytes = first;
        a.rows[0] = stated_of(first_stated, first, c->row_bytes[0]);
        if (c->ins > 1) {
            a.in[1].bytes = length_of(n / STATEMENTS, c->row_bytes[1]);
            a.rows[1] = stated_of(n % STATEMENTS, a.in[1].bytes, c->row_bytes[1]);
        }
        for (enum filling filling = ZEROS; filling < FILLINGS; filling++) {
            fill(c, &a, filling);
            ask_all(c, &a);
        }
    }
}

/* The data of an extension: files of 0 to 8 bytes, and rows about their end and about 2^32. */
static void attack_data(const struct call *c)
{
    static const uint32_t places[] = {0, 1, 7, 8, 9, 0x7FFFFFFF, 0x80000000u, 0xFFFFFFF8u, 0xFFFFFFFFu};
    enum { PLACES = sizeof places / sizeof *places };
    static uint8_t file[8];
    for (int n = 0; n < PLACES * PLACES * 9; n++)
        for (uint32_t row = 0; row < 3; row++) {
            struct ask a;
            memset(&a, 0, sizeof a);
            memset(table[1], 0xFF, sizeof table[1]);
            put_cell(table[1] + 16 + 8, places[n % PLACES]);
            put_cell(table[1] + 16 + 12, places[n / PLACES % PLACES]);
            a.in[0] = (struct buffer){file, (size_t)(n / PLACES / PLACES)};
            a.in[1] = (struct buffer){table[1], 32 + row};
            a.rows[1] = 2;
            a.argument[0] = row == 2 ? 0xFFFFFFFFu : row;
            if (!is_short || any() % 20 == 0)
                attempt(c, &a);
        }
}

/* The questions of no table. */
static void ask_numbers(const struct call *c)
{
    static const uint64_t numbers[] = {
        0, 1, 2, 191, 192, 193, 0x7FFFFFFF, 0x80000000u, 0xFFFFFFFEu, 0xFFFFFFFFu, 0x100000000u, 192 * 0xFFFFFFFFull - 1,
        192 * 0xFFFFFFFFull, UINT64_MAX};
    enum { NUMBERS = sizeof numbers / sizeof *numbers };
    for (int n = 0; n < NUMBERS * NUMBERS; n++) {
        struct ask a;
        memset(&a, 0, sizeof a);
        a.argument[0] = numbers[n % NUMBERS];
        a.argument[1] = numbers[n / NUMBERS];
        attempt(c, &a);
    }
}

void attack_questions(void)
{
    for (int i = 0; i < call_count; i++) {
        const struct call *c = &calls[i];
        if (strcmp(c->name, "clpi_extension_data") == 0)
            attack_data(c);
        else if (c->ins == 0)
            ask_numbers(c);
        else if (c->refusals == UINT64_C(1) << CLPI_REFUSED_ROWS)
            for (int n = 0; n < LENGTHS * STATEMENTS; n++)
                ask_of(c, length_of(n / STATEMENTS, c->row_bytes[0]), n % STATEMENTS);
    }
}
