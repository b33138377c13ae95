/* One ask, made several times: at the end of memory that may be touched, at its beginning, and between; over outputs
 * filled with other bytes each time. What is lent must stand as it was but for the rows put out, the answer must be the
 * same each time, and nothing around it may change. */
#define _DEFAULT_SOURCE
#include <signal.h>
#include <stdio.h>
#include <stdlib.h>
#include <string.h>
#include <sys/mman.h>
#include <unistd.h>

#include "attack.h"

enum { PAGE = 4096, ARENA = 4 << 20, MARGIN = 64, SECONDS = 5 };
enum place { BEFORE_CLOSED, BEHIND_CLOSED, BETWEEN, ON_HEAP };

static const uint8_t around = 0xC3;
static uint8_t *arena_in[MOST_IN], *arena_out[2][MOST_OUT];
const struct call *running;
unsigned long attempts;
int is_short;

/* ---- what ends the run */

void found(const char *what)
{
    printf("attack: %s, attempt %lu: %s\n", running ? running->name : "-", attempts, what);
    fflush(stdout);
    _exit(1);
}

/* A call that touched a closed page, or that is still the same one when the clock strikes again. */
static void caught(int number)
{
    static const char left[] = ": it touched memory that isn't lent\n", late[] = ": it doesn't end\n";
    static unsigned long seen;
    const char *name = running ? running->name : "-", *what = number == SIGALRM ? late : left;
    if (number == SIGALRM && seen != attempts) {
        seen = attempts;
        alarm(SECONDS);
        return;
    }
    if (write(1, "attack: ", 8) < 0 || write(1, name, strlen(name)) < 0 || write(1, what, strlen(what)) < 0)
        _exit(3);
    _exit(1);
}

uint8_t *wide(size_t bytes, int writable)
{
    size_t inner = (bytes + PAGE - 1) / PAGE * PAGE;
    uint8_t *whole = mmap(NULL, inner + 2 * PAGE, PROT_NONE, MAP_PRIVATE | MAP_ANONYMOUS | MAP_NORESERVE, -1, 0);
    if (whole == MAP_FAILED)
        return NULL;
    if (mprotect(whole + PAGE, inner, writable ? PROT_READ | PROT_WRITE : PROT_READ) != 0) {
        munmap(whole, inner + 2 * PAGE);
        return NULL;
    }
    return whole + PAGE + (inner - bytes);
}

void give_back(uint8_t *at, size_t bytes)
{
    size_t inner = (bytes + PAGE - 1) / PAGE * PAGE;
    munmap(at - (inner - bytes) - PAGE, inner + 2 * PAGE);
}

void prepare(void)
{
    signal(SIGSEGV, caught);
    signal(SIGBUS, caught);
    signal(SIGALRM, caught);
    alarm(SECONDS);
    for (int i = 0; i < MOST_IN; i++)
        must((arena_in[i] = wide(ARENA, 1)) != NULL, "no memory for the attack");
    for (int set = 0; set < 2; set++)
        for (int i = 0; i < MOST_OUT; i++)
            must((arena_out[set][i] = wide(ARENA, 1)) != NULL, "no memory for the attack");
}

/* ---- places */

/* Lends so many bytes of an arena, with bytes around them that must stay. No bytes are lent at NULL too. */
static struct buffer buffer_in(uint8_t *arena, size_t bytes, enum place place, size_t offset)
{
    struct buffer l = {arena, bytes};
    must(bytes <= ARENA - 3 * MARGIN, "the attack has no room for it");
    if (place == ON_HEAP) {
        l.at = malloc(bytes);
        return l;
    }
    if (place == BEFORE_CLOSED)
        l.at = arena + ARENA - bytes;
    if (place == BETWEEN)
        l.at = arena + MARGIN + offset;
    if (place != BEHIND_CLOSED)
        memset(l.at - MARGIN, around, MARGIN);
    if (place != BEFORE_CLOSED)
        memset(l.at + bytes, around, MARGIN);
    if (place == BETWEEN && bytes == 0)
        l.at = NULL;
    return l;
}

/* Tells whether bytes all have a value. */
static int is_all(const uint8_t *at, size_t bytes, uint8_t value)
{
    return bytes == 0 || (at[0] == value && memcmp(at, at + 1, bytes - 1) == 0);
}

/* Sees that what is around lent bytes is as it was. */
static void look_around(struct buffer l, enum place place)
{
    if (place == ON_HEAP || !l.at)
        return;
    if (place != BEHIND_CLOSED)
        must(is_all(l.at - MARGIN, MARGIN, around), "bytes before what is lent have changed");
    if (place != BEFORE_CLOSED)
        must(is_all(l.at + l.bytes, MARGIN, around), "bytes behind what is lent have changed");
}

/* ---- what 01 says of every answer */

/* The four bytes of a cell. */
static uint32_t cell(const uint8_t *at)
{
    return at[0] | (uint32_t)at[1] << 8 | (uint32_t)at[2] << 16 | (uint32_t)at[3] << 24;
}

/* Tells whether more rows are stated of a table than are lent. */
static int states_more(const struct call *c, const struct ask *a)
{
    for (int i = 0; i < c->ins; i++)
        if (c->row_bytes[i] && a->rows[i] > a->in[i].bytes / c->row_bytes[i])
            return 1;
    return 0;
}

/* Tells whether the counts of table i add up to the rows stated of the next one. */
static int adds_up(const struct call *c, const struct ask *a, int i)
{
    uint64_t sum = 0;
    for (uint32_t row = 0; row < a->rows[i]; row++)
        sum += cell(a->in[i].at + (size_t)row * c->row_bytes[i] + c->count_at[i]);
    return sum == a->rows[i + 1];
}

/* Tells whether a row of table 7 has its data inside the file. */
static int has_data(const struct ask *a)
{
    const uint8_t *row = a->in[1].at + (size_t)a->argument[0] * 16;
    return (uint64_t)cell(row + 8) + cell(row + 12) <= a->in[0].bytes;
}

/* Tells whether an ask is refused by 22. */
static int has_22(const struct call *c, const struct ask *a)
{
    if (states_more(c, a))
        return 1;
    for (int i = 0; i < c->ins; i++)
        if (c->count_at[i] && !adds_up(c, a, i))
            return 1;
    if (c->row_of >= 0 && a->argument[0] >= a->rows[c->row_of])
        return 1;
    return c->row_of == 1 && !has_data(a);
}

/* Tells whether the letters of a record are neither of the two. They are the first argument. */
static int has_other_letters(const struct ask *a)
{
    return a->argument[0] != CLPI_LETTERS_HDMV && a->argument[0] != CLPI_LETTERS_CLPI;
}

/* Sees that a refusal is one that the call may give, and that its other numbers are 0 but for those of 21 and 23. */
static void look_at_refusal(const struct call *c, const struct ask *a, const uint64_t *number)
{
    int kept = number[0] == 21 ? 2 : number[0] == 23 ? 1 : 0;
    must(number[0] < 64 && (c->refusals >> number[0] & 1), "a refusal that the call doesn't have");
    for (int i = 1 + kept; i < c->numbers; i++)
        must(number[i] == 0, "a number beside a refusal");
    if (number[0] == 21) {
        must(number[1] >= 1 && number[1] <= 9, "21 of a table that isn't there");
        must(number[2] > a->room[number[1] - 1] / c->out_bytes[number[1] - 1], "21 of a table that is long enough");
    }
    if (number[0] == 23)
        must(number[1] > a->room[0], "23 of an output that is long enough");
}

/* Sees that an answer is one of those that 01 allows here. */
static void look_at_answer(const struct call *c, const struct ask *a, const uint64_t *number)
{
    int is_22 = (c->refusals >> 22 & 1) && has_22(c, a);
    must((number[0] == 22) == is_22, "22 where it has no place, or not where it has");
    if (c->refusals >> 40 & 1)
        must((number[0] == 40) == (!is_22 && has_other_letters(a)), "40 where it has no place, or not where it has");
    if (number[0]) {
        look_at_refusal(c, a, number);
        return;
    }
    if (c->finds)
        must(number[1] == 1 || (number[1] == 0 && number[2] == 0), "a value that isn't found");
}

/* ---- one run */

/* How many bytes of an output were put out. */
static size_t put_out(const struct call *c, const uint64_t *number, int i)
{
    return number[0] ? 0 : number[c->out_count + i] * c->out_bytes[i];
}

/* Sees that an input stands as it was lent. */
static void look_at_inputs(const struct call *c, const struct ask *a, const struct ask *placed, enum place place)
{
    for (int i = 0; i < c->ins; i++) {
        if (a->in[i].bytes > 0)
            must(memcmp(placed->in[i].at, a->in[i].at, a->in[i].bytes) == 0, "an input has changed");
        look_around(placed->in[i], place);
    }
}

/* Sees that an output is as it was behind the rows, and that these are those of the first run. On the heap it was left
 * without a value, which valgrind tells if it is looked at. */
static void look_at_outputs(
    const struct call *c, const uint64_t *number, const struct buffer *out, const struct buffer *first, uint8_t fill, enum place place)
{
    for (int i = 0; i < c->outs; i++) {
        size_t bytes = put_out(c, number, i);
        must(bytes <= out[i].bytes, "more rows than the output has room for");
        if (place != ON_HEAP && out[i].bytes > bytes)
            must(is_all(out[i].at + bytes, out[i].bytes - bytes, fill), "an output has changed behind its rows");
        if (bytes > 0)
            must(memcmp(out[i].at, first[i].at, bytes) == 0, "the same ask puts out other bytes");
        look_around(out[i], place);
    }
}

/* Copies the inputs to where they are lent, and fills the outputs. */
static void place_all(
    const struct call *c, const struct ask *a, struct ask *placed, struct buffer *out, int set, enum place place, uint8_t fill)
{
    for (int i = 0; i < c->ins; i++) {
        placed->in[i] = buffer_in(arena_in[i], a->in[i].bytes, place, (attempts + (unsigned)i) % 8);
        if (a->in[i].bytes > 0)
            memcpy(placed->in[i].at, a->in[i].at, a->in[i].bytes);
    }
    for (int i = 0; i < c->outs; i++) {
        out[i] = buffer_in(arena_out[set][i], a->room[i], place, (attempts + (unsigned)i * 3) % 8);
        if (place != ON_HEAP && a->room[i] > 0)
            memset(out[i].at, fill, a->room[i]);
    }
}

/* Gives back what was lent on the heap. */
static void free_all(const struct call *c, const struct ask *placed, const struct buffer *out)
{
    for (int i = 0; i < c->ins; i++)
        free(placed->in[i].at);
    for (int i = 0; i < c->outs; i++)
        free(out[i].at);
}

/* Makes an ask once, and looks at all that it may have done. */
static void run_once(
    const struct call *c, const struct ask *a, int nth, enum place place, struct buffer *out, const struct buffer *first,
    uint64_t *number)
{
    struct ask placed = *a;
    uint8_t fill = nth == 1 ? 0x5A : 0xA5;
    place_all(c, a, &placed, out, nth > 0, place, fill);
    memset(number, 0, MOST_NUMBERS * sizeof *number);
    c->run(&placed, out, number);
    look_at_answer(c, a, number);
    look_at_inputs(c, a, &placed, place);
    look_at_outputs(c, number, out, first, fill, place);
    if (place == ON_HEAP)
        free_all(c, &placed, out);
}

struct outcome attempt(const struct call *c, const struct ask *a)
{
    struct outcome o;
    struct buffer first[MOST_OUT] = {{NULL, 0}}, out[MOST_OUT];
    uint64_t number[MOST_NUMBERS];
    running = c;
    attempts++;
    run_once(c, a, 0, BEFORE_CLOSED, first, first, o.number);
    run_once(c, a, 1, is_short ? ON_HEAP : BEHIND_CLOSED, out, first, number);
    must(memcmp(number, o.number, sizeof number) == 0, "the same ask has another answer");
    if (!is_short) {
        run_once(c, a, 2, BETWEEN, out, first, number);
        must(memcmp(number, o.number, sizeof number) == 0, "the same ask has another answer");
    }
    for (int i = 0; i < c->outs; i++)
        o.out[i] = first[i].at;
    return o;
}
