/* Hostile files, made of one small file that has some of everything: each prefix, each place overwritten by each of the
 * numbers that sections, lengths, addresses and counts go wrong by, sections over one another, and any bytes at all; and
 * files whose maps have faults of known numbers. */
#include <string.h>

#include "attack.h"

enum { MOST_MADE = 1200, STARTS = 5 };

static uint8_t made[MOST_MADE];
static size_t made_bytes;
static uint32_t seed = 0x1CE4E5B9u;

uint32_t any(void)
{
    seed ^= seed << 13;
    seed ^= seed >> 17;
    seed ^= seed << 5;
    return seed;
}

void put_be(uint8_t *at, uint32_t value, int bytes)
{
    for (int i = 0; i < bytes; i++)
        at[i] = (uint8_t)(value >> 8 * (bytes - 1 - i));
}

uint32_t get_be(const uint8_t *at)
{
    return (uint32_t)at[0] << 24 | (uint32_t)at[1] << 16 | (uint32_t)at[2] << 8 | at[3];
}

/* Puts bytes at the end of the file being made; the start of a section is noted in the header. */
static void add(const char *bytes, size_t count)
{
    memcpy(made + made_bytes, bytes, count);
    made_bytes += count;
}
#define ADD(literal) add(literal, sizeof literal - 1)

static void start(int section)
{
    put_be(made + 8 + 4 * section, (uint32_t)made_bytes, 4);
}

/* Two ATCs with two STCs and one. */
static void add_sequences(void)
{
    start(0);
    ADD("\0\0\0\056\0\2");
    ADD("\0\0\0\0\2\0" "\20\1\0\0\0\0\0\0\0\100\0\1\0\0" "\20\1\0\0\1\0\0\1\0\0\0\2\0\0");
    ADD("\0\0\2\0\1\2" "\20\1\0\0\2\0\0\0\0\0\1\251\267\40");
}

/* Two programs: video and audio; a body of no byte. */
static void add_programs(void)
{
    start(1);
    ADD("\0\0\0\40\0\2");
    ADD("\0\0\0\0\1\0\2\0" "\20\21\3\33\141\60" "\21\0\5\201\61ENG");
    ADD("\0\0\1\0\1\1\1\0" "\22\0\0");
}

/* Two maps over the same body: two coarse rows and three fine ones, and one of each. */
static void add_maps(void)
{
    start(2);
    ADD("\0\0\0\100\0\1\0\2");
    ADD("\20\21\0\4\0\10\0\3\0\0\0\32" "\21\0\0\14\0\4\0\1\0\0\0\32");
    ADD("\0\0\0\24" "\0\0\0\1\0\0\0\7" "\0\0\200\2\0\2\0\11");
    ADD("\20\2\0\7" "\220\4\0\10" "\0\6\0\11");
}

/* A mark count, and three extensions of which one is a list. */
static void add_rest(void)
{
    start(3);
    ADD("\0\0\0\2\0\3");
    start(4);
    ADD("\0\0\0\120\0\0\0\60\0\0\0\3");
    ADD("\0\1\0\2\0\0\0\60\0\0\0\4" "\0\2\0\5\0\0\0\64\0\0\0\31" "\0\7\0\7\0\0\0\124\0\0\0\0");
    ADD("data" "\0\0\0\25\0\1" "\0\0\0\0\1\0\1\0" "\22\0\5\220\0fra" "spare bytes");
}

/* Makes the file. */
static void make(void)
{
    memset(made, 0, sizeof made);
    made_bytes = 0;
    ADD("HDMV0200");
    made_bytes = 40;
    ADD("\0\0\0\226\0\0\1\1\0\0\0\0\0\133\215\200\0\0\3\350");
    made_bytes = 188;
    ADD("\200\0HDMV");
    add_sequences();
    add_programs();
    add_maps();
    add_rest();
}

/* Sees that the file has rows of every table, so that what is made of it attacks all of them. */
static void look_at_made(void)
{
    static const uint64_t rows[] = {2, 3, 2, 3, 2, 4, 3, 1, 1};
    struct ask a;
    struct outcome o;
    memset(&a, 0, sizeof a);
    a.in[0] = (struct buffer){made, made_bytes};
    for (int i = 0; i < 9; i++)
        a.room[i] = 100;
    o = attempt(call_named("clpi_read"), &a);
    must(o.number[0] == 0 && memcmp(o.number + COUNTS, rows, sizeof rows) == 0, "the file that the others are made of has other rows");
}

/* Tells whether the short run leaves a file out. */
static int left_out(unsigned of)
{
    return is_short && any() % of != 0;
}

/* Every prefix, among them no byte and one. */
static void cut(void)
{
    for (size_t bytes = 0; bytes <= made_bytes; bytes++)
        if (bytes < 2 || !left_out(8))
            try_file(made, bytes);
}

/* The numbers that a field of four bytes is overwritten by. */
enum { NUMBERS = 20 };
static uint32_t number_of(int n)
{
    const uint32_t bytes = (uint32_t)made_bytes;
    const uint32_t numbers[NUMBERS] = {
        0, 1, 2, 3, 4, 5, 6, bytes - 6, bytes - 4, bytes - 1, bytes, bytes + 1, 0x7FFFFFFFu, 0x80000000u, 0x80000001u,
        0xFFFFFFFFu - bytes, 0xFFFFFFFFu - bytes + 1, 0xFFFFFFFCu, 0xFFFFFFFEu, 0xFFFFFFFFu};
    return numbers[n];
}

/* Every place, overwritten: four bytes by each number, and one byte by each limit. */
static void overwrite(void)
{
    static const uint8_t limits[] = {0, 1, 0x7F, 0x80, 0xFF};
    for (size_t at = 0; at + 4 <= made_bytes; at++)
        for (int n = 0; n < NUMBERS + 5; n++) {
            uint8_t file[MOST_MADE];
            if (left_out(at < 4 ? 4 : 500) || (at > 28 && at < 40) || (at > 60 && at < 184))
                continue;
            memcpy(file, made, made_bytes);
            if (n < NUMBERS)
                put_be(file + at, number_of(n), 4);
            else
                file[at] = limits[n - NUMBERS];
            try_file(file, made_bytes);
        }
}

/* Sections in every order and over one another: each start is any of the five, or 0, or about the end. The letters are those
 * of the two kinds in turn. */
static void overlap(void)
{
    uint32_t places[STARTS + 4] = {0, 1, (uint32_t)made_bytes - 5, (uint32_t)made_bytes};
    for (int i = 0; i < STARTS; i++)
        places[4 + i] = get_be(made + 8 + 4 * i);
    for (uint32_t n = 0; n < 59049; n++) {
        uint8_t file[MOST_MADE];
        uint32_t rest = n;
        if (any() % 10 != 0 || left_out(400))
            continue;
        memcpy(file, made, made_bytes);
        memcpy(file, n % 2 ? "CLPI" : "HDMV", 4);
        for (int i = 0; i < STARTS; i++, rest /= 9)
            put_be(file + 8 + 4 * i, places[rest % 9], 4);
        try_file(file, made_bytes);
    }
}

/* Any bytes behind a header whose starts are inside the file; half of them are small, so that counts are. */
static void any_bytes(void)
{
    for (int n = 0; n < 4000; n++) {
        uint8_t file[MOST_MADE];
        size_t bytes = 194 + any() % (MOST_MADE - 194);
        if (left_out(150))
            continue;
        for (size_t i = 0; i < bytes; i++)
            file[i] = any() % 2 ? (uint8_t)any() : n % 2 ? 0 : (uint8_t)(any() % 3);
        memcpy(file, n % 3 ? "CLPI" : "HDMV", 4);
        for (int i = 0; i < STARTS; i++)
            put_be(file + 8 + 4 * i, any() % (uint32_t)bytes, 4);
        put_be(file + 40, any() % (uint32_t)bytes, 4);
        try_file(file, bytes);
    }
}

/* A map by the numbers of its header, and by its fine address. */
struct map {
    uint32_t address, coarse, fine, fine_address;
};

/* A file of two maps: the refusal that it has, the bytes behind the CPI end, and the maps. With the addresses 26 and 42 their
 * bodies have room for a coarse row and a fine row each; 58 is the CPI end. */
struct known {
    uint32_t refusal;
    size_t behind;
    struct map maps[2];
};

/* A map with no fault, the first and the second, and one at the CPI end. */
#define SOUND_FIRST {26, 1, 1, 12}
#define SOUND_SECOND {42, 1, 1, 12}
#define AT_END {58, 0, 0, 0}

/* Each fault of a map and its limit, two in one map, and one in each of two maps. */
static const struct known known[] = {
    {CLPI_OK, 0, {SOUND_FIRST, SOUND_SECOND}},
    {CLPI_OK, 3, {{57, 0, 0, 0}, SOUND_SECOND}},
    {CLPI_REFUSED_MAP_ADDRESS, 20, {AT_END, SOUND_SECOND}},
    {CLPI_REFUSED_MAP_ADDRESS, 20, {SOUND_FIRST, AT_END}},
    {CLPI_REFUSED_MAP_BODY, 2, {{57, 0, 0, 0}, SOUND_SECOND}},
    {CLPI_REFUSED_MAP_BODY, 0, {SOUND_FIRST, {55, 0, 0, 0}}},
    {CLPI_OK, 20, {{26, 6, 1, 12}, SOUND_SECOND}},
    {CLPI_REFUSED_MAP_BODY, 20, {{26, 7, 1, 12}, SOUND_SECOND}},
    {CLPI_OK, 20, {{26, 1, 0, 32}, SOUND_SECOND}},
    {CLPI_REFUSED_FINE_ADDRESS, 20, {{26, 1, 0, 33}, SOUND_SECOND}},
    {CLPI_REFUSED_FINE_ADDRESS, 20, {{26, 1, 0, 53}, SOUND_SECOND}},
    {CLPI_REFUSED_FINE_ADDRESS, 20, {SOUND_FIRST, {42, 1, 0, 0xFFFFFFFFu}}},
    {CLPI_OK, 20, {{26, 1, 10, 12}, SOUND_SECOND}},
    {CLPI_REFUSED_MAP_BODY, 20, {{26, 1, 11, 12}, SOUND_SECOND}},
    {CLPI_REFUSED_MAP_ADDRESS, 20, {{58, 9, 0, 1}, SOUND_SECOND}},
    {CLPI_REFUSED_MAP_BODY, 20, {{26, 7, 0, 33}, SOUND_SECOND}},
    {CLPI_REFUSED_FINE_ADDRESS, 20, {{26, 1, 5, 33}, SOUND_SECOND}},
    {CLPI_REFUSED_MAP_ADDRESS, 20, {AT_END, {42, 1, 0, 17}}},
    {CLPI_REFUSED_FINE_ADDRESS, 20, {{26, 1, 0, 33}, AT_END}},
    {CLPI_REFUSED_MAP_BODY, 20, {{26, 7, 1, 12}, AT_END}},
    {CLPI_REFUSED_MAP_BODY, 20, {{26, 1, 11, 12}, {42, 1, 0, 17}}},
};

/* Makes a file of known maps; its length. A fine address that passes the file's end is cut there. */
static size_t make_known(uint8_t *file, const struct known *k)
{
    enum { CPI = 206, END = CPI + 64 };
    memset(file, 0, MOST_MADE);
    memcpy(file, "HDMV0200", 8);
    put_be(file + 8, 194, 4);
    put_be(file + 12, 200, 4);
    put_be(file + 16, CPI, 4);
    put_be(file + CPI, END - CPI - 4, 4);
    memcpy(file + CPI + 4, "\0\1\0\2", 4);
    for (int i = 0; i < 2; i++) {
        const struct map *m = &k->maps[i];
        uint8_t *header = file + CPI + 8 + 12 * i;
        memcpy(header, "\20\21", 2);
        put_be(header + 2, 1u << 18 | m->coarse << 2, 4);
        put_be(header + 6, m->fine, 2);
        put_be(header + 8, m->address, 4);
        put_be(file + CPI + 6 + m->address, m->fine_address, 4);
    }
    return END + k->behind;
}

/* Files with known maps: each is refused for the first fault of the first map that has one. */
static void known_maps(void)
{
    for (size_t i = 0; i < sizeof known / sizeof *known; i++) {
        uint8_t file[MOST_MADE];
        size_t bytes = make_known(file, &known[i]);
        struct ask a;
        memset(&a, 0, sizeof a);
        a.in[0] = (struct buffer){file, bytes};
        for (int table = 0; table < 9; table++)
            a.room[table] = 400;
        must(try_file(file, bytes) == (known[i].refusal == CLPI_OK), "a map's fault accepted, or a map with none refused");
        must(attempt(call_named("clpi_read"), &a).number[0] == known[i].refusal, "another number than a map's first fault has");
    }
}

/* A file of one map with so many runs: the times of its fine rows are 0 and 524,288 in turn. */
static void many_runs(uint32_t runs, int is_rewritten)
{
    enum { CPI = 206, BODY = CPI + 20, ROWS = BODY + 12 };
    static uint8_t file[ROWS + 4 * 65536];
    unsigned long before = rewritings;
    memset(file, 0, sizeof file);
    memcpy(file, "CLPI0200", 8);
    put_be(file + 8, 194, 4);
    put_be(file + 12, 200, 4);
    put_be(file + 16, CPI, 4);
    put_be(file + CPI, ROWS - CPI + 4 * runs - 4, 4);
    memcpy(file + CPI + 4, "\0\1\0\1\20\21", 6);
    put_be(file + CPI + 10, 1u << 18 | 1u << 2 | runs >> 16, 4);
    put_be(file + CPI + 14, runs & 0xFFFF, 2);
    put_be(file + CPI + 16, BODY - CPI - 6, 4);
    file[BODY + 3] = ROWS - BODY;
    for (uint32_t i = 0; i < runs; i++)
        file[ROWS + 4 * i] = i % 2 ? 8 : 0;
    must(try_file(file, ROWS + 4 * runs), "a file of many runs is refused");
    must((rewritings > before) == is_rewritten, "31 where it has no place, or not where it has");
}

void attack_files(void)
{
    make();
    look_at_made();
    known_maps();
    cut();
    overwrite();
    overlap();
    any_bytes();
    if (!is_short) {
        many_runs(65535, 1);
        many_runs(65536, 0);
    }
}
