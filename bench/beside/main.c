/* main FILE MAPS ENTRIES ROUNDS REPEATS LOOKUPS: measures the calls of two libraries on a file, in turn. It prints a line for each
 * call: its name, and the median of the rounds with the one library and with the other, in ns an entry (of a lookup, an entry of
 * the first map). */
#include <stdint.h>
#include <stdio.h>
#include <stdlib.h>
#include <string.h>
#include <time.h>

#define SIDES(returned, name, ...) \
    returned before_##name(__VA_ARGS__); \
    returned after_##name(__VA_ARGS__); \
    static returned (*const name[2])(__VA_ARGS__) = {before_##name, after_##name}

SIDES(void *, make, size_t, size_t);
SIDES(void, unmake, void *);
SIDES(uint32_t, read, void *, const uint8_t *, size_t);
SIDES(uint32_t, write, void *, uint8_t *, size_t);
SIDES(uint32_t, rewrite, const uint8_t *, size_t, uint8_t *, size_t);
SIDES(uint32_t, at_or_before, void *, uint32_t);
SIDES(uint32_t, after, void *, uint32_t);

enum { READ, WRITE, REWRITE, AT_OR_BEFORE, AFTER, CALLS, MOST_ROUNDS = 1000 };
static const char *const names[CALLS] = {"reading", "writing", "rewriting", "at or before", "after"};
static double times[CALLS][2][MOST_ROUNDS];

static uint8_t *file, *output;
static size_t bytes, room;
static void *state[2];

/* Ends with a message where the word is 0. */
static void need(int met, const char *what)
{
    if (!met) {
        fprintf(stderr, "beside: %s\n", what);
        exit(1);
    }
}

static void load(const char *path)
{
    FILE *f = fopen(path, "rb");
    need(f && !fseek(f, 0, SEEK_END), "the file can't be read");
    bytes = (size_t)ftell(f);
    rewind(f);
    file = malloc(bytes);
    room = 2 * bytes;
    output = malloc(room);
    need(file && output && fread(file, 1, bytes, f) == bytes, "the file can't be read");
    fclose(f);
    memset(output, 1, room);
}

static uint32_t call(int which, int side, uint32_t time)
{
    switch (which) {
    case READ: return read[side](state[side], file, bytes);
    case WRITE: return write[side](state[side], output, room);
    case REWRITE: return rewrite[side](file, bytes, output, room);
    case AT_OR_BEFORE: return at_or_before[side](state[side], time);
    default: return after[side](state[side], time);
    }
}

/* The ns of so many calls. */
static double measure(int which, int side, uint32_t repeats)
{
    struct timespec from, to;
    uint32_t refused = 0, i;
    clock_gettime(CLOCK_MONOTONIC, &from);
    for (i = 0; i < repeats; i++) {
        refused |= call(which, side, i * 7919u * 512u);
    }
    clock_gettime(CLOCK_MONOTONIC, &to);
    need(!refused, "a call is refused");
    return (double)(to.tv_sec - from.tv_sec) * 1e9 + (double)(to.tv_nsec - from.tv_nsec);
}

static int less(const void *a, const void *b)
{
    double x = *(const double *)a, y = *(const double *)b;
    return (x > y) - (x < y);
}

int main(int count, char **words)
{
    size_t maps, entries;
    uint32_t repeats, lookups;
    int rounds, round, which, side;
    need(count == 7, "it takes six words");
    load(words[1]);
    maps = (size_t)atol(words[2]);
    entries = (size_t)atol(words[3]);
    rounds = atoi(words[4]);
    repeats = (uint32_t)atol(words[5]);
    lookups = (uint32_t)atol(words[6]);
    need(maps && entries && rounds > 0 && rounds <= MOST_ROUNDS && repeats && lookups, "a word is no number that will do");
    for (side = 0; side < 2; side++) {
        state[side] = make[side](maps, entries);
    }
    for (round = 0; round < rounds; round++) {
        for (which = 0; which < CALLS; which++) {
            for (side = 0; side < 2; side++) {
                int scan = which == AT_OR_BEFORE || which == AFTER;
                double turns = (double)(scan ? lookups : repeats) * (double)(scan ? entries / maps : entries);
                times[which][side][round] = measure(which, side, scan ? lookups : repeats) / turns;
            }
        }
    }
    for (which = 0; which < CALLS; which++) {
        for (side = 0; side < 2; side++) {
            qsort(times[which][side], (size_t)rounds, sizeof(double), less);
        }
        printf("%s: %.4f %.4f\n", names[which], times[which][0][rounds / 2], times[which][1][rounds / 2]);
    }
    for (side = 0; side < 2; side++) {
        unmake[side](state[side]);
    }
    free(file);
    free(output);
    return 0;
}
