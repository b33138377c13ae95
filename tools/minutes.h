/* The minutes remaining: the words that name a place in a clip, and the answer there. */
#ifndef MINUTES_H
#define MINUTES_H

#include <inttypes.h>
#include <stdio.h>
#include <stdlib.h>

#include "clip_file.h"
#include "clpi.h"
#include "words.h"

enum { TICKS_A_SECOND = 90000 };

/* A place in a clip: the row of an STC, and a time in 90 kHz ticks on its clock, or counted from its start. */
struct place {
    uint32_t stc;
    uint64_t ticks;
    int from_start;
    const char *time; /* the word for it */
};

/* ---- the words */

/* The number of an STC: of decimal digits, below 2^32. */
static int stc_number(const char *word, uint32_t *stc)
{
    uint64_t value;
    if (!number(word, &value) || value > UINT32_MAX)
        return 0;
    *stc = (uint32_t)value;
    return 1;
}

/* Tells whether a character is a decimal digit. */
static int is_digit(char c)
{
    return c >= '0' && c <= '9';
}

/* The first part of a position, one digit or more: 2^64 - 1 where that is passed; goes on behind it. */
static int first_part(const char **word, uint64_t *value)
{
    char *end;
    if (!is_digit(**word))
        return 0;
    *value = strtoull(*word, &end, 10);
    *word = end;
    return 1;
}

/* A later part, a colon and two digits below 60: makes minutes of hours, or seconds of minutes, unless these pass 2^64 - 1;
 * goes on behind it. */
static int later_part(const char **word, uint64_t *value)
{
    const char *w = *word;
    uint64_t more;
    if (w[0] != ':' || w[1] < '0' || w[1] > '5' || !is_digit(w[2]))
        return 0;
    more = (uint64_t)(10 * (w[1] - '0') + (w[2] - '0'));
    if (*value > (UINT64_MAX - more) / 60)
        return 0;
    *value = 60 * *value + more;
    *word = w + 3;
    return 1;
}

/* A position counted from the start, +MM:SS or +H:MM:SS, in 90 kHz ticks. */
static int position(const char *word, uint64_t *ticks)
{
    uint64_t seconds;
    if (*word++ != '+' || !first_part(&word, &seconds) || !later_part(&word, &seconds))
        return 0;
    if (*word && !later_part(&word, &seconds))
        return 0;
    if (*word || seconds > UINT64_MAX / TICKS_A_SECOND)
        return 0;
    *ticks = seconds * TICKS_A_SECOND;
    return 1;
}

/* Says that a word is no number of an STC. */
static int no_number(const char *word)
{
    fprintf(stderr,
        "clip: '%s' is no STC number: say 0 for the first STC, 1 for the second, and so on (at most %" PRIu32 ")\n",
        word, UINT32_MAX);
    return wrong_use();
}

/* Says that a word is no time. */
static int no_time(const char *word)
{
    fprintf(stderr,
        "clip: '%s' is no time: say 90 kHz ticks on the STC's clock, or +MM:SS or +H:MM:SS from its start;"
        " a time is at most %" PRIu64 " ticks\n",
        word, UINT64_MAX);
    return wrong_use();
}

/* Reads the two words for a place, or says which of them is wrong. */
static int read_place(const char *stc, const char *time, struct place *p)
{
    if (!stc_number(stc, &p->stc))
        return no_number(stc);
    p->from_start = position(time, &p->ticks);
    if (!p->from_start && !number(time, &p->ticks))
        return no_time(time);
    p->time = time;
    return DONE;
}

/* ---- the answer */

/* Says that the file has no such STC, and which is its last. */
static int no_stc(const char *path, uint32_t refusal, uint32_t stc, uint32_t stcs)
{
    char words[80] = "the file has no STC sequences, so no minutes can be told";
    if (stcs)
        snprintf(words, sizeof words, "there is no STC %" PRIu32 ": the last one is STC %" PRIu32, stc, stcs - 1);
    return refused_for(path, refusal, words);
}

/* Where an STC starts, in 90 kHz ticks on its clock; 0 where there is no such STC. */
static uint64_t start_of(const struct clpi_tables *t, uint32_t stcs, uint32_t stc)
{
    return stc < stcs ? 2 * (uint64_t)t->stcs[stc].presentation_start_time : 0;
}

/* Prints the minutes remaining at a place of the clip whose tables these are. */
static int print_minutes(const char *path, const struct clpi_tables *t, uint32_t stcs, const struct place *p)
{
    struct clpi_answer left;
    uint64_t from = p->from_start ? start_of(t, stcs, p->stc) : 0;
    if (p->ticks > UINT64_MAX - from)
        return no_time(p->time);
    left = clpi_minutes_remaining(
        (const uint8_t *)t->stcs, t->stcs_room * sizeof *t->stcs, stcs, p->stc, from + p->ticks);
    if (left.refusal)
        return no_stc(path, left.refusal, p->stc, stcs);
    printf("%" PRIu64 "\n", left.value);
    return printed();
}

/* clip minutes FILE STC TIME; FILE alone comes as STC 0, time 0. */
static int minutes(const char *path, const char *stc, const char *time)
{
    struct place p;
    struct clpi_tables t = {0};
    struct clpi_reading r;
    uint8_t *file;
    size_t bytes;
    int status = read_place(stc, time, &p);
    if (status != DONE)
        return status;
    if (!(file = load(path, &bytes)))
        return failed(path);
    r = read_clip(file, bytes, &t);
    status = r.refusal ? refused(path, r.refusal) : print_minutes(path, &t, r.stcs, &p);
    free_tables(&t);
    free(file);
    return status;
}

#endif
