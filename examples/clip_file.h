/* What the examples and the tool share: a file loaded whole, read into tables that grow to what they need, and compared
 * with its copy by the two records. */
#ifndef CLIP_FILE_H
#define CLIP_FILE_H

#include <errno.h>
#include <stdio.h>
#include <stdlib.h>
#include <string.h>

#include "clpi.h"

/* Grows one table to the rows it needs; on failure the old table stays. */
#define GROW(table) \
    do { \
        void *longer = realloc(t->table, rows * sizeof *t->table); \
        if (!longer) \
            return 0; \
        t->table = longer; \
        t->table##_room = rows; \
        return 1; \
    } while (0)

/* Grows table number n, and tells whether that could be done. */
static int grow_table(struct clpi_tables *t, uint32_t n, size_t rows)
{
    switch (n) {
    case 1: GROW(atcs);
    case 2: GROW(stcs);
    case 3: GROW(programs);
    case 4: GROW(streams);
    case 5: GROW(maps);
    case 6: GROW(entries);
    case 7: GROW(extensions);
    case 8: GROW(list_programs);
    case 9: GROW(list_streams);
    }
    return 0;
}

/* Reads a clip; at most nine tables are too short, the lowest first. 21 is left where there is no memory to grow one. */
static struct clpi_reading read_clip(const uint8_t *file, size_t bytes, struct clpi_tables *t)
{
    struct clpi_reading r;
    do
        r = clpi_read_tables(file, bytes, t);
    while (r.refusal == CLPI_REFUSED_TABLE_SHORT && grow_table(t, r.table, r.rows_needed));
    return r;
}

/* Gives the tables back. */
static void free_tables(struct clpi_tables *t)
{
    free(t->atcs);
    free(t->stcs);
    free(t->programs);
    free(t->streams);
    free(t->maps);
    free(t->entries);
    free(t->extensions);
    free(t->list_programs);
    free(t->list_streams);
}

/* Reads the whole of a file, at most one byte over what is accepted; NULL, and errno says why, where that fails. */
static uint8_t *load(const char *path, size_t *bytes)
{
    FILE *f = fopen(path, "rb");
    uint8_t *file = NULL;
    size_t room = 65536, got = 0;
    int why;
    if (!f)
        return NULL;
    for (;;) {
        uint8_t *longer = realloc(file, room);
        if (!longer)
            break;
        file = longer;
        got += fread(file + got, 1, room - got, f);
        if (got < room || got > CLPI_MOST_BYTES) {
            if (ferror(f))
                break;
            fclose(f);
            *bytes = got;
            return file;
        }
        room = room > CLPI_MOST_BYTES / 2 ? (size_t)CLPI_MOST_BYTES + 1 : room * 2;
    }
    why = errno;
    free(file);
    fclose(f);
    errno = why;
    return NULL;
}

/* A decimal number of 64 bits; tells whether the word is one. */
static inline int number(const char *word, uint64_t *value)
{
    char *end;
    errno = 0;
    *value = strtoull(word, &end, 10);
    return *word >= '0' && *word <= '9' && !*end && !errno;
}

/* Tells whether two tables have equal rows, and as many. */
static inline int same_rows(const void *a, uint32_t a_rows, const void *b, uint32_t b_rows, size_t row_bytes)
{
    return a_rows == b_rows && (a_rows == 0 || memcmp(a, b, a_rows * row_bytes) == 0);
}

/* Tells whether two readings have equal scalars, the letters among them. */
static inline int same_scalars(const struct clpi_reading *a, const struct clpi_reading *b)
{
    return a->letters == b->letters && a->version == b->version && a->clip_stream_type == b->clip_stream_type &&
           a->application_type == b->application_type && a->ts_recording_rate == b->ts_recording_rate &&
           a->number_of_source_packets == b->number_of_source_packets && a->validity_flags == b->validity_flags &&
           a->format_id == b->format_id;
}

/* Tells whether two readings were accepted and have the same record apart from the mark count and the extensions:
 * equal scalars, and equal rows of tables 1 to 6. */
static inline int same_record(
    const struct clpi_reading *a, const struct clpi_tables *s, const struct clpi_reading *b, const struct clpi_tables *t)
{
    return !a->refusal && !b->refusal && same_scalars(a, b) &&
           same_rows(s->atcs, a->atcs, t->atcs, b->atcs, sizeof *s->atcs) &&
           same_rows(s->stcs, a->stcs, t->stcs, b->stcs, sizeof *s->stcs) &&
           same_rows(s->programs, a->programs, t->programs, b->programs, sizeof *s->programs) &&
           same_rows(s->streams, a->streams, t->streams, b->streams, sizeof *s->streams) &&
           same_rows(s->maps, a->maps, t->maps, b->maps, sizeof *s->maps) &&
           same_rows(s->entries, a->entries, t->entries, b->entries, sizeof *s->entries);
}

/* Reads a file and its copy, and tells whether the copy is what rewriting makes: the file's record, but with no marks
 * and no extensions, so that what is lost is what the file has of them. What the two readings answered is handed back. */
static inline int is_copy(
    const uint8_t *file, size_t file_bytes, const uint8_t *copy, size_t copy_bytes,
    struct clpi_reading *of_file, struct clpi_reading *of_copy)
{
    struct clpi_tables s = {0}, t = {0};
    int same;
    *of_file = read_clip(file, file_bytes, &s);
    *of_copy = read_clip(copy, copy_bytes, &t);
    same = same_record(of_file, &s, of_copy, &t) && !of_copy->marks && !of_copy->extensions;
    free_tables(&s);
    free_tables(&t);
    return same;
}

#endif
