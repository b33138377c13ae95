/* The calls that are measured. It is compiled twice, each time with the header of one library; SIDE is what that library's
 * names begin with here. Where a call has changed between the two, CLPI_VERSION tells them apart. */
#include "clpi.h"

#include <stdlib.h>
#include <string.h>

#define JOIN2(side, name) side##name
#define JOIN(side, name) JOIN2(side, name)
#define NAME(name) JOIN(SIDE, name)

/* The tables of one library, and its last reading. */
struct state {
    struct clpi_tables tables;
    struct clpi_reading reading;
};

/* Tables with room for so many maps and entries; every page is touched. */
void *NAME(make)(size_t maps, size_t entries)
{
    struct state *s = calloc(1, sizeof *s);
    s->tables.maps = calloc(maps, sizeof *s->tables.maps);
    s->tables.maps_room = maps;
    s->tables.entries = malloc(entries * sizeof *s->tables.entries);
    s->tables.entries_room = entries;
    memset(s->tables.entries, 1, entries * sizeof *s->tables.entries);
    return s;
}

void NAME(unmake)(void *state)
{
    struct state *s = state;
    free(s->tables.maps);
    free(s->tables.entries);
    free(s);
}

uint32_t NAME(read)(void *state, const uint8_t *file, size_t bytes)
{
    struct state *s = state;
    s->reading = clpi_read_tables(file, bytes, &s->tables);
    return s->reading.refusal;
}

uint32_t NAME(write)(void *state, uint8_t *output, size_t room)
{
    struct state *s = state;
    return clpi_write_tables(&s->reading, &s->tables, output, room).refusal;
}

uint32_t NAME(rewrite)(const uint8_t *file, size_t bytes, uint8_t *output, size_t room)
{
    return clpi_rewrite(file, bytes, output, room).refusal;
}

#define LOOKUP(call, s, time) \
    call((const uint8_t *)(s)->tables.maps, (s)->tables.maps_room * sizeof *(s)->tables.maps, (s)->reading.maps, \
         (const uint8_t *)(s)->tables.entries, (s)->tables.entries_room * sizeof *(s)->tables.entries, (s)->reading.entries, \
         0, time)

uint32_t NAME(at_or_before)(void *state, uint32_t time)
{
    struct state *s = state;
    return LOOKUP(clpi_entry_point_at_or_before, s, time).refusal;
}

uint32_t NAME(after)(void *state, uint32_t time)
{
    struct state *s = state;
    return LOOKUP(clpi_entry_point_after, s, time).refusal;
}
