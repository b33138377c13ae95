/* Prints the listing of a clip file: reads it, and grows each table that is said to be too short.
 *
 *     cc -I include examples/read.c target/staticlib/libclpi.a -o read && ./read samples/one_map.clpi */
#include <inttypes.h>
#include <stdio.h>
#include <stdlib.h>

#include "clip_file.h"
#include "clpi.h"

/* Prints the record as the listing program does. */
static void list(const struct clpi_reading *r, const struct clpi_tables *t)
{
    const struct clpi_ep_entry *entry = t->entries;
    printf("clip %" PRIu32 " %" PRIu32 " %" PRIu32 " %" PRIu32 "\n", r->clip_stream_type, r->application_type,
           r->ts_recording_rate, r->number_of_source_packets);
    printf("seq %" PRIu32 " %" PRIu32 "\n", r->atcs, r->stcs);
    printf("prog %" PRIu32 " %" PRIu32 "\n", r->programs, r->streams);
    for (uint32_t i = 0; i < r->maps; i++) {
        const struct clpi_ep_map *map = &t->maps[i];
        printf("map %" PRIu32 " %" PRIu32 " %" PRIu32 "\n", map->stream_pid, map->ep_stream_type, map->entry_count);
        for (uint32_t k = 0; k < map->entry_count; k++, entry++)
            printf("ep %" PRIu64 " %" PRIu32 "\n", entry->pts_ep_start, entry->spn_ep_start);
    }
    printf("mark %" PRIu32 "\n", r->marks);
}

int main(int argc, char **argv)
{
    struct clpi_tables t = {0};
    struct clpi_reading r;
    size_t bytes;
    uint8_t *file;
    if (!clpi_version_fits()) {
        fprintf(stderr, "the library's version does not fit clpi.h\n");
        return 3;
    }
    if (argc != 2) {
        fprintf(stderr, "usage: read FILE\n");
        return 2;
    }
    if (!(file = load(argv[1], &bytes))) {
        perror(argv[1]);
        return 3;
    }
    r = read_clip(file, bytes, &t);
    if (r.refusal == CLPI_REFUSED_TABLE_SHORT)
        printf("refused 21 %" PRIu32 "\n", r.table);
    else if (r.refusal)
        printf("refused %" PRIu32 "\n", r.refusal);
    else
        list(&r, &t);
    free_tables(&t);
    free(file);
    if (fflush(stdout) != 0 || ferror(stdout)) {
        perror("standard output");
        return 3;
    }
    return r.refusal != 0;
}
