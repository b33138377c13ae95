/* Prints the minutes remaining in a clip, the figure on a player's front: at the clip's start, or at a place, which is an
 * STC, by its row of table 2, and a time on the clock of that STC in 90 kHz ticks.
 *
 *     cc -I include examples/minutes.c target/staticlib/libclpi.a -o minutes && ./minutes samples/lecture.clpi 1 16200000 */
#include <inttypes.h>
#include <stdio.h>
#include <stdlib.h>

#include "clip_file.h"
#include "clpi.h"

/* Reads a clip and asks it at a place. A refusal is one of the file, or 22 where there is no such STC. */
static struct clpi_answer minutes_at(const uint8_t *file, size_t bytes, uint32_t stc, uint64_t at)
{
    struct clpi_tables t = {0};
    struct clpi_reading r = read_clip(file, bytes, &t);
    struct clpi_answer left = {r.refusal, 0, 0};
    if (!r.refusal)
        left = clpi_minutes_remaining((const uint8_t *)t.stcs, t.stcs_room * sizeof *t.stcs, r.stcs, stc, at);
    free_tables(&t);
    return left;
}

int main(int argc, char **argv)
{
    uint64_t stc = 0, at = 0; /* the clip's start: a time before the start of an STC asks at its start */
    struct clpi_answer left;
    size_t bytes;
    uint8_t *file;
    if (!clpi_version_fits()) {
        fprintf(stderr, "the library's version does not fit clpi.h\n");
        return 3;
    }
    if (argc != 2 && (argc != 4 || !number(argv[2], &stc) || stc > UINT32_MAX || !number(argv[3], &at))) {
        fprintf(stderr, "usage: minutes FILE [STC TICKS]\n");
        return 2;
    }
    if (!(file = load(argv[1], &bytes))) {
        perror(argv[1]);
        return 3;
    }
    left = minutes_at(file, bytes, (uint32_t)stc, at);
    free(file);
    if (left.refusal) {
        fprintf(stderr, "refused %" PRIu32 ": %s\n", left.refusal, clpi_refusal_words(left.refusal));
        return 1;
    }
    printf("%" PRIu64 "\n", left.value);
    if (fflush(stdout) != 0) {
        perror("standard output");
        return 3;
    }
    return 0;
}
