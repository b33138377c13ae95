/* Writes a clip's record from its tables to standard output: reads the file, asks how long the new one is, writes it.
 * Who changes the record does so in between, in the tables and the numbers of the reading: sets `letters`, say, to
 * CLPI_LETTERS_HDMV, where a file that begins with CLPI is for players that want HDMV.
 *
 *     cc -I include examples/write.c target/staticlib/libclpi.a -o write && ./write samples/one_map.clpi >new.clpi */
#include <inttypes.h>
#include <stdio.h>
#include <stdlib.h>

#include "clip_file.h"
#include "clpi.h"

/* Writes the record into an output of the length that it needs, which the caller frees. 23 is left where there is no
 * memory for it. */
static struct clpi_writing write_clip(const struct clpi_reading *r, const struct clpi_tables *t, uint8_t **output)
{
    struct clpi_writing w = clpi_write_tables(r, t, NULL, 0);
    *output = NULL;
    if (w.refusal == CLPI_REFUSED_OUTPUT_SHORT && (*output = malloc(w.bytes_needed)))
        w = clpi_write_tables(r, t, *output, w.bytes_needed);
    return w;
}

int main(int argc, char **argv)
{
    struct clpi_tables t = {0};
    struct clpi_reading r;
    struct clpi_writing w;
    size_t bytes;
    uint8_t *file, *output;
    int done;
    if (!clpi_version_fits()) {
        fprintf(stderr, "the library's version does not fit clpi.h\n");
        return 3;
    }
    if (argc != 2) {
        fprintf(stderr, "usage: write FILE\n");
        return 2;
    }
    if (!(file = load(argv[1], &bytes))) {
        perror(argv[1]);
        return 3;
    }
    r = read_clip(file, bytes, &t);
    w = write_clip(&r, &t, &output);
    if (w.refusal)
        fprintf(stderr, "refused %" PRIu32 "\n", w.refusal);
    done = !w.refusal && fwrite(output, 1, w.bytes_written, stdout) == w.bytes_written && fflush(stdout) == 0;
    if (!w.refusal && !done)
        perror("standard output");
    free(output);
    free_tables(&t);
    free(file);
    return done ? 0 : w.refusal ? 1 : 3;
}
