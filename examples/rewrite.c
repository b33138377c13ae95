/* Rewrites a clip file safely: the new file is written beside its place, read back, compared by its record with the old
 * one, and only then given its name. It has the old one's letters, but neither its marks nor its extensions.
 *
 *     cc -I include examples/rewrite.c target/staticlib/libclpi.a -o rewrite && ./rewrite samples/one_map.clpi new.clpi */
#define _POSIX_C_SOURCE 200809L
#include <inttypes.h>
#include <stdio.h>
#include <stdlib.h>

#include "clip_file.h"
#include "clpi.h"
#include "new_file.h"

/* Writes the new file, reads it back, and names it if it has the old file's record. */
static int put_new(const char *path, const uint8_t *old, size_t old_bytes, const uint8_t *output, size_t output_bytes)
{
    struct new_file f;
    uint8_t *copy = NULL;
    size_t copy_bytes;
    struct clpi_reading of_old, of_copy;
    int done = 0;
    if (!start_file(&f, path) || !write_file(&f, output, output_bytes) || !(copy = load(f.draft, &copy_bytes)))
        perror(path);
    else if (!is_copy(old, old_bytes, copy, copy_bytes, &of_old, &of_copy))
        fprintf(stderr, "%s: the copy does not read as the old file does (refused: old %" PRIu32 ", copy %" PRIu32 ")\n",
                path, of_old.refusal, of_copy.refusal);
    else if (!(done = place_file(&f)))
        perror(path);
    end_file(&f);
    free(copy);
    return done;
}

int main(int argc, char **argv)
{
    struct clpi_length length;
    struct clpi_writing w;
    size_t bytes;
    uint8_t *old, *output;
    int done = 0;
    if (!clpi_version_fits()) {
        fprintf(stderr, "the library's version does not fit clpi.h\n");
        return 3;
    }
    if (argc != 3) {
        fprintf(stderr, "usage: rewrite OLD NEW\n");
        return 2;
    }
    if (!(old = load(argv[1], &bytes))) {
        perror(argv[1]);
        return 3;
    }
    length = clpi_rewritten_length(old, bytes);
    if (length.refusal) {
        fprintf(stderr, "refused %" PRIu32 "\n", length.refusal);
        free(old);
        return 1;
    }
    output = malloc(length.bytes);
    if (!output) {
        perror(argv[2]);
    } else {
        w = clpi_rewrite(old, bytes, output, length.bytes);
        done = w.refusal == CLPI_OK && put_new(argv[2], old, bytes, output, w.bytes_written);
    }
    free(output);
    free(old);
    return done ? 0 : 3;
}
