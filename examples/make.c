/* Writes a clip that is in no file yet, to standard output: its record is made by hand, row by row.
 *
 *     cc -I include examples/make.c target/staticlib/libclpi.a -o make_clip && ./make_clip >new.clpi && ./clip list new.clpi */
#include <inttypes.h>
#include <stdio.h>
#include <string.h>

#include "clpi.h"

/* The rows of each table, in the order of the struct's fields. An ATC, a program and a map say how many of the next
 * table's rows are their own. */
static struct clpi_atc atcs[] = {{0, 1, 0}};
static struct clpi_stc stcs[] = {{0x1001, 0, 27000000, 29700000}}; /* from minute 10 to 11, in 45 kHz ticks */
static struct clpi_program programs[] = {{0, 0x0100, 2}};
static struct clpi_stream streams[] = {
    {0x1011, 0x1B, 0x61, 3, 0},        /* video with its aspect */
    {0x1100, 0x81, 0x61, 0, 0x656E67}, /* audio with its language, eng */
};
static struct clpi_ep_map maps[] = {{0x1011, 1, 2}};
static struct clpi_ep_entry entries[] = {
    {0, 1, 54000128, 0, 1}, /* times in 90 kHz ticks, multiples of 512; the type is the map's */
    {0, 1, 54090240, 8210, 1},
};

#define ROWS(table) (sizeof(table) / sizeof *(table))
#define SET_TABLE(table) t.table = table, t.table##_room = r.table = ROWS(table)

int main(void)
{
    static uint8_t output[1024];
    struct clpi_tables t;
    struct clpi_reading r;
    struct clpi_writing w;
    if (!clpi_version_fits()) {
        fprintf(stderr, "the library's version does not fit clpi.h\n");
        return 3;
    }
    memset(&t, 0, sizeof t);
    memset(&r, 0, sizeof r);
    r.letters = CLPI_LETTERS_HDMV; /* must be set: 0 is refused by 40 */
    r.version = 0x30323030;        /* 0200 */
    r.clip_stream_type = 1;
    r.application_type = 1;
    r.ts_recording_rate = 6000000;
    r.number_of_source_packets = 16384;
    r.format_id = 0x48444D56; /* HDMV */
    SET_TABLE(atcs);
    SET_TABLE(stcs);
    SET_TABLE(programs);
    SET_TABLE(streams);
    SET_TABLE(maps);
    SET_TABLE(entries);
    w = clpi_write_tables(&r, &t, output, sizeof output);
    if (w.refusal) {
        fprintf(stderr, "refused %" PRIu32 ": %s\n", w.refusal, clpi_refusal_words(w.refusal));
        return 1;
    }
    if (fwrite(output, 1, w.bytes_written, stdout) != w.bytes_written || fflush(stdout) != 0) {
        perror("standard output");
        return 3;
    }
    return 0;
}
