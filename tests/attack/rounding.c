/* The transfer duration in each rounding mode of the machine: always the same bits, and within the scope document's
 * bound, which is tested in whole numbers. */
#include <fenv.h>
#include <string.h>

#include "attack.h"

__extension__ typedef unsigned __int128 uint128;

/* Tells whether 2^53 * |q * rate - bytes| is at most bytes, with q read exactly from its bits: digits / 2^places. */
static int is_near(uint64_t bits, uint32_t rate, uint64_t bytes)
{
    uint64_t leading = (uint64_t)1 << 52, digits = (bits & (leading - 1)) | leading;
    int places = 1075 - (int)(bits >> 52);
    uint128 product = (uint128)digits * rate, wanted;
    if (bytes == 0)
        return bits == 0;
    if (places < 0 || places > 84)
        return 0;
    wanted = (uint128)bytes << places;
    return (product > wanted ? product - wanted : wanted - product) <= wanted >> 53;
}

/* One rate and one packet count in each mode; the machine's division has the bits in the default mode. */
static void in_each_mode(uint32_t rate, uint32_t packets)
{
    static const int modes[] = {FE_TONEAREST, FE_UPWARD, FE_DOWNWARD, FE_TOWARDZERO};
    uint64_t bytes = (uint64_t)packets * 192, bits, wanted;
    double quotient = rate ? (double)bytes / rate : 0;
    memcpy(&wanted, &quotient, sizeof wanted);
    for (int i = 0; i < 4; i++) {
        struct clpi_seconds r;
        attempts++;
        must(fesetround(modes[i]) == 0, "the machine lacks a rounding mode");
        r = clpi_transfer_duration_secs(rate, packets);
        fesetround(FE_TONEAREST);
        memcpy(&bits, &r.seconds, sizeof bits);
        must(r.refusal == 0 && r.found == (rate != 0), "a rate of 0 is taken for another, or refused");
        must(rate == 0 || is_near(bits, rate, bytes), "the seconds miss their bound");
        must(bits == wanted, "the seconds aren't the nearest f64");
    }
}

void attack_rounding(void)
{
    static const uint32_t telling[] = {0, 1, 2, 3, 47, 191, 192, 193, 0xFFFFF, 0x7FFFFFFF, 0x80000000, 0xFFFFFFFE, 0xFFFFFFFF};
    enum { TELLING = sizeof telling / sizeof *telling };
    running = call_named("clpi_transfer_duration_secs");
    in_each_mode(47, 1);
    for (int i = 0; i < TELLING; i++)
        for (int k = 0; k < TELLING; k++)
            in_each_mode(telling[i], telling[k]);
    for (int i = 0; i < (is_short ? 100 : 100000); i++)
        in_each_mode(any() >> any() % 32, any() >> any() % 32);
}
