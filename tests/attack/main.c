/* Attacks every exported call of the library, as hostile files and callers would.
 *
 *     attack          all of it
 *     attack short    some of it, for valgrind
 *     attack names    the calls that are attacked, one a line
 *
 * It ends with 0 where every call did what include/clpi.h says, and with 1 where one did not. */
#include <stdio.h>
#include <string.h>

#include "attack.h"

int main(int argc, char **argv)
{
    if (argc > 1 && strcmp(argv[1], "names") == 0) {
        for (int i = 0; i < call_count; i++)
            puts(calls[i].name);
        return 0;
    }
    is_short = argc > 1 && strcmp(argv[1], "short") == 0;
    prepare();
    attack_sizes();
    attack_records();
    attack_files();
    attack_questions();
    attack_rounding();
    printf("%d calls attacked%s, %lu attempts, %lu files of which %lu accepted and %lu rewritten: nothing found\n", call_count,
           is_short ? " in short" : "", attempts, files, accepted, rewritings);
    return 0;
}
