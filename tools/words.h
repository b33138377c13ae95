/* What the tool says: its exit statuses, the refusals in plain words, and its help. */
#ifndef WORDS_H
#define WORDS_H

#include <errno.h>
#include <inttypes.h>
#include <stdio.h>
#include <string.h>

#include "clpi.h"

enum status { DONE = 0, REFUSED = 1, WRONG_USE = 2, FAILED = 3 };

/* ---- refusals */

/* made by tools/refusals from docs/REFUSALS.md */
/* The words for a refusal: the library's, but where the tool has its own. */
static const char *words_for(uint32_t refusal)
{
    switch (refusal) {
    case CLPI_REFUSED_TABLE_SHORT:
        return "there is no memory for a table as long as the file's rows need";
    case CLPI_REFUSED_ROWS:
        return "the file has no such STC (clip minutes)";
    default:
        return clpi_refusal_words(refusal);
    }
}

/* Every refusal, the lowest number first. */
static const uint32_t refusals[] = {
    CLPI_REFUSED_HEADER_SHORT,
    CLPI_REFUSED_LETTERS,
    CLPI_REFUSED_CLIP_INFO,
    CLPI_REFUSED_SEQUENCES,
    CLPI_REFUSED_PROGRAMS,
    CLPI_REFUSED_CPI,
    CLPI_REFUSED_MAP_ADDRESS,
    CLPI_REFUSED_MARKS,
    CLPI_REFUSED_FILE_TOO_LONG,
    CLPI_REFUSED_TABLE_SHORT,
    CLPI_REFUSED_ROWS,
    CLPI_REFUSED_OUTPUT_SHORT,
    CLPI_REFUSED_CELLS,
    CLPI_REFUSED_RUNS,
    CLPI_REFUSED_RECORD_LETTERS,
    CLPI_REFUSED_FINE_ADDRESS,
    CLPI_REFUSED_MAP_BODY,
};

/* Whose fault they are. */
static const char refusals_told[] =
    "1 to 8, 41 and 42 are faults of the file. 23, 30 and 40 come from the library\n"
    "alone, to programs that call it.\n";
/* end of what tools/refusals makes */

/* Says that a file is refused, and why. */
static int refused_for(const char *path, uint32_t refusal, const char *words)
{
    fprintf(stderr, "clip: %s: refused %" PRIu32 ": %s\n", path, refusal, words);
    return REFUSED;
}

/* The same in the words for the refusal. */
static int refused(const char *path, uint32_t refusal)
{
    return refused_for(path, refusal, words_for(refusal));
}

/* Says what the system could not do. */
static int failed(const char *path)
{
    fprintf(stderr, "clip: %s: %s\n", path, strerror(errno));
    return FAILED;
}

/* Sees to it that what was printed is out. */
static int printed(void)
{
    return fflush(stdout) != 0 || ferror(stdout) ? failed("standard output") : DONE;
}

/* ---- help */

static const char usage[] =
    "usage: clip list [FILE]              print the listing of a clip file, or of standard input\n"
    "       clip rewrite OLD NEW          write the record of OLD as a new file; NEW must not be there yet\n"
    "       clip minutes FILE [STC TIME]  print the minutes remaining at the start, or at a time of an STC\n"
    "       clip help [WHAT]              say more of list, rewrite, minutes or refusals\n"
    "       clip --version                print the version\n";

static const char overview[] =
    "\n"
    "A clip file, such as BDMV/CLIPINF/00001.clpi on a Blu-ray disc, tells a player\n"
    "where in a stream each time is found. No command changes, replaces or removes\n"
    "a file that is there.\n"
    "\n"
    "Exit status:\n"
    "  0  all is done\n"
    "  1  the file is refused, or has no such STC: standard error has the number and\n"
    "     words for it\n"
    "  2  the arguments are wrong, or NEW is there already\n"
    "  3  the system failed (no such file, no space), or the copy is not what it must be\n"
    "\n"
    "Examples:\n"
    "  clip list 00001.clpi\n"
    "  clip rewrite 00001.clpi 00001.new\n"
    "  clip minutes 00001.clpi               at the clip's start\n"
    "  clip minutes 00001.clpi 0 +40:00      40 minutes from the start of STC 0\n"
    "\n"
    "The manual page is clip(1).\n";

static const char help_list[] =
    "usage: clip list [FILE]\n"
    "\n"
    "Prints what FILE, or standard input, holds:\n"
    "  clip  stream type, application type, rate in bytes a second, packets\n"
    "  seq   number of ATC sequences, of STC sequences\n"
    "  prog  number of programs, of streams\n"
    "  map   for each entry map: PID, type, number of entries; its entries follow\n"
    "  ep    time in 90 kHz ticks, packet\n"
    "  mark  number of marks\n"
    "The letters with which FILE begins are not listed: 'head -c 4 FILE' shows them.\n"
    "Of a file that is refused it prints one line, 'refused' and the number. The\n"
    "words for it are on standard error; 'clip help refusals' says more.\n"
    "\n"
    "The listing has limits of its own: a file over 65536 bytes is refused by 20, one\n"
    "with over 4096 rows of a table by 21, followed by the table: 1 ATCs, 2 STCs,\n"
    "3 programs, 4 streams, 5 maps, 6 entries, 7 extensions, 8 and 9 programs and\n"
    "streams of the second list. 'clip rewrite' and 'clip minutes' take such files.\n"
    "\n"
    "FILE is only read.\n"
    "\n"
    "Exit status: 0 the file is listed, 1 it is refused, 2 the arguments are wrong,\n"
    "3 the system failed.\n"
    "\n"
    "Examples:\n"
    "  clip list BDMV/CLIPINF/00001.clpi\n"
    "  clip list <00001.clpi >00001.txt\n";

static const char help_rewrite[] =
    "usage: clip rewrite OLD NEW\n"
    "\n"
    "Reads OLD, writes its record as a new file, reads that file back, and compares\n"
    "the two records. Only then does the new file get the name NEW, and one line says\n"
    "how long it is, how many maps and entries it has, and what of OLD it has not.\n"
    "\n"
    "  OLD is only read: it is never replaced, truncated, renamed or removed.\n"
    "  NEW must not be there yet, be it a file, a folder or a link: nothing is ever\n"
    "  replaced, and there is no switch to do it after all.\n"
    "  NEW is there whole or not at all. But for status 0 there is no NEW, unless\n"
    "  clip says that it could not be taken back, or that another file has the name.\n"
    "\n"
    "The new file has every sequence, program, stream, entry map and entry of OLD, and\n"
    "begins with OLD's letters, HDMV or CLPI. Its marks are empty, and it has no\n"
    "extensions. The line ends with how many of OLD's are lost, as in\n"
    "  the same but for: marks 3, extensions 1 with the second program list\n"
    "and with 'the same record' only where there were none. The second program list is an\n"
    "extension of stereoscopic discs. Faulty extensions, which reading leaves out, are\n"
    "not counted.\n"
    "\n"
    "Rewriting the new file again changes no byte. An OLD whose index, marks or\n"
    "extensions start past its end has none of them, by the format's rules, and is not\n"
    "refused: look at the number of maps before you give up a damaged file.\n"
    "\n"
    "Until it gets its name, the new file is called .clip- and six more letters, in\n"
    "NEW's folder. Where the machine stops or clip is killed, such a file may be\n"
    "left; it may be deleted. NEW's folder must be one in which files can have two\n"
    "names (hard links), which those of FAT can't, and must be readable.\n"
    "\n"
    "Exit status: 0 NEW is there and has OLD's record but for what the line says, 1\n"
    "OLD is refused, 2 NEW is there already, or the arguments are wrong, 3 the system\n"
    "failed, or the copy is not what it must be.\n"
    "\n"
    "Examples:\n"
    "  clip rewrite 00001.clpi 00001.new\n"
    "  mv 00001.new 00001.clpi\n"
    "The second gives up the old file. Look first at the line that the first prints.\n";

static const char help_minutes[] =
    "usage: clip minutes FILE\n"
    "       clip minutes FILE STC TIME\n"
    "\n"
    "Prints the minutes remaining in a clip, at its start or at a place in it. A clip\n"
    "is made of STC sequences, each with a clock of its own; a place is one of them\n"
    "and a time on its clock. What remains there is the end of that STC less the time,\n"
    "plus the durations of all later STCs. The sum is rounded down to whole minutes.\n"
    "\n"
    "STC is a number, counted from 0 in the order of the file. 'clip list' tells how\n"
    "many there are, by the second number of its 'seq' line. A file that has no such\n"
    "STC, or none at all, is refused by 22.\n"
    "\n"
    "TIME is one of these:\n"
    "  16200000  90 kHz ticks, 90000 a second, on the clock of that STC, as the times\n"
    "            of its 'ep' lines are; at most 18446744073709551615\n"
    "  +40:00    minutes and seconds from the start of that STC; the minutes may be\n"
    "            any number, as in +75:30\n"
    "  +1:15:30  hours, minutes and seconds from the start of that STC\n"
    "A clock seldom starts at 0. A time before the start of its STC is taken as the\n"
    "start, so 0 asks there. At the end of an STC, or past it, the later ones remain,\n"
    "as at the start of the next: the figure falls from STC to STC without a jump.\n"
    "\n"
    "FILE is only read.\n"
    "\n"
    "Exit status: 0 the figure is printed, 1 the file is refused or has no such STC,\n"
    "2 the arguments are wrong, 3 the system failed.\n"
    "\n"
    "Examples: at the start of a clip; 40 minutes from the start of its first STC; and\n"
    "where the clock of its second STC shows 16200000 ticks, which are 3 minutes:\n"
    "  clip minutes 00001.clpi\n"
    "  clip minutes 00001.clpi 0 +40:00\n"
    "  clip minutes 00001.clpi 1 16200000\n";

/* Prints the refusals and their words. */
static int help_refusals(void)
{
    printf("A file is refused by one of these numbers, and then nothing is written:\n\n");
    for (size_t i = 0; i < sizeof refusals / sizeof *refusals; i++)
        printf("  %2" PRIu32 "  %s\n", refusals[i], words_for(refusals[i]));
    printf("\n%s\n"
           "In a damaged entry index, 6 says that its length or its number of maps is too\n"
           "great, or that the file is cut short in it; 7, that the address of a map leads\n"
           "to the end of the index or past it; 41, that its fine address leads past that\n"
           "end, or that its address is bad and other bytes of the index are read as the\n"
           "fine address; 42, that the file ends before the first four bytes or the rows of\n"
           "a map do: their number or an address is bad, or rows stand behind the end of the\n"
           "index and the file is cut short there. A number of maps that is too great may\n"
           "show as any of these. Maps are tested in the order of their headers, and the\n"
           "first fault found is told; others may be behind it. Which map has it is not\n"
           "told. The index ends where its length says: one that is too small may show as 7\n"
           "or 41. An index with a length under 4, or of another type than 1, is no fault:\n"
           "the file has no maps.\n"
           "\n"
           "22, from 'clip minutes', says that the file has no STC of that number; the file\n"
           "itself has no fault. An entry index or marks that start at 0, or at or past the\n"
           "file's end, are no fault: the file has none. 'clip list' has lower limits for 20\n"
           "and 21, which 'clip help list' tells. What the system can't do is told in the\n"
           "system's words, without a number.\n",
           refusals_told);
    return printed();
}

/* Says how the tool is called, where the arguments are wrong. */
static int wrong_use(void)
{
    fputs(usage, stderr);
    return WRONG_USE;
}

/* Prints the help on a command, or on all where none is named. */
static int help(const char *topic)
{
    if (!topic || strcmp(topic, "help") == 0)
        printf("%s%s", usage, overview);
    else if (strcmp(topic, "list") == 0)
        fputs(help_list, stdout);
    else if (strcmp(topic, "rewrite") == 0)
        fputs(help_rewrite, stdout);
    else if (strcmp(topic, "minutes") == 0)
        fputs(help_minutes, stdout);
    else if (strcmp(topic, "refusals") == 0)
        return help_refusals();
    else {
        fprintf(stderr, "clip: there is no help on '%s'\n", topic);
        return wrong_use();
    }
    return printed();
}

#endif
