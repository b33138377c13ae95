/* clip: lists a clip file, rewrites one, and tells the minutes remaining in one. The rules of rewriting are in
 * docs/DECISIONS.md; how it is called, and with what it ends, is in words.h.
 *
 * Compiled with LIST_PROGRAM, the path of the listing program, as a string. */
#define _POSIX_C_SOURCE 200809L
#include <errno.h>
#include <inttypes.h>
#include <signal.h>
#include <stdio.h>
#include <stdlib.h>
#include <string.h>

#include "clip_file.h"
#include "clpi.h"
#include "list.h"
#include "minutes.h"
#include "new_file.h"
#include "words.h"

/* Tells whether something has a name, be it a link that leads nowhere. */
static int is_there(const char *path)
{
    struct stat s;
    return lstat(path, &s) == 0;
}

/* Says that NEW is there already. */
static int in_the_way(const char *path)
{
    fprintf(stderr, "clip: %s is there already, and is left as it is\n", path);
    return WRONG_USE;
}

/* The signals that end the program, the draft that they take away then, and whether NEW has its name. */
static const int ends[] = {SIGINT, SIGTERM, SIGHUP, SIGQUIT, SIGALRM, SIGXCPU};
static const struct new_file *volatile unfinished;
static volatile sig_atomic_t finished;
static sigset_t held, callers; /* these signals; and those that the caller holds back */

/* Takes the draft away, and ends as the signal would have; but with 0 once NEW has its name. */
static void interrupted(int number)
{
    if (finished)
        _exit(DONE);
    if (unfinished && unfinished->draft && is_the_file(unfinished, unfinished->draft))
        unlink(unfinished->draft);
    signal(number, SIG_DFL);
    raise(number);
}

/* Lets them do so one at a time, unless the caller ignores them. A limit on a file's size, or nobody to read what is
 * printed, ends nothing: writing then fails. */
static void catch_signals(void)
{
    struct sigaction caught = {0}, before;
    sigprocmask(SIG_BLOCK, NULL, &callers);
    sigemptyset(&held);
    for (size_t i = 0; i < sizeof ends / sizeof *ends; i++)
        sigaddset(&held, ends[i]);
    caught.sa_handler = interrupted;
    caught.sa_mask = held;
    for (size_t i = 0; i < sizeof ends / sizeof *ends; i++)
        if (sigaction(ends[i], NULL, &before) == 0 && before.sa_handler != SIG_IGN)
            sigaction(ends[i], &caught, NULL);
    signal(SIGXFSZ, SIG_IGN);
    signal(SIGPIPE, SIG_IGN);
}

/* Holds them back. */
static void hold_signals(void)
{
    sigprocmask(SIG_BLOCK, &held, NULL);
}

/* Lets those come that the caller lets come. */
static void let_signals(void)
{
    sigprocmask(SIG_SETMASK, &callers, NULL);
}

/* A file in memory: OLD, or what is to be NEW. */
struct image {
    const char *path;
    uint8_t *bytes;
    size_t count;
};

/* Makes the new file's bytes; the caller frees them. */
static int rewritten(const struct image *old, struct image *new)
{
    struct clpi_length length = clpi_rewritten_length(old->bytes, old->count);
    struct clpi_writing w;
    if (length.refusal)
        return refused(old->path, length.refusal);
    if (!(new->bytes = malloc(length.bytes)))
        return failed(old->path);
    w = clpi_rewrite(old->bytes, old->count, new->bytes, length.bytes);
    if (w.refusal)
        return refused(old->path, w.refusal);
    new->count = w.bytes_written;
    return DONE;
}

/* What OLD and its copy read to. */
struct readings {
    struct clpi_reading old, copy;
};

/* Tells whether the copy has the old file's record, and what the two read to; where one is refused, says which. */
static int is_same(const struct image *old, const struct image *copy, struct readings *r)
{
    int same = is_copy(old->bytes, old->count, copy->bytes, copy->count, &r->old, &r->copy);
    if (r->old.refusal)
        refused(old->path, r->old.refusal);
    if (r->copy.refusal)
        refused(copy->path, r->copy.refusal);
    if (!same && !r->old.refusal && !r->copy.refusal)
        fprintf(stderr, "clip: %s: the copy's record is not the old file's\n", copy->path);
    return same;
}

/* Reads the draft back: its bytes must be those written, and its record the old file's. */
static int checked(const char *draft, const struct image *old, const struct image *new, struct readings *r)
{
    struct image copy = {new->path, NULL, 0};
    int status = FAILED;
    if (!(copy.bytes = load(draft, &copy.count)))
        return failed(new->path);
    if (copy.count != new->count || memcmp(copy.bytes, new->bytes, copy.count) != 0)
        fprintf(stderr, "clip: %s: the copy reads back with other bytes than were written\n", new->path);
    else if (is_same(old, &copy, r))
        status = DONE;
    free(copy.bytes);
    return status;
}

/* Gives the draft NEW's name; a signal comes too late for that. */
static int placed(struct new_file *f)
{
    int status;
    hold_signals();
    if (place_file(f))
        return DONE;
    status = errno == EEXIST ? in_the_way(f->path) : failed(f->path);
    if (is_the_file(f, f->path))
        fprintf(stderr, "clip: %s is there all the same: it could not be taken back\n", f->path);
    else if (status == FAILED && is_there(f->path))
        fprintf(stderr, "clip: %s is there, but is not the file that was written\n", f->path);
    return status;
}

/* Writes the new file beside its place, checks it, and gives it its name; hands back what it and OLD read to. */
static int put_new(const struct image *old, const struct image *new, struct readings *r)
{
    struct new_file f;
    int status, started;
    hold_signals();
    started = start_file(&f, new->path);
    unfinished = &f;
    let_signals();
    if (!started || !write_file(&f, new->bytes, new->count))
        status = failed(new->path);
    else if ((status = checked(f.draft, old, new, r)) == DONE)
        status = placed(&f);
    hold_signals();
    unfinished = NULL;
    end_file(&f);
    finished = status == DONE;
    let_signals();
    return status;
}

/* Says what the old file has and its copy has not, which has no marks and no extensions. */
static void say_lost(const struct clpi_reading *old)
{
    int marks = old->marks > 0, extensions = old->extensions > 0;
    fputs(marks || extensions ? "the same but for: " : "the same record", stdout);
    if (marks)
        printf("marks %" PRIu32 "%s", old->marks, extensions ? ", " : "");
    if (extensions)
        printf("extensions %" PRIu32 "%s", old->extensions, old->has_list ? " with the second program list" : "");
    putchar('\n');
}

/* Says what was done, with the numbers by which a file that lost its index shows, and what is lost. NEW is there, so
 * that failing to print it is told but changes no status. */
static void say_done(const struct image *old, const struct image *new, const struct readings *r)
{
    printf("%s: %zu bytes, maps %" PRIu32 ", entries %" PRIu32 ", read back and compared with %s: ",
        new->path, new->count, r->copy.maps, r->copy.entries, old->path);
    say_lost(&r->old);
    printed();
}

/* clip rewrite OLD NEW */
static int rewrite(const char *old_path, const char *new_path)
{
    struct image old = {old_path, NULL, 0}, new = {new_path, NULL, 0};
    struct readings r = {{0}, {0}};
    int status;
    catch_signals();
    if (is_there(new_path))
        return in_the_way(new_path);
    if (!(old.bytes = load(old_path, &old.count)))
        return failed(old_path);
    status = rewritten(&old, &new);
    if (status == DONE)
        status = put_new(&old, &new, &r);
    if (status == DONE)
        say_done(&old, &new, &r);
    free(new.bytes);
    free(old.bytes);
    return status;
}

/* Tells whether a word asks for help. */
static int asks_help(const char *word)
{
    return strcmp(word, "--help") == 0 || strcmp(word, "-h") == 0;
}

/* Prints the version. */
static int version(void)
{
    printf("clip %d.%d.%d\n", CLPI_VERSION_MAJOR, CLPI_VERSION_MINOR, CLPI_VERSION_PATCH);
    return printed();
}

/* Says which word is wrong, where it is one word. */
static int wrong_word(int words, char **argv)
{
    static const char *const commands[] = {"list", "rewrite", "minutes", "help", "--help", "-h", "--version"};
    int known = words == 0;
    for (size_t i = 0; words > 0 && i < sizeof commands / sizeof *commands; i++)
        known |= strcmp(argv[1], commands[i]) == 0;
    if (!known)
        fprintf(stderr, "clip: '%s' is no command\n", argv[1]);
    else if (words == 3 && strcmp(argv[1], "rewrite") == 0)
        fprintf(stderr, "clip: '%s' looks like a switch: for a file of that name, say './%s'\n", argv[3], argv[3]);
    else if (words == 3 && strcmp(argv[1], "minutes") == 0)
        fprintf(stderr, "clip: '%s' alone is no place: say an STC and a time, as in: clip minutes FILE 0 +40:00\n", argv[3]);
    return wrong_use();
}

int main(int argc, char **argv)
{
    const char *command = argc > 1 ? argv[1] : "";
    if ((argc == 2 || argc == 3) && (strcmp(command, "help") == 0 || asks_help(command)))
        return help(argv[2]);
    if (argc == 3 && asks_help(argv[2]))
        return help(command);
    if (argc == 4 && strcmp(command, "minutes") == 0 && asks_help(argv[3]))
        return help(command);
    if (argc == 2 && strcmp(command, "--version") == 0)
        return version();
    if ((argc == 2 || argc == 3) && strcmp(command, "list") == 0)
        return list(argv[2]);
    if (argc == 4 && strcmp(command, "rewrite") == 0 && argv[3][0] != '-')
        return rewrite(argv[2], argv[3]);
    if (argc == 3 && strcmp(command, "minutes") == 0)
        return minutes(argv[2], "0", "0");
    if (argc == 5 && strcmp(command, "minutes") == 0)
        return minutes(argv[2], argv[3], argv[4]);
    return wrong_word(argc - 1, argv);
}
