/* The listing: made by the listing program, which reads standard input and ends with 0 unless a read or a write fails.
 * Here it gets its file, and what it writes is looked at too, so that a status can tell how it went. */
#ifndef LIST_H
#define LIST_H

#include <errno.h>
#include <fcntl.h>
#include <signal.h>
#include <spawn.h>
#include <stdio.h>
#include <stdlib.h>
#include <string.h>
#include <sys/stat.h>
#include <sys/wait.h>
#include <unistd.h>

#include "words.h"

extern char **environ;

/* No listing is longer: what the listing program has room for. */
enum { MOST_LISTING = 262144 };

/* Puts a file on standard input. */
static int open_input(const char *path)
{
    struct stat s;
    if (!freopen(path, "rb", stdin) || fstat(STDIN_FILENO, &s) != 0)
        return 0;
    errno = EISDIR;
    return !S_ISDIR(s.st_mode);
}

/* Starts the listing program; its listing comes out of a descriptor. */
static int start_listing(pid_t *program, int *listing)
{
    static char *const words[] = {"list_clip", NULL};
    posix_spawn_file_actions_t actions;
    int ends[2], why;
    if (pipe(ends) != 0)
        return 0;
    fcntl(ends[0], F_SETFD, FD_CLOEXEC);
    fcntl(ends[1], F_SETFD, FD_CLOEXEC);
    posix_spawn_file_actions_init(&actions);
    why = posix_spawn_file_actions_adddup2(&actions, ends[1], STDOUT_FILENO);
    if (!why)
        why = posix_spawn(program, LIST_PROGRAM, &actions, NULL, words, environ);
    posix_spawn_file_actions_destroy(&actions);
    close(ends[1]);
    if (why)
        close(ends[0]);
    *listing = ends[0];
    errno = why;
    return !why;
}

/* Takes the listing whole, and tells whether there is one and the program has ended by itself. */
static int take_listing(pid_t program, int listing, char *text, size_t room, size_t *bytes)
{
    ssize_t n;
    int end;
    *bytes = 0;
    while ((n = read(listing, text + *bytes, room - *bytes)) > 0)
        *bytes += (size_t)n;
    close(listing);
    return waitpid(program, &end, 0) == program && end == 0 && n == 0 && *bytes > 0 && *bytes < room;
}

/* Why the listing program refuses a file: two of its limits are its own. */
static const char *list_words_for(uint32_t refusal)
{
    if (refusal == CLPI_REFUSED_FILE_TOO_LONG)
        return "the file is longer than the 65536 bytes that can be listed";
    if (refusal == CLPI_REFUSED_TABLE_SHORT)
        return "the file has over 4096 rows of a table, more than can be listed";
    return words_for(refusal);
}

/* clip list [FILE]. No path is standard input. */
static int list(const char *path)
{
    static const char sign[] = "refused ";
    static char text[MOST_LISTING + 2];
    const char *name = path ? path : "standard input";
    size_t bytes;
    pid_t program;
    int listing;
    uint32_t refusal;
    signal(SIGCHLD, SIG_DFL);
    if (path && !open_input(path))
        return failed(path);
    if (!start_listing(&program, &listing))
        return failed(LIST_PROGRAM);
    if (!take_listing(program, listing, text, MOST_LISTING + 1, &bytes)) {
        fprintf(stderr, "clip: %s: no listing was made\n", name);
        return FAILED;
    }
    fwrite(text, 1, bytes, stdout);
    if (printed() != DONE)
        return FAILED;
    if (strncmp(text, sign, strlen(sign)) != 0)
        return DONE;
    refusal = (uint32_t)strtoul(text + strlen(sign), NULL, 10);
    return refused_for(name, refusal, list_words_for(refusal));
}

#endif
