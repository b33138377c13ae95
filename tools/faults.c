/* Faults for the test of the tool: linked in with --wrap, each stands before a call and fails it if FAULT names it. */
#define _POSIX_C_SOURCE 200809L
#include <errno.h>
#include <signal.h>
#include <stdio.h>
#include <stdlib.h>
#include <string.h>
#include <sys/stat.h>
#include <unistd.h>

#include "clpi.h"

struct clpi_writing __real_clpi_rewrite(const uint8_t *file, size_t file_bytes, uint8_t *output, size_t output_bytes);
struct clpi_writing __wrap_clpi_rewrite(const uint8_t *file, size_t file_bytes, uint8_t *output, size_t output_bytes);
ssize_t __real_write(int fd, const void *bytes, size_t count);
ssize_t __wrap_write(int fd, const void *bytes, size_t count);
int __real_fsync(int fd);
int __wrap_fsync(int fd);
int __real_link(const char *from, const char *to);
int __wrap_link(const char *from, const char *to);
int __real_unlink(const char *path);
int __wrap_unlink(const char *path);
void *__real_malloc(size_t bytes);
void *__wrap_malloc(size_t bytes);
void *__real_realloc(void *old, size_t bytes);
void *__wrap_realloc(void *old, size_t bytes);

/* Tells whether a fault is the one asked for. */
static int is(const char *fault)
{
    const char *asked = getenv("FAULT");
    return asked && strcmp(asked, fault) == 0;
}

/* One extension without data, in spare bytes of the ClipInfo. */
static void add_extension(uint8_t *file)
{
    static const uint8_t block[24] = {0, 0, 0, 20, 0, 0, 0, 0, 0, 0, 0, 1, 0, 1, 0, 1, 0, 0, 0, 24, 0, 0, 0, 0};
    memcpy(file + 64, block, sizeof block);
    file[27] = 64;
}

/* A new file with another byte, at AT; with the other letters; with a mark, or an extension, of its own. */
static void change_file(uint8_t *file, size_t bytes)
{
    if (is("another record"))
        file[atoi(getenv("AT"))] ^= 1;
    if (is("other letters"))
        memcpy(file, file[0] == 'H' ? "CLPI" : "HDMV", 4);
    if (is("a mark"))
        file[bytes - 1] = 1;
    if (is("an extension"))
        add_extension(file);
}

/* Changes what was written. */
struct clpi_writing __wrap_clpi_rewrite(const uint8_t *file, size_t file_bytes, uint8_t *output, size_t output_bytes)
{
    struct clpi_writing w = __real_clpi_rewrite(file, file_bytes, output, output_bytes);
    if (w.refusal == CLPI_OK)
        change_file(output, w.bytes_written);
    return w;
}

/* A byte that reaches the medium changed; a medium that takes seven bytes at a time and is interrupted in between. */
ssize_t __wrap_write(int fd, const void *bytes, size_t count)
{
    static int calls;
    if (is("another byte")) {
        unsigned char first = *(const unsigned char *)bytes ^ 1;
        return __real_write(fd, &first, 1);
    }
    if (!is("small writes"))
        return __real_write(fd, bytes, count);
    if (calls++ % 2) {
        errno = EINTR;
        return -1;
    }
    return __real_write(fd, bytes, count < 7 ? count : 7);
}

/* Another file in the place of the one that is open. */
static void take_name(int fd)
{
    char open_file[32], name[4096];
    ssize_t n;
    snprintf(open_file, sizeof open_file, "/proc/self/fd/%d", fd);
    if ((n = readlink(open_file, name, sizeof name - 1)) > 0) {
        name[n] = 0;
        __real_unlink(name);
        __real_link("old", name);
    }
}

/* A file or a folder that doesn't reach the medium; a program that is ended while it waits, also where another file has
 * got the draft's name. */
int __wrap_fsync(int fd)
{
    struct stat s;
    int folder = fstat(fd, &s) == 0 && S_ISDIR(s.st_mode);
    if (is("ended beside another draft")) {
        take_name(fd);
        raise(SIGTERM);
    }
    if (is("ended while waiting"))
        raise(SIGTERM);
    if (is("alarm while waiting"))
        raise(SIGALRM);
    if (is(folder ? "folder not kept" : "file not kept")) {
        errno = EIO;
        return -1;
    }
    return __real_fsync(fd);
}

/* A folder without links; a program that is ended in the last moment; a file that gets NEW's name then; one that gets
 * the draft's; an answer that comes from a second try of a link that was made. */
int __wrap_link(const char *from, const char *to)
{
    if (is("no links")) {
        errno = EPERM;
        return -1;
    }
    if (is("ended too late"))
        raise(SIGTERM);
    if (is("another was faster"))
        __real_link("another", to);
    if (is("another draft")) {
        __real_unlink(from);
        __real_link("old", from);
    }
    if (is("made before")) {
        __real_link(from, to);
        errno = EEXIST;
        return -1;
    }
    return __real_link(from, to);
}

/* A folder from which nothing can be taken. */
int __wrap_unlink(const char *path)
{
    if (is("nothing taken")) {
        errno = EIO;
        return -1;
    }
    return __real_unlink(path);
}

/* No memory for the new file's bytes. */
void *__wrap_malloc(size_t bytes)
{
    if (is("no memory")) {
        errno = ENOMEM;
        return NULL;
    }
    return __real_malloc(bytes);
}

/* No memory for the first table that is needed, which is one of OLD's; a file's own bytes are given more than that. */
void *__wrap_realloc(void *old, size_t bytes)
{
    static int calls;
    if (bytes < 65536 && is("no table") && calls++ == 0) {
        errno = ENOMEM;
        return NULL;
    }
    return __real_realloc(old, bytes);
}
