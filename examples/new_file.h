/* A new file that takes its place whole or not at all. It is written as a draft, under another name in the same folder,
 * and gets its own name as the last step. What has that name already is never replaced, as a link and not a renaming
 * gives it. A step tells whether it was done, and errno says why not. For POSIX: define _POSIX_C_SOURCE, 200809L or
 * more, before the first #include. */
#ifndef NEW_FILE_H
#define NEW_FILE_H

#include <errno.h>
#include <fcntl.h>
#include <stdint.h>
#include <stdlib.h>
#include <string.h>
#include <sys/stat.h>
#include <sys/types.h>
#include <unistd.h>

struct new_file {
    const char *path; /* the name that it shall have */
    char *folder;
    char *draft; /* its name until then */
    int fd;
    dev_t device; /* with the number, what tells it from any other file that may get one of these names */
    ino_t number;
};

/* Joins a folder's name and the draft's; the X become letters that no other file there has. */
static char *draft_in(const char *folder)
{
    static const char name[] = "/.clip-XXXXXX";
    char *draft = malloc(strlen(folder) + sizeof name);
    if (draft) {
        strcpy(draft, folder);
        strcat(draft, name);
    }
    return draft;
}

/* The name of the folder in which a file stands. */
static char *folder_of(const char *path)
{
    const char *slash = strrchr(path, '/');
    size_t length = !slash || slash == path ? 1 : (size_t)(slash - path);
    char *folder = malloc(length + 1);
    if (folder) {
        memcpy(folder, slash ? path : ".", length);
        folder[length] = 0;
    }
    return folder;
}

/* Makes an empty draft, which may be read by those who may read any new file. */
static int start_file(struct new_file *f, const char *path)
{
    struct stat s;
    mode_t mask = umask(0);
    umask(mask);
    f->path = path;
    f->fd = -1;
    f->device = 0;
    f->number = 0;
    f->draft = NULL;
    f->folder = folder_of(path);
    if (!f->folder || !(f->draft = draft_in(f->folder)))
        return 0;
    f->fd = mkstemp(f->draft);
    if (f->fd < 0) {
        free(f->draft);
        f->draft = NULL;
        return 0;
    }
    if (fstat(f->fd, &s) != 0)
        return 0;
    f->device = s.st_dev;
    f->number = s.st_ino;
    return fchmod(f->fd, 0666 & ~mask) == 0;
}

/* Tells whether a name is that of the file that was started, and of nothing that took its place. */
static int is_the_file(const struct new_file *f, const char *path)
{
    struct stat s;
    return lstat(path, &s) == 0 && s.st_dev == f->device && s.st_ino == f->number;
}

/* Writes the draft and waits until it is on the medium. The system is then asked to forget it, so that reading it back
 * reads the medium where that can be had. */
static int write_file(struct new_file *f, const uint8_t *bytes, size_t count)
{
    int done;
    while (count > 0) {
        ssize_t n = write(f->fd, bytes, count);
        if (n < 0 && errno == EINTR)
            continue;
        if (n <= 0)
            return 0;
        bytes += n;
        count -= (size_t)n;
    }
    if (fsync(f->fd) != 0)
        return 0;
    posix_fadvise(f->fd, 0, 0, POSIX_FADV_DONTNEED);
    done = close(f->fd) == 0;
    f->fd = -1;
    return done;
}

/* Waits until a folder's names are on the medium. */
static int sync_folder(const char *folder)
{
    int done, why, fd = open(folder, O_RDONLY | O_DIRECTORY);
    if (fd < 0)
        return 0;
    done = fsync(fd) == 0;
    why = errno;
    close(fd);
    errno = why;
    return done;
}

/* Gives the draft its own name, and takes the other one away. A link may be made although the answer says that it is
 * there already, as over a network that lost the first answer. Where the name may not be on the medium, it is taken
 * back; where it went to another file, that is left alone. */
static int place_file(struct new_file *f)
{
    int linked = link(f->draft, f->path) == 0, why = linked ? EIO : errno;
    if (is_the_file(f, f->path)) {
        if (unlink(f->draft) == 0 && sync_folder(f->folder)) {
            free(f->draft);
            f->draft = NULL;
            return 1;
        }
        why = errno;
        unlink(f->path);
    }
    errno = why;
    return 0;
}

/* Takes away a draft that was not given its name, and frees the names; errno stays. */
static void end_file(struct new_file *f)
{
    int why = errno;
    if (f->fd >= 0)
        close(f->fd);
    if (f->draft && is_the_file(f, f->draft))
        unlink(f->draft);
    free(f->draft);
    free(f->folder);
    errno = why;
}

#endif
