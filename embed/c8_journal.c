/* Opens a journal, for c8_open_journal and c8_replay_open. */
#define _XOPEN_SOURCE 700
#include "c8.h"

#include <errno.h>
#include <fcntl.h>
#include <stdlib.h>
#include <string.h>
#include <sys/stat.h>
#include <unistd.h>

/* The descriptor of a regular file; -1 for another one, which is closed. */
static int regular(int opened) {
    struct stat found;
    if (opened < 0) return -1;
    if (fstat(opened, &found) == 0 && S_ISREG(found.st_mode)) return opened;
    close(opened);
    errno = EINVAL;
    return -1;
}

int c8_journal_read(const char *path, int32_t *file) {
    /* a pipe that nobody writes to does not keep it waiting */
    int opened = regular(open(path, O_RDONLY | O_NONBLOCK | O_CLOEXEC));
    if (opened < 0) return -1;
    *file = opened;
    return 0;
}

int c8_journal_open(const char *path, int32_t *file, int32_t *folder) {
    int opened = regular(open(path, O_RDWR | O_CREAT | O_CLOEXEC, 0666));
    if (opened < 0) return -1;
    /* A link is followed first: the name to make durable is that of the file itself. */
    char *real = realpath(path, NULL);
    char *slash = real ? strrchr(real, '/') : NULL;
    int above = -1;
    if (slash) {
        slash[slash == real ? 1 : 0] = 0;
        above = open(real, O_RDONLY | O_DIRECTORY | O_CLOEXEC);
    }
    free(real);
    if (above < 0) {
        int why = errno;
        close(opened);
        errno = why;
        return -1;
    }
    *file = opened;
    *folder = above;
    return 0;
}
