/* What a program calls of the C part of the toolchain, which has it for x86-64 alone. tools/release --aarch64 links it in. */
#define _GNU_SOURCE
#include <errno.h>
#include <stdbool.h>
#include <stddef.h>
#include <stdint.h>
#include <stdlib.h>
#include <sys/epoll.h>
#include <sys/ioctl.h>
#include <sys/types.h>

/* ---- memory: `p` is never null, also where `ok` is false */

struct tried {
    bool ok;
    void *p;
};

static max_align_t nothing;

static struct tried tried(void *p) { return (struct tried){p != NULL, p ? p : &nothing}; }

struct tried rattle_alloc(size_t size, size_t align) { return tried(malloc(size ? size : align)); }

struct tried rattle_realloc(void *p, size_t kept, size_t size, size_t align) {
    (void)kept;
    return tried(realloc(p, size ? size : align));
}

void rattle_dealloc(void *p) { free(p); }

/* ---- the command line, which the C library gives to constructors */

static size_t count;
static char **words;

__attribute__((constructor)) static void keep(int argc, char **argv) {
    count = argc > 0 ? (size_t)argc : 0;
    words = argv;
}

size_t rattle_arg_count(void) { return count; }

/* The length of the word, which is copied to `out`; -1 if there is none, -2 if it does not fit. */
ssize_t rattle_arg(size_t place, uint8_t *out, size_t room) {
    if (place >= count || !words[place]) return -1;
    const char *word = words[place];
    size_t size = 0;
    for (; word[size]; size++) {
        if (size == room) return -2;
        out[size] = (uint8_t)word[size];
    }
    return (ssize_t)size;
}

/* ---- errors and descriptors */

int rattle_errno(void) { return errno; }

void rattle_set_errno(int error) { errno = error; }

int rattle_set_nonblocking(int descriptor, bool on) {
    int value = on;
    return ioctl(descriptor, FIONBIO, &value);
}

/* ---- epoll: an event has 16 bytes there, as it has here */

int rattle_epoll_ctl(int set, int what, int descriptor, uint32_t events, uint64_t data) {
    struct epoll_event event = {.events = events, .data.u64 = data};
    return epoll_ctl(set, what, descriptor, &event);
}

int rattle_epoll_wait(int set, struct epoll_event *events, size_t room, int milliseconds) {
    _Static_assert(sizeof(struct epoll_event) == 16, "an event has 16 bytes");
    return epoll_wait(set, events, room > 0x1000000 ? 0x1000000 : (int)room, milliseconds);
}
