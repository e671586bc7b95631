/* What the library calls of the system for a journal in a file, where that differs from Linux: errors, and on macOS and iOS also syncs.
 * pread, pwrite, lseek, flock and close are the system's own. No header of the system is needed here, so that the toolchain compiles this
 * file for systems whose headers the machine does not have. */
#include "files.h"

int32_t rattle_errno(void);

#ifdef __APPLE__
enum { EWOULDBLOCK_THERE = 35, ENOSPC_THERE = 28, EINTR_THERE = 4, F_FULLFSYNC = 51 };
enum { EIO = 5, EAGAIN = 11, ENOSPC = 28, EINTR = 4 };

int *__error(void);
int fcntl(int file, int what, ...);
int fsync(int file);

/* The library tells apart Linux's numbers. */
int32_t c8os_rattle_errno(void) {
    switch (*__error()) {
    case EWOULDBLOCK_THERE: return EAGAIN;
    case ENOSPC_THERE: return ENOSPC;
    case EINTR_THERE: return EINTR;
    default: return EIO;
    }
}

/* fsync leaves bytes in the cache of the device. F_FULLFSYNC is refused on some disks of a network. */
int32_t c8os_fsync(int32_t file) { return fcntl(file, F_FULLFSYNC) != -1 ? 0 : fsync(file); }
int32_t c8os_fdatasync(int32_t file) { return c8os_fsync(file); }

/* There is no call that drops the copies of a file that are in memory: an opening may read them in place of the disk. */
int32_t c8os_posix_fadvise(int32_t file, int64_t at, int64_t length, int32_t how) {
    (void)file, (void)at, (void)length, (void)how;
    return 0;
}
#elif defined(__ANDROID__)
int *__errno(void);
int32_t rattle_errno(void) { return *__errno(); }
#else
int *__errno_location(void);
int32_t rattle_errno(void) { return *__errno_location(); }
#endif
